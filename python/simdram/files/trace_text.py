"""Prints a trace file as text, one line for each event, such as `bank 0 AAP D8 B8`."""

from ..launcher.tool_parser import Asked, tool
from .store import load
from .trace import Trace


@tool("TRACE")
def main(asked: Asked) -> None:
    for event in Trace.opened(load(asked.trace, "trace"), asked.trace)[1]:
        print(event)
