"""Builds the program without proofs if none is built, and prints the path of the program that runs."""

from . import run_program
from .tool_parser import Asked, tool


@tool()
def main(asked: Asked) -> None:
    print(run_program.program(asked.settings))
