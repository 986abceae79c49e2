"""What the command says of itself: the help on all commands, and its version."""

import contextlib
import pathlib
import string
import subprocess

from .commands import PROGRAM, TOOLS
from .places import TOP
from .tool_parser import about

VERSION = "0.1.0"


def summary(module: str) -> str:
    """What a tool does, as the first paragraph of its docstring says it."""
    first = " ".join(about(module).partition("\n\n")[0].split()).rstrip(".")
    return first[0].lower() + first[1:]


def columns(commands) -> str:
    """Each command's arguments, what it does, and an example."""
    return "".join(f"  {command.usage()}\n      {command.says or summary(command.module)}\n      simdram {command.example}\n"
                   for command in commands)


def all_commands() -> str:
    template = string.Template(pathlib.Path(__file__).with_name("help.txt").read_text(encoding="utf-8"))
    return template.substitute(program=columns(PROGRAM), tools=columns(TOOLS))


def version() -> str:
    """The version, and the commit where git tells it."""
    said = f"simdram {VERSION}"
    if TOP is not None and (pathlib.Path(TOP) / ".git").exists():
        with contextlib.suppress(OSError, subprocess.CalledProcessError):
            commit = subprocess.run(["git", "-C", str(TOP), "rev-parse", "--short", "HEAD"], capture_output=True, text=True, check=True)
            said += f" ({commit.stdout.strip()})"
    return said
