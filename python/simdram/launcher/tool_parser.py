"""The parser of a tool's words: its help is the tool's docstring."""

import argparse
import ast
import pathlib
import sys
import typing

from .commands import TOOLS
from .settings import Settings


class Asked(argparse.Namespace):
    """A tool's words as they were parsed, each by its name, and the launcher's settings."""

    settings: Settings


Main = typing.Callable[[Asked], int | None]


def about(module: str) -> str:
    """The docstring of a tool's module, from its source, since it may have been dropped and the module not been imported."""
    path = pathlib.Path(__file__).parents[1] / f"{module.replace('.', '/')}.py"
    return ast.get_docstring(ast.parse(path.read_text(encoding="utf-8"))) or ""


class Parser(argparse.ArgumentParser):
    """A parser that does not pass over what cannot be printed."""

    def _print_message(self, message: str, file: typing.TextIO | None = None) -> None:
        (file or sys.stderr).write(message)


# a word of a tool, or an option where it begins with `-`, and what argparse takes for it
Option = tuple[str, dict[str, typing.Any]]


def option(name: str, metavar: str | None = None, help: str | None = None, **more: typing.Any) -> Option:
    return name, {"metavar": metavar, "help": help, **more}


def flag(name: str, help: str) -> Option:
    """An option that takes no word."""
    return name, {"help": help, "action": "store_true"}


def parser_of(module: str, options: typing.Iterable[Option]) -> Parser:
    command = next(command for command in TOOLS if module.endswith(f".{command.module}"))
    made = Parser(prog=f"simdram {command.name}", description=about(command.module), formatter_class=argparse.RawDescriptionHelpFormatter)
    for name, more in options:
        made.add_argument(name, **more)
    return made


def tool(*words: str | Option) -> typing.Callable[[Main], typing.Callable[[list[str], Settings], int]]:
    """Makes a tool's `main` from what is done with its parsed words, which may give a status. Words without options are names,
    of which `[WORD]` may be left out."""
    options = [option(one.strip("[]").lower(), one.strip("[]"), nargs="?" if one.startswith("[") else None)
               if isinstance(one, str) else one for one in words]

    def of(main: Main) -> typing.Callable[[list[str], Settings], int]:
        def called(given: list[str], settings: Settings) -> int:
            parser = parser_of(main.__module__, options)
            # options may stand among several words of one name
            has_several = any(more.get("nargs") in ("*", "+") for _, more in options)
            parse = parser.parse_intermixed_args if has_several else parser.parse_args
            return main(parse(given, Asked(settings=settings))) or 0
        return called
    return of
