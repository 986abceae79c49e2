"""The words of a command of the program: its parser, and what is wrong with a command line that it refuses."""

import argparse
import difflib
import itertools
import math
import re
import typing

from .commands import ALL, HOLDS, Command, Word
from .tool_parser import Parser
from .widths import is_rising


class Number(typing.NamedTuple):
    """A numeric argument: its least and its greatest value, what it is called, and what help says besides."""

    least: int
    greatest: int
    says: str
    more: str


NUMBERS = {
    "width": Number(1, 128, "the width", "of the operands in bits, 1 to 128, or several, as 1-128 and 4,8,16-32"),
    "one width": Number(1, 128, "the width", "of the operands in bits, 1 to 128"),
    "banks": Number(1, 16, "the number of banks", "of the chip, 1 to 16"),
    "rows": Number(64, 1006, "the number of rows", "in a bank, 64 to 1006; the last 32 are reserved for spilled values"),
    "words": Number(1, 1024, "the number of words in a row", "of 64 bits, 1 to 1024: a row has a column for each of their bits"),
    "seed": Number(0, 2**64 - 1, "the seed", "of the random numbers, 0 to 2^64 - 1"),
    "walk": Number(0, 2**64 - 1, "the seed", "of the search, 0 to 2^64 - 1; 1 if it is left out"),
    "work": Number(0, 2**64 - 1, "the number of changes", "that the search tries for each command, 0 to 2^64 - 1; 50000 if it is left out"),
}
WORDS_MAX = 2**23
PLACES = ("first", "second", "third", "fourth", "fifth", "sixth")


def nearest(word: str, known) -> list[str]:
    """The known words that are most similar to this one."""
    def likeness(name: str) -> float:
        return difflib.SequenceMatcher(None, word, name).ratio()

    close = [name for name in dict.fromkeys(known) if likeness(name) >= 0.6 or (len(word) > 1 and name.startswith(word))]
    return sorted(close, key=lambda name: (not name.startswith(word), -likeness(name)))[:3]


def wrong_number(kind: str, text: str) -> str | None:
    """What is wrong with an argument that has to be a number."""
    least, greatest, says, _ = NUMBERS[kind]
    if kind == "width" and not text.isdigit() and is_rising(text):
        return None
    if not (text.isascii() and text.isdigit()):
        return f"{says}, in decimal digits; it cannot be {text!r}"
    return None if least <= int(text) <= greatest else f"{says}, {least} to {greatest}; it cannot be {text}"


def help_on(word: Word) -> str:
    """What an argument is; of a file, what it holds and which page has its form."""
    if word.kind in NUMBERS:
        return f"{NUMBERS[word.kind].says} {NUMBERS[word.kind].more}"
    called, holds = HOLDS[word.kind]
    return f"{called.partition(' ')[2]}{', written' if word.is_written else ''}: {holds}"


def parser_of(command: Command) -> Parser:
    """The parser that has the help on a command."""
    made = Parser(prog=f"simdram {command.name}", description=command.says, add_help=False, formatter_class=argparse.RawTextHelpFormatter,
                  epilog=f"  simdram {command.example}\n\ndocs/FORMATS.md, How a command ends, has its statuses.")
    for word in command.words:
        made.add_argument(word.name, help=help_on(word), nargs="?" if word.is_optional else None)
    for flag, says in command.flags:
        made.add_argument(flag, action="store_true", help=says)
    return made


def wrong_alone(command: Command, given: list[str]) -> str | None:
    """What is wrong with one of a command's arguments, or with how many there are."""
    for word, text in zip(command.words, given):
        if word.kind in NUMBERS and (wrong := wrong_number(word.kind, text)):
            return f"argument {word.name}: {wrong}"
    if missing := [word.name for word in command.words[len(given):] if not word.is_optional]:
        return f"the following arguments are required: {', '.join(missing)}"
    spare = given[len(command.words):]
    return f"{spare[0]} is one argument too many" if spare else None


def wrong_together(command: Command, given: list[str]) -> str | None:
    """What is wrong with arguments of which each by itself is right."""
    if command.name == "init" and math.prod(map(int, given[:3])) > WORDS_MAX:
        return f"{given[0]} banks of {given[1]} rows of {given[2]} words are more than the {WORDS_MAX} words that a chip may have"
    # of files only IMAGE and OUT may be the same
    files = [(word, text) for word, text in zip(command.words, given) if word.is_file]
    return next((f"{word.name} and {other.name} are the same file, {text}" for (word, text), (other, same) in itertools.combinations(files, 2)
                 if text == same and (word.name, other.name) != ("IMAGE", "OUT")), None)


def wrong_words(words: list[str]) -> str | None:
    """What is wrong with a command line, as one line, or nothing if it is a command of the program."""
    if not words:
        return "there is no command"
    if (strange := next(filter(re.compile("[\ud800-\udfff]").search, words), None)) is not None:
        return f"{strange!r} is not UTF-8"
    command = ALL.get(words[0])
    if command is None or not command.is_program:
        near = nearest(words[0], [*ALL, "help"])
        return f"there is no command {words[0] or repr('')}" + (f"; did you mean {' or '.join(near)}?" if near else "")
    given = [word for word in words[1:] if word not in dict(command.flags)]
    return wrong_alone(command, given) or wrong_together(command, given)
