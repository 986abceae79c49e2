"""A command of the program: from the command line to the exit status."""

import contextlib
import errno
import importlib
import os
import stat

from ..rules.aftermath import Aftermath
from . import overwrite, run_program
from .commands import ALL, Command
from .faults import WRONG
from .say import say
from .settings import Settings
from .words import wrong_words

USAGE_STATUS = 1


def form(words: list[str]) -> str:
    """The arguments of the command that was meant, or where all commands are listed."""
    command = ALL.get(words[0]) if words else None
    return f"usage: simdram {command.usage()}" if command else "simdram help lists the commands"


def refused_words(wrong: str, words: list[str], settings: Settings) -> int:
    """A command line that is not a command: the program says so if it is built, and nothing is built for it."""
    if program := run_program.standing(settings):
        status = run_program.follow(program, words)
    else:
        print("usage", flush=True)
        status = USAGE_STATUS
    if status == USAGE_STATUS:
        say(wrong)
        say(form(words))
    return status


def why_not_read(path: str) -> str:
    """Why a file that is named cannot be read, or nothing where it seems that it can."""
    try:
        mode = os.stat(path).st_mode
    except (OSError, ValueError) as fault:
        return getattr(fault, "strerror", None) or str(fault)
    if stat.S_ISDIR(mode):
        return os.strerror(errno.EISDIR)
    return "" if os.access(path, os.R_OK) else os.strerror(errno.EACCES)


def tell_unread(command: Command, words: list[str]) -> None:
    """Says which files cannot be read, and why, before anything is done."""
    read = [text for word, text in zip(command.words, words) if word.is_file and not word.is_written]
    for text in dict.fromkeys(read):
        if reason := why_not_read(text):
            say(f"cannot read {text}: {reason}")


def done(command: Command, program: str, words: list[str], flags: list[str], settings: Settings) -> int:
    """Has the program do a command, and returns its status."""
    if command.runner:
        return importlib.import_module(f"..{command.runner}", __package__).run(program, words[1:], flags, settings)
    written = overwrite.Written(words, settings)
    return run_program.follow(program, written.words, written.settle)


def launch(words: list[str], settings: Settings) -> int:
    if wrong := wrong_words(words):
        return refused_words(wrong, words, settings)
    command = ALL[words[0]]
    flags = [word for word in words[1:] if word in dict(command.flags)]
    words = [word for word in words if word not in flags]
    if not settings.force and (refusal := overwrite.refusal(command, words[1:])):
        say(refusal)
        return WRONG
    tell_unread(command, words[1:])
    program = run_program.program(settings)
    after = Aftermath(command, words[1:], settings)
    status = done(command, program, words, flags, settings)
    if status == USAGE_STATUS:
        say(form(words))
    elif status:
        with contextlib.suppress(MemoryError):
            after.tell(status)
    return status
