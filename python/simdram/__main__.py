"""The command `simdram`: help, the tools, and the program's commands."""

import errno
import importlib
import signal
import sys

from .launcher import streams
from .launcher.commands import ALL, Command
from .launcher.faults import WRONG, Fault, NotWritten
from .launcher.help_text import all_commands, version
from .launcher.say import say
from .launcher.settings import Settings, taken
from .launcher.words import parser_of

HELP = ("help", "--help", "-h")
NO_MEMORY, INTERRUPTED = 10, 130
# what the system says of an output that takes no more
UNPRINTED = (errno.ENOSPC, errno.EDQUOT, errno.EFBIG, errno.EIO, errno.EBADF, errno.EPIPE)


def end_with_reader() -> None:
    """Lets a closed pipe end this program, as under `head`."""
    if hasattr(signal, "SIGPIPE"):
        signal.signal(signal.SIGPIPE, signal.SIG_DFL)


def tool(command: Command, words: list[str], settings: Settings) -> int:
    end_with_reader()
    return importlib.import_module(f".{command.module}", __package__).main(words, settings)


def help_on(words: list[str], settings: Settings) -> int:
    """Help on all commands, or on one."""
    end_with_reader()
    words = [word for word in words if word not in HELP]
    command = ALL.get(words[0]) if words else None
    if words and command is None:
        raise Fault(f"there is no command {words[0]}; simdram help lists them")
    if command is None:
        print(all_commands(), end="")
    elif command.is_program:
        print(parser_of(command).format_help(), end="")
    else:
        return tool(command, ["--help"], settings)
    return 0


def start(words: list[str]) -> int:
    """Runs a command line and returns its status."""
    settings, words = taken(words)
    name, others = (words[0], words[1:]) if words else ("help", [])
    if name in HELP:
        return help_on(others, settings)
    if name == "--version":
        print(version())
        return 0
    if name in ALL and not ALL[name].is_program:
        return tool(ALL[name], others, settings)
    if name in ALL and any(word in HELP[1:] for word in others):
        return help_on([name], settings)
    from .launcher.launch import launch
    return launch(words, settings)


def status_of(words: list[str]) -> int:
    """Runs a command line; a fault is one line on standard error."""
    try:
        try:
            status = start(words)
        except SystemExit as ended:  # a tool printed its help, or what is wrong with its words
            status = ended.code if isinstance(ended.code, int) else WRONG
        sys.stdout.flush()
        return status
    except Fault as fault:
        say(str(fault))
        return fault.status
    except (MemoryError, OSError) as fault:
        return status_after(fault)
    except KeyboardInterrupt:
        return INTERRUPTED


def status_after(fault: MemoryError | OSError) -> int:
    """Tells a fault of the system, and returns the status: that of the program for memory, and for what cannot be printed."""
    if isinstance(fault, MemoryError) or fault.errno == errno.ENOMEM:
        say("out of memory")
        return NO_MEMORY
    if fault.filename is None and fault.errno in UNPRINTED:
        streams.drop_output()
        say(f"cannot print: {fault.strerror}")
        return NotWritten.status
    say(f"{fault.filename}: {fault.strerror}" if fault.filename else str(fault))
    return WRONG


def main() -> int:
    """Runs our command line."""
    streams.open_closed()
    return status_of(sys.argv[1:])


if __name__ == "__main__":
    sys.exit(main())
