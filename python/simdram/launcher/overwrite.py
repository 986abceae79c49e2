"""The one rule for files that stand where a command or a tool writes, so that nothing is lost.

1. A file that holds what is written there, byte for byte, stays as it is.
2. A file of another kind than the one that is written, and a text that someone typed, is refused, and nothing is done.
3. Any other file is kept first, as NAME~, or NAME~2 and on: the first name that is free.

With --force it is overwritten. A link's file is replaced, and not the link; a device or a pipe is written in place. `write` does
it for the tools. A command of the program is run between `Written(..)` and `settle`, since what it writes is known afterwards:
each copy is made before, and removed where the command left the file as it was.
"""

import contextlib
import errno
import filecmp
import os
import re
import tempfile
import typing

from ..files.store import LARGEST, LIMITS, keep, left_beside, load, new_file, place_of, start_of, store
from .commands import ALL, KINDS, MAGIC, Command, kind_of
from .faults import Fault, NotWritten
from .say import say
from .settings import Settings
from .words import PLACES

PROBE = 512
# a folder of this name keeps a copy that can't stand beside its file
FOLDER = "simdram_kept_"
# of each kind that is written: what it is called, and how its files begin; no text of operations may be replaced
WRITTEN = {
    **{kind: (KINDS[kind], re.escape(magic)) for kind, magic in MAGIC.items()},
    "ops": ("an operation text", rb"(?!)"),
    "numbers": ("a text of numbers", rb"\x93NUMPY|(?:element,\w+\s)?[\d,\s-]*\Z"),
    "page": ("a page", rb"<!DOCTYPE html>"),
    "svg": ("a picture", rb"<svg|<\?xml"),
    "png": ("a picture", rb"\x89PNG"),
    "dot": ("a graph", rb"digraph "),
    "blif": ("a graph", rb"\.model "),
    "aiger": ("a graph", rb"a[ia]g "),
    "bytes": ("a file of bytes", rb"(?!SDM[IPT])[\s\S]*?[\0-\x08\x0b\x0e-\x1f]"),
}
# a text of numbers that is named so was typed
TYPED = (".ops", ".bbop", ".query", ".flips", ".micro")


def content(start: bytes) -> str:
    """What a file that begins so holds."""
    if kind := kind_of(start):
        return KINDS[kind]
    is_text = b"\0" not in start and all(byte >= 32 or byte in b"\t\r\n\f" for byte in start)
    return "text" if is_text else "other bytes"


def is_full(path: str) -> bool:
    return os.path.isfile(path) and os.path.getsize(path) > 0


def may_stand(path: str, kind: str) -> bool:
    """Whether what stands there is of this kind and no text that someone typed; or nothing stands there."""
    if not is_full(path):
        return True
    is_typed = kind == "numbers" and place_of(path).endswith(TYPED)
    is_kind = re.match(WRITTEN[kind][1], start_of(path, PROBE)) and os.path.getsize(path) <= LIMITS.get(kind, LARGEST)
    return bool(is_kind) and not is_typed


def check(path: str, kind: str, settings: Settings) -> None:
    """Refuses to write over a file of another kind; what stands where an operation text is written is compared later."""
    if settings.force or may_stand(path, kind):
        return
    found = content(start_of(path, PROBE))
    if kind != "ops" or found != "text":
        raise Fault(f"{path}: {WRITTEN[kind][0]} is written there, but it holds {found}; nothing was done, and --force overwrites it")


def told_of(place: str, settings: Settings) -> None:
    """Tells of files that a call left that was stopped while it stored this one."""
    if not settings.quiet:
        for name in left_beside(place):
            say(f"{name} is left of a call that was stopped while it wrote {place}; it can be removed")


def kept(path: str) -> str:
    """Keeps a copy beside a file, or in the system's folder for temporary files, and returns its name."""
    with contextlib.suppress(OSError):
        return keep(path)
    folder = tempfile.mkdtemp(prefix=FOLDER)
    try:
        return keep(path, os.path.join(folder, os.path.basename(path)[:200]))
    except OSError as fault:
        os.rmdir(folder)
        raise NotWritten(path, "", "cannot write", f"what it holds cannot be kept: {fault.strerror}; nothing was done") from None


def drop(copy: str) -> None:
    """Removes a copy that was not needed, and the folder that was made for it."""
    os.remove(copy)
    folder = os.path.dirname(copy)
    if os.path.basename(folder).startswith(FOLDER):
        os.rmdir(folder)


class Kept(typing.NamedTuple):
    """A file that may be written, its kind, and the copy of what it held before."""

    path: str
    kind: str
    copy: str

    def settle(self, settings: Settings) -> None:
        """Removes the copy where the file was left as it was, and else tells of it."""
        try:
            is_same = os.path.isfile(self.path) and filecmp.cmp(self.path, self.copy, shallow=False)
            if is_same:
                drop(self.copy)
        except (OSError, MemoryError):
            is_same = False
        if not is_same and not settings.quiet:
            say(f"{self.path} held another {WRITTEN[self.kind][0].partition(' ')[2]}, which is kept as {self.copy}")


def write(path: str, data: bytes, kind: str, settings: Settings) -> None:
    """Writes a tool's file by the rule above."""
    place = place_of(path)
    told_of(place, settings)
    with contextlib.ExitStack() as after:
        if is_full(place) and not settings.force:
            if os.path.getsize(place) == len(data) and load(place) == data:
                return
            check(path, kind, settings)
            if kind == "ops":
                raise Fault(f"{path} holds a text, which may have been typed; nothing was written, and --force overwrites it")
            after.callback(Kept(place, kind, kept(place)).settle, settings)
        store(path, data, True)


class Written:
    """A command's words with the links of what it writes resolved, and the copies of what stands there."""

    def __init__(self, words: list[str], settings: Settings) -> None:
        self.words, self.settings, self.copies = list(words), settings, []
        for k, word in enumerate(ALL[words[0]].words[:len(words) - 1], 1):
            if word.is_written:
                self.words[k] = place = place_of(words[k])
                told_of(place, settings)
                if is_full(place) and not settings.force and may_stand(place, word.kind):
                    self.copies.append(Kept(place, word.kind, kept(place)))

    def settle(self) -> None:
        for one in self.copies:
            one.settle(self.settings)


def why_not_written(path: str, size: int) -> str:
    """Why so many bytes cannot be written there, found by trying beside it; nothing where they can."""
    try:
        place = place_of(path)
        if os.path.isdir(place):
            return os.strerror(errno.EISDIR)
        if os.path.exists(place) and not os.access(place, os.W_OK):
            return os.strerror(errno.EACCES)
        if os.path.isfile(place) or not os.path.exists(place):
            with new_file(place) as (file, name):
                if hasattr(os, "posix_fallocate"):
                    os.posix_fallocate(file.fileno(), 0, max(size, 1))
                os.remove(name)
    except OSError as fault:
        return fault.strerror or str(fault)
    return ""


def refusal(command: Command, words: list[str]) -> str | None:
    """Which argument of a command names a file that it must not overwrite, as one line."""
    pairs = list(zip(command.words, words))
    images = [os.path.realpath(text) for word, text in pairs if word.name == "IMAGE"]
    for k, (word, text) in enumerate(pairs):
        if not word.is_written or (word.name == "OUT" and os.path.realpath(text) in images):
            continue
        if not may_stand(text, word.kind):
            order = " ".join(one.name for one in command.words)
            return (f"{text} is the {PLACES[k]} argument of {command.name}, where {KINDS[word.kind]} is written, but it holds "
                    f"{content(start_of(text, PROBE))}; the order is {order}. Nothing was done; --force overwrites it")
        same = [other.name for other, name in pairs if other.is_file and other != word and is_one(name, text)]
        if same:
            return f"{word.name} and {same[0]} are the same file, {text}; nothing was done"
    return None


def is_one(first: str, second: str) -> bool:
    """Whether two names are of one regular file, or of one that does not stand yet."""
    places = [os.path.realpath(name) for name in (first, second)]
    return places[0] == places[1] and (os.path.isfile(places[0]) or not os.path.exists(places[0]))
