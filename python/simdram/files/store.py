"""Whole files in and out, with one error for a file that cannot be read or written.

A file is stored as a whole: into a new file beside it, NAME.new0 or the next free number up to 15, which then takes its name,
as the program does it. So a kill or a full disk leaves the old file or the new one.
"""

import contextlib
import errno
import itertools
import os
import shutil
import stat
import tempfile
import typing

from ..launcher.faults import FileFault, NotWritten, TooLong

# the most bytes of a file of each kind, as the program has them; of others, such as numbers and netlists, the last
LIMITS = {"ops": 65_536, "query": 65_536, "flips": 1_048_576, "script": 16_777_216, "image": 67_115_022, "trace": 67_115_026,
          "program": 4_194_304, "micro": 4_194_304}
LARGEST = 134_217_728
# how many names beside a file are tried
NAMES = 16
NAME_BYTES = 255
BLOCK = 1 << 20


def load(path: str, kind: str = "") -> bytes:
    """The bytes of a file; no more are read than one of its kind may have, and one."""
    limit = LIMITS.get(kind, LARGEST)
    try:
        with open(path, "rb") as file:
            data = file.read(limit + 1)
    except OSError as fault:
        raise FileFault(path, "", "cannot read", fault.strerror or str(fault)) from None
    if len(data) > limit:
        raise TooLong(path, "", "too long", f"it has more than {limit:,} bytes")
    return data


def start_of(path: str, size: int) -> bytes:
    """The first bytes of a regular file; none of any other."""
    if not os.path.isfile(path):
        return b""
    with open(path, "rb") as file:
        return file.read(size)


def place_of(path: str) -> str:
    """Where a file stands or will stand: of a link the link's file, unless that is a device, a pipe or has no name."""
    if not os.path.islink(path):
        return path
    place = os.path.realpath(path)
    try:
        found = os.stat(path)
    except FileNotFoundError:
        return place
    is_named = stat.S_ISREG(found.st_mode) and os.path.exists(place) and os.path.samestat(found, os.stat(place))
    return place if is_named else path


def beside(path: str, number: int) -> str:
    """A name beside a file: NAME.new0, or .simdram.new0 where that is too long."""
    folder, name = os.path.split(path)
    ending = f".new{number}"
    return os.path.join(folder, (name if len(os.fsencode(name)) + len(ending) <= NAME_BYTES else ".simdram") + ending)


def left_beside(path: str) -> list[str]:
    """The new files of calls that were stopped while they stored this file or kept a copy of it."""
    return [name for name in (beside(path, number) for number in range(NAMES)) if os.path.lexists(name)]


@contextlib.contextmanager
def new_file(path: str) -> typing.Iterator[tuple[typing.BinaryIO, str]]:
    """A new file beside this one, and its name; it is removed where what is done with it fails."""
    for number in range(NAMES):
        name = beside(path, number)
        with contextlib.suppress(FileExistsError):
            file = open(name, "xb")
            break
    else:
        raise OSError(errno.EEXIST, f"{beside(path, 0)} to {os.path.basename(name)} exist")
    try:
        with file:
            yield file, name
    except BaseException:
        with contextlib.suppress(OSError):
            os.remove(name)
        raise


def synced(file: typing.BinaryIO) -> None:
    """Waits until the disk has what was written."""
    file.flush()
    try:
        os.fsync(file.fileno())
    except OSError as fault:
        if fault.errno not in (errno.EINVAL, errno.ENOTSUP):  # some file systems cannot
            raise


def store(path: str, data: bytes, is_synced: bool = False) -> None:
    """Replaces a file as a whole, with its mode, through a link the link's file; a device or a pipe is written in place."""
    try:
        place = place_of(path)
        is_there = os.path.exists(place)
        if is_there and not os.access(place, os.W_OK):
            raise PermissionError(errno.EACCES, os.strerror(errno.EACCES))
        if is_there and not os.path.isfile(place):
            with open(place, "wb") as file:
                file.write(data)
            return
        with new_file(place) as (file, name):
            file.write(data)
            if is_synced:
                synced(file)
            if is_there:
                os.chmod(name, stat.S_IMODE(os.stat(place).st_mode))
            os.replace(name, place)
    except OSError as fault:
        raise NotWritten(path, "", "cannot write", fault.strerror or str(fault)) from None


@contextlib.contextmanager
def folder_of(**files: bytes) -> typing.Iterator[str]:
    """A folder with these files by their names, which is removed afterwards."""
    with tempfile.TemporaryDirectory(prefix="simdram_") as folder:
        for name, data in files.items():
            store(os.path.join(folder, name), data)
        yield folder


def free_name(path: str) -> str:
    """The first of NAME~, NAME~2, NAME~3 .. that nothing stands under, not even a link: an empty file stands there now."""
    for number in itertools.count(1):
        name = f"{path}~{number if number > 1 else ''}"
        with contextlib.suppress(FileExistsError):
            open(name, "xb").close()
            return name


def keep(path: str, name: str = "") -> str:
    """Copies a file to the first free name of NAME~, NAME~2 .., whole and synced, and returns that name."""
    with open(path, "rb") as old, new_file(name or path) as (file, new):
        shutil.copyfileobj(old, file, BLOCK)
        shutil.copystat(path, new)
        synced(file)
        kept = free_name(name or path)
        os.replace(new, kept)
    with contextlib.suppress(OSError):
        folder = os.open(os.path.dirname(kept) or ".", os.O_RDONLY)
        try:
            os.fsync(folder)
        finally:
            os.close(folder)
    return kept
