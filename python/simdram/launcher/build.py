"""Where built programs stand, whether they are older than their sources, and the build without proofs."""

import fcntl
import itertools
import os
import pathlib
import shutil
import subprocess
import sys
import tempfile
import threading
import time
import typing

from . import fast_toolchain
from .faults import NoProgram
from .places import TOP, is_top
from .say import say

PROVED, UNPROVED = "simdram", "unproved"
# the folders of a crate that a program is made from
SOURCES = {PROVED: ("src", "specs", "proofs"), UNPROVED: ("src",)}


def home() -> pathlib.Path:
    """The repository's top folder."""
    if TOP is None:
        raise NoProgram("no repository of SIMDRAM here: set SIMDRAM_HOME to its folder, or SIMDRAM_PROGRAM to a built program")
    if not is_top(TOP):
        raise NoProgram(f"SIMDRAM_HOME is {TOP}, which is not a repository of SIMDRAM")
    return pathlib.Path(TOP)


def out_folder() -> pathlib.Path:
    return home() / "crates" / "simdram" / "out"


def files_in(folder: pathlib.Path) -> typing.Iterator[str]:
    for place, _, names in os.walk(folder):
        for name in names:
            yield os.path.join(place, name)


def is_old(program: pathlib.Path, folders: tuple[str, ...]) -> bool:
    """Whether a program is missing, or a file in one of these folders of a crate is newer."""
    if not os.access(program, os.X_OK):
        return True
    moment, crates = program.stat().st_mtime_ns, home() / "crates"
    sources = (crates / crate / folder for crate in sorted(os.listdir(crates)) for folder in folders)
    paths = itertools.chain([home() / "crates.txt"], *map(files_in, sources))
    return any(not os.path.islink(path) and os.lstat(path).st_mtime_ns > moment for path in paths)


def need_rt() -> None:
    if shutil.which("rt") is None:
        raise NoProgram("`rt` is not on the PATH; it comes with the toolchain that builds and proves the program: see "
                        "\"Requirements\" in README.md")


def copy_program(work: pathlib.Path) -> None:
    """Waits until the program opens the pipe, and copies the program then: rt keeps it only while it runs."""
    with open(work / "pipe", "wb"):
        for path in files_in(work / "try"):
            if os.path.basename(path) == "program":
                shutil.copy(path, work / "copy")


def try_program(work: pathlib.Path, rt: str) -> subprocess.CompletedProcess:
    """Has rt compile the program and run it on the pipe."""
    (work / "try").mkdir(parents=True)
    os.mkfifo(work / "pipe")
    threading.Thread(target=copy_program, args=(work,), daemon=True).start()
    return subprocess.run([rt, "try", "--", "show", str(work / "pipe")], cwd=home() / "crates" / "simdram",
                          env={**os.environ, "TMPDIR": str(work / "try")}, stdin=subprocess.DEVNULL, capture_output=True, check=False)


def compiled(work: pathlib.Path) -> pathlib.Path:
    """The program, compiled in a folder: with optimization, else as `rt try` compiles it."""
    fast, slow = work / "fast", work / "slow"
    if toolchain := fast_toolchain.made_in(fast / "toolchain"):
        try_program(fast, str(toolchain.rt))
        if (fast / "copy").exists() and toolchain.mark.exists():
            return fast / "copy"
    say("this toolchain does not compile with optimization: the program will be slow (some 50 times slower than the proved one)")
    ended = try_program(slow, "rt")
    if not (slow / "copy").exists():
        sys.stderr.buffer.write(ended.stdout + ended.stderr)
        raise NoProgram("the program was not compiled")
    return slow / "copy"


def compile_unproved() -> None:
    need_rt()
    out_folder().mkdir(parents=True, exist_ok=True)
    with open(out_folder() / "lock", "wb") as lock:
        try:
            fcntl.flock(lock, fcntl.LOCK_EX | fcntl.LOCK_NB)
        except BlockingIOError:
            say("another call compiles the program; waiting for it")
            fcntl.flock(lock, fcntl.LOCK_EX)
        if is_old(out_folder() / UNPROVED, SOURCES[UNPROVED]):
            compile_into_place()


def compile_into_place() -> None:
    """Compiles the program, and gives it its name when it is whole."""
    say("compiling the program without proofs; this takes about a minute, once")
    began, new = time.time_ns(), out_folder() / "unproved.new"
    with tempfile.TemporaryDirectory(prefix="simdram_build_") as name:
        copy = compiled(pathlib.Path(name))
        os.utime(copy, ns=(began, began))
        shutil.move(str(copy), new)
    os.replace(new, out_folder() / UNPROVED)
