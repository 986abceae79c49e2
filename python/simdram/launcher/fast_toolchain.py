"""A toolchain of links in which `rt try` compiles at full speed.

`rt try` compiles the program without proofs at -O0 with the address sanitizer, for fast checks of small runs. Here it runs
from a folder of links to the toolchain whose `clang` is a script: it calls the real one with -O2 in place of -O0 and without
the sanitizer. The program does the same, some 50 times as fast.
"""

import pathlib
import shlex
import shutil
import typing

COMMAND = ("rt", "rtlib.py")


def link_all(source: pathlib.Path, folder: pathlib.Path, but: tuple[str, ...]) -> None:
    """Makes a folder with a link to each file of another one, but for some names."""
    folder.mkdir(parents=True)
    for path in source.iterdir():
        if path.name not in but:
            (folder / path.name).symlink_to(path)


class FastToolchain(typing.NamedTuple):
    """The folder of links: its command `rt`, and the file that its clang makes when it has optimized the program."""

    rt: pathlib.Path
    mark: pathlib.Path


def made_in(folder: pathlib.Path) -> FastToolchain | None:
    """Makes the toolchain of links in a folder that is not there yet, if the installed one has the files that it needs."""
    real = pathlib.Path(shutil.which("rt") or "").resolve()
    kit, made = real.parent.parent, FastToolchain(folder / "bin" / "rt", folder / "optimized")
    clang = kit / "toolchain" / "bin" / "clang"
    if not clang.is_file() or not all((real.parent / name).is_file() for name in COMMAND):
        return None
    link_all(kit, folder, ("bin", "toolchain"))
    link_all(kit / "bin", folder / "bin", COMMAND)
    link_all(kit / "toolchain", folder / "toolchain", ("bin",))
    link_all(kit / "toolchain" / "bin", folder / "toolchain" / "bin", ("clang",))
    for name in COMMAND:  # `rt` looks for the toolchain beside its real path
        shutil.copy(real.parent / name, folder / "bin" / name)
    script = folder / "toolchain" / "bin" / "clang"
    names = f"#!/bin/sh\nmark={shlex.quote(str(made.mark))} clang={shlex.quote(str(clang))}\n"
    script.write_text(names + pathlib.Path(__file__).with_name("clang.sh").read_text(encoding="utf-8"), encoding="utf-8")
    script.chmod(0o755)
    return made
