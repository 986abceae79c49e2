"""What statements cost, kept on disk: one file for each program, since another compiler may find other costs."""

import contextlib
import hashlib
import json
import operator
import os
import pathlib
import typing

from .statement_alone import Cost, Costs

FOLDER = "SIMDRAM_CACHE"
# by a statement's key its own commands and scratch rows at each width; None where it is refused
Kept = dict[str, Costs | None]


def folder() -> pathlib.Path:
    """Where things are kept: SIMDRAM_CACHE, or `simdram` in the user's cache folder."""
    named = os.environ.get(FOLDER)
    return pathlib.Path(named) if named else pathlib.Path.home() / ".cache" / "simdram"


def sum_of(program: str) -> str:
    """What tells a program from others."""
    return hashlib.sha256(pathlib.Path(program).read_bytes()).hexdigest()


def load_json(path: pathlib.Path) -> typing.Any:
    """What a file keeps, or nothing where it cannot be read."""
    try:
        return json.loads(path.read_text(encoding="utf-8"))
    except (OSError, ValueError):
        return None


def store_json(path: pathlib.Path, what: typing.Any) -> None:
    """Keeps something where that can be done; a reader sees the file as a whole."""
    beside = path.with_name(f"{path.name}.new{os.getpid()}")
    with contextlib.suppress(OSError):
        path.parent.mkdir(parents=True, exist_ok=True)
        beside.write_text(json.dumps(what), encoding="utf-8")
        os.replace(beside, path)


def path_of(kind: str, what: dict[str, typing.Any]) -> pathlib.Path:
    """The file that keeps what was found for this."""
    return folder() / f"{kind}-{hashlib.sha256(repr(sorted(what.items())).encode()).hexdigest()[:32]}.json"


def kept_of(kind: str, what: dict[str, typing.Any], name: str) -> typing.Any:
    """What is kept under a name of what was found for this, or nothing."""
    found = load_json(path_of(kind, what))
    return found.get(name) if isinstance(found, dict) and {**found, name: ""} == {**what, name: ""} else None


def keep_for(kind: str, what: dict[str, typing.Any], name: str, found: typing.Any) -> None:
    """Keeps what was found for this under a name."""
    store_json(path_of(kind, what), {**what, name: found})


def checked(found: typing.Any) -> Kept:
    """What a file keeps, without what has another form."""
    kept: Kept = {}
    for key, costs in found.items() if isinstance(found, dict) else ():
        with contextlib.suppress(AttributeError, TypeError, ValueError):
            kept[key] = None if costs is None else {int(n): Cost(*map(operator.index, its)) for n, its in costs.items()}
    return kept


class StatementCache:
    """The costs of statements by one program."""

    def __init__(self, program: str) -> None:
        self.path = folder() / f"statements-{sum_of(program)[:16]}.json"
        self.kept: Kept = checked(load_json(self.path))
        self.size = len(self.kept)

    def save(self) -> None:
        """Stores what is new beside what others have stored meanwhile."""
        if len(self.kept) > self.size:
            store_json(self.path, {**checked(load_json(self.path)), **self.kept})
            self.size = len(self.kept)
