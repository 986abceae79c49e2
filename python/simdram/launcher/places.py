"""Where the repository and its program stand."""

import os
import pathlib


def is_top(folder: pathlib.Path) -> bool:
    return (folder / "crates.txt").is_file() and (folder / "crates" / "simdram").is_dir()


def installed_from() -> pathlib.Path | None:
    """The repository that this package was installed from, as pip keeps it."""
    import json
    from importlib import metadata
    from urllib import parse, request

    try:
        kept = metadata.distribution("simdram").read_text("direct_url.json")
    except metadata.PackageNotFoundError:
        return None
    url = parse.urlsplit(json.loads(kept)["url"] if kept else "")
    return pathlib.Path(request.url2pathname(url.path)).parent if url.scheme == "file" else None


def top() -> pathlib.Path | None:
    """The repository: SIMDRAM_HOME, where this package lies, where it was installed from, or where we stand."""
    if given := os.environ.get("SIMDRAM_HOME"):
        return pathlib.Path(given).resolve()
    beside = pathlib.Path(__file__).resolve().parents[3]
    here = pathlib.Path.cwd()
    for folder in (beside, installed_from, here, *here.parents):
        folder = folder() if callable(folder) else folder
        if folder is not None and is_top(folder):
            return folder
    return None


TOP = top()
