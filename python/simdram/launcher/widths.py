"""Lists of widths, such as `8`, `4,8,16` and `1-8,16`, as the program and the tools take them."""

import re

from .faults import Fault

LEAST, MOST = 1, 128
ITEM = re.compile(r"([0-9]+)(?:-([0-9]+))?")


def listed(text: str) -> list[int] | None:
    """The widths of a list in its order, numbers and spans A-B with commas between them; none where it is no such list."""
    found: list[int] = []
    for word in text.split(","):
        match = ITEM.fullmatch(word)
        if not match or len(word) > 7:
            return None
        first, last = int(match[1]), int(match[2] or match[1])
        if not LEAST <= first <= last <= MOST:
            return None
        found += range(first, last + 1)
    return found


def is_rising(text: str) -> bool:
    """Whether it is a list as the program takes it, each width greater than the one before."""
    found = listed(text)
    return found is not None and all(one < other for one, other in zip(found, found[1:]))


def widths_of(text: str, name: str = "--widths") -> list[int]:
    """The widths of a list, each once."""
    if (found := listed(text)) is None:
        raise Fault(f"{name} takes widths from {LEAST} to {MOST}, and spans of them, with commas between them, as 4,8,16-20, and not {text}")
    return list(dict.fromkeys(found))
