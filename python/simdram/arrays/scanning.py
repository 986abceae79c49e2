"""Counts the elements that meet a query, by comparisons in the chip."""

import copy
import dataclasses
import itertools
import re
import typing

from ..files.fields import NAME
from ..files.image import Image, Object, Table
from ..files.store import folder_of
from ..launcher import run_program
from ..rules import answers
from .array import Array
from .chip import Chip
from .costing import Cost
from .refusals import Refused, Stopped, last_line

COUNTED = re.compile(r"count (\d+) of (\d+) aap=(\d+) ap=(\d+)")
REFUSED = re.compile(r"query refused (\w+) (\d+)")
# refusals that go by the arrays given, and not by the room beside them
OF_NAMES = ("no_object", "slice", "count", "range")


class Count(typing.NamedTuple):
    """How many elements meet a query, how many there are, and what the query cost."""

    count: int
    elements: int
    cost: Cost


def scan(chip: Chip, query: str, /, **arrays: typing.Any) -> Count:
    """Counts the elements that meet a query, such as `and(ge(a, 10), not(eq(a, 200)))`, whose names are the arrays'.

    An array is one of the chip, or one of NumPy that is placed for the query alone.
    """
    if not isinstance(query, str):
        raise TypeError(f"a query is a text, and not {type(query).__name__}")
    # the arrays that are placed for the query stay as long as it runs
    kept: list[Array] = []
    placed: dict[str, Object] = {}
    for name, one in arrays.items():
        array = one if isinstance(one, Array) else chip.array(one)
        rows = object_of(chip, name, array)
        if any(rows.meets(other) for other in placed.values()):
            array = chip.array(array.numpy(), bits=array.bits)
            rows = object_of(chip, name, array)
        kept.append(array)
        placed[name] = rows
    image = renamed(chip, list(placed.values()))
    with folder_of(query=query.encode(), image=image.file()) as folder:
        ended = run_program.run(["scan", "query", "image"], folder)
    counted = COUNTED.fullmatch(last_line(ended.out))
    if ended.status == 0 and counted:
        count, elements, aap, ap = map(int, counted.groups())
        cost = Cost(aap, ap, chip.image.banks_of(elements))
        chip.spend(cost)
        return Count(count, elements, cost)
    if refused := REFUSED.fullmatch(last_line(ended.out)):
        raise Refused(refused[1], refusal(query, image, placed if refused[1] in OF_NAMES else None), int(refused[2]))
    raise Stopped("scan", ended, "query", query)


def refusal(query: str, image: Image, names: typing.Container[str] | None) -> str:
    """Why a query is refused, by the objects of these names, or by all."""
    objects = [one for one in image.objects if names is None or one.name in names]
    found = answers.query_refusals("query", query.encode(), Table(image.banks, image.rows, image.words, objects))
    return "\n".join([query, *(line for one in found for line in one.lines())])


def object_of(chip: Chip, name: str, array: Array) -> Object:
    """The rows of an array that a query calls by this name, as an object."""
    if not NAME.fullmatch(name.encode()):
        raise Refused("bad_name", f"{name} is no name of at most 16 letters, digits and _")
    if array.signed:
        raise TypeError(f"{name} is signed, and a query compares unsigned numbers")
    if array.chip is not chip:
        raise ValueError(f"{name} is an array of another chip")
    if not array.shape:
        raise Refused("size", f"{name} is one number, and a query goes over an array")
    chip.made(array)
    origin = array.value.origin
    whole = chip.image.find(origin.name)
    return dataclasses.replace(whole, name=name, base=whole.base + origin.low, width=array.bits)


def renamed(chip: Chip, named: typing.Sequence[Object]) -> Image:
    """The chip's image with the objects of a query, and all other rows of objects under other names."""
    image = copy.copy(chip.image)
    others = (name for name in map("_{}".format, itertools.count()) if all(name != one.name for one in named))
    image.objects = list(named)
    for one in chip.image.objects:
        base = one.base
        for past, then in sorted((part.base, part.past) for part in named if part.meets(one)) + [(one.past, one.past)]:
            if base < past:
                image.objects.append(dataclasses.replace(one, name=next(others), base=base, width=past - base))
            base = then
    return image
