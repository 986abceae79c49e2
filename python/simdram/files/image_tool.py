"""Makes, shows, reads and changes image files: numbers in, numbers out.

    simdram image make OUT BANKSxROWSxWORDS [OBJECT ..]
    simdram image show IMAGE
    simdram image get IMAGE NAME [FILE]
    simdram image put IMAGE NAME FILE

An OBJECT is NAME:WIDTH=V1,V2,.. with the values of its elements, or NAME:WIDTH/COUNT with COUNT zeros; it takes the lowest
free rows. `get` prints one number per line, or writes FILE: a .csv file has a head line `element,NAME` and both numbers in
each line, a .npy file is an array of 64-bit numbers (with two columns, the lower half first, for widths over 64). `put` sets
the object's elements from a file of these forms, from numbers separated by commas or blanks, or from a .npy array of booleans
or integers of any shape, read with its last axis first. What stands where a file is written is kept as NAME~, and refused
where it is of another kind, as docs/FORMATS.md says.

    simdram image make mac.img 1x96x1 a:8=3,10,15,200 y:8/4
    simdram image get mac.img a
"""

import re
import sys
import typing

from ..launcher.faults import Fault, FileFault
from ..launcher.overwrite import write
from ..launcher.tool_parser import Settings, about
from . import numbers
from .image import Image, NoObject, NoRoom, Object, OutOfRange

OBJECT = re.compile(r"([A-Za-z_][A-Za-z0-9_]{0,15}):(\d+)(?:=(-?\d+(?:,-?\d+)*),?|/(\d+))")


class WordsFault(Fault):
    """Arguments that do not describe an image, as one line."""

    status = 1


def make(geometry: str, words: typing.Sequence[str]) -> Image:
    """The image of a geometry, as text, and of objects, as the words say them."""
    if not (match := re.fullmatch(r"(\d+)x(\d+)x(\d+)", geometry)):
        raise WordsFault(f"{geometry} is not BANKSxROWSxWORDS, such as 1x96x1")
    try:
        image = Image(*map(int, match.groups()))
        for word in words:
            add(image, word)
    except (NoRoom, OutOfRange) as fault:
        raise WordsFault(str(fault)) from None
    except ValueError as fault:
        raise WordsFault(f"{geometry}: {fault}") from None
    return image


def add(image: Image, word: str) -> None:
    if not (match := OBJECT.fullmatch(word)):
        raise WordsFault(f"{word} is no NAME:WIDTH=V1,V2,.. and no NAME:WIDTH/COUNT; numbers are in decimal digits")
    name, width, values, count = match.groups()
    size = int(count) if values is None else values.count(",") + 1
    image.add(name, int(width), size)
    image.put(name, [0] * size if values is None else list(map(int, values.split(","))))


def show(image: Image) -> typing.Iterator[str]:
    yield f"{image.banks} banks of {image.rows} rows of {image.words} words: {image.columns} columns a bank"
    for one in image.objects:
        rows = f"rows {one.base} to {one.past - 1} of {image.banks_of(one.count)} banks"
        yield f"{one.name}: {one.count} elements of {one.width} bits, {rows}"


def opened(path: str, name: str) -> tuple[Image, Object]:
    """An image, and its object of this name."""
    image = Image.load(path)
    try:
        return image, image.find(name)
    except NoObject as fault:
        raise FileFault(path, "", "", str(fault)) from None


def get(path: str, name: str, file: str) -> bytes:
    """The file of an object's numbers."""
    image, _ = opened(path, name)
    return numbers.file_of(name, *image.cells(name), file)


def put(path: str, name: str, file: str) -> bytes:
    """The image file with an object's elements set from a file of numbers."""
    image, found = opened(path, name)
    values = numbers.read(file, found.width, found.count)
    if len(values) != found.count:
        raise FileFault(file, "", "count", f"it has {len(values)} numbers, and {name} of {path} has {found.count} "
                        f"elements; `image make` gives an object its count, as in {name}:{found.width}/{len(values)}")
    try:
        image.put(name, values)
    except OutOfRange as fault:
        raise FileFault(file, "", "range", str(fault)) from None
    return image.file()


def main(words: typing.Sequence[str], settings: Settings) -> int:
    match list(words):
        case ["--help" | "-h", *_] | [_, "--help" | "-h", *_]:
            print(about("files.image_tool").rstrip())
        case ["make", out, geometry, *objects]:
            write(out, make(geometry, objects).file(), "image", settings)
        case ["show", path]:
            print("\n".join(show(Image.load(path))))
        case ["get", path, name]:
            sys.stdout.write(get(path, name, "").decode())
        case ["get", path, name, file]:
            write(file, get(path, name, file), "numbers", settings)
        case ["put", path, name, file]:
            write(path, put(path, name, file), "image", settings)
        case _:
            forms = about("files.image_tool").split("\n\n")[1].splitlines()
            raise WordsFault("\n".join(["these words are none of", *map(str.strip, forms)]))
    return 0
