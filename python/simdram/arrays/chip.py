"""A chip: its image, the arrays that lie in it, and the programs that compute them."""

import dataclasses
import gc
import itertools
import operator
import typing
import weakref

import numpy

from ..files import columns
from ..files.image import Image, NoRoom
from . import cells
from .array import Array
from .costing import Cost, total
from .cutting import STATEMENTS, cut
from .expressions import Constant, Held, Value, made_before
from .layout import whole_of
from .operations import BIT, WORD
from .refusals import Refused
from .running import HELP, Made, run
from .scripting import Scripts
from .simpler_texts import Texts
from .simplify import simplified


class Chip:
    """A chip of so many banks of rows of 64-bit words, as `simdram init` makes one.

    A bank holds 64 * words elements of an array, one in each column. `cost` is all that the chip has done until now: the row
    commands of its scripts and scans, those that make objects too, and the rows that the host has written to place arrays and
    has read for `numpy()`, sums and products of matrices; `host_writes` and `host_reads` are these rows alone, over all banks. With `simplify` the text of each op is
    simplified at its width and compared with what was meant (docs/NUMPY.md, "Simpler texts"). With `optimise`, a width or several,
    ops of this width are done by fewer row commands, as `simdram optimise` finds them ("Fewer commands at one width").
    """

    def __init__(self, banks: int = 1, rows: int = 1006, words: int = 64, simplify: bool = False,
                 optimise: int | typing.Iterable[int] = ()) -> None:
        try:
            self.image = Image(*map(operator.index, (banks, rows, words)))
        except ValueError as fault:
            raise Refused("geometry", str(fault)) from None
        self.banks, self.rows, self.words = self.image.banks, self.image.rows, self.image.words
        self.host_writes = self.host_reads = 0
        self._spent = Cost(busiest=(0, 0))
        widths = [cells.checked_width(width) for width in ([optimise] if isinstance(optimise, int) else optimise)]
        self._names, self._texts = itertools.count(1), Texts(simplify, widths)
        self._gone: list[str] = []

    def __repr__(self) -> str:
        shape = f"{self.banks} banks of {self.rows} rows of {self.words} words"
        return f"<simdram.Chip of {shape}, {len(self.image.objects)} objects>"

    @property
    def cost(self) -> Cost:
        """All that the chip has done until now."""
        moved = Cost(host_writes=self.host_writes, host_reads=self.host_reads)
        return total([self._spent, moved])

    def spend(self, cost: Cost) -> None:
        """Adds what a script or a scan took."""
        self._spent = total([self._spent, cost])

    def array(self, data: typing.Any, bits: int | None = None, signed: bool = False) -> Array:
        """Whole numbers or truth values in the chip: an array of any shape, at a width of 1 to 128 bits.

        Without `bits` the width is that of the array's type, and one bit for truth values. With `signed` numbers from
        -2^(bits-1) on are placed, in two's complement. One number alone is a constant. Of a structured type each field has the width
        of its type, or of `bits`, as in `bits={"low": 4, "high": 4}`.
        """
        if isinstance(data, numpy.ndarray) and data.dtype.names:
            return self._records(data, bits)
        numbers = cells.as_array(data)
        width = cells.checked_width(cells.width_of(numbers) if bits is None else operator.index(bits))
        signed = signed and numbers.dtype != bool
        cells.check_range(numbers, width, signed)
        # truth values of one bit are bits, and all else is words
        kind = BIT if numbers.dtype == bool and width == 1 else WORD
        if not numbers.shape:
            return Array(self, (), Value(kind, width, Constant(int(numbers) % 2**width)), Made(), signed)
        name = self._placed(width, numbers.size)
        patterns = cells.modulo(numbers, width) if signed else numbers
        self.image.set_cells(name, cells.cells_of(patterns, width))
        banks = self.image.banks_of(numbers.size)
        self.host_writes += width * banks
        made = Made(cost=Cost(banks=banks, host_writes=width * banks))
        return Array(self, numbers.shape, Value(kind, width, self._held(name, made)), made, signed)

    def _records(self, data: numpy.ndarray, widths: typing.Mapping[str, int] | None) -> Array:
        """Elements of a structured type in one object, whose fields are bits of it."""
        fields = cells.fields_of(data.dtype, widths)
        placed = self.array(cells.packed(data, fields), bits=sum(field.bits for field in fields.values()))
        placed.record = data.dtype, fields
        return placed

    def _placed(self, width: int, count: int) -> str:
        """A new object at the least free rows."""
        self._sweep()
        name = f"v{next(self._names)}"
        try:
            try:
                self.image.add(name, width, count)
            except NoRoom:
                self._collect()
                self.image.add(name, width, count)
        except NoRoom as full:
            what = str(full).partition(": ")[2].replace(name, "the array", 1)
            raise Refused(full.word, what + (HELP.get(full.word, "") if count else "")) from None
        return name

    def _held(self, name: str, made: Made) -> Held:
        """An object as the origin of a value; it goes when no value has this origin."""
        held = Held(name, made)
        weakref.finalize(held, self._gone.append, name).atexit = False
        return held

    def _sweep(self) -> None:
        """Removes the objects of arrays that are gone."""
        gone = set(self._gone)
        self._gone.clear()
        self.image.objects = [one for one in self.image.objects if one.name not in gone]

    def _collect(self) -> None:
        """Removes the objects of arrays that nothing but expressions that are gone refers to, which go in circles."""
        gc.collect()
        self._sweep()

    def made(self, array: Array) -> Made:
        """How an array was computed, which is done now where it was not."""
        if array.made is None:
            self.compute([array])
        return array.made

    def values(self, array: Array) -> numpy.ndarray:
        self.made(array)
        origin = array.value.origin
        if isinstance(origin, Constant):
            size = columns.size_of(array.bits)
            numbers = cells.array_of(origin.number.to_bytes(size, "little"), size, array.value.kind, ())
        else:
            self.host_reads += array.bits * self.image.banks_of(array.size)
            numbers = cells.array_of(*self.image.cells(origin.name, origin.low, array.bits), array.value.kind, array.shape)
        return cells.as_signed(numbers, array.bits) if array.signed else numbers

    def compute(self, arrays: typing.Sequence[Array]) -> None:
        """Computes arrays of one shape together: as one op, where that has room for them."""
        left = [array for array in arrays if array.made is None]
        shapes = {array.shape for array in left}
        if len(shapes) > 1:
            raise Refused("size", f"arrays of shapes {', '.join(map(str, sorted(shapes)))} are computed one by one")
        if left:
            self._compute(left, max(1, left[0].size))

    def _compute(self, arrays: typing.Sequence[Array], count: int) -> None:
        """The arrays in the form that takes the fewest commands, or, where rows are few, the fewest temporaries."""
        self._sweep()
        for by_digits, is_last in ((True, False), (True, False), (False, True)):
            targets = simplified([array.value for array in arrays], by_digits)
            for array, target in zip(arrays, targets):
                if not array.shape and isinstance(target.origin, Constant):  # a number that no command computes
                    array.settle(target.origin, Made())
            left = [(array, target) for array, target in zip(arrays, targets) if array.made is None]
            try:
                if left:
                    scripts, made = self._in_few_ops([target for _, target in left], count)
                    # the objects that are read, and numbers that the chip computed
                    sources = made_before([target for _, target in left], Held) + made_before([array.value for array, _ in left], Constant)
                    self._keep(left, scripts, made._replace(sources=tuple(sources)))
                return
            except Refused as refused:
                if refused.word not in ("no_rows", "table_full") or is_last:
                    raise
                self._collect()

    def _in_few_ops(self, targets: typing.Sequence[Value], count: int) -> tuple[Scripts, Made]:
        """As few ops as there are rows for: each has rows of its own for its temporaries, which smaller ones share."""
        statements = STATEMENTS
        while True:
            scripts = Scripts(cut(list(dict.fromkeys(targets)), statements), targets, count, self._names, self._texts)
            try:
                return scripts, self._done(scripts)
            except Refused as refused:
                if refused.word != "no_rows" or statements == 1:
                    raise
            statements = min(statements, scripts.longest) // 2 or 1

    def _done(self, scripts: Scripts) -> Made:
        """Does scripts one after another, or none of them."""
        image, done = self.image, []
        for script in filter(lambda one: one.lines, scripts.scripts):
            done.append(run(script, image))
            image = done[-1].image
        self.image = image
        banks = self.image.banks_of(scripts.count)
        for one in done:
            self.spend(dataclasses.replace(one.all_lines, banks=banks))
        cost = dataclasses.replace(total([one.cost for one in done]), banks=banks)
        lines = "".join(f"{line}\n" for script in scripts.scripts for line in script.lines)
        ops = "".join(dict.fromkeys(text for script in scripts.scripts for text in script.compiled))
        # what is compiled comes first
        texts = "".join(dict.fromkeys(text for script in scripts.scripts for text in [*script.compiled, *script.ops]))
        report = "".join(one.report for one in done)
        return Made(texts, lines, report, cost, ops, "".join(scripts.written))

    def _keep(self, computed: typing.Sequence[tuple[Array, Value]], scripts: Scripts, made: Made) -> None:
        """The arrays are now what was computed for them; one of no dimensions becomes its number again."""
        wholes = [whole_of(target) for _, target in computed]
        origins = {whole.origin.name: whole.origin for whole, _ in wholes if isinstance(whole.origin, Held)}
        for (array, target), (whole, low) in zip(computed, wholes):
            name = scripts.object_of(whole)
            if name not in origins:
                origins[name] = self._held(name, made)
            held = origins[name] if whole is target else Held(name, made, low, Value(whole.kind, whole.bits, origins[name]))
            number = None if array.shape else Constant((self.image.get(name)[0] >> low) % 2**array.bits, made)
            array.settle(number or held, made)


def compute(*arrays: Array) -> None:
    """Computes arrays of one chip and one shape together: two results become one op, where they fit."""
    for other in (one for one in arrays if not isinstance(one, Array)):
        raise TypeError(f"compute takes arrays of a chip, and not {type(other).__name__}")
    if any(array.chip is not arrays[0].chip for array in arrays):
        raise ValueError("the arrays are of different chips")
    if arrays:
        arrays[0].chip.compute(arrays)
