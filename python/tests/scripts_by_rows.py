"""What scripts come to, with operands that are bits of an object: on rows of integers, with nothing of the package used.

An element is a column. A bank's row is an integer whose bit c is the cell of column c. Refusals are found by rows: the rows of an
operand are a range, and two operands overlap where a row of one is a row of the other.
"""

SPILL_ROWS, OBJECTS_MAX = 32, 256
# of each operation its results and its sources by kind, and what it makes of numbers at width n
OPERATIONS = {
    "and": ("w", "ww", lambda n, a, b: (a & b,)),
    "add": ("w", "ww", lambda n, a, b: ((a + b) % 2**n,)),
    "copy": ("w", "w", lambda n, a: (a,)),
    "spread": ("w", "b", lambda n, s: ((2**n - 1) * s,)),
    "eqw": ("b", "ww", lambda n, a, b: (int(a == b),)),
    "sumc": ("wb", "ww", lambda n, a, b: ((a + b) % 2**n, (a + b) >> n)),
    "step": ("wb", "wwb", lambda n, p, a, s: ((p + a * s) % 2**n, (p + a * s) >> n)),
    "dm": ("ww", "ww", lambda n, a, b: divmod(a, b) if b else (2**n - 1, a)),
}
TEXT = """op and(a: word, b: word) -> y: word { y = and(a, b); }
op add(a: word, b: word) -> y: word { y = add(a, b); }
op copy(a: word) -> y: word { y = copy(a); }
op spread(s: bit) -> y: word { serial up () { y = s; } }
op eqw(a: word, b: word) -> y: bit { y = eq(a, b); }
op sumc(a: word, b: word) -> y: word, c: bit { serial up (c = 0) { y = xor(xor(a, b), c); c = maj(a, b, c); } }
op step(p: word, a: word, b: bit) -> y: word, c: bit {
  serial up (c = 0) { let x = and(a, b); y = xor(xor(p, x), c); c = maj(p, x, c); }
}
op dm(a: word, b: word) -> q: word, r: word { q, r = divmod(a, b); }
"""


class Operand:
    """NAME, NAME[K] or NAME[LO:HI]."""

    def __init__(self, name, low=None, high=None):
        self.name, self.low, self.high = name, low, high

    def written(self, draws):
        """The operand as a script may have it."""
        if self.low is None:
            return self.name
        if self.high == self.low + 1 and draws.random() < .7:
            return f"{self.name}[{self.low}]"
        return f"{self.name}[{self.low}:{self.high}]"

    def of_copy(self, letter):
        """The same bits of a copy of the object."""
        return Operand(letter + self.name, self.low, self.high)

    def shown(self):
        """The operand as a report has it."""
        if self.low is None:
            return self.name
        return f"{self.name}[{self.low}]" if self.high == self.low + 1 else f"{self.name}[{self.low}:{self.high}]"


class Rows:
    """The rows of a chip, and a table of objects over them."""

    def __init__(self, banks, rows, words):
        self.banks, self.columns, self.limit = banks, 64 * words, rows - SPILL_ROWS
        self.cells = [[0] * rows for _ in range(banks)]
        self.objects = {}                   # name: (base, width, count)
        # the AAP and AP of all that was done, the rows that were loaded and printed, and the rows that only scratch was in
        self.aap = self.ap = self.loaded = self.printed = 0
        self.unknown = set()

    # rows

    def segments(self, count):
        return -(-count // self.columns)

    def range_of(self, operand):
        """The rows of the operand."""
        base, width, _ = self.objects[operand.name]
        return range(base, base + width) if operand.low is None else range(base + operand.low, base + operand.high)

    def is_past(self, operand):
        return operand.high is not None and operand.high > self.objects[operand.name][1]

    def count_of(self, operand):
        return self.objects[operand.name][2]

    def read(self, rows, segments):
        """The numbers of all columns."""
        return [sum((self.cells[bank][row] >> column & 1) << k for k, row in enumerate(rows))
                for bank in range(segments) for column in range(self.columns)]

    def write(self, rows, values):
        for bank in range(len(values) // self.columns):
            part = values[bank * self.columns:(bank + 1) * self.columns]
            self.unknown.difference_update((bank, row) for row in rows)
            for k, row in enumerate(rows):
                self.cells[bank][row] = sum((value >> k & 1) << column for column, value in enumerate(part))

    def least_free(self, size):
        taken = {row for base, width, _ in self.objects.values() for row in range(base, base + width)}
        for base in range(self.limit - size + 1):
            if not taken.intersection(range(base, base + size)):
                return base
        return None

    # instructions: each returns why it is refused, or None

    def init(self, name, count, width):
        if name in self.objects:
            return "exists"
        if len(self.objects) == OBJECTS_MAX:
            return "table_full"
        if count > self.banks * self.columns:
            return "too_large"
        base = self.least_free(width)
        if base is None:
            return "no_rows"
        self.objects[name] = (base, width, count)
        self.aap += width * self.segments(count)
        self.write(range(base, base + width), [0] * (self.segments(count) * self.columns))
        return None

    def operand_refusal(self, operand):
        if operand.name not in self.objects:
            return "no_object 0"
        return "slice 0" if self.is_past(operand) else None

    def load(self, operand, values):
        refusal = self.operand_refusal(operand)
        if refusal:
            return refusal
        rows, count = self.range_of(operand), self.count_of(operand)
        if len(values) != count:
            return "count"
        for k, value in enumerate(values, 1):
            if value >> len(rows):
                return f"range {k}"
        self.loaded += len(rows) * self.segments(count)
        self.write(rows, values + [0] * (self.segments(count) * self.columns - count))
        return None

    def fill(self, operand, value):
        refusal = self.operand_refusal(operand)
        if refusal:
            return refusal
        rows = self.range_of(operand)
        if value >> len(rows):
            return "range 1"
        segments = self.segments(self.count_of(operand))
        self.aap += len(rows) * segments
        self.write(rows, [value] * (segments * self.columns))
        return None

    def values(self, operand):
        count = self.count_of(operand)
        self.printed += len(self.range_of(operand)) * self.segments(count)
        return self.read(self.range_of(operand), self.segments(count))[:count]

    def bbop(self, op, operands, count, n, cost):
        """Does an operation that takes so many AAP, AP and rows of scratch at this width."""
        if op not in OPERATIONS:
            return "no_op"
        results, sources, meaning = OPERATIONS[op]
        if len(operands) != len(results) + len(sources):
            return "arity"
        for k, one in enumerate(operands):
            if one.name not in self.objects:
                return f"no_object {k}"
        for k, one in enumerate(operands):
            if self.is_past(one):
                return f"slice {k}"
        rows = [self.range_of(one) for one in operands]
        for k, kind in enumerate(results + sources):
            if len(rows[k]) != (n if kind == "w" else 1):
                return f"width {k}"
        for k, one in enumerate(operands):
            if self.count_of(one) != count:
                return f"size {k}"
        written = set()
        for k, its in enumerate(rows):
            if written.intersection(its):
                return f"overlap {k}"
            if k < len(results):
                written.update(its)
        (aap, ap, scratch), segments = cost, self.segments(count)
        base = self.least_free(scratch)
        if base is None:
            return "no_rows"
        self.aap += aap * segments
        self.ap += ap * segments
        self.unknown.update((bank, row) for bank in range(segments) for row in range(base, base + scratch))
        columns = zip(*(self.read(its, segments) for its in rows[len(results):]))
        made = [meaning(n, *numbers) for numbers in columns]
        for k in range(len(results)):
            self.write(rows[k], [one[k] for one in made])
        return None
