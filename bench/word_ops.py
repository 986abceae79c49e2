"""The word operations, read from the sources: their table and ceilings in `op_text`, their costs in `uprog_gen` and `word_flow`.

A name, row or formula that is not of the form known here ends the caller with a line that says so.
"""

import dataclasses
import pathlib
import re
import typing

OP_TEXT = pathlib.Path(__file__).resolve().parent.parent / "crates" / "op_text"
TABLE = OP_TEXT / "src" / "word_ops.rt"
CEILINGS = OP_TEXT / "specs" / "Costs.antt"
COSTS = OP_TEXT.parent / "uprog_gen" / "specs" / "Costs.antt"
FLOWS = OP_TEXT.parent / "word_flow" / "specs" / "Programs.antt"

KINDS = {"Word": "w", "Bit": "b"}
# of each signature, its first form: the kinds of the arguments, and the result's, or None where the row names it
SIGNATURES = {
    "Nothing": ("", "w"),
    "OneOf": ("w", "w"),
    "TwoOf": ("ww", "w"),
    "OneWord": ("w", None),
    "TwoWords": ("ww", None),
    "Choice": ("wwb", "w"),
}
ROW = re.compile(r'\(b"(\w+)", row!\((\w+), (\w+)(?:\((\w+)\))?, (?:None|Some\((\w+)\)), \d+, \d+\)\),')


@dataclasses.dataclass(frozen=True)
class WordOp:
    """An operation on words: its name, the kinds of its arguments and results, and its row commands at width n."""

    name: str
    takes: str
    gives: str
    aap: typing.Callable[[int], int]
    ap: typing.Callable[[int], int]
    ceiling: typing.Callable[[int], int]


def fail(path, what):
    raise SystemExit(f"{path}: {what}")


def kind(name):
    return KINDS[name] if name in KINDS else fail(TABLE, f"no kind is called {name}")


def signed(signature, named):
    """The kinds of the arguments and of the first result."""
    if signature not in SIGNATURES:
        fail(TABLE, f"no signature is called {signature}")
    takes, gives = SIGNATURES[signature]
    if (gives is None) != (named is not None):
        fail(TABLE, f"a signature {signature} with the kind {named}")
    return takes, gives or kind(named)


def rows():
    """Of each row of the table its name, its variant, and the kinds of its arguments and results."""
    table = re.search(r"^pub const WORD_OPS: \[.*; (\d+)\] = \[\n(.*?)^\];", TABLE.read_text(), re.DOTALL | re.MULTILINE)
    if not table:
        fail(TABLE, "no table of word operations")
    found = []
    for line in table[2].splitlines():
        row = ROW.fullmatch(line.strip())
        if not row:
            fail(TABLE, f"no row: {line.strip()}")
        name, variant, signature, named, second = row.groups()
        takes, gives = signed(signature, named)
        found.append((name, variant, takes, gives + (kind(second) if second else "")))
    if not found or len(found) != int(table[1]):
        fail(TABLE, f"{len(found)} rows of {table[1]}")
    return found


def digits(n):
    """How many digits the binary form of n has."""
    return n.bit_length()


def ones_of(n):
    """How many of these are ones."""
    return bin(n).count("1")


COUNTS = {"digits": digits, "ones_of": ones_of}
# what a cost is that is not given here: the flow's
OF_FLOWS = {"op_aaps": "flow_total p n - flow_aps p n", "op_aps": "flow_aps p n"}


def formula(text, path):
    """A formula of n from 1 on, such as `if n == 1 then 4 else 2 * digits n n + 3 * (n / 2)`, as a function."""
    chosen = re.fullmatch(r"if (?:(n) == (\d+)|nat_lt (n|\d+) (n|\d+)) then (.*) else (.*)", text)
    if chosen:
        one, other, low, high = (part and formula(part, path) for part in chosen.groups()[:4])
        first, second = formula(chosen[5], path), formula(chosen[6], path)
        if one:
            return lambda n: first(n) if one(n) == other(n) else second(n)
        return lambda n: first(n) if low(n) < high(n) else second(n)
    names = "|".join(COUNTS)
    if not re.fullmatch(rf"(?:(?:{names}) n n|[n\d +*/%^()-])+", text):
        fail(path, f"no formula of n: {text}")
    source = re.sub(rf"({names}) n n", r"\1(n)", text).replace("^", "**").replace("/", "//")
    return eval("lambda n: " + source, {"__builtins__": {}, **COUNTS})


def formulas(definition, path):
    """The formula of each variant, and the one for the others, which is None where it is the flow's or there is none."""
    found, others = {}, None
    for pattern, text in re.findall(rf"^{definition} (\S+) n = (.*)$", path.read_text(), re.MULTILINE):
        if pattern.startswith("o."):
            found[pattern.removeprefix("o.")] = formula(text, path)
        elif text != OF_FLOWS.get(definition):
            others = formula(text, path)
    return found, others


def flow_costs():
    """The AAP and the AP of each operation that is a flow, and of the others none."""
    totals, none = formulas("flow_total", FLOWS)
    aps, _ = formulas("flow_aps", FLOWS)

    def less(variant):
        return lambda n: totals[variant](n) - aps.get(variant, none)(n)

    return {"op_aaps": ({variant: less(variant) for variant in totals}, None), "op_aps": (aps, none)}


def word_ops():
    """The word operations, in the order of the table."""
    places = (("op_aaps", COSTS), ("op_aps", COSTS), ("op_ceiling", CEILINGS))
    numbers = [(definition, path, *formulas(definition, path)) for definition, path in places]
    flows = flow_costs()

    def of(variant):
        for definition, path, found, others in numbers:
            of_flows, of_none = flows.get(definition, ({}, None))
            given = {**of_flows, **found}.get(variant, others or of_none)
            yield given or fail(path, f"{definition} has no clause for {variant}")

    return [WordOp(name, takes, gives, *of(variant)) for name, variant, takes, gives in rows()]
