"""What each entry of a program file costs at several widths, or of several program files side by side.

Of one file a row for each entry and width has its AAP and AP in one bank, both together, the commands for each element, and
its rows of scratch. A bank has 64 elements for each word of its rows, which --words gives; the column of the commands for each
element says how many that are. In more banks each bank has the same commands, and the banks work at the same time.

Of several files a row has the AAP, AP, both together and the scratch rows of each file's entry of this name, on one bank, and
from the second file on the ratio of its commands to the first file's.

--ops chooses entries, and --columns columns, by their names as --format csv prints them; of several files they are aap, ap,
commands, rows and ratio, for each file. --total is a table for a paper: the commands alone, with a column for each width.
"""

import os

from ..launcher.faults import Fault
from ..launcher.tool_parser import Asked, flag, option, tool
from ..launcher.widths import widths_of
from .costs import EntryCost, costs_at
from .table_formats import FORMATS, Rows

HEAD = ("name", "width", "aap_per_bank", "ap_per_bank", "commands_per_bank", "banks", "commands_all_banks",
        "commands_per_element_of_{}_in_a_row", "scratch_rows", "stuck")
# of each file where several stand side by side
SIDE = ("aap", "ap", "commands", "rows")


def row_of(cost: EntryCost, width: int, banks: int, words: int) -> list:
    if cost.stuck:
        return [cost.name, width, "", "", "", banks, "", "", "", cost.stuck]
    each = cost.commands / (64 * words)
    return [cost.name, width, cost.aap, cost.ap, cost.commands, banks, cost.commands * banks, f"{each:.6g}", cost.rows, ""]


Costs = dict[tuple[str, int], list[EntryCost]]


def of_one(path: str, widths: list[int], found: Costs, banks: int, words: int) -> Rows:
    rows = (row_of(found[path, width][k], width, banks, words) for k in range(len(found[path, widths[0]])) for width in widths)
    return [[name.format(64 * words) for name in HEAD], *rows]


def labels_of(paths: list[str]) -> list[str]:
    """What each file is called in the head: its name without its ending, or its path where two have one name."""
    short = [os.path.splitext(os.path.basename(path))[0] for path in paths]
    return [name if short.count(name) == 1 else path for name, path in zip(short, paths)]


def side_by_side(paths: list[str], widths: list[int], found: Costs) -> Rows:
    head: list = ["name", "width"]
    for k, label in enumerate(labels_of(paths)):
        head += [f"{label} {what}" for what in SIDE] + ([f"{label} ratio"] if k else [])
    names = dict.fromkeys(cost.name for path in paths for cost in found[path, widths[0]])
    return [head, *([name, width, *beside(name, width, paths, found)] for name in names for width in widths)]


def beside(name: str, width: int, paths: list[str], found: Costs) -> list:
    """The cells of an entry at a width: empty where a file has no such entry, and why where it is stuck."""
    costs = [next((cost for cost in found[path, width] if cost.name == name), None) for path in paths]
    known = [cost is not None and not cost.stuck for cost in costs]
    cells: list = []
    for k, (cost, is_known) in enumerate(zip(costs, known)):
        cells += [cost.aap, cost.ap, cost.commands, cost.rows] if is_known else [cost.stuck if cost else "", "", "", ""]
        has_ratio = is_known and known[0] and costs[0].commands
        cells += [f"{cost.commands / costs[0].commands:.3f}" if has_ratio else ""] * (k > 0)
    return cells


def of_ops(found: Costs, names: list[str]) -> Costs:
    """The costs of these entries alone, or of all where none is named."""
    there = list(dict.fromkeys(cost.name for costs in found.values() for cost in costs))
    if unknown := [name for name in names if name not in there]:
        raise Fault(f"no entry is called {unknown[0]}; the entries: {', '.join(there) or 'none'}")
    return {key: [cost for cost in costs if not names or cost.name in names] for key, costs in found.items()}


def with_columns(rows: Rows, chosen: list[str]) -> Rows:
    """The columns that are chosen, beside the name and the width; of several files those of each file that end so."""
    head = [str(name).replace(" ", "_") for name in rows[0]]
    known = list(dict.fromkeys(name.rpartition("_")[2] if name not in HEAD and name.rpartition("_")[2] in (*SIDE, "ratio") else name
                               for name in head))
    if unknown := [name for name in chosen if name not in head and name not in known]:
        raise Fault(f"--columns takes {', '.join(known[2:])}, and not {unknown[0]}")
    kept = [0, 1, *(k for k, name in enumerate(head) if k > 1 and (name in chosen or name.rpartition("_")[2] in chosen))]
    return [[row[k] for k in kept] for row in rows]


def totals(paths: list[str], widths: list[int], found: Costs) -> Rows:
    """The commands alone: a row for each entry, of each file, with a column for each width."""
    labels, several = labels_of(paths), len(paths) > 1
    rows: Rows = [["name", *(f"n={width}" for width in widths)]]
    for path, label in zip(paths, labels):
        for k, cost in enumerate(found[path, widths[0]]):
            costs = [found[path, width][k] for width in widths]
            name = f"{cost.name} of {label}" if several else cost.name
            rows.append([name, *("" if one.stuck else one.commands for one in costs)])
    return rows


def names_of(text: str) -> list[str]:
    return [name for name in text.split(",") if name]


@tool(option("progs", "PROG", "a program file; the ratios are to the first", nargs="+"),
      option("--widths", "N,N,..", "widths and spans, as 4,8,16-20", default="8,16,32,64"),
      option("--ops", "NAME,..", "these entries alone", default=""),
      option("--columns", "NAME,..", "these columns alone, beside the name and the width", default=""),
      flag("--total", "the commands alone, AAP and AP together, with a column for each width"),
      option("--banks", help="over how many banks the elements stand, of one file", type=int, default=1),
      option("--words", help="words of a row, for the commands for each element, of one file", type=int, default=1),
      option("--format", help="how the table is written", choices=sorted(FORMATS), default="text"),
      option("--csv", help="as --format csv", action="store_const", const="csv", dest="format"))
def main(asked: Asked) -> None:
    if not (1 <= asked.banks <= 16 and 1 <= asked.words <= 1024):
        raise Fault("--banks is 1 to 16, and --words 1 to 1024")
    if len(asked.progs) > 1 and (asked.banks, asked.words) != (1, 1):
        raise Fault("--banks and --words are for the table of one file")
    if len(set(asked.progs)) < len(asked.progs):
        raise Fault("a program file stands twice among the words")
    if asked.total and asked.columns:
        raise Fault("--total has its own columns: leave out --columns")
    widths = widths_of(asked.widths)
    found = of_ops(costs_at(asked.progs, widths, asked.settings, "cost-table"), names_of(asked.ops))
    if asked.total:
        rows = totals(asked.progs, widths, found)
    elif len(asked.progs) > 1:
        rows = side_by_side(asked.progs, widths, found)
    else:
        rows = of_one(asked.progs[0], widths, found, asked.banks, asked.words)
    if asked.columns:
        rows = with_columns(rows, names_of(asked.columns))
    print(FORMATS[asked.format](rows), end="")
