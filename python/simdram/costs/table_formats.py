"""A table as text in columns, as CSV, as Markdown and as LaTeX. The first row is the head."""

import csv
import io
import re
import typing

Rows = list[list]
# what LaTeX reads as more than itself
LATEX = {"\\": r"\textbackslash{}", "~": r"\textasciitilde{}", "^": r"\textasciicircum{}",
         **{sign: f"\\{sign}" for sign in "&%$#_{}"}}
NUMBER = re.compile(r"-?\d+(\.\d+)?%?|")


def texts(rows: Rows) -> list[list[str]]:
    return [[str(cell) for cell in row] for row in rows]


def as_csv(rows: Rows) -> str:
    """The table with commas; blanks in the head become underscores."""
    text = io.StringIO()
    head = [cell.replace(" ", "_") for cell in rows[0]]
    csv.writer(text, lineterminator="\n").writerows([head, *rows[1:]])
    return text.getvalue()


def as_text(rows: Rows, to_right: int = 0) -> str:
    """The table in columns, of which so many go to the right."""
    cells = texts(rows)
    widths = [max(map(len, column)) for column in zip(*cells)]
    for row in cells:
        row[:] = [cell.rjust(width) if k < to_right else cell.ljust(width) for k, (cell, width) in enumerate(zip(row, widths))]
    return "".join("  ".join(row).rstrip() + "\n" for row in cells)


def are_numbers(cells: list[list[str]]) -> list[bool]:
    """Of each column, whether numbers alone stand below its head."""
    return [all(NUMBER.fullmatch(cell) for cell in column[1:]) for column in zip(*cells)]


def for_readers(rows: Rows) -> list[list[str]]:
    """The cells as texts, without columns that are empty below the head, and with blanks for underscores in the head."""
    columns = [column for column in zip(*texts(rows)) if len(rows) == 1 or any(column[1:])]
    head, *rest = map(list, zip(*columns))
    return [[cell.replace("_", " ") for cell in head], *rest]


def as_markdown(rows: Rows) -> str:
    """The table with bars; columns of numbers go to the right."""
    cells = [[cell.replace("|", r"\|") for cell in row] for row in for_readers(rows)]
    line = ["---:" if is_number else "---" for is_number in are_numbers(cells)]
    return "".join(f"| {' | '.join(row)} |\n" for row in [cells[0], line, *cells[1:]])


def as_latex(rows: Rows) -> str:
    """The table as a `tabular`, with lines of its own above, below and under the head."""
    cells = for_readers(rows)
    columns = "".join("r" if is_number else "l" for is_number in are_numbers(cells))
    lines = [" & ".join("".join(LATEX.get(sign, sign) for sign in cell) for cell in row) + r" \\" for row in cells]
    return "\n".join([rf"\begin{{tabular}}{{{columns}}}", r"\hline", lines[0], r"\hline", *lines[1:], r"\hline",
                      r"\end{tabular}", ""])


FORMATS: dict[str, typing.Callable[[Rows], str]] = {"text": as_text, "csv": as_csv, "markdown": as_markdown, "latex": as_latex}
