"""Pictures of curves, as SVG by this module alone or as PNG by matplotlib."""

import dataclasses
import functools
import html
import io
import math
import os
import typing

from ..launcher import overwrite
from ..launcher.faults import Fault
from ..launcher.settings import Settings

COLOURS = ("#0072b2", "#d55e00", "#009e73", "#cc79a7", "#555555", "#e69f00", "#56b4e9", "#8c510a", "#7b3294", "#1b7837")
WIDE, HIGH, LEFT, ABOVE, BELOW, LEGEND, LEGEND_LINE = 720, 420, 80, 40, 50, 300, 22
# the kinds of pictures, by their endings
ENDINGS = (".svg", ".png")
# curves of at most so many points have a mark at each
MARKED = 16


@dataclasses.dataclass(frozen=True)
class Line:
    """A curve: its name in the legend, its points from left to right, its colour, and whether it is dashed."""

    name: str
    points: typing.Sequence[tuple[float, float]]
    colour: str
    is_dashed: bool = False

    @property
    def said(self) -> str:
        """Its line of the legend: its name, and its last value."""
        x, y = self.points[-1]
        return f"{self.name}: {number(y)} at {number(x)}"


class Axis(typing.NamedTuple):
    """An axis: where it begins and ends, and whether it is logarithmic; a linear one begins at 0."""

    first: float
    last: float
    is_log: bool

    def along(self, value: float) -> float:
        """How far along the axis a number stands, from 0 to 1."""
        if not self.is_log:
            return value / self.last if self.last else 0
        reach = math.log(self.last / self.first)
        return max(0.0, math.log(value / self.first) / reach) if value > 0 and reach > 0 else 0

    def marks(self, most: int) -> list[float]:
        if not self.is_log:
            return stepped(self.last, most)
        powers = range(math.ceil(math.log10(self.first) - 1e-9), math.floor(math.log10(self.last) + 1e-9) + 1)
        return [10.0 ** power for power in powers] or [self.first]


@dataclasses.dataclass(frozen=True)
class Picture:
    """Curves with the names of their axes, and whether each axis is logarithmic."""

    lines: typing.Sequence[Line]
    x_name: str
    y_name: str
    is_log: bool = False
    is_high_log: bool = False

    @functools.cached_property
    def x(self) -> Axis:
        """The axis from left to right."""
        numbers = [x for line in self.lines for x, _ in line.points]
        return Axis(min(numbers) if self.is_log else 0, max(numbers), self.is_log)

    @functools.cached_property
    def y(self) -> Axis:
        """The axis upwards; a logarithmic one begins at the power of ten below the least number."""
        numbers = [y for line in self.lines for _, y in line.points]
        least = min((y for y in numbers if y > 0), default=1)
        return Axis(10.0 ** math.floor(math.log10(least) + 1e-9) if self.is_high_log else 0, max(1, *numbers), self.is_high_log)

    def place(self, x: float, y: float) -> tuple[float, float]:
        return LEFT + WIDE * self.x.along(x), ABOVE + HIGH - HIGH * self.y.along(y)


def number(value: float) -> str:
    """A number as it is shown: whole ones with commas, great and small ones by their power of ten."""
    return f"{int(value):,}" if value == int(value) and abs(value) < 1e15 else f"{float(value):.4g}"


def stepped(reach: float, most: int) -> list[float]:
    """0 and its multiples up to `reach` by a step of 1, 2 or 5 times a power of ten, which makes at most `most` steps."""
    power = 1
    while True:
        for times in (1, 2, 5):
            if reach <= times * power * most:
                return list(range(0, int(reach) + 1, times * power))
        power *= 10


def element(name: str, text: str | None = None, **attributes) -> str:
    words = "".join(f' {key.replace("_", "-")}="{html.escape(str(word))}"' for key, word in attributes.items())
    return f"<{name}{words}/>" if text is None else f"<{name}{words}>{html.escape(text)}</{name}>"


def axes(picture: Picture) -> typing.Iterator[str]:
    for y in picture.y.marks(8):
        at = picture.place(picture.x.first, y)[1]
        yield element("line", x1=LEFT, y1=at, x2=LEFT + WIDE, y2=at, stroke="#222" if y == picture.y.first else "#ddd")
        yield element("text", number(y), x=LEFT - 8, y=at + 5, text_anchor="end")
    for x in picture.x.marks(10):
        at, base = picture.place(x, picture.y.first)
        yield element("line", x1=at, y1=base, x2=at, y2=base + 5, stroke="#222")
        yield element("text", number(x), x=at, y=base + 22, text_anchor="middle")
    yield element("text", picture.x_name, x=LEFT + WIDE, y=HIGH + ABOVE + 42, text_anchor="end")
    yield element("text", picture.y_name, x=LEFT - 60, y=14)


def svg(picture: Picture) -> str:
    high = max(HIGH + ABOVE + BELOW, ABOVE + 14 + LEGEND_LINE * len(picture.lines))
    found = [f'<svg xmlns="http://www.w3.org/2000/svg" width="{LEFT + WIDE + LEGEND}" height="{high}" font-family="sans-serif" '
             'font-size="14">', element("rect", width="100%", height="100%", fill="#fff"), *axes(picture)]
    for k, line in enumerate(picture.lines):
        places = [tuple(f"{one:.1f}" for one in picture.place(x, y)) for x, y in line.points]
        dashes = {"stroke_dasharray": "6 5"} if line.is_dashed else {}
        found.append(element("polyline", points=" ".join(map(",".join, places)), fill="none", stroke=line.colour, stroke_width=2,
                             **dashes))
        found += [element("circle", cx=x, cy=y, r=3, fill=line.colour) for x, y in places if len(places) <= MARKED]
        found.append(element("text", line.said, x=LEFT + WIDE + 16, y=ABOVE + 14 + LEGEND_LINE * k, fill=line.colour))
    return "\n".join([*found, "</svg>", ""])


def png(picture: Picture, out: str) -> bytes:
    try:
        from matplotlib.backends.backend_agg import FigureCanvasAgg
        from matplotlib.figure import Figure
    except ImportError:
        raise Fault(f"{out}: a PNG needs matplotlib, which is not installed; a file that ends in .svg does not") from None
    figure = Figure(figsize=(11, 5), dpi=120, layout="constrained")
    FigureCanvasAgg(figure)
    plane = figure.add_subplot(xlabel=picture.x_name, ylabel=picture.y_name, xscale="log" if picture.is_log else "linear",
                                yscale="log" if picture.is_high_log else "linear")
    for line in picture.lines:
        xs, ys = zip(*((float(x), float(y)) for x, y in line.points))
        plane.plot(xs, ys, color=line.colour, linestyle="--" if line.is_dashed else "-", label=line.said,
                   marker="o" if len(xs) <= MARKED else None, markersize=4)
    plane.set_ylim(bottom=picture.y.first)
    plane.grid(axis="y", color="#ddd")
    plane.legend(loc="upper left", bbox_to_anchor=(1.01, 1), frameon=False)
    made = io.BytesIO()
    figure.savefig(made, format="png")
    return made.getvalue()


def kind_of(out: str) -> str:
    """The kind of picture that a name asks for; a name of another ending is refused."""
    ending = os.path.splitext(out)[1].lower()
    if ending not in ENDINGS:
        raise Fault(f"{out}: a picture's name ends in {' or '.join(ENDINGS)}, {'and not in ' + ending if ending else 'which says what it is'}")
    return ending[1:]


def check_out(out: str, settings: Settings) -> None:
    """Refuses a file of no such ending, and one that holds something else."""
    overwrite.check(out, kind_of(out), settings)


def write(picture: Picture, out: str, settings: Settings) -> None:
    """Writes the picture into a file, SVG or PNG as its name ends."""
    kind = kind_of(out)
    overwrite.write(out, png(picture, out) if kind == "png" else svg(picture).encode(), kind, settings)
