#!/usr/bin/env python3
"""How long the greatest operation texts take to compile.

Run it at the top of the repository:  python3 bench/greatest.py [--program PATH] [--beside PATH] [SEED]
Three texts of blocks of weight 24 are drawn, each block for itself, so that few have the same graph: 32 ops, each of 16
blocks; 32 ops, each of nine blocks of the kind that takes the longest, of 11 words, one state and two assignments; and one
such block alone. With a second program its time stands beside.
"""

from __future__ import annotations

import itertools
import pathlib
import random
import sys
import tempfile
import typing

sys.dont_write_bytecode = True

import program  # noqa: E402

OPS, BLOCKS, WEIGHT, MOST_BYTES = 32, 16, 24, 65_536
WORST_BLOCKS, GATES = 9, ("and", "or", "maj")
LETTERS = "efghijklmnopqrstuvwxzABCDEFGHIJKLMNOPQRSTUVWXYZ"
Names = typing.Iterator[str]


def names() -> Names:
    """Short names, each once."""
    yield from LETTERS
    for first, second in itertools.product(LETTERS, LETTERS):
        yield first + second


def expression(draw: random.Random, known: list[str], weight: int) -> str:
    """Gates of this weight over the names."""
    if weight == 0:
        return draw.choice(known)
    gate = draw.choice(["xor", "xor", "xor", "and", "or", "maj"] if weight > 2 else ["and", "or", "maj"])
    left = weight - (3 if gate == "xor" else 1)
    parts = [0] * (3 if gate == "maj" else 2)
    if draw.random() < 0.6:
        parts[draw.randrange(len(parts))] = left
    else:
        parts[0] = draw.randint(0, left)
        parts[1] = left - parts[0]
    return f"{gate}({','.join(expression(draw, known, part) for part in parts)})"


def block(draw: random.Random, target: str, words: list[str], fresh: Names) -> str:
    """A block of the greatest weight that assigns the target."""
    states = list(itertools.islice(fresh, draw.choice([0, 0, 1, 1, 2])))
    lets = list(itertools.islice(fresh, draw.choice([0, 1, 1, 2])))
    known, weights = words + states, [0] * (1 + len(states) + len(lets))
    for _ in range(WEIGHT // 3):
        weights[draw.randrange(len(weights))] += 3
    lines = []
    for name, weight in zip(lets, weights):
        lines.append(f"let {name}={expression(draw, known, weight)};")
        known = known + [name, name]
    for name, weight in zip([target, *states], weights[len(lets):]):
        lines.append(f"{name}={expression(draw, known, weight)};")
    heads = ",".join(f"{state}={draw.randint(0, 1)}" for state in states)
    return f"serial up({heads}){{{''.join(lines)}}}"


def op(draw: random.Random, number: int) -> str:
    """An op of short blocks, each over a few of the words before it."""
    fresh, words, blocks = names(), ["a", "b", "c", "d"], []
    for k in range(BLOCKS):
        target = "y" if k == BLOCKS - 1 else next(fresh)
        some = draw.sample(words, draw.randint(3, 4))
        tries = (block(draw, target, some, fresh) for _ in itertools.count())
        blocks.append(next(text for text in tries if len(text) < MOST_BYTES // (OPS * BLOCKS) - 6))
        words.append(target)
    return "\n".join([f"op o{number}(a:word,b:word,c:word,d:word)->y:word{{", *blocks, "}\n"])


def evenly(draw: random.Random, known: list[str], weight: int) -> str:
    """Gates of this weight over the names, each with about as many below each argument."""
    if weight == 0:
        return draw.choice(known)
    gate = draw.choice(GATES)
    parts = [0] * (3 if gate == "maj" else 2)
    for _ in range(weight - 1):
        parts[draw.randrange(len(parts))] += 1
    return f"{gate}({','.join(evenly(draw, known, part) for part in parts)})"


def worst_op(draw: random.Random, number: int, blocks: int) -> str:
    """An op whose blocks read 11 words and have one state."""
    words = list("abcd") + list("efghijk")
    lines = [f"{word}=xor({words[k]},{words[k + 1]});" for k, word in enumerate(words[4:])]
    for k in range(blocks):
        target, state = "y" if k == blocks - 1 else f"t{k}", f"s{k}"
        values = [evenly(draw, words + [state, state], WEIGHT // 2) for _ in range(2)]
        lines.append(f"serial up({state}=0){{{target}={values[0]};{state}={values[1]};}}")
    return "\n".join([f"op o{number}(a:word,b:word,c:word,d:word)->y:word{{", *lines, "}\n"])


def texts(seed: int) -> dict[str, str]:
    """The texts by what they are."""
    draw, drawn = random.Random(seed), random.Random(seed)
    return {
        f"{OPS * BLOCKS} blocks": "".join(op(draw, number) for number in range(OPS)),
        f"{OPS * WORST_BLOCKS} blocks of 11 words": "".join(worst_op(drawn, number, WORST_BLOCKS) for number in range(OPS)),
        "one block of 11 words": worst_op(random.Random(seed), 0, 1),
    }


def main() -> int:
    """Prints the processor time of `compile` for each text."""
    parser = program.parser(__doc__)
    parser.add_argument("--beside", type=pathlib.Path, help="a second program, whose time is printed beside")
    parser.add_argument("seed", metavar="SEED", type=int, nargs="?", default=1)
    asked = parser.parse_args()
    paths = [program.path_of(asked), *([asked.beside.resolve()] if asked.beside else [])]
    with tempfile.TemporaryDirectory() as folder:
        for name, text in texts(asked.seed).items():
            assert len(text) <= MOST_BYTES
            path = pathlib.Path(folder) / "ops"
            path.write_text(text, encoding="utf-8")
            seconds = [program.seconds_of([it, "compile", path, path.with_name(f"prog{k}")]) for k, it in enumerate(paths)]
            print(f"{name}, {len(text)} bytes: {', '.join(f'{each:.2f}' for each in seconds)} s", flush=True)
            for prog in path.parent.glob("prog*"):
                prog.unlink()
    return 0


if __name__ == "__main__":
    sys.exit(main())
