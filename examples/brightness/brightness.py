"""An image made brighter by 40, up to 255, in three spellings: 32 by 32 pixels over the columns of four banks."""

import pathlib

import numpy as np

import simdram

MORE = 40

across, down = np.meshgrid(np.arange(32), np.arange(32))
image = (5 * across + 3 * down).astype(np.uint8)
expected = np.minimum(image.astype(int) + MORE, 255)

chip = simdram.Chip(banks=4, rows=128, words=4)
a = chip.array(image)
brighter = simdram.op(pathlib.Path("brighter.ops").read_text())
spellings = {
    "the sum where it is not too great": simdram.where(a > 255 - MORE, 255, a + MORE),
    "the sum of what has room": simdram.minimum(a, 255 - MORE) + MORE,
    "a sum that keeps its carry": brighter(a, MORE),
}
for name, z in spellings.items():
    print(f"{name}: {z.cost}: {'as NumPy' if (z.numpy() == expected).all() else 'not as NumPy'}")
    print(z.text, end="")
