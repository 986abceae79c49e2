"""A layer's dot products in a binary neural network: vectors of -1 and 1, kept as bits, on random NumPy data.

The product of two such vectors of n bits is twice the number of places where they are alike, less n.
"""

import pathlib

import numpy as np

import simdram

WIDTH, INPUTS, NEURONS = 31, 8, 8

dice = np.random.RandomState(7)
x, w = dice.choice([-1, 1], (INPUTS, WIDTH)), dice.choice([-1, 1], (NEURONS, WIDTH))
expected = x @ w.T

# a pair of an input and a neuron is an element: 64 of them fill one bank of rows of one word
bits = 1 << np.arange(WIDTH)
pairs = np.repeat((x > 0) @ bits, NEURONS), np.tile((w > 0) @ bits, INPUTS)
chip = simdram.Chip(banks=1, rows=256, words=1)
a, b = (chip.array(numbers, bits=WIDTH) for numbers in pairs)

alike = simdram.op(pathlib.Path("alike.ops").read_text())
for name, count in (("word operations", simdram.bitcount(~(a ^ b))), ("a block", alike(a, b))):
    products = 2 * count.numpy().astype(int).reshape(INPUTS, NEURONS) - WIDTH
    print(f"{name}: {count.cost} {'as NumPy' if (products == expected).all() else 'not as NumPy'}")
print(simdram.bitcount(~(a ^ b)).text, end="")
