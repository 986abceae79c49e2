"""Queries with bits of objects: random queries beside a model on numbers, and the rules of their texts beside the program's."""

import random
import unittest

from queries_by_numbers import comparisons, found, refusal, written
from support import needs_program
from test_slices import Files

from simdram.files.image import Image
from simdram.files.image import HEAD_MAX, Table
from simdram.rules.answer import first_breach
from simdram.rules.answers import query_refusals
from simdram.rules.query_rules import read_query

WIDTHS = {"a": 8, "b": 1, "c": 128, "d": 13, "e": 4}
# words of texts that are changed at random
OTHERS = ("[", "]", ":", "[3]", "[2:5]", "[128]", "[0:129]", "[5:5]", "eq", "not", "(", ")", ",", "7", "a", "@", "x" * 17, str(2**128), "\n")


class Draw:
    """Queries and the numbers of their objects, drawn."""

    def __init__(self, seed, columns):
        self.draws = random.Random(seed)
        count = self.draws.choice((1, 5, 64, columns))
        self.objects = {}
        for name, width in WIDTHS.items():
            own = count if name != "e" else count + 1
            few = [self.draws.randrange(2**width) for _ in range(3)]
            self.objects[name] = (width, [self.draws.choice((*few, self.draws.randrange(2**width))) for _ in range(own)])

    def operand(self):
        """An object or bits of it, now and then none that there is."""
        draws = self.draws
        name = draws.choices((*WIDTHS, "z"), (8, 2, 4, 4, .1, .1))[0]
        width = WIDTHS.get(name, 8)
        if draws.random() < .3:
            return name, None, None
        past = 3 if draws.random() < .02 else 0
        low = draws.randrange(min(128, width + past))
        return name, low, draws.randint(low + 1, max(low + 1, min(128, width + past)))

    def test(self):
        name, low, high = self.operand()
        width = WIDTHS.get(name, 8) if low is None else high - low
        number = self.draws.randrange(2**width)
        if name in self.objects and self.draws.random() < .6:
            value = self.draws.choice(self.objects[name][1])
            number = value if low is None else value // 2**low % 2**width
        too_large = width < 128 and self.draws.random() < .01
        return self.draws.choice(("eq", "gt", "ge", "lt", "le")), (name, low, high), number + too_large * 2**width

    def query(self, depth=4):
        draws = self.draws
        if depth == 0 or draws.random() < .4:
            return self.test()
        word = draws.choice(("not", "and", "or"))
        return (word, *(self.query(depth - 1) for _ in range(1 if word == "not" else 2)))


def changed(draws, text):
    """A text with a word or two left out, doubled or put in its place."""
    for mark in "()[]:,":
        text = text.replace(mark, f" {mark} ")
    words = text.split(" ")
    for _ in range(draws.randrange(1, 3)):
        at = draws.randrange(len(words))
        words[at:at + 1] = draws.choice(([], [words[at]] * 2, [draws.choice(words)], [draws.choice(OTHERS)], [words[at], draws.choice(OTHERS)]))
        words = words or ["a"]
    return " ".join(words)


@needs_program
class RandomQueries(Files):
    """Random queries on random numbers, in one bank and in several."""

    def image(self, draw, banks, words):
        """An image with the objects."""
        image = Image(banks, 700, words)
        for name, (width, values) in draw.objects.items():
            image.add(name, width, len(values))
            image.put(name, values)
        image.save(str(self.folder / "image"))

    def ask(self, text):
        (self.folder / "query").write_text(text)
        return self.run_program("scan", "query", "image")[-1]

    def compare(self, seed, banks, words):
        draw = Draw(seed, banks * 64 * words - 1)
        self.image(draw, banks, words)
        table = Table.read((self.folder / "image").read_bytes()[:HEAD_MAX], "image")
        for _ in range(8):
            query = draw.query()
            text = written(query, draw.draws)
            said, why = self.ask(text), refusal(query, draw.objects)
            if why:
                self.assertEqual(said, f"query refused {why}", (seed, text))
                self.assertEqual(query_refusals("query", text.encode(), table)[0].kind, said, (seed, text))
            else:
                number, count = found(query, draw.objects)
                self.assertRegex(said, rf"^count {number} of {count} aap=\d+ ap=\d+$", (seed, text))
                self.assertLessEqual(len(comparisons(query)), 32)

    def test_one_bank(self):
        for seed in range(12):
            with self.subTest(seed=seed):
                self.compare(seed, 1, 2)

    def test_several_banks(self):
        for seed in range(100, 108):
            with self.subTest(seed=seed):
                self.compare(seed, 3, 1)

    def test_wrong_texts(self):
        """The rules in Python find the fault of each text that the program refuses, and none where it does not."""
        Image(1, 64, 1).save(str(self.folder / "image"))
        draw = Draw(7, 64)
        for _ in range(150):
            text = changed(draw.draws, written(draw.query(2), draw.draws))
            said, answer = self.ask(text), first_breach("query", text.encode(), read_query)
            if answer is None:
                self.assertTrue(said.startswith(("query refused ", "count ")), (text, said))
            else:
                self.assertEqual(said, f"query {answer.place.split(' column')[0]} {answer.kind}", text)


if __name__ == "__main__":
    unittest.main()
