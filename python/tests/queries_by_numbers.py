"""What queries come to, with operands that are bits of an object: on lists of numbers, with nothing of the package used.

A query is a tuple: (word, operand, number) of a comparison, (word, query, ..) of a join. An operand is (name, low, high), where low
and high are None of a whole object.
"""

HOLDS = {
    "eq": lambda a, v: a == v, "gt": lambda a, v: a > v, "ge": lambda a, v: a >= v, "lt": lambda a, v: a < v, "le": lambda a, v: a <= v,
}


def written(query, draws):
    """A query as a text may have it, with blanks and leading zeros."""
    word, *rest = query
    blank = draws.choice(("", "", " ", "\n"))
    if word not in HOLDS:
        return f"{word}{blank}({', '.join(written(one, draws) for one in rest)})"
    (name, low, high), number = rest
    if low is None:
        return f"{word}({name}{blank}, {number})"
    zeros = draws.choice(("", "", "0", "00"))
    if high == low + 1 and draws.random() < .7:
        return f"{word}({name}{blank}[{zeros}{low}], {number})"
    return f"{word}({name}[{blank}{low}:{zeros}{high}]{blank}, {number})"


def comparisons(query):
    """The comparisons of a query, in the order of its text."""
    word, *rest = query
    return [query] if word in HOLDS else [test for one in rest for test in comparisons(one)]


def refusal(query, objects):
    """The first comparison that the objects do not fit, and why, or None. Objects are widths and numbers, by their names."""
    tests = comparisons(query)
    for k, (_, (name, low, high), number) in enumerate(tests):
        if name not in objects:
            return f"no_object {k}"
        width, values = objects[name]
        if high is not None and high > width:
            return f"slice {k}"
        if len(values) != len(objects[tests[0][1][0]][1]):
            return f"count {k}"
        if number >= 2**(width if low is None else high - low):
            return f"range {k}"
    return None


def holds(query, objects, element):
    """Whether a query holds of an element."""
    word, *rest = query
    if word == "not":
        return not holds(rest[0], objects, element)
    if word in ("and", "or"):
        return (all if word == "and" else any)(holds(one, objects, element) for one in rest)
    (name, low, high), number = rest
    value = objects[name][1][element]
    return HOLDS[word](value if low is None else value // 2**low % 2**(high - low), number)


def found(query, objects):
    """How many elements a query holds of, and of how many."""
    count = len(objects[comparisons(query)[0][1][0]][1])
    return sum(holds(query, objects, element) for element in range(count)), count
