"""Sums, differences and products as gates and states."""

from .comparisons import Comparisons

PLAIN, NEGATE, BORROW = "plain", "negate", "borrow"


class Sums(Comparisons):
    """The rules of sums; what has several spellings asks `choose`, which the search sets."""

    def negated(self, lit: int) -> int | None:
        """x where the literal is 0 - x."""
        parts = self.was_op(lit, "sub")
        return parts[1] if parts and parts[0] == 0 else None

    def negate_if(self, a: int, s: int) -> int:
        """-a where the bit s is 1, else a: bits above the lowest 1 are inverted."""
        graph = self.graph
        above = graph.state("up", 0, lambda seen: graph.gate("and", s, graph.gate("or", seen, a)))
        return graph.gate("xor", a, above)

    def do_add(self, a: int, b: int) -> int:
        """A sum, or what it comes to of a difference."""
        graph = self.graph
        for x, y in ((a, b), (b, a)):
            if self.negated(y) is not None:
                return self.do_sub(x, self.negated(y))
        for x, y in ((a, b), (b, a)):
            parts = self.was_op(x, "sub")
            if parts and parts[1] == y:
                return parts[0]
        carry = graph.state("up", 0, lambda now: graph.gate("maj", a, b, now))
        found = graph.gate("xor", graph.gate("xor", a, b), carry)
        return self.made(graph.form(found, "add", a, b), "add", a, b)

    def do_sub(self, a: int, b: int) -> int:
        """A difference, or what it comes to of a sum, of a difference, or of the greater and the lesser."""
        graph = self.graph
        if a == b:
            return 0
        pair = self.was_op(a, "max")
        if pair and pair == self.was_op(b, "min") and self.choose("apart", (PLAIN, NEGATE)) == NEGATE:
            return self.negate_if(self.do_sub(pair[1], pair[0]), self.do_gt(*pair))
        if self.negated(b) is not None:
            return self.do_add(a, self.negated(b))
        if (known := self._undone(a, b)) is not None:
            return known
        borrow = graph.state("up", 0, lambda now: graph.gate("maj", a ^ 1, b, now))
        found = graph.gate("xor", graph.gate("xor", a, b), borrow)
        return self.made(graph.form(found, "sub", a, b), "sub", a, b)

    def _undone(self, a: int, b: int) -> int | None:
        """0 - (x - y) is y - x, and (x + y) - y is x."""
        parts = self.was_op(b, "sub")
        if a == 0 and parts:
            return self.do_sub(parts[1], parts[0])
        parts = self.was_op(a, "add") or ()
        return next((one for one, other in (parts, parts[::-1]) if other == b), None) if parts else None

    def apart(self, a: int, b: int, s: int) -> int | None:
        """|p - q| of a choice between p - q and q - p by p > q."""
        graph, parts = self.graph, self.was_op(a, "sub")
        if not parts or self.was_op(b, "sub") != parts[::-1]:
            return None
        p, q = parts
        if s & 1:
            s, p, q = s ^ 1, q, p
        forms = [form for form in graph.forms.get(s, []) if form.op == "gt"]
        if not forms or forms[0].args != (p, q):
            return None
        how = self.choose("apart", (PLAIN, NEGATE, BORROW))
        if how == PLAIN:
            return None
        if how == NEGATE:
            return self.negate_if(self.do_sub(q, p), s)
        differ = graph.gate("xor", p, q)  # the borrow of the greater less the lesser
        borrow = graph.state("up", 0, lambda now: graph.gate("mux", differ, graph.gate("xor", p, s), now))
        return graph.gate("xor", differ, borrow)

    def one_carry(self, a: int, b: int, s: int) -> int | None:
        """A choice between x + y and x - y by one carry: of x, inverted where the difference is chosen, and y."""
        graph = self.graph
        for total, rest, bit in ((a, b, s), (b, a, s ^ 1)):
            parts = self.was_op(rest, "sub")
            if parts and self.was_op(total, "add") in (parts, parts[::-1]) and self.choose("sum", (PLAIN, NEGATE)) == NEGATE:
                x = graph.gate("xor", parts[0], bit ^ 1)
                carry = graph.state("up", 0, lambda now: graph.gate("maj", x, parts[1], now))
                return graph.gate("xor", graph.gate("xor", *parts), carry)
        return None

    def divide(self, a: int, b: int) -> tuple[int, int]:
        if b == 0:
            return 1, a
        return self.graph.whole("divmod", a, b), 0 if a == b else self.graph.whole("divmod", a, b, place=1)

    def do_mul(self, a: int, b: int) -> int:
        """A product, which stays whole."""
        a, b = sorted((a, b))
        if a == 0:
            return 0
        return self.do_sub(0, b) if a == 1 else self.graph.whole("mul", a, b)
