"""Texts of operations that do the same for fewer row commands: `simdram simplify`, and chips with `simplify=True`."""
