"""The front for NumPy: arrays in a chip, written with operators, and computed by row commands.

`array` has what is written, `expressions` what it means, `cutting` makes ops of it, `scripting` and
`running` do them, and `chip` places and frees objects. `user_ops`, `own_programs` and `scanning` are for a designer's own
texts, programs and queries.
"""
