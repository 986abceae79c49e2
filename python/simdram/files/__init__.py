"""The files of simdram, read and written field by field as docs/FORMATS.md has them.

A module for each kind: `image`, `program`, `trace`, and `numbers` for lists of numbers; `decode` has the table of what
an address raises. Each reader refuses what the program refuses, with the same byte and
word, as a `FileFault`. `image_tool`, `trace_text` and `from_hex` are the commands around them.
"""
