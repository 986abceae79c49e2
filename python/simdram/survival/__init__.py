"""Cells that flip: draws of them, and how often a guarded script stays right."""
