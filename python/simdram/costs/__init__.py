"""Costs and reports: at widths, by statement and loop, as tables and pictures."""
