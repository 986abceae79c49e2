"""Fewer row commands at one width: the program's search in rounds, and what is done with what it finds."""
