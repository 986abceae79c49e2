"""The launcher: command lines, the program and how it is built, and which files may be overwritten."""
