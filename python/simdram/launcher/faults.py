"""What ends a tool or the launcher early, or what a file module refuses: one line, and a status."""

# a tool's status where its words or a file are wrong
WRONG = 2


class Fault(Exception):
    """What is wrong with the words or a file, as one line."""

    status = WRONG


class NoProgram(Fault):
    """There is no program to run. The status is the launcher's own."""

    status = 125


class FileFault(Fault):
    """A file that is refused: its path, the place in it, the word of the rule, and what is wrong in a sentence.

    The place is `byte 6` or `line 3`, or empty where the fault is of the whole file. The status is that of the program.
    """

    def __init__(self, path: str, place: str, word: str, what: str) -> None:
        super().__init__(": ".join(part for part in (str(path), " ".join((place, word)).strip(), what) if part))
        self.path, self.place, self.word, self.what = str(path), place, word, what


class NotWritten(FileFault):
    """A file that cannot be written."""

    status = 3


class TooLong(FileFault):
    """A file of more bytes than its kind may have."""

    status = 11
