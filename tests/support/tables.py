"""Tables of cases, each of which is a test of its own."""

import os
import unittest

HERE = os.path.dirname(os.path.dirname(os.path.realpath(__file__)))


class Row(unittest.TestCase):
    """A case of a table: what is checked, and of what."""

    def __init__(self, name, check, *given):
        super().__init__()
        self.name, self.check, self.given = name, check, given
        self.maxDiff = 4_000

    def runTest(self):
        self.check(self, *self.given)

    def id(self):
        return self.name

    __str__ = shortDescription = id


def each(check, cases):
    """A test for each case, which is its name and what `check` takes behind the test itself."""
    return unittest.TestSuite(Row(name, check, *given) for name, *given in cases)


def rows_of(file):
    """The lines of a file of rows/ but for empty ones and remarks, each with its place."""
    with open(os.path.join(HERE, "rows", file), encoding="utf-8") as text:
        for number, line in enumerate(text, 1):
            line = line.rstrip("\n")
            if line and not line.startswith("#"):
                yield f"{file}:{number}", line


def bytes_of(words):
    """The bytes of some words one after the other: each is hex, or hex, a `*` and how often it stands there; `-` is none."""
    joined = b""
    for word in words:
        if word != "-":
            content, _, times = word.partition("*")
            joined += bytes.fromhex(content) * int(times or 1)
    return joined
