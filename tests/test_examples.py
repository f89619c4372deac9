"""The schedules of examples/ print the transcripts beside them, and the recorded records show as they are said to."""

import os
import unittest

from support.program import TOP, run
from support.tables import each

EXAMPLES = os.path.join(TOP, "examples")

# The exit status that the last line of a transcript says, by its first word.
STATUSES = {b"end": 0, b"bad": 2, b"mistaken": 10}


def content(file):
    with open(os.path.join(EXAMPLES, file), "rb") as it:
        return it.read()


def names():
    """The names of the examples: each is a schedule and a transcript."""
    return sorted(name for name, kind in map(os.path.splitext, os.listdir(EXAMPLES)) if kind == ".schedule")


def prints_its_transcript(test, name):
    due = content(f"{name}.transcript")
    ended = run("run", text=content(f"{name}.schedule"))
    test.assertEqual(ended.printed.decode(), due.decode())
    test.assertEqual(ended.status, STATUSES[due.rstrip(b"\n").rpartition(b"\n")[2].split(b" ")[0]])


class Recorded(unittest.TestCase):
    def test_records_show_as_they_are_said_to(self):
        ended = run("show", text=content("recorded.records"))
        self.assertEqual(ended.printed.decode(), content("recorded.shown").decode())
        self.assertEqual(ended.status, 0)


def load_tests(loader, suite, _):
    suite.addTests(each(prints_its_transcript, ((f"examples/{name}.schedule", name) for name in names())))
    return suite
