"""Schedules by their lines: how many events a text has, which line of it is the first bad one, the limits; and whole schedules, which
print the transcripts that an independent model made of them, or that were written by hand."""

import os
import tempfile
import unittest

from support.before import telling
from support.cases import cases_of, difference
from support.program import TOP, run
from support.rows import is_met, rows_in
from support.tables import HERE, each


EXAMPLES = os.path.join(TOP, "examples")


def content(*path):
    with open(os.path.join(*path), "rb") as it:
        return it.read()


def records_of(stream):
    """The records of a stream (RFC 5531 section 11), each of one fragment."""
    at = 0
    while at < len(stream):
        mark = int.from_bytes(stream[at : at + 4], "big")
        yield stream[at + 4 : at + 4 + (mark & 0x7FFF_FFFF)]
        at += 4 + (mark & 0x7FFF_FFFF)


class Records(unittest.TestCase):
    def test_records_are_those_of_the_model_byte_for_byte(self):
        """The records of a copy of ten bytes, as an independent model made them; a dissector of another project reads them without a
        fault. None of them is printed, but all are kept until the end, each once."""
        with tempfile.TemporaryDirectory() as folder:
            path = os.path.join(folder, "memory")
            ended = run("run", text=content(EXAMPLES, "first-copy.schedule"), env=telling("end ", path))
            memory = content(path)
        self.assertEqual((ended.status, ended.printed), (0, content(EXAMPLES, "first-copy.transcript")))
        records = list(records_of(content(EXAMPLES, "recorded.records")))
        self.assertEqual(len(records), 46)
        self.assertEqual([number for number, record in enumerate(records, 1) if memory.count(record) != 1], [])


def prints_what_is_due(test, case):
    test.assertIsNone(difference(case, run("run", text=case.schedule)))


def load_tests(loader, suite, _):
    suite.addTests(each(is_met, rows_in("lines.txt")))
    cases = cases_of(content(HERE, "rows", "schedules.cases"))
    suite.addTests(each(prints_what_is_due, ((f"schedules.cases: {case.name}", case) for case in cases)))
    return suite
