"""The words of the program: each command at the bounds of its numbers and past them, words that are none, and what `show` reads."""

import subprocess
import tempfile

from support.program import PATIENCE, PROGRAM
from support.rows import is_met, rows_in
from support.tables import each

# Words that no command has, an empty one among them.
NO_COMMANDS = (
    (),
    ("",),
    ("run", "x"),
    ("run", "run"),
    ("run", ""),
    ("", "run"),
    ("run ",),
    ("-run",),
    ("Run",),
    ("ru",),
    ("runs",),
    ("gen", ""),
    ("gen", "65"),
    ("gen", "1", "1"),
    ("1", "gen"),
    ("show", "x"),
    ("shows",),
    ("format", "p", "1", "1"),
    ("format", "-p", "1", "1", "1"),
    ("serve-source",),
    ("serve-source", "p", "1"),
    ("serve-source", "-p", "1", "1"),
    ("serve-source", "p", "0", "1"),
    ("serve-source", "p", "1", "0"),
    ("serve-dest",),
    ("serve-dest", "p", "1", "1", "1"),
    ("serve-dest", "-p", "1", "1", "1", "1"),
    ("serve-dest", "p", "1", "1", "0", "1"),
    ("serve-dest", "p", "1", "1", "1", "0"),
    ("copy",),
    ("copy", "2049", "2050", "1", "0", "1", "0", "10"),
    ("copy", "0", "2050", "1", "0", "1", "0", "10", "c"),
    ("copy", "2049", "2050", "1", "0", "1", "0", "10", "x"),
    ("copy", "2049", "2050", "1", "0", "1", "0", "-10", "c"),
)

SCHEDULE = b"volume s 1 1\nvolume d 1 1\nwrite s 1 0 30\nflow 12\n"


def reads_nothing(test, words):
    """The words are refused before anything of the input is read."""
    with tempfile.TemporaryFile() as given:
        given.write(SCHEDULE)
        given.seek(0)
        done = subprocess.run([PROGRAM, *words], stdin=given, capture_output=True, timeout=PATIENCE, check=False)
        test.assertEqual((done.returncode, done.stdout, done.stderr), (1, b"usage\n", b""))
        test.assertEqual(given.tell(), 0)


def load_tests(loader, suite, _):
    suite.addTests(each(is_met, rows_in("commands.txt")))
    suite.addTests(each(is_met, rows_in("streams.txt")))
    suite.addTests(each(reads_nothing, ((f"words {words}", words) for words in NO_COMMANDS)))
    return suite
