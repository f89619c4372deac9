"""How the program takes its standard input and puts its standard output: in pieces, interrupted, up to its limits, and in calls that fail.

`show` puts the lines of a record as it ends, and `run` reads all of its input first.
"""

import os
import resource
import signal
import socket
import tempfile
import unittest

from support.pipes import ended, interrupt, run_in_pieces, run_until_reset, started, with_time_limit
from support.program import TOP, run
from support.tables import each
from support.xdr import call, fragment

# The most bytes that are looked at.
LIMIT = 16_777_216

# The most bytes of a record.
RECORD = 73_728

# A call of NULL, its record, and the lines of that.
NULL = call(b"", procedure=0)
ONE = fragment(NULL)
LINES = b"record 1 40\ncall 1 100003 4 0 0\n"

# The same in fragments of 1, 0 and 39 bytes.
PARTS = fragment(NULL[:1], last=False) + fragment(b"", last=False) + fragment(NULL[1:])

# Empty records, whose lines have no room in a connection that nobody reads.
MANY = 500
MANY_LINES = b"".join(b"record %d 0\nunread 0\n" % number for number in range(1, MANY + 1))

# How often in a row a call is tried again that a signal interrupted.
TRIES = 1_000


def example(kind):
    with open(os.path.join(TOP, "examples", f"first-copy.{kind}"), "rb") as file:
        return file.read()


def shows_one_call(test, pieces):
    test.assertEqual(run_in_pieces(["show"], pieces), (0, LINES + b"rest 0\n", b""))


class InPieces(unittest.TestCase):
    def test_the_greatest_record_a_thousand_bytes_at_a_time(self):
        stream = fragment(b"\5" * RECORD)
        pieces = [stream[at : at + 1_000] for at in range(0, len(stream), 1_000)]
        self.assertEqual(run_in_pieces(["show"], pieces), (0, b"record 1 73728\nunread 4\nrest 0\n", b""))

    def test_a_record_that_is_too_large_five_bytes_at_a_time(self):
        self.assertEqual(run_in_pieces(["show"], [bytes.fromhex("8001200109"), b"\x09\x09"])[:2], (2, b"large 73729\n"))

    def test_a_schedule_one_byte_at_a_time(self):
        schedule = example("schedule")
        pieces = [schedule[at : at + 1] for at in range(len(schedule))]
        self.assertEqual(run_in_pieces(["run"], pieces), (0, example("transcript"), b""))


class Interrupted(unittest.TestCase):
    """A read and a write are tried again, up to a thousand times in a row."""

    def read(self, times):
        ours, theirs = with_time_limit(socket.SO_RCVTIMEO)
        with ours:
            with theirs:
                program = started("show", stdin=theirs)
            interrupt(program, times)
            if program.poll() is None:
                ours.sendall(ONE)
        return ended(program)

    def written(self, times):
        """What comes of MANY records, whose lines aren't read before a write was interrupted so often."""
        ours, theirs = with_time_limit(socket.SO_SNDTIMEO)
        with tempfile.TemporaryFile() as stream:
            stream.write(MANY * fragment(b""))
            stream.seek(0)
            with theirs:
                program = started("show", stdin=stream, stdout=theirs)
        interrupt(program, times)
        came = b""
        with ours:
            while True:
                piece = ours.recv(1 << 20)
                if not piece:
                    break
                came += piece
        return ended(program).status, came

    def test_a_read_is_interrupted_once_less_than_that(self):
        self.assertEqual(self.read(TRIES - 1), (0, LINES + b"rest 0\n", b""))

    def test_a_read_is_interrupted_as_often_as_that(self):
        self.assertEqual(self.read(TRIES), (3, b"", b""))

    def test_a_write_is_interrupted_once_less_than_that(self):
        self.assertEqual(self.written(TRIES - 1), (0, MANY_LINES + b"rest 0\n"))

    def test_a_write_is_interrupted_as_often_as_that(self):
        status, came = self.written(TRIES)
        self.assertEqual(status, 4)
        self.assertTrue(MANY_LINES.startswith(came))


class Limits(unittest.TestCase):
    # Records of the greatest length, and their lines; 40,052 bytes are left up to the limit.
    FRONT = 227 * fragment(bytes(RECORD))
    SHOWN = b"".join(b"record %d 73728\ncall 0 0 0 0 0\n" % number for number in range(1, 228))

    def shows(self, behind, status, lines):
        stream = self.FRONT + behind
        self.assertEqual(run("show", text=stream), (status, self.SHOWN + lines, b""))

    def test_show_of_as_many_bytes_as_are_looked_at(self):
        self.assertEqual(len(self.FRONT) + 40_052, LIMIT)
        self.shows(bytes(40_052), 0, b"rest 40052\n")

    def test_show_of_a_byte_more(self):
        self.shows(bytes(40_053), 2, b"too much\n")

    def test_show_of_a_record_that_is_too_large_before_the_limit(self):
        self.shows(bytes(40_048) + bytes.fromhex("80012001") + bytes(RECORD), 2, b"large 73729\n")

    def test_run_of_as_many_bytes_as_are_looked_at(self):
        self.assertEqual(run("run", text=b"#" * (LIMIT - 1) + b"\n"), (0, b"end 0\n", b""))

    def test_run_of_a_byte_more(self):
        self.assertEqual(run("run", text=b"#" * LIMIT + b"\n"), (2, b"too much\n", b""))


class FailingReads(unittest.TestCase):
    def test_an_input_that_is_closed(self):
        for command in ("show", "run"):
            self.assertEqual(ended(started(command, preexec_fn=lambda: os.close(0))), (3, b"", b""), command)

    def test_an_input_that_is_a_folder(self):
        for command in ("show", "run"):
            folder = os.open(TOP, os.O_RDONLY)
            try:
                self.assertEqual(ended(started(command, stdin=folder)), (3, b"", b""), command)
            finally:
                os.close(folder)

    def test_show_of_a_connection_that_fails_behind_a_record(self):
        self.assertEqual(run_until_reset(["show"], ONE), (3, LINES, b""))

    def test_show_of_a_connection_that_fails_within_a_record(self):
        self.assertEqual(run_until_reset(["show"], ONE + ONE[:-1]), (3, LINES, b""))

    def test_run_of_a_connection_that_fails_behind_a_schedule(self):
        self.assertEqual(run_until_reset(["run"], example("schedule")), (3, b"", b""))


def puts_a_front(test, room):
    """Of lines that go into a file with so much room a front is put, and then a write fails."""
    due = LINES + b"rest 0\n"

    def limit():
        signal.signal(signal.SIGXFSZ, signal.SIG_IGN)
        resource.setrlimit(resource.RLIMIT_FSIZE, (room, room))

    with tempfile.TemporaryFile() as stream, tempfile.TemporaryFile() as file:
        stream.write(ONE)
        stream.seek(0)
        program = started("show", stdin=stream, stdout=file, preexec_fn=limit, restore_signals=False)
        status = ended(program).status
        file.seek(0)
        test.assertEqual(file.read(), due[:room])
    test.assertEqual(status, 0 if room >= len(due) else 4)


class FailingWrites(unittest.TestCase):
    def status(self, command, **how):
        with tempfile.TemporaryFile() as stream:
            stream.write(ONE if command == "show" else example("schedule"))
            stream.seek(0)
            return ended(started(command, stdin=stream, **how)).status

    def test_an_output_that_is_closed(self):
        for command in ("show", "run"):
            self.assertEqual(self.status(command, stdout=None, preexec_fn=lambda: os.close(1)), 4, command)

    def test_an_output_that_takes_nothing(self):
        for command in ("show", "run"):
            with open("/dev/full", "wb") as full:
                self.assertEqual(self.status(command, stdout=full), 4, command)

    def test_a_pipe_that_nobody_reads(self):
        for command in ("show", "run"):
            read, write = os.pipe()
            os.close(read)
            try:
                self.assertEqual(self.status(command, stdout=write), 4, command)
            finally:
                os.close(write)

    def test_an_output_that_is_read_only(self):
        for command in ("show", "run"):
            with open("/dev/null", "rb") as null:
                self.assertEqual(self.status(command, stdout=null), 4, command)


def load_tests(loader, suite, _):
    cuts = ((f"a call in three fragments, cut at {at}", [PARTS[:at], PARTS[at:]]) for at in range(len(PARTS) + 1))
    singles = ("a call in three fragments, byte by byte", [PARTS[at : at + 1] for at in range(len(PARTS))])
    suite.addTests(each(shows_one_call, [*cuts, singles]))
    rooms = range(len(LINES) + len(b"rest 0\n") + 1)
    suite.addTests(each(puts_a_front, ((f"lines into a file with room for {room} bytes", room) for room in rooms)))
    return suite
