"""Copies between a source and a destination that are served on ports of this machine, each a process of its own: the bytes are there in
the destination's file when it is opened anew, and both servers end with status 0."""

import contextlib
import os
import signal
import subprocess
import tempfile
import unittest

from support.program import PATIENCE, PROGRAM, TOP, Ended
from support.proxy import CLOSED, TO_CLIENT, Meeting, Proxy, Rule, held
from support.servers import (COPY_FAILED, NET_FAULT, WORKED, content, copy, destination, file_of, free_port, get, joined, make_volume,
                             new_folder, source)
from support.tables import each

EXACT = Ended(WORKED, b"stable\nexact\n", b"")

# An answer with more bytes than these is that to a READ of a whole chunk.
CHUNK = 65_536

# How many bytes a file has room for, and how many a file has of which a part is copied.
ROOM = 131_072
PART = 100_000


def copies_are_exact(test, copies, workers, size, letter):
    """So many copies of a whole file, one after the other."""
    data = content(size)
    with new_folder() as folder:
        make_volume(folder, "source", tag=1, data=data)
        make_volume(folder, "dest", tag=2)
        with source(folder, copies + workers) as of, destination(folder, copies, workers, of.port) as to:
            for _ in range(copies):
                test.assertEqual(copy(folder, of.port, to.port, f"1 0 1 0 {size} {letter}"), EXACT)
            to.end()
            of.end()
        test.assertEqual(file_of(folder, "dest", size), data)


def copies_a_part(test, words, old):
    """A copy of a part of a file, into a file that has so many bytes of its own. All others stay as they are."""
    data = content(PART)
    found = bytearray((b"\xA5" * old).ljust(ROOM, b"\0"))
    _, from_, _, to_, count, _ = words.split()
    part = data[int(from_) : int(from_) + int(count) if int(count) else PART]
    found[int(to_) : int(to_) + len(part)] = part
    with new_folder() as folder:
        make_volume(folder, "source", tag=1, data=data)
        make_volume(folder, "dest", tag=2, data=b"\xA5" * old)
        with source(folder, 2) as of, destination(folder, 1, 1, of.port) as to:
            test.assertEqual(copy(folder, of.port, to.port, words), EXACT)
            to.end()
            of.end()
        test.assertEqual(file_of(folder, "dest", ROOM), bytes(found))


def both_fetch_at_once(test, workers, size, letter):
    """The first answer to a READ waits, at each worker's link, until there is one at each: workers that run one after the other find that
    they wait in vain."""
    data = content(size)
    meeting = Meeting(workers)
    with new_folder() as folder:
        make_volume(folder, "source", tag=1, data=data)
        make_volume(folder, "dest", tag=2)
        with source(folder, 1 + workers) as of, Proxy(of.port, *first_chunks(workers, meeting)) as proxy:
            with destination(folder, 1, workers, proxy.port) as to:
                test.assertEqual(copy(folder, of.port, to.port, f"1 0 1 0 {size} {letter}"), EXACT)
                to.end()
                of.end()
        test.assertEqual(proxy.missed, [])
        test.assertTrue(meeting.met.is_set())
        test.assertEqual(file_of(folder, "dest", size), data)


def first_chunks(links, gate):
    """Holds the first answer to a READ of a chunk at each link."""
    held_at = set()

    def first(passage):
        if passage.link in held_at or len(passage.record) <= CHUNK:
            return False
        held_at.add(passage.link)
        return True
    return [Rule(TO_CLIENT, first, held(gate), link + 1) for link in range(links)]


class Killed(unittest.TestCase):
    """A server is killed."""

    def setUp(self):
        holder = new_folder()
        self.folder = holder.__enter__()
        self.addCleanup(holder.__exit__, None, None, None)
        self.old, self.new = b"\xA5" * ROOM, content(ROOM)
        make_volume(self.folder, "source", tag=1, data=self.new)
        make_volume(self.folder, "dest", tag=2, data=self.old)

    def test_the_destination_behind_a_report(self):
        """A copy that was reported stable is there."""
        with source(self.folder, 2) as of, destination(self.folder, 2, 1, of.port) as to:
            self.assertEqual(copy(self.folder, of.port, to.port, f"1 0 1 0 {ROOM} n"), EXACT)
            self.assertEqual(to.kill(), -signal.SIGKILL)
            of.end()
        self.assertEqual(file_of(self.folder, "dest", ROOM), self.new)

    def test_the_destination_within_a_copy(self):
        """The first chunk has landed, and the second one never comes: nothing of the copy is there."""
        with source(self.folder, 2) as of, Proxy(of.port, second_chunk(lambda _: to.kill() and [])) as proxy:
            with destination(self.folder, 2, 1, proxy.port) as to:
                ended = copy(self.folder, of.port, to.port, f"1 0 1 0 {ROOM} c")
                # A link that is killed is reset where something was still under way on it.
                self.assertIn(ended, [Ended(COPY_FAILED, b"failed 10052\n", b""), Ended(NET_FAULT, b"", b"")])
                self.assertEqual(to.kill(), -signal.SIGKILL)
        self.assertEqual(file_of(self.folder, "dest", ROOM), self.old)

    def test_the_source_within_a_copy(self):
        """The destination tells that the copy failed, since its partner is gone, and goes on."""
        with source(self.folder, 2) as of, Proxy(of.port, second_chunk(lambda _: of.kill() and [CLOSED])) as proxy:
            with destination(self.folder, 2, 1, proxy.port) as to:
                ended = copy(self.folder, of.port, to.port, f"1 0 1 0 {ROOM} c")
                self.assertEqual(ended, Ended(COPY_FAILED, b"failed 10088\n", b""))
                with joined(to.port) as caller:
                    self.assertEqual(len(get(caller, ROOM)), ROOM)
                to.end()
        self.assertEqual(file_of(self.folder, "dest", ROOM), self.old)


def second_chunk(act):
    """What becomes of the second answer to a READ of a chunk."""
    chunks = []

    def second(passage):
        if len(passage.record) > CHUNK:
            chunks.append(passage)
        return len(passage.record) > CHUNK and len(chunks) == 2
    return Rule(TO_CLIENT, second, act)


class Loopback(unittest.TestCase):
    def test_the_example(self):
        """The commands of examples/loopback.sh, at ports that are free: the copy is exact, and the script compares the bytes."""
        with tempfile.TemporaryDirectory() as top:
            os.mkdir(os.path.join(top, "examples"))
            for folder in ("bench", "tests"):
                os.symlink(os.path.join(TOP, folder), os.path.join(top, folder))
            os.symlink(PROGRAM, os.path.join(top, "nfscopy"))
            script = os.path.join(top, "examples", "loopback.sh")
            with open(os.path.join(TOP, "examples", "loopback.sh"), encoding="utf-8") as given:
                text = given.read()
            for port in ("24051", "24052"):
                self.assertIn(port, text)
                text = text.replace(port, str(free_port()))
            with open(script, "w", encoding="utf-8") as taken:
                taken.write(text)
            printed = self.run_to_its_end(script)
        self.assertEqual(printed.decode(), "formatted 519\nformatted 519\nstable\nexact\nthe destination has the source's bytes\n")

    def run_to_its_end(self, script):
        child = subprocess.Popen(["sh", script], stdin=subprocess.DEVNULL, stdout=subprocess.PIPE, stderr=subprocess.PIPE,
                                 start_new_session=True)
        try:
            printed, errors = child.communicate(timeout=PATIENCE)
        finally:
            # Its servers are of its session, and go on where it fails.
            with contextlib.suppress(ProcessLookupError):
                os.killpg(child.pid, signal.SIGKILL)
            child.communicate()
        self.assertEqual((child.returncode, errors), (0, b""))
        return printed


def load_tests(loader, suite, _):
    rows = [
        # Copies, workers, bytes, and whether they land in their order.
        (1, 1, 10, "c"), (40, 2, 10, "c"), (40, 1, 10, "n"), (1, 8, 131_072, "n"), (1, 4, 131_072, "c"), (1, 2, 131_072, "n"),
    ]
    suite.addTests(each(copies_are_exact, ((f"copies {copies}, workers {workers}, bytes {size}, {letter}", copies, workers, size, letter)
                                           for copies, workers, size, letter in rows)))
    suite.addTests(each(copies_a_part, ((f"copy {words}, into {old} bytes", words, old) for words, old in (
        ("1 5000 1 70000 20000 c", 0), ("1 0 1 0 100000 n", ROOM), ("1 4095 1 4097 4098 n", 10_000), ("1 99999 1 131071 1 c", 131_071),
        ("1 30000 1 0 0 n", 50_000), ("1 100000 1 3 0 c", 10),
    ))))
    suite.addTests(each(both_fetch_at_once, (
        ("two workers fetch at once", 2, 131_072, "n"),
        ("two workers fetch at once, in their order", 2, 131_072, "c"),
    )))
    return suite
