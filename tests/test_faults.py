"""Each read of the input, each write of the output and each call on the disk of a file fails in turn, by a library that stands before the
C library (support/failing.c)."""

import os
import subprocess
import tempfile

from support.before import Failing, failing
from support.caller import Caller, Refused
from support.program import PATIENCE, PROGRAM, TOP, Ended, run
from support.rows import is_met, rows_in
from support.servers import (
    COPY_FAILED, DISK_FAULT, KEYS, OUTPUT_FAULT, WORKED, copy, destination, make_volume, new_folder, refused_server, source,
)
from support.tables import each

SCHEDULE = os.path.join(TOP, "examples", "first-copy.schedule")
TRANSCRIPT = os.path.join(TOP, "examples", "first-copy.transcript")

# The status of a fault of the input.
READ_FAULT = 3

# So many connections have no end within a test.
MOST_AT_ONCE = 16

# NFS4ERR_IO.
IO = 5

# No run makes so many calls.
ALL_CALLS = 100

# A volume of one file of one block is made by so many calls: zeros for the block, and for the gate and one home of both cells, a sync,
# block 0, a sync. It is opened by a sync, block 0, the gate and the home of both cells, and four calls for the next boot number.
FORMATTING, OPENING = 8, 10

# A write of a part of a block reads the block and writes it; a commit is four calls, and a read of one block is one.
WRITING, READING, COMMITTING = 2, 1, 4


def content(path):
    with open(path, "rb") as file:
        return file.read()


# ---- standard input and output


def reads_fail(test, filling):
    """Each read of a schedule behind a remark of so many bytes fails. Nothing is put then, and no read follows."""
    text = b"#" * filling + b"\n" + content(SCHEDULE)
    for number in range(1, ALL_CALLS):
        ended = run("run", text=text, env=failing(f"input {number}"))
        if ended.status == 0:
            break
        test.assertEqual((number, ended), (number, Ended(READ_FAULT, b"", b"")))
    test.assertEqual(ended, Ended(0, content(TRANSCRIPT), b""))
    test.assertGreaterEqual(number, 3)


def writes_fail(test):
    """Each write of a transcript fails. A front of it was put then, each a longer one, and no write follows."""
    due, before = content(TRANSCRIPT), -1
    for number in range(1, ALL_CALLS):
        ended = run("run", text=content(SCHEDULE), env=failing(f"output {number}"))
        if ended.status == 0:
            break
        test.assertEqual((number, ended.status, ended.errors), (number, OUTPUT_FAULT, b""))
        test.assertEqual(due[: len(ended.printed)], ended.printed)
        test.assertTrue(before < len(ended.printed) < len(due))
        before = len(ended.printed)
    test.assertEqual(ended, Ended(0, due, b""))
    test.assertGreater(number, 2)


def streams_fail(test, word, given, put, status, printed):
    """A standard stream that fails without help: a folder in place of the input, a device that is full in place of the output."""
    with open(given, "rb") if os.path.isfile(given) else Folder(given) as source, open(put, "wb") as sink:
        done = subprocess.run(
            [PROGRAM, word], stdin=source, stdout=subprocess.PIPE if put == os.devnull else sink, stderr=subprocess.PIPE,
            timeout=PATIENCE, check=False
        )
    test.assertEqual((done.returncode, done.stdout or b"", done.stderr), (status, printed, b""))


class Folder:
    """A folder that is opened as a file is."""

    def __init__(self, path):
        self.path = path

    def __enter__(self):
        self.file = os.open(self.path, os.O_RDONLY)
        return self.file

    def __exit__(self, *_):
        os.close(self.file)


# ---- disks


def formatting_fails(test, number):
    """A call on the disk that is formatted fails, or the one behind the last would."""
    with tempfile.TemporaryDirectory() as folder:
        ended = run("format", "p", 1, 1, 7, folder=folder, env=failing(f"disk {number}"))
    test.assertEqual(ended, (DISK_FAULT, b"", b"") if number <= FORMATTING else (WORKED, b"formatted 9\n", b""))


def statuses(port):
    """What a client's WRITE, COMMIT and READ are answered by, and the bytes that were read."""
    came, data = [], None
    caller = Caller(port, "user", KEYS["user"])
    caller.join(b"test")
    opened = caller.open(1)
    for ask in (lambda: caller.write(opened, 0, b"0123456789"), lambda: caller.commit(opened), lambda: caller.read(opened, 0, 10)):
        try:
            data = ask()
            came.append(WORKED)
        except Refused as why:
            came.append(why.args[1])
    caller.socket.close()
    return came, data


def serving_fails(test, number):
    """A call on the disk of a source fails: it isn't served where that is one of those that open the volume; else the client learns of
    it by the call that meets it, and the server serves on to its end."""
    with new_folder() as folder:
        make_volume(folder, "source", blocks=1)
        fault = Failing(folder, f"disk {number}")
        if number <= OPENING:
            test.assertEqual(refused_server(folder, "serve-source", "source", env=fault.env), (DISK_FAULT, b"", b""))
            return
        with source(folder, 1, failing=fault) as server:
            came, data = statuses(server.port)
            server.end()
    met = number - OPENING
    if met <= WRITING:
        test.assertEqual(came[0], IO)
    elif met <= WRITING + COMMITTING:
        test.assertEqual(came[:2], [WORKED, IO])
    elif met <= WRITING + COMMITTING + READING:
        test.assertEqual(came, [WORKED, WORKED, IO])
    else:
        test.assertEqual((came, data), ([WORKED] * 3, b"0123456789"))


def landing_fails(test, number):
    """A call on the disk of a destination fails: it isn't served where that is one of those that open the volume; else the copy fails
    where one is met that lands a chunk or commits it."""
    with new_folder() as folder:
        for name in ("source", "dest"):
            make_volume(folder, name, blocks=1)
        fault = Failing(folder, f"disk {number}")
        with source(folder, MOST_AT_ONCE) as of:
            test.assertEqual(statuses(of.port), ([WORKED] * 3, b"0123456789"))
            if number <= OPENING:
                ended = refused_server(folder, "serve-dest", "dest", 1, 1, of.port, env=fault.env)
                test.assertEqual(ended, (DISK_FAULT, b"", b""))
                return
            with destination(folder, 1, 1, of.port, failing=fault) as to:
                ended = copy(folder, of.port, to.port, "1 0 1 0 10 c")
                to.end()
    if number <= OPENING + WRITING + COMMITTING:
        test.assertEqual(ended, (COPY_FAILED, b"failed %d\n" % IO, b""))
    else:
        test.assertEqual(ended, (WORKED, b"stable\nexact\n", b""))


def disks():
    yield from ((f"format: call {number} fails", formatting_fails, number) for number in range(1, FORMATTING + 2))
    made = OPENING + WRITING + COMMITTING
    yield from ((f"serve-source: call {number} fails", serving_fails, number) for number in range(1, made + READING + 2))
    yield from ((f"serve-dest: call {number} fails", landing_fails, number) for number in range(1, made + 2))


def load_tests(loader, suite, _):
    suite.addTests(each(is_met, rows_in("faults.txt")))
    suite.addTests(each(reads_fail, ((f"reads behind {filling} bytes fail", filling) for filling in (0, 5_000, 20_000))))
    suite.addTests(each(writes_fail, [("writes of a transcript fail",)]))
    full = os.path.join(os.sep, "dev", "full")
    recorded = os.path.join(TOP, "examples", "recorded.records")
    for word, text in (("run", SCHEDULE), ("show", recorded)):
        suite.addTests(
            each(
                streams_fail,
                [
                    (f"{word}: the input is a folder", word, TOP, os.devnull, READ_FAULT, b""),
                    (f"{word}: the output is full", word, text, full, OUTPUT_FAULT, b""),
                ],
            )
        )
    for name, check, number in disks():
        suite.addTests(each(check, [(name, number)]))
    return suite
