#!/usr/bin/env python3
"""Serves a volume on a real file with `serve-source`, on a port of this machine, and calls it with a client that shares no code with it
(tests/support/caller.py).

In turn: a file of 16 MiB is written, committed and read back, and of each are printed the ratio to hashing as many bytes and that to
writing and syncing as many in a file, or reading them there, all in this script; fifteen
connections bring random bytes for some seconds beside one that reads; sixteen do alone, until the server has had all the connections
that it was asked for, and ends; and the server is killed in the middle of writes, again and again, opened anew, and
what it had answered as committed is read back. What isn't as it should be ends the script.
"""

import os
import random
import socket
import sys
import tempfile
import threading
import time

from programs import seconds_of, seconds_of_hashing
from servers import PIECE, Ended, check, ended, format_volume, joined, kill, server, write_realm

PORT = 24_049
MEBIBYTES = 16
BLOCK = 4_096
NOISE_SECONDS = float(sys.argv[1]) if len(sys.argv) > 1 else 5
KILLS = int(sys.argv[2]) if len(sys.argv) > 2 else 10
CROWD = 5_000


def served(folder, conns):
    """A server of this many connections."""
    return server(folder, "serve-source", "volume", PORT, conns)


def called(owner):
    return joined(PORT, owner)


def written_bare(file, data):
    """Writes bytes to a file in blocks, each to every second place, since a volume has two homes for each, and syncs it."""
    for at in range(0, len(data), BLOCK):
        os.pwrite(file.fileno(), data[at : at + BLOCK], 2 * at)
    os.fsync(file.fileno())


def read_bare(file, size):
    """Reads so many bytes of such a file."""
    for at in range(0, size, BLOCK):
        os.pread(file.fileno(), BLOCK, 2 * at)


def written_and_read(folder):
    """A whole file is written, committed and read back."""
    data = random.Random(1).randbytes(MEBIBYTES << 20)
    child = served(folder, 1)
    caller = called(b"writer")
    opened = caller.open(1)

    def write():
        for at in range(0, len(data), PIECE):
            caller.write(opened, at, data[at : at + PIECE])
        caller.commit(opened)

    def read():
        for at in range(0, len(data), PIECE):
            check(caller.read(opened, at, PIECE) == data[at : at + PIECE], f"other bytes at {at}")

    hashing = seconds_of_hashing(len(data))
    with tempfile.TemporaryFile(buffering=0) as bare:
        written = seconds_of(lambda: written_bare(bare, data))
        found = seconds_of(lambda: read_bare(bare, len(data)))
    for name, work, base in (("written and committed", write, written), ("read back", read, found)):
        seconds = seconds_of(work)
        print(f"{MEBIBYTES} MiB {name}: {seconds:.2f} s, {seconds / hashing:.1f} times hashing them, {seconds / base:.1f} times a bare file")
    caller.close(opened)
    caller.leave()
    ended(child)


def noise(port, stop, seed):
    """Random bytes, as a record or as none, on one connection, until a moment."""
    dice = random.Random(seed)
    try:
        with socket.create_connection(("127.0.0.1", port), 30) as link:
            link.settimeout(1)
            while time.monotonic() < stop:
                part = dice.randbytes(dice.randrange(1, 5_000))
                if dice.random() < 0.9:
                    part = (0x8000_0000 | len(part)).to_bytes(4, "big") + part
                link.sendall(part)
                if dice.random() < 0.1:
                    link.recv(4_096)
    except (TimeoutError, ConnectionError):
        pass


def noisy(folder):
    """Sixteen connections at once bring random bytes. Each that the server hangs up is followed by another."""
    child = served(folder, 1_000_000)
    first = called(b"first")
    stop = time.monotonic() + NOISE_SECONDS
    made = [0]

    def one(number):
        while time.monotonic() < stop:
            made[0] += 1
            noise(PORT, min(stop, time.monotonic() + NOISE_SECONDS / 8), 1_000 * number + made[0])

    threads = [threading.Thread(target=one, args=(number,)) for number in range(15)]
    for thread in threads:
        thread.start()
    opened = first.open(1)
    kept = first.read(opened, 0, PIECE)
    while time.monotonic() < stop:
        check(first.read(opened, 0, PIECE) == kept, "other bytes beside noise")
    first.close(opened)
    first.leave()
    for thread in threads:
        thread.join()
    check(child.poll() is None, f"the server ended with {child.returncode}")
    last = called(b"last")
    opened = last.open(1)
    check(last.read(opened, 0, PIECE) == kept, "other bytes after noise")
    kill(child)
    print(f"{made[0]} connections of random bytes in {NOISE_SECONDS:.0f} s, beside one that reads: it reads the same, and so does a later one")


def crowd(stop):
    """Sixteen connections at once bring random bytes until a moment. How many there were."""
    made = [0] * 16

    def one(number):
        while time.monotonic() < stop:
            made[number] += 1
            noise(PORT, min(stop, time.monotonic() + NOISE_SECONDS / 20), 1_000_000 * number + made[number])

    threads = [threading.Thread(target=one, args=(number,)) for number in range(16)]
    for thread in threads:
        thread.start()
    for thread in threads:
        thread.join()
    return sum(made)


def use_up(child):
    """Connections that bring nothing, until the server has had as many as it was asked for."""
    count = 0
    while child.poll() is None:
        try:
            socket.create_connection(("127.0.0.1", PORT), 30).close()
            count += 1
        except ConnectionError:
            time.sleep(0.001)
    return count


def crowded(folder):
    """Sixteen connections at once bring random bytes, and then the others nothing. The server ends by itself, and its file opens again."""
    child = served(folder, CROWD)
    time.sleep(0.5)
    made = crowd(time.monotonic() + NOISE_SECONDS)
    check(child.poll() is None, f"the server ended with {child.returncode}")
    more = use_up(child)
    ended(child)
    child = served(folder, 1)
    last = called(b"after the crowd")
    opened = last.open(1)
    last.read(opened, 0, PIECE)
    last.close(opened)
    last.leave()
    ended(child)
    print(f"{made} connections of random bytes in {NOISE_SECONDS:.0f} s, sixteen at once, and {more} of nothing: status 0, and the file opens again")


def killed(folder):
    """The server is killed between a client's writes. What it had answered as committed is there when it is opened again."""
    known = bytearray(PIECE)
    format_volume(folder, "volume", 1, 7)
    commits = 0
    for round_ in range(KILLS):
        child = served(folder, 1)
        caller = called(b"killer %d" % round_)
        opened = caller.open(1)
        read = caller.read(opened, 0, PIECE)
        check(read[: len(known)].ljust(PIECE, b"\0") == bytes(known), f"round {round_}: other bytes than were committed")
        timer = threading.Timer(random.Random(round_).uniform(0.05, 0.4), lambda: kill(child))
        timer.start()
        maybe = None
        try:
            while True:
                maybe = bytearray(known)
                at, byte = random.randrange(PIECE - 4_096), random.randrange(256)
                maybe[at : at + 4_096] = bytes([byte]) * 4_096
                caller.write(opened, at, maybe[at : at + 4_096])
                caller.commit(opened)
                known, commits = maybe, commits + 1
        except (Ended, ConnectionError, OSError):
            pass
        timer.join()
        # A commit that wasn't answered may have been made or not.
        child = served(folder, 1)
        caller = called(b"after %d" % round_)
        opened = caller.open(1)
        read = caller.read(opened, 0, PIECE).ljust(PIECE, b"\0")
        check(read in (bytes(known), bytes(maybe)), f"round {round_}: neither what was committed nor what was being committed")
        known = bytearray(read)
        caller.close(opened)
        caller.leave()
        ended(child)
    print(f"killed {KILLS} times in the middle of {commits} commits: each time the committed bytes were there")


def main():
    with tempfile.TemporaryDirectory() as folder:
        write_realm(folder)
        format_volume(folder, "volume", MEBIBYTES, 7)
        written_and_read(folder)
        noisy(folder)
        crowded(folder)
        killed(folder)


if __name__ == "__main__":
    main()
