#!/usr/bin/env python3
"""Copies between two servers on ports of this machine, `serve-source` and `serve-dest`, over volumes on real files, with the command
`copy`.

A file is written at the source by a client that shares no code with it (tests/support/caller.py), and copied with 1, 2, 4 and 8
workers: the seconds, the bytes a second and the ratio to hashing the bytes twice with SHA-256 are printed, since each byte is hashed by
the source and by the destination; beside that `rsync` over loopback, where it is installed. The bytes are read back and compared. Then
the destination is killed in the middle of copies, again and again, and opened anew: where a copy had been reported as stable, its bytes
are there, and else each byte is the old one or the new one. What isn't as it should be ends the script.

    bench/copy.py [MEBIBYTES [KILLS]]
"""

import os
import random
import shutil
import subprocess
import sys
import tempfile
import threading
import time

from programs import seconds_of_hashing
from servers import PIECE, check, ended, format_volume, joined, kill, listens, run, server, write_realm

SOURCE_PORT, DEST_PORT, RSYNC_PORT = 24_051, 24_052, 24_053
MEBIBYTES = int(sys.argv[1]) if len(sys.argv) > 1 else 64
KILLS = int(sys.argv[2]) if len(sys.argv) > 2 else 100
PART = 16 * PIECE


def written(port, owner, offset, data):
    """Writes and commits bytes to file 1 of a server."""
    caller = joined(port, owner)
    opened = caller.open(1)
    for at in range(0, len(data), PIECE):
        caller.write(opened, offset + at, data[at : at + PIECE])
    caller.commit(opened)
    caller.close(opened)
    caller.leave()


def read_back(folder, volume, offset, count):
    """The bytes of file 1 of a volume, which is served for it. Past the file's end they are 0."""
    child = server(folder, "serve-source", volume, DEST_PORT, 1)
    caller = joined(DEST_PORT, b"reader")
    opened = caller.open(1)
    parts = (caller.read(opened, at, PIECE).ljust(PIECE, b"\0") for at in range(offset, offset + count, PIECE))
    data = b"".join(parts)[:count]
    caller.close(opened)
    caller.leave()
    ended(child)
    return data


def copied(folder, offset, count, order="n"):
    """What `copy` printed, its status, and the seconds it took."""
    begun = time.monotonic()
    done = run(folder, "copy", SOURCE_PORT, DEST_PORT, 1, offset, 1, offset, count, order)
    return done.stdout.decode().split("\n")[:-1], done.returncode, time.monotonic() - begun


def seconds_by_rsync(folder, data):
    """Seconds that rsync takes over loopback, or None where it isn't installed."""
    if not shutil.which("rsync"):
        return None
    os.mkdir(os.path.join(folder, "from"))
    os.mkdir(os.path.join(folder, "to"))
    with open(os.path.join(folder, "from", "file"), "wb") as file:
        file.write(data)
    conf = os.path.join(folder, "rsyncd.conf")
    with open(conf, "w", encoding="utf-8") as file:
        file.write(f"use chroot = no\n[to]\npath = {folder}/to\nread only = no\nuid = {os.getuid()}\ngid = {os.getgid()}\n")
    daemon = subprocess.Popen(["rsync", "--daemon", "--no-detach", "--address=127.0.0.1", f"--port={RSYNC_PORT}", f"--config={conf}"],
                              stdin=subprocess.DEVNULL, stdout=subprocess.DEVNULL, stderr=subprocess.DEVNULL)
    try:
        while not listens(RSYNC_PORT):
            time.sleep(0.01)
        begun = time.monotonic()
        subprocess.run(["rsync", "--whole-file", "--fsync", f"{folder}/from/file", f"rsync://127.0.0.1:{RSYNC_PORT}/to/file"], check=True,
                       stdin=subprocess.DEVNULL)
        return time.monotonic() - begun
    finally:
        daemon.terminate()
        daemon.wait()


def tell(name, seconds, size, hashing):
    print(f"{name:>10} {seconds:8.2f} s {size / seconds:15,.0f} B/s {seconds / hashing:7.1f} times hashing twice")


def timed_copies(folder, data):
    size = len(data)
    hashing = seconds_of_hashing(size, 2)
    tell("hashing", hashing, size, hashing)
    seconds = seconds_by_rsync(folder, data)
    if seconds is None:
        print("     rsync isn't installed")
    else:
        tell("rsync", seconds, size, hashing)
    for workers in (1, 2, 4, 8):
        format_volume(folder, "dest", MEBIBYTES, 9)
        source = server(folder, "serve-source", "source", SOURCE_PORT, workers + 1)
        dest = server(folder, "serve-dest", "dest", DEST_PORT, 1, workers, SOURCE_PORT)
        lines, status, seconds = copied(folder, 0, size)
        check((lines, status) == (["stable", "exact"], 0), f"copy with {workers} workers: {lines} {status}")
        ended(dest)
        ended(source)
        check(read_back(folder, "dest", 0, size) == data, f"other bytes than the source's, with {workers} workers")
        tell(f"{workers} worker{'s' * (workers > 1)}", seconds, size, hashing)


def killed(folder, size):
    """The destination is killed in the middle of copies, or shortly behind them: at moments up to one and a half times what the first copy
    takes, which isn't killed."""
    dice = random.Random(2)
    stable = 0
    whole = None
    for round_ in range(KILLS + 1):
        offset = PART * dice.randrange(size // PART)
        old = read_back(folder, "dest", offset, PART)
        new = dice.randbytes(PART)
        source = server(folder, "serve-source", "source", SOURCE_PORT, 1_000)
        written(SOURCE_PORT, b"writer", offset, new)
        dest = server(folder, "serve-dest", "dest", DEST_PORT, 1_000, dice.choice((1, 2, 4)), SOURCE_PORT)
        timer = threading.Timer(dice.uniform(0, 1.5) * (whole or 0), lambda: kill(dest))
        if whole is not None:
            timer.start()
        lines, status, seconds = copied(folder, offset, PART)
        if whole is not None:
            timer.join()
        whole = whole or seconds
        kill(dest)
        kill(source)
        found = read_back(folder, "dest", offset, PART)
        if "stable" in lines:
            stable += round_ > 0
            check(found == new, f"round {round_}: a copy was reported stable, and its bytes aren't there")
        else:
            check(status in (8, 9), f"round {round_}: {lines} {status}")
            check(all(b in (o, n) for b, o, n in zip(found, old, new)), f"round {round_}: a byte that is neither the old one nor the new one")
    print(f"killed in the middle of {KILLS} copies: {stable} had been reported stable, and their bytes were there")


def main():
    size = MEBIBYTES << 20
    data = random.Random(1).randbytes(size)
    with tempfile.TemporaryDirectory() as folder:
        write_realm(folder)
        format_volume(folder, "source", MEBIBYTES, 7)
        source = server(folder, "serve-source", "source", SOURCE_PORT, 1)
        written(SOURCE_PORT, b"writer", 0, data)
        ended(source)
        timed_copies(folder, data)
        killed(folder, size)


if __name__ == "__main__":
    main()
