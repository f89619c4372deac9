#!/usr/bin/env python3
"""Runs `gen 16` and `gen 64`, each beside hashing as many bytes as a copy has to hash with SHA-256 in this script, and prints the
times, the bytes hashed in a second, the ratio to that hashing, the peak memory, and how time and memory grow from 16 to 64 mebibytes.

Each byte is hashed four times at least: the client seals its WRITE and the source checks that, the source seals its answer to a
READ and the destination checks that. The fastest of three runs counts.

Of the time of `gen 64`, by `perf`, 55 to 60 parts of 100 are SHA-256; near 18 the kernel's, which gives and clears the pages of
that memory; 6 the allocator's, mostly for blocks of 4 KiB; 6 copies of bytes from record to record; 5 the making of
the file's bytes and the comparing of records and files. Of the memory nearly 13 MiB for each MiB are the two disks', which keep each
write since they were made beside what they hold (a volume has two homes for each block), and 3 the records', half of which are
sealed in room for the largest.
"""

import sys

from programs import NFSCOPY, nfscopy, seconds_of_hashing, timed

SIZES = (16, 64)
HASHINGS = 4
ROUNDS = 3


def summary(mebibytes):
    """What is printed of a copy of so many mebibytes."""
    numbers = (mebibytes, 42 + 64 * mebibytes, mebibytes << 20, 1, 1)
    words = ("gen", "records", "landed", "stable", "exact")
    return "".join(f"{word} {number}\n" for word, number in zip(words, numbers)) + "equal yes\n"


def fastest(words, printed):
    """The fastest of some runs, each of which prints this."""
    runs = [timed(words) for _ in range(ROUNDS)]
    for ran in runs:
        if ran.printed != printed.encode():
            sys.exit(f"{' '.join(words)}: {ran.printed!r}")
    return min(runs, key=lambda ran: ran.seconds)


def main():
    nfscopy("show")
    print(f"{'gen':>4} {'seconds':>8} {'hashed B/s':>14} {'sha2 s':>7} {'ratio':>6} {'peak KiB':>9}")
    rows = []
    for size in SIZES:
        hashed = HASHINGS * (size << 20)
        bare = min(seconds_of_hashing(size << 20, HASHINGS) for _ in range(ROUNDS))
        ran = fastest([NFSCOPY, "gen", str(size)], summary(size))
        rows.append(ran)
        print(f"{size:4} {ran.seconds:8.3f} {hashed / ran.seconds:14,.0f} {bare:7.3f} "
              f"{ran.seconds / bare:6.2f} {ran.peak_kib:9}")
    few, many = rows
    print(f"from 16 to 64: time {many.seconds / few.seconds:.2f} times, memory {many.peak_kib / few.peak_kib:.2f} times")


if __name__ == "__main__":
    main()
