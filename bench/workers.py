#!/usr/bin/env python3
"""Copies a file of 64 MiB by 1, 2, 4 and 8 workers, over a source, a destination and a client in memory. Prints the seconds
that each takes, with the ratio of one worker's to it.

What it takes to make the ends with the file is timed apart, and taken off. Each round runs all of them one after the other,
and the fastest run of each counts. The source answers one call at a time and the destination lands one answer at a time, so
no more than these two go on at once, however many workers there are.
"""

import os
import subprocess
import sys

from programs import TOP, timed

MEBIBYTES = 64
ROUNDS = 3
WORKERS = (1, 2, 4, 8)


def built():
    """Proves and builds `desk_rows`, and gives its path. One copy of one MiB is what is run of it."""
    folder = os.path.join(TOP, "crates", "desk_rows")
    done = subprocess.run(["rt", "run", "--", "bench", "1", "1"], cwd=folder, stdin=subprocess.DEVNULL, stdout=subprocess.DEVNULL,
                          stderr=subprocess.DEVNULL, check=False)
    if done.returncode != 0:
        sys.exit("the build of desk_rows failed")
    return os.path.join(folder, "out", "desk_rows")


def seconds_of(program, workers):
    """Seconds that the program takes."""
    ran = timed([program, "bench", str(workers), str(MEBIBYTES)])
    landed = MEBIBYTES * 1_048_576 if workers else 0
    if ran.printed != f"{workers} workers, {landed} bytes\n".encode():
        sys.exit(f"{workers}: {ran.printed!r}")
    return ran.seconds


def main():
    program = built()
    best = dict.fromkeys((0, *WORKERS), float("inf"))
    for _ in range(ROUNDS):
        for workers in best:
            best[workers] = min(best[workers], seconds_of(program, workers))
    taken = {workers: best[workers] - best[0] for workers in WORKERS}
    print(f"{'workers':>7} {'seconds':>8} {'ratio':>6}")
    for workers in WORKERS:
        print(f"{workers:7} {taken[workers]:8.2f} {taken[1] / taken[workers]:6.2f}")


if __name__ == "__main__":
    main()
