#!/usr/bin/env python3
"""Refuses each growth of the program's memory once, in a run of its own, over a schedule, and prints how the runs end.

    bench/refuse.py [SCHEDULE [FIRST [LAST]]]       examples/first-copy.schedule, and all of its growths, where none are named

A run ends with status 5 and a front of what is due, or as one with ample memory. One that ends otherwise is printed with the number of
its growth, and the status is 1 then. The program must be one that `rt ci` or `./nfscopy` built: a trial of `rt try` has an allocator of
its own, before which nothing can stand.
"""

import os
import subprocess
import sys
import tempfile

from programs import NFSCOPY, TOP, nfscopy

SCHEDULE = os.path.join(TOP, "examples", "first-copy.schedule")
HOOK = os.path.join(TOP, "bench", "refuse.c")
BUILT = os.path.join(TOP, "crates", "nfscopy_main", "out", "nfscopy_main")

# The exit status of want of memory.
WANT = 5


def program():
    """The program that `./nfscopy` builds and runs, without what builds it: its growths aren't the program's."""
    if os.environ.get("NFSCOPY_PROGRAM"):
        return NFSCOPY
    nfscopy("show")
    return BUILT


def run(words, text, before, **settings):
    """The status of a run over a schedule, and what it printed."""
    done = subprocess.run(words, input=text, stdout=subprocess.PIPE, stderr=subprocess.DEVNULL, timeout=60,
                          env={"LD_PRELOAD": before, **settings}, check=False)
    return done.returncode, done.stdout


def main():
    schedule = sys.argv[1] if len(sys.argv) > 1 else SCHEDULE
    with open(schedule, "rb") as file:
        text = file.read()
    words = [program(), "run"]
    with tempfile.TemporaryDirectory() as folder:
        before, count = os.path.join(folder, "refuse.so"), os.path.join(folder, "count")
        subprocess.run(["cc", "-O2", "-fPIC", "-shared", "-o", before, HOOK], check=True)
        ample = run(words, text, before, COUNT=count)
        with open(count, encoding="ascii") as told:
            growths = int(told.read())
        first, last = (int(sys.argv[at]) if len(sys.argv) > at else other for at, other in ((2, 1), (3, growths)))
        ends = {"wants memory": 0, "as with ample memory": 0, "otherwise": 0}
        for number in range(first, min(last, growths) + 1):
            status, printed = ran = run(words, text, before, REFUSE=str(number))
            if ran == ample:
                end = "as with ample memory"
            elif status == WANT and ample[1].startswith(printed):
                end = "wants memory"
            else:
                end = "otherwise"
                print(f"growth {number}: status {status}, {len(printed)} of {len(ample[1])} bytes")
            ends[end] += 1
    print(f"{growths} growths: " + ", ".join(f"{count} {end}" for end, count in ends.items()))
    sys.exit(1 if ends["otherwise"] or not ends["wants memory"] else 0)


if __name__ == "__main__":
    main()
