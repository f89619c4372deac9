#!/usr/bin/env python3
"""Proves a crate from nothing, by `rt check` on one processor, and tells which of its functions took the prover longest.

    tools/slow.py NAME [COUNT]

A line is seconds on the clock, and of these seconds those for the borrows (what is lent, moved and let go of), and the function; the COUNT
slowest, 20 where no number is given. The prover keeps a file for each part of a function's proof as soon as it has it, so the time between
two files is that of the part. Where another checkout on this machine keeps a proof of the same text, `rt check` begins with that, and
there is nothing to tell. The status is that of `rt check`.
"""

import collections
import os
import re
import shutil
import subprocess
import sys
import time

TOP = os.path.dirname(os.path.dirname(os.path.realpath(__file__)))

# The part of a proof that speaks of borrows.
BORROWS = "Lts"


def kept(folder):
    """The files that the prover kept, by the times at which they were written, with the names of the parts."""
    found = []
    for at, _, names in os.walk(folder):
        for name in names:
            if name.endswith(".oantt"):
                part = re.sub(r"(\.decls)?\.oantt$", "", name)
                found.append((os.stat(f"{at}/{name}").st_mtime, part))
    return sorted(found)


def main():
    if len(sys.argv) not in (2, 3):
        sys.exit(__doc__)
    name, count = sys.argv[1], int(sys.argv[2]) if len(sys.argv) == 3 else 20
    crate = f"{TOP}/crates/{name}"
    shutil.rmtree(f"{crate}/out/incremental", ignore_errors=True)
    began = time.time()
    status = subprocess.run(["rt", "check", "--jobs", "1"], cwd=crate, stdout=subprocess.DEVNULL, check=False).returncode
    whole, borrows = collections.Counter(), collections.Counter()
    last = None
    for when, part in kept(f"{crate}/out/incremental"):
        if when < began or f"Rattle-{name}" not in part:
            continue
        function, _, kind = part.partition("-proofs.")[2].rpartition(".")
        seconds = when - (last or when)
        whole[function] += seconds
        borrows[function] += seconds if kind == BORROWS else 0
        last = when
    for function, seconds in whole.most_common(count):
        print(f"{seconds:8.1f} {borrows[function]:8.1f}  {function or 'what the crate states'}")
    return status


if __name__ == "__main__":
    sys.exit(main())
