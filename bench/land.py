#!/usr/bin/env python3
"""Lands a copy of 64 MiB in chunks of 64 KiB, and prints what a chunk takes beside hashing its bytes twice with SHA-256 in this
script, since the source seals its answer to a READ and the destination checks that.

The whole of a chunk is a READ that the source answers, and its answer that the destination takes and lands on a volume in
memory, with what the runner keeps of a record: the difference of two runs of the program, of which one makes no copy. All runs
alternate, and the fastest of each counts.

Where a whole copy's time goes, by a sampling profiler (`perf record` of the run that copies): about half is
SHA-256, the source's code and the destination's check of it, and about a third the kernel's, which gives pages that are touched for
the first time. A chunk touches 65 of them, four times its size: the list of records keeps it for the check of seals, the disk in
memory keeps it as blocks, and the buffers of the call and its answer go back to the kernel after each step, since the C library trims
its heap. A tenth is the allocator's, a twentieth goes into moving bytes, and a twentieth is all other code of the three machines, the
volume and the runner. So of what the destination takes beside its hash, the most is memory that the runner and the disk in memory
keep, and no call of the destination's own.
"""

from programs import nfscopy, seconds_of_hashing, timed_over

CHUNK = 65_536
CHUNKS = 1024
HASHINGS = 2
ROUNDS = 5

# A file of 64 MiB at the source, of which one byte is written.
FILE = b"volume s 1 16384\nvolume d 1 16384\nwrite s 1 67108863 01\nflow 12\n"
COPY = FILE + b"copy 1 1 0 1 0 0 c\nrounds 2112\npeek d 1 67108863 1\n"


def main():
    program = nfscopy("run")
    works = {
        "none": lambda: timed_over(program, FILE).seconds,
        "copy": lambda: timed_over(program, COPY).seconds,
        "hashing": lambda: seconds_of_hashing(CHUNKS * CHUNK, HASHINGS),
    }
    best = dict.fromkeys(works, float("inf"))
    for _ in range(ROUNDS):
        for name, work in works.items():
            best[name] = min(best[name], work())
    print(f"{'':>8} {'us a chunk':>11} {'B/s':>15} {'ratio':>7}")
    for name, seconds in (("hashing", best["hashing"]), ("copy", best["copy"] - best["none"])):
        print(f"{name:>8} {1e6 * seconds / CHUNKS:11.1f} {CHUNKS * CHUNK / seconds:15,.0f} {seconds / best['hashing']:7.2f}")


if __name__ == "__main__":
    main()
