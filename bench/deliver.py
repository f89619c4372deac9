#!/usr/bin/env python3
"""Delivers one record again and again, and sends what is awaited again and again, and prints seconds per 100,000 of each, the
ratio to the shortest schedule of its kind, and the peak memory. All are runs of one start of this script.

A sealed call that comes again is dropped; the client's first call, for a context, is answered each time that it comes.
"""

from programs import nfscopy, timed_over

HUNDRED_THOUSAND = 100_000

VOLUMES = b"volume s 1 1\nvolume d 1 1\n"

# A write at the source, and its answer.
WRITTEN = VOLUMES + b"write s 1 0 30313233343536373839\nflow 12\n"

# A copy whose first call is awaited, and a write at the destination whose setup is.
AWAITED = WRITTEN + b"copy 1 1 0 1 0 10 c\nwrite d 1 0 7a\n"

SCHEDULES = (
    ("dropped", WRITTEN, b"deliver 3\n", (10_000, 100_000, 999_900)),
    ("answered", WRITTEN, b"deliver 1\n", (10_000, 100_000)),
    ("retry", AWAITED, b"retry\n", (500, 5_000)),
)


def main():
    program = nfscopy("run")
    print(f"{'lines':8} {'times':>8} {'seconds':>8} {'per 100,000':>12} {'ratio':>6} {'peak KiB':>9}")
    for name, begun, line, lengths in SCHEDULES:
        first = None
        for times in lengths:
            ran = timed_over(program, begun + line * times)
            each = ran.seconds * HUNDRED_THOUSAND / times
            first = first or each
            print(f"{name:8} {times:8} {ran.seconds:8.3f} {each:12.3f} {each / first:6.2f} {ran.peak_kib:9}")


if __name__ == "__main__":
    main()
