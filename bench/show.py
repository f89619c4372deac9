#!/usr/bin/env python3
"""Shows large streams of recorded calls beside `cat` of the same bytes, and prints times and their ratio.

Each stream has close to 16,777,216 bytes of record-marked calls.
"""

import struct

from programs import INPUT_LIMIT, nfscopy, timed_over


def call(body):
    """A record of one fragment: a COMPOUND call with flavor 0 and this body."""
    head = struct.pack(">10I", 1, 0, 2, 100003, 4, 1, 0, 0, 0, 0)
    return struct.pack(">I", 0x80000000 | len(head + body)) + head + body


def compound(operations):
    """The body of a COMPOUND of these operations: an empty tag, minor version 2, and a count."""
    return struct.pack(">3I", 0, 2, len(operations)) + b"".join(operations)


def filled(record):
    """As many of the record as an input holds."""
    return record * (INPUT_LIMIT // len(record))


def writes():
    """Calls with one WRITE of 65,536 bytes."""
    write = struct.pack(">I4IQII", 38, 1, 1, 1, 1, 0, 0, 65536) + b"\xa5" * 65536
    return filled(call(compound([write])))


def compounds():
    """The smallest calls: no operation."""
    return filled(call(compound([])))


def operations():
    """Calls with one operation without arguments."""
    return filled(call(compound([struct.pack(">I", 24)])))


def main():
    program = nfscopy("show")
    print(f"{'stream':12} {'bytes':>10} {'cat':>8} {'show':>8} {'ratio':>7}")
    for name, stream in (("writes", writes()), ("compounds", compounds()), ("operations", operations())):
        base = min(timed_over(["cat"], stream).seconds for _ in range(3))
        shown = min(timed_over(program, stream).seconds for _ in range(3))
        print(f"{name:12} {len(stream):10} {base:8.3f} {shown:8.3f} {shown / base:7.1f}")


if __name__ == "__main__":
    main()
