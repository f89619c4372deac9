#!/usr/bin/env python3
"""Runs large schedules beside `cat` of as many bytes, and prints times, their ratio and the peak memory.

The bytes are those of the schedule; for the copy they are those of the file that is copied.
"""

from programs import INPUT_LIMIT, nfscopy, timed_over


def peeks():
    """Close to a million short events, filled up to the limit of an input by a comment."""
    text = b"volume s 1 1\nvolume d 1 1\n" + b"peek d 1 0 1\n" * 999_998
    return text + b"#" * (INPUT_LIMIT - len(text) - 1) + b"\n"


def writes():
    """As many whole writes of 65,536 bytes as an input holds, each called and answered."""
    text = [b"volume s 1 16384\nvolume d 1 16384\n"]
    for number in range(127):
        text.append(b"write s 1 %d %s\n" % (number * 65536, b"a5" * 65536))
    return b"".join(text) + b"flow 270\n"


def copy():
    """A file of 64 MiB, copied in 1,024 chunks."""
    text = b"volume s 1 16384\nvolume d 1 16384\nwrite s 1 67108863 01\nflow 12\ncopy 1 1 0 1 0 0 c\n"
    return text + b"rounds 2112\nstatus 1\npeek d 1 67108863 1\n"


def crashes():
    """Ten thousand crashes, of both servers and under each pick, with a write at each server that is called anew behind every tenth."""
    text = [b"volume s 1 16\nvolume d 1 16\n"]
    for number in range(10_000):
        text.append(b"crash %s %d\n" % (b"sd"[number % 2 : number % 2 + 1], number // 2 % 4))
        if number % 10 == 9:
            text.append(b"write s 1 %d a5\nwrite d 1 %d a5\nflow 3\n" % (number, number))
    return b"".join(text)


def main():
    program = nfscopy("run")
    print(f"{'schedule':10} {'bytes':>10} {'cat':>8} {'nfscopy':>8} {'ratio':>7} {'peak KiB':>9}")
    hit = crashes()
    rows = (("peeks", peeks(), INPUT_LIMIT), ("writes", writes(), INPUT_LIMIT), ("copy", copy(), 64 << 20), ("crashes", hit, len(hit)))
    for name, text, size in rows:
        base = timed_over(["cat"], bytes(size)).seconds
        ran = timed_over(program, text)
        print(f"{name:10} {size:10} {base:8.3f} {ran.seconds:8.3f} {ran.seconds / base:7.1f} {ran.peak_kib:9}")


if __name__ == "__main__":
    main()
