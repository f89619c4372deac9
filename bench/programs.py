"""What the benchmarks share: the program that they time, how a run is timed, and the hashing that it stands beside. Nothing in them is a
test: no time is compared with a bound."""

import hashlib
import os
import subprocess
import sys
import tempfile
import time
from typing import NamedTuple

TOP = os.path.dirname(os.path.dirname(os.path.abspath(__file__)))

# Another program is timed where NFSCOPY_PROGRAM names one.
NFSCOPY = os.environ.get("NFSCOPY_PROGRAM") or os.path.join(TOP, "nfscopy")

# The most bytes that the program reads as its input.
INPUT_LIMIT = 16 * 1024 * 1024


class Run(NamedTuple):
    """What a run took and printed."""

    seconds: float
    peak_kib: int
    printed: bytes


def nfscopy(command):
    """The words of a command of the program, which is built by a first run of it over no input."""
    words = [NFSCOPY, command]
    subprocess.run(words, stdin=subprocess.DEVNULL, stdout=subprocess.DEVNULL, check=True)
    return words


def timed(words, source=subprocess.DEVNULL):
    """Runs a command over an open file, or over no input."""
    with tempfile.TemporaryFile() as sink:
        begun = time.monotonic()
        child = subprocess.Popen(words, stdin=source, stdout=sink, stderr=subprocess.DEVNULL)
        _, status, usage = os.wait4(child.pid, 0)
        seconds = time.monotonic() - begun
        child.returncode = os.WEXITSTATUS(status) if os.WIFEXITED(status) else -os.WTERMSIG(status)
        if child.returncode != 0:
            sys.exit(f"{words[0]} ended with {child.returncode}")
        sink.seek(0)
        return Run(seconds, usage.ru_maxrss, sink.read())


def timed_over(words, text):
    """Runs a command over a file of these bytes."""
    with tempfile.NamedTemporaryFile() as file:
        file.write(text)
        file.flush()
        with open(file.name, "rb") as source:
            return timed(words, source)


def seconds_of(work):
    """Seconds that a call of this script's own takes."""
    begun = time.monotonic()
    work()
    return time.monotonic() - begun


def seconds_of_hashing(size, times=1):
    """Seconds of hashing so many bytes so often with SHA-256 in this script."""
    data = bytes(size)
    return seconds_of(lambda: [hashlib.sha256(data).digest() for _ in range(times)])
