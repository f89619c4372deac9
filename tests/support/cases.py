"""Files of schedules with the transcripts that are due, as tests/rows/schedules.cases and tests/replay have them."""

from itertools import zip_longest
from typing import NamedTuple


class Case(NamedTuple):
    """A schedule, and the exit status and the transcript that are due to it."""

    name: str
    status: int
    schedule: bytes
    transcript: bytes


def cases_of(data):
    """The cases of a file in their order: each is a line `case NAME STATUS LENGTH LENGTH`, and the schedule and the transcript, which are
    of these lengths in bytes. Other lines are passed over."""
    at = 0
    while at < len(data):
        end = data.find(b"\n", at)
        line = data[at:] if end < 0 else data[at:end]
        at += len(line) + 1
        if not line.startswith(b"case "):
            continue
        _, name, status, schedule, transcript = line.split(b" ")
        middle = at + int(schedule)
        end = middle + int(transcript)
        if end > len(data):
            raise ValueError(f"case {name.decode()} is cut short")
        yield Case(name.decode(), int(status), data[at:middle], data[middle:end])
        at = end


def difference(case, ended):
    """What a run of a case's schedule has otherwise than is due, in one line: its first line that differs, or its status."""
    due, printed = case.transcript.split(b"\n"), ended.printed.split(b"\n")
    for number, (line, other) in enumerate(zip_longest(due, printed), 1):
        if line != other:
            return f"line {number} is {shown(other)}, due is {shown(line)} (status {ended.status}, due {case.status})"
    return None if ended.status == case.status else f"the status is {ended.status}, due is {case.status}"


def shown(line):
    return "not there" if line is None else repr(line[:120].decode("utf-8", "backslashreplace"))
