"""Rows of what is due to a run: `STATUS | TEXT | PUT`, behind lines that say what holds of them."""

import os
import tempfile
from typing import NamedTuple, Optional, Tuple

from support.before import failing
from support.program import run
from support.spelling import spell
from support.tables import rows_of

# How many events a schedule has at most.
MOST_EVENTS = 1_000_000

# A schedule of more events takes long to be carried out.
MANY_EVENTS = 10_000

# How often one line `flow K` delivers at most.
MOST_FLOWS = 4_096

BOTH = b"volume s 1 1\nvolume d 1 1\n"

REALM = "".join(f"{name} {byte * 32}\n" for name, byte in (("user", "01"), ("dest", "02"), ("other", "03")))


class Setting(NamedTuple):
    """What holds of a row: what stands before and behind its text, the program's words, which calls fail, and the files of its folder."""

    before: bytes = b""
    after: bytes = b""
    words: Tuple[str, ...] = ("run",)
    failing: Tuple[str, ...] = ()
    files: Tuple[str, ...] = ()

    def read(self, line):
        """The setting behind a line that says one; none where it says no such thing."""
        name, _, text = line.partition(" ")
        words = tuple(text.split(" ")) if text else ()
        if name in ("before", "after"):
            return self._replace(**{name: spell(text)})
        if name == "words":
            return self._replace(words=words)
        if name == "folder":
            return self._replace(files=words)
        if name == "fails":
            return self._replace(failing=tuple(f"{call} {at}" for call, at in zip(("input", "output"), words) if at != "0"))
        if name == "dials":
            return self._replace(failing=tuple(f"connect {at}" for at in words if at != "0"))
        return None


class Row(NamedTuple):
    """What is wanted of an input: a number of a kind, of which the one without a name is the exit status, and what is put."""

    setting: Setting
    kind: str
    number: int
    text: bytes
    put: bytes


def row_of(setting, line):
    wanted, _, texts = line.partition(" | ")
    text, _, put = texts.partition(" | ")
    kind, _, number = wanted.rpartition(" ")
    return Row(setting, kind, int(number), setting.before + spell(text) + setting.after, spell(put))


def rows_in(file):
    """The rows of a file of rows/, each by its place, with what holds of it."""
    setting = Setting()
    for place, line in rows_of(file):
        after: Optional[Setting] = None if " | " in line else setting.read(line)
        if after is not None:
            setting = after
        else:
            yield place, row_of(setting, line)


def is_met(test, row):
    {"": is_answered, "bad": has_bad_line, "events": has_events}[row.kind](test, row)


def is_answered(test, row):
    """The run ends with the status that is due, and puts what is due."""
    setting = row.setting
    with tempfile.TemporaryDirectory() as folder:
        for name in setting.files:
            make(folder, name)
        ended = run(*setting.words, text=row.text, folder=folder, env=failing(*setting.failing))
    test.assertEqual((ended.status, shown(ended.printed), ended.errors), (row.number, shown(row.put), b""))


def shown(put):
    """A text in which each byte can be read."""
    return put.decode("ascii", "backslashreplace")


def make(folder, name):
    """A file of a folder: the principals, or a volume of one file of one block."""
    if name == "realm.txt":
        with open(os.path.join(folder, name), "w", encoding="ascii") as file:
            file.write(REALM)
    elif run("format", name, 1, 1, 7, folder=folder).status != 0:
        raise RuntimeError(f"there is no volume {name}")


def bad_line(text):
    """The first bad line of a schedule, where it has one, and else how its run ended."""
    ended = run("run", text=text)
    line = ended.printed.decode()
    return line if ended.status == 2 else f"status {ended.status}, {line[-40:]!r}"


def has_bad_line(test, row):
    test.assertEqual(bad_line(row.text), f"bad line {row.number}\n")


def has_events(test, row):
    """A schedule has so many events: behind it as many more are put as make the greatest number, and then one that is too much. One that
    hasn't too many is carried out to its end as well."""
    if row.number <= MANY_EVENTS:
        ended = run("run", text=row.text)
        test.assertEqual(ended.status, 0)
        test.assertRegex(ended.printed, rb"(\A|\n)end \d+\n\Z")
    text, events = row.text, row.number
    if text and not text.endswith(b"\n"):
        text += b"\n"
    if events == 0:
        text, events = text + BOTH, 2
    whole, rest = divmod(MOST_EVENTS - events, MOST_FLOWS)
    text += b"flow %d\n" % MOST_FLOWS * whole + (b"flow %d\n" % rest if rest else b"")
    test.assertEqual(bad_line(text + b"flow\nflow\n"), f"bad line {text.count(10) + 1}\n")
