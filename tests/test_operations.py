"""What `show` tells of the arguments of operations: which bytes are read as those of which operation, and how far.

Each row of rows/operations.txt becomes a record, or some: a call whose arguments are those bytes, as one operation of a COMPOUND or
CB_COMPOUND. Behind arguments that are to be read stands another operation, which is read only where they end there.

The numbers of the statuses, of which `show` prints none, are looked up where the program names them.
"""

import os
import re
import unittest

from support.program import TOP
from support.shows import Shows
from support.tables import bytes_of, each, rows_of
from support.xdr import (
    CALLBACKS, CB_OPERATIONS, OPERATIONS, call, cb_compound, compound, hyper, opaque, word,
)

# PUTROOTFH, which has no arguments, and CB_SEQUENCE with a session of 16 zeros and no referring calls.
FENCES = {False: word(24), True: word(11) + bytes(36)}

# A handle and a stateid, as they stand at the front of CB_OFFLOAD's arguments.
OFFERED = opaque(bytes(11) + b"\1") + bytes(16)

# Where a type stands: the operation, and its arguments before and behind it.
PLACES = {
    "state_id": (66, b"", b""),
    "handle": (22, b"", b""),
    "net_loc": (61, bytes(16), b""),
    "stability": (38, bytes(24), opaque(b"")),
    "time": (42, bytes(8) + opaque(b"user") + word(0) + word(0) + word(1) + opaque(b"") + opaque(b""), b""),
    "status": (15, OFFERED, hyper(7)),
    "response": (15, OFFERED + word(0), b""),
    "offload": (15, b"", b""),
    "cb_seq": (11, b"", b""),
}

CALLED_BACK = ("status", "response", "offload", "cb_seq")

# What is told of an operation that isn't read.
TAILS = ("unreadable", "unsupported", "illegal")

WORDS = (0, 1, 2, 3, 2**32 - 1)

# RFC 8881 section 15.1, and from PARTNER_NOTSUPP on RFC 7862 section 11.1.
STATUSES = """
    OK 0 NOENT 2 IO 5 ACCESS 13 EXIST 17 ISDIR 21 INVAL 22 FBIG 27 NOSPC 28 STALE 70
    BADHANDLE 10001 NOTSUPP 10004 SERVERFAULT 10006 DELAY 10008 EXPIRED 10011
    NOFILEHANDLE 10020 MINOR_VERS_MISMATCH 10021 STALE_CLIENTID 10022 OLD_STATEID 10024 BAD_STATEID 10025
    BADXDR 10036 OPENMODE 10038 OP_ILLEGAL 10044 BADSESSION 10052 BADSLOT 10053 COMPLETE_ALREADY 10054
    SEQ_MISORDERED 10063 SEQUENCE_POS 10064 REP_TOO_BIG 10066 TOO_MANY_OPS 10070 OP_NOT_IN_SESSION 10071
    CLIENTID_BUSY 10074 SEQ_FALSE_RETRY 10076 NOT_ONLY_OP 10081
    PARTNER_NOTSUPP 10088 PARTNER_NO_AUTH 10089 UNION_NOTSUPP 10090 OFFLOAD_DENIED 10091 WRONG_LFS 10092
    OFFLOAD_NO_REQS 10094
"""


class Case:
    """Records, each with the lines that are due of it behind its head."""

    def __init__(self, shows):
        self.shows, self.due = shows, []

    def add(self, is_callback, arguments, lines):
        record = call(arguments, *((CALLBACKS, 1) if is_callback else ()))
        head = f"call 1 {CALLBACKS} 1 1 0" if is_callback else "call 1 100003 4 1 0"
        self.due.append((self.shows.add(record), [head, *lines]))

    def met(self, test):
        for place, lines in self.due:
            test.assertEqual(self.shows.of(place), lines, self.shows.records[place].hex()[:2_000])

    def add_operation(self, kind, number, content, answer):
        """The arguments of one operation, or what begins with a type, told by `reads N`, `cut` or `refused`."""
        operation, front, behind = PLACES.get(kind) or (number, b"", b"")
        is_callback = kind in CALLED_BACK
        names, write = (CB_OPERATIONS, cb_compound) if is_callback else (OPERATIONS, compound)
        read, fence = [f"op 0 {names[operation]}"], FENCES[is_callback]
        if answer == "refused":
            body, lines = front + content, ["tail 0 unreadable"]
        elif answer == "cut":
            body, lines = front + content + fence, read
        else:
            verb, count = answer.split(" ")
            assert verb == "reads" and int(count) <= len(content), answer
            body, lines = front + content[: int(count)] + behind + fence, [*read, f"op 1 {names[int.from_bytes(fence[:4], 'big')]}"]
        self.add(is_callback, write(word(operation) + body, 2), lines)

    def add_fronts(self, kind, number, content, answer):
        self.add_operation(kind, number, content, answer)
        for size in range(len(content)):
            self.add_operation(kind, number, content[:size], "refused")

    def add_turned(self, kind, number, content, answer):
        answers = {} if answer == "any" else dict(part.split(": ") for part in answer.split("; "))
        for place in range(len(content) // 4):
            listed = answers.pop(str(place), None)
            told = listed.split(", ") if listed else [f"reads {len(content)}"] * len(WORDS)
            for number_there, due in zip(WORDS, told):
                turned = content[: 4 * place] + word(number_there) + content[4 * place + 4 :]
                self.add_operation(kind, number, turned, due)
        assert not answers, answers

    def add_compound(self, kind, content, answer):
        self.add(kind == "cb_compound", content, compound_lines(answer))

    def add_steps(self, kind, content, answer):
        steps = [(int(at), told) for at, told in (step.split(": ") for step in answer.split("; "))]
        assert steps[-1][0] == len(content), answer
        for size in range(len(content) + 1):
            self.add_compound(kind, content[:size], [told for at, told in steps if at <= size][-1])


def compound_lines(answer):
    """The lines of operations by their names, and of the one behind them; or that the bytes are no compound."""
    if answer == "nothing" or answer.startswith("unread "):
        return [] if answer == "nothing" else [answer]
    names = [one for name, _, times in (part.partition("*") for part in answer.split(" ")) for one in [name] * int(times or 1)]
    return [f"tail {place} {name}" if name in TAILS else f"op {place} {name}" for place, name in enumerate(names)]


def case(shows, row):
    """The records of a row."""
    asked, _, answer = row.partition(" = ")
    how, *words = asked.split(" ")
    if how not in ("fronts", "turned", "steps"):
        how, words = "", [how, *words]
    kind = words.pop(0)
    made = Case(shows)
    if kind in ("compound", "cb_compound"):
        add = made.add_steps if how else made.add_compound
        add(kind, bytes_of(words), answer)
    else:
        number = int(words.pop(0)) if kind == "args" else None
        add = {"fronts": made.add_fronts, "turned": made.add_turned, "": made.add_operation}[how]
        add(kind, number, bytes_of(words), answer)
    return made


def is_met(test, made):
    made.met(test)


class Statuses(unittest.TestCase):
    def test_each_name_has_its_number(self):
        with open(os.path.join(TOP, "crates", "nfs_base", "src", "status.rt"), encoding="utf-8") as source:
            named = re.findall(r"pub const ([A-Z_]+): Status = Status \{ number: ([0-9_]+) \};", source.read())
        self.assertEqual([f"{name} {number.replace('_', '')}" for name, number in named], re.findall(r"[A-Z_]+ [0-9]+", STATUSES))


def load_tests(loader, suite, _):
    shows = Shows()
    suite.addTests(each(is_met, [(f"{name} {row[:60]}", case(shows, row)) for name, row in rows_of("operations.txt")]))
    return suite
