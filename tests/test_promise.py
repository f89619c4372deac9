"""Copies over a wire that loses, repeats and turns records, and by several workers: what stands in the files in the end, and what the
client said, is compared with the promise by a judge that has a model of its own (support/promise.py)."""

import os
import random
from itertools import permutations

from support.cases import Case, cases_of
from support.program import Ended, run
from support.promise import Broken, Judge, judged
from support.tables import HERE, each

# How many records a copy of ten bytes takes over a wire that loses none.
RECORDS = 46

# How many records come once more in the end, by number, so that what was sent again comes too.
IN_ALL = 110

# This record answers the write. The copy is begun behind it.
WRITTEN_AT = 12

# The last five records, which are brought in each of their orders.
LAST = range(42, 47)

# The file at the destination from its start on, where all of the copy landed.
ALL = b"bytes d 1 0 00003031323334353637383900\n"

CHUNK = 65_536
CHUNKS = 16
MOST_WORKERS = 8


def run_judged(schedule):
    """The copies of a run that keeps the promise, and what it printed."""
    ended = run("run", text=schedule)
    return judged(schedule, ended).copies, ended.printed


# ---- one copy of ten bytes, over a wire


def wires():
    """How the records come the first time: one is lost, one comes twice, or the last five come in another order. With each the number of
    a record that never comes, or 0."""
    for number in range(1, RECORDS + 1):
        others = [record for record in range(1, RECORDS + 1) if record != number]
        yield f"record {number} is lost", others, number
        yield f"record {number} comes twice", sorted([*others, number, number]), 0
    for order in permutations(LAST):
        yield f"the last come as {order}", [*range(1, LAST[0]), *order], 0


def over_wire(order, lost):
    """Ten bytes are written at the source and copied behind two bytes of the destination's file. Then all that is awaited goes out again,
    and every record comes once more but the one that is lost. In the end thirteen bytes of the file are shown."""
    lines = ["volume s 1 1", "volume d 1 1", "write s 1 0 30313233343536373839"]
    begin = max(at for at, number in enumerate(order) if number <= WRITTEN_AT)
    for at, number in enumerate(order):
        lines += [f"deliver {number}", "work 1"]
        if at == begin:
            lines.append("copy 1 1 0 1 2 10 c")
    lines += ["retry", "tick 31"]
    for number in range(1, IN_ALL + 1):
        if number != lost:
            lines += [f"deliver {number}", "work 1"]
    return as_text([*lines, "peek d 1 0 13"])


def as_text(lines):
    return "\n".join([*lines, ""]).encode()


def comes_over_wire(test, order, lost):
    copies, printed = run_judged(over_wire(order, lost))
    test.assertEqual(copies[0].said[:1], ["stable"])
    test.assertIn(ALL, printed)


# ---- sixteen chunks, by several workers


def ways():
    for workers in range(1, MOST_WORKERS + 1):
        for order in range(4):
            for kind in "cn":
                yield f"{workers} workers, order {order}, {kind}", workers, order, kind


def drawn_work(draw, workers):
    """One worker makes a step, or a record comes."""
    pick = draw.randrange(2 * workers + 1)
    return f"work {pick + 1}" if pick < workers else f"deliver {20 + draw.randrange(180)}"


def by_workers(workers, order, kind):
    """Two bytes are written to each chunk of the source's file; the copy is begun, and so many times one worker makes a step or a record
    comes, as it is drawn; then all of it comes to its end, and four bytes of each chunk are shown."""
    draw = random.Random(f"{workers} {order}")
    lines = ["volume s 1 256", "volume d 1 256"]
    lines += [f"write s 1 {CHUNK * chunk + 7} {chunk_bytes(chunk)}" for chunk in range(CHUNKS)]
    lines += ["flow 60", f"copy 1 1 0 1 0 0 {kind}"]
    lines += [drawn_work(draw, workers) for _ in range(240)]
    for _ in range(40):
        lines += ["flow", *(f"work {worker}" for worker in range(1, MOST_WORKERS + 1))]
    return as_text([*lines, *(f"peek d 1 {CHUNK * chunk + 6} 4" for chunk in range(CHUNKS))])


def chunk_bytes(chunk):
    return f"{10 + chunk}{40 + chunk}"


def lands_whole(test, workers, order, kind):
    copies, printed = run_judged(by_workers(workers, order, kind))
    lines = printed.decode().splitlines()
    test.assertEqual(copies[0].said, ["stable", "exact"])
    for chunk in range(CHUNKS):
        test.assertIn(f"bytes d 1 {CHUNK * chunk + 6} 00{chunk_bytes(chunk)}00", lines)
    landed = [int(line.split(" ")[2]) for line in lines if line.startswith("landed ")]
    test.assertEqual(landed if kind == "c" else sorted(landed), [CHUNK * chunk for chunk in range(CHUNKS)])


# ---- copies of a file that is written meanwhile, with records that are lost, and servers that stop


def drawn_event(draw, copies, stops):
    """An event of a run: a copy of those that are left; a stop of a server only where servers stop."""
    side = draw.choice("sd")
    pick = draw.randrange(20)
    if pick < 3:
        return f"write {side} 1 {draw.randrange(140_000)} {draw.randrange(1, 256):02x}{draw.randrange(1, 256):02x}"
    if pick < 5:
        return f"commit {side} 1"
    if pick < 7 and copies:
        return copies.pop(0)
    if pick == 7 and stops:
        return f"crash {side} {draw.randrange(4)}"
    if pick == 8 and stops:
        return f"crash {side} after {draw.randrange(24)} {draw.randrange(4)}"
    if pick == 9:
        return draw.choice(["retry", f"tick {draw.choice([1, 31, 95])}"])
    if pick == 10:
        return f"peek {side} 1 {draw.choice([0, 65_530, 131_066])} 12"
    if pick < 13:
        return f"deliver {draw.randrange(1, 60)}"
    return draw.choice([f"flow {draw.randrange(1, 9)}", f"work {draw.randrange(1, 3)}", f"rounds {draw.randrange(1, 12)}"])


def drawn_run(seed):
    """Writes at both servers, two copies and losses in a drawn order, and stops in one of three runs; then all of it comes to its end, and
    both files are shown."""
    draw, stops = random.Random(seed), seed % 3 == 0
    copies = [f"copy 1 1 {draw.choice([0, 100])} 1 0 0 {draw.choice('cn')}"]
    copies.append(f"copy 2 1 5 1 {draw.choice([65_530, 90_000])} {draw.randrange(1, 60_000)} c")
    lines = ["volume s 1 40", "volume d 1 40", "write s 1 65533 3132333435", "write s 1 0 a1a2a3a4", "write d 1 65534 b1b2b3b4", "flow 20"]
    lines += [drawn_event(draw, copies, stops) for _ in range(50)]
    lines += ["rounds 30", "retry", "tick 31", "rounds 60"]
    lines += [f"peek {side} 1 {at} 64" for side in "sd" for at in (0, 65_500, 131_040)]
    return as_text(lines)


def keeps_the_promise(test, seed):
    schedule = drawn_run(seed)
    try:
        run_judged(schedule)
    except Broken as why:
        test.fail(f"{why}, in the run of\n{schedule.decode()}")


# ---- the judge himself

SMALL = b"volume s 1 1\nvolume d 1 1\nwrite s 1 0 3031\nflow 12\ncopy 1 1 0 1 0 2 c\nrounds 32\npeek d 1 0 2\n"

# What comes of that schedule, without the records that tell nothing, and one change of it with what the judge says then.
KEPT = """sent 1 cs WRITE
sent 2 sc WRITE 0
written s 1 2
sent 3 cd COPY
accepted 1.1 1 0 2
sized 1.1 2
landed 1.1 0 2
committed 1.1
stable 1
exact 1
bytes d 1 0 3031
end 3
"""

CHANGES = (
    ("other bytes stand there", "bytes d 1 0 3031", "bytes d 1 0 3032"),
    ("nothing stands there", "bytes d 1 0 3031", "bytes d 1 0 0000"),
    ("bytes behind the range moved", "bytes d 1 0 3031", "bytes d 1 1 3101"),
    ("it is stable before it is committed", "committed 1.1\nstable 1", "stable 1\ncommitted 1.1"),
    ("it isn't committed", "committed 1.1\n", ""),
    ("a chunk lands twice", "committed", "landed 1.1 0 2\ncommitted"),
    ("not all of it landed", "landed 1.1 0 2", "landed 1.1 0 1"),
    ("it is stable twice", "stable 1\n", "stable 1\nstable 1\n"),
    ("it is exact alone", "stable 1\n", ""),
    ("it failed as well", "exact 1", "failed 1 5"),
    ("it lands behind its stop", "landed", "stopped 1.1 disk\nlanded"),
    ("its length is another", "sized 1.1 2", "sized 1.1 3"),
    ("another write was answered", "written s 1 2", "written s 1 3"),
    ("a write is answered that wasn't called", "sent 1 cs WRITE", "sent 1 cs GETFH"),
    ("a crash takes what is stable", "bytes d 1 0 3031", "crash d 2 none\nbytes d 1 0 0000"),
    ("a crash brings what wasn't there", "bytes d 1 0 3031", "crash d 2 new\nbytes d 1 0 3000"),
    ("a record is passed over", "sent 3", "sent 4"),
    ("it doesn't come to its end", "end 3\n", ""),
)

# The source's file is written while it is copied, and it is said to have stood still.
WRITTEN = SMALL.replace(b"rounds 32", b"write s 1 0 4041\nrounds 32")
MOVED = KEPT.replace("sized 1.1 2\n", "sized 1.1 2\nsent 4 cs WRITE\nsent 5 sc WRITE 0\nwritten s 1 2\n").replace("end 3", "end 5")


def is_refused(test, schedule, transcript):
    with test.assertRaises(Broken):
        Judge(schedule).judge(transcript.encode())


def is_let_through(test, case):
    """The judge finds nothing against the promise in a transcript of an independent model."""
    judged(case.schedule, Ended(0, case.transcript, b""))


def refusals():
    yield "the judge refuses: the source moved under an exact copy", WRITTEN, MOVED
    for name, old, new in CHANGES:
        if old not in KEPT:
            raise ValueError(f"nothing is changed: {name}")
        yield f"the judge refuses: {name}", SMALL, KEPT.replace(old, new)


def due():
    """What isn't changed, and the cases whose files and copies the judge can tell apart."""
    yield "the judge lets through: what is due", Case("small", 0, SMALL, KEPT.encode())
    with open(os.path.join(HERE, "rows", "schedules.cases"), "rb") as file:
        for case in cases_of(file.read()):
            try:
                Judge(case.schedule)
            except (ValueError, IndexError):
                continue
            if case.status == 0:
                yield f"the judge lets through: {case.name}", case


def load_tests(loader, suite, _):
    suite.addTests(each(is_refused, refusals()))
    suite.addTests(each(is_let_through, due()))
    suite.addTests(each(comes_over_wire, wires()))
    suite.addTests(each(lands_whole, ways()))
    suite.addTests(each(keeps_the_promise, ((f"drawn run {seed}", seed) for seed in range(60))))
    return suite
