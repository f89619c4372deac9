"""One copy of two chunks, each time with a server stopped before another call of its disk, under each pick of what the crash leaves. The
server is opened anew: what was reported as stable stands then, and what wasn't is old or new. A judge with a model of its own looks at
each run as well (support/promise.py)."""

from support.program import run
from support.promise import judged
from support.tables import each

# How many writes and syncs the source's disk makes for two writes and their commit, and the destination's for two landings and their
# commit.
CALLS = {"s": 7, "d": 21}

PICKS = 4

# What is done before the source's fuse is set, then before the destination's, and then.
WRITES_AT_DEST = """volume s 1 17
volume d 1 17
write d 1 0 a0a1a2a3a4a5a6a7
write d 1 65530 b0b1b2b3b4b5b6b7b8b9babb
commit d 1
flow 20
"""
WRITES_AT_SOURCE = """write s 1 0 3031323334353637
write s 1 65530 404142434445464748494a4b
commit s 1
flow 20
"""
COPY = """copy 1 1 0 1 0 0 c
rounds 50
peek d 1 0 8
peek d 1 65530 12
peek s 1 0 8
peek s 1 65530 12
"""

# Two ranges of a file, the second over both chunks: what is shown of the destination where nothing of the copy is there, and of the
# source where nothing was written; and of both where all is there.
OLD = {
    "d": ["bytes d 1 0 a0a1a2a3a4a5a6a7", "bytes d 1 65530 b0b1b2b3b4b5b6b7b8b9babb"],
    "s": ["bytes s 1 0 0000000000000000", "bytes s 1 65530 000000000000000000000000"],
}
NEW = {side: [f"bytes {side} 1 0 3031323334353637", f"bytes {side} 1 65530 404142434445464748494a4b"] for side in "sd"}


def schedule(side, calls, pick):
    """A fuse is set at the source before its writes, or at the destination before the copy."""
    fuse = f"crash {side} after {calls} {pick}\n"
    text = WRITES_AT_DEST + (fuse if side == "s" else "") + WRITES_AT_SOURCE + (fuse if side == "d" else "") + COPY
    return text.encode()


def shown(lines, side):
    return [line for line in lines if line.startswith(f"bytes {side} ")]


def stops(test, side, calls, pick):
    """Both ranges of the server that stopped are old, or both are new: new where that was reported as safe or stable, and where it didn't
    stop. It stops but where it makes no such call any more."""
    text = schedule(side, calls, pick)
    ended = run("run", text=text)
    said = judged(text, ended).copies[0].said
    lines = ended.printed.decode().splitlines()
    is_stopped = any(line.startswith(f"crash {side} 2 ") for line in lines)
    test.assertEqual(is_stopped, calls < CALLS[side])
    is_told = "stable" in said if side == "d" else "commit s 1 same" in lines
    test.assertEqual(is_told, not is_stopped)
    test.assertIn(shown(lines, side), [NEW[side]] if is_told else [NEW[side], OLD[side]])
    if side == "d":
        test.assertEqual(shown(lines, "s"), NEW["s"])
    elif not is_stopped:
        test.assertEqual((said[:1], shown(lines, "d")), (["stable"], NEW["d"]))


def cases():
    for pick in range(PICKS):
        for side, most in CALLS.items():
            for calls in range(most + 1):
                yield f"{side} stops before its call {calls + 1}, pick {pick}", side, calls, pick


def load_tests(loader, suite, _):
    suite.addTests(each(stops, cases()))
    return suite
