"""Texts with escapes, in which rows have the bytes of schedules and streams."""

import re

ESCAPE = re.compile(rb"\\(?:x([0-9a-f]{2})|([nrt0\\])|(.?))", re.DOTALL)
REPEATED = re.compile(r"\{(\d+)\*([^}]*)\}")
NAMED = {b"n": b"\n", b"r": b"\r", b"t": b"\t", b"0": b"\0", b"\\": b"\\"}


def spell(text):
    """The bytes of a text with the escapes `\\n`, `\\r`, `\\t`, `\\0`, `\\\\` and `\\xHH`, in which one piece may stand as `{N*PIECE}`."""
    found = REPEATED.search(text)
    if found is None:
        return unescaped(text)
    return unescaped(text[: found.start()]) + unescaped(found[2]) * int(found[1]) + unescaped(text[found.end() :])


def unescaped(text):
    return ESCAPE.sub(byte_of, text.encode())


def byte_of(found):
    if found[3] is not None:
        raise ValueError(f"no escape: {found[0]!r}")
    return bytes([int(found[1], 16)]) if found[1] else NAMED[found[2]]
