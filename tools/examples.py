#!/usr/bin/env python3
"""Draws the pictures of the examples anew, and looks whether the examples are as they should be.

    tools/examples.py [--check]

Each schedule of examples/ stands beside its transcript, and says in its first line what it shows. A picture is drawn of each transcript
that has one in docs/pictures. With --check nothing is written: the status is 1 where a picture isn't that of its transcript. That the
schedules print their transcripts is tested by tests/test_examples.py.
"""

import os
import sys

import picture

TOP = os.path.dirname(os.path.dirname(os.path.realpath(__file__)))
EXAMPLES = os.path.join(TOP, "examples")
PICTURES = os.path.join(TOP, "docs", "pictures")


def content(path):
    with open(path, "rb") as file:
        return file.read()


def names():
    """The names of the examples: each is a schedule and a transcript."""
    found = {kind: set() for kind in (".schedule", ".transcript")}
    for file in os.listdir(EXAMPLES):
        name, kind = os.path.splitext(file)
        found.get(kind, set()).add(name)
    alone = found[".schedule"] ^ found[".transcript"]
    if alone:
        sys.exit(f"examples: a schedule without its transcript, or the other way round: {', '.join(sorted(alone))}")
    return sorted(found[".schedule"])


def check_heading(name):
    """A schedule says in its first line what it shows."""
    if not content(os.path.join(EXAMPLES, f"{name}.schedule")).startswith(b"# "):
        sys.exit(f"examples/{name}.schedule doesn't say in its first line what it shows")


def pictures():
    """Each picture, with what it is to hold."""
    made = {}
    for name in names():
        check_heading(name)
        path = os.path.join(PICTURES, f"{name}.svg")
        if os.path.exists(path):
            made[path] = picture.drawn(os.path.join(EXAMPLES, f"{name}.transcript"), name.replace("-", " ")).encode()
    return made


def main():
    if sys.argv[1:] not in ([], ["--check"]):
        sys.exit(__doc__)
    stale = {path: text for path, text in pictures().items() if content(path) != text}
    if sys.argv[1:]:
        for path in stale:
            print(f"{os.path.relpath(path, TOP)} isn't that of its example: run tools/examples.py", file=sys.stderr)
        sys.exit(1 if stale else 0)
    for path, text in stale.items():
        with open(path, "wb") as file:
            file.write(text)


if __name__ == "__main__":
    main()
