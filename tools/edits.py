#!/usr/bin/env python3
"""Tries the edits that the gate leaves to be tried by hand, crates/NAME/must-fail-by-hand/*.edit, each of which the prover must refuse.

    tools/edits.py [NAME | NAME/EDIT ..]     those of these crates, single ones of them, or all
    tools/edits.py --changed COMMIT          those of the crates whose files have changed since a commit
    tools/edits.py --check                   tries none, and names each edit, the gate's too, that doesn't apply to its crate as it stands

`rt must-fail` tries the edits of a folder must-fail alone, so the edits are put there while this runs, and the gate's own stand aside. The
exit status is that of `rt must-fail`; with --check it is 1 where an edit doesn't apply.
"""

import contextlib
import os
import subprocess
import sys

TOP = os.path.dirname(os.path.dirname(os.path.abspath(__file__)))
CRATES = os.path.join(TOP, "crates")
BY_HAND, TRIED, ASIDE = "must-fail-by-hand", "must-fail", "must-fail-aside"

# The folders of a crate that it is proved from.
PARTS = ("src", "specs", "proofs")


def edits_in(kind):
    """The names of the edits in a crate's folder of this name, by their crates."""
    folders = {name: os.path.join(CRATES, name, kind) for name in sorted(os.listdir(CRATES))}
    return {name: sorted(os.listdir(folder)) for name, folder in folders.items() if os.path.isdir(folder)}


# ---- whether edits apply


def pairs_of(edit):
    """The file, the old text and the new one of each pair of an edit, as `rt` reads them: its other lines are remarks."""
    file = old = None
    with open(edit, encoding="utf-8") as lines:
        for line in lines:
            word, _, rest = line.rstrip("\n").partition(":")
            rest = rest[1:] if rest.startswith(" ") else rest
            if word == "file":
                file = rest.strip()
            elif word == "old":
                old = rest
            elif word == "new":
                yield file, old, rest
                old = None


def fault_of(crate, edit):
    """Why an edit doesn't apply to its crate, or None. A pair applies to what those before it have made."""
    texts, is_changed = {}, False
    for file, old, new in pairs_of(edit):
        if not file or not old:
            return "a line `new:` stands behind no `file:` or no `old:`"
        if os.path.normpath(file).split("/")[0] not in PARTS or not os.path.isfile(os.path.join(crate, file)):
            return f"there is no {file}"
        if file not in texts:
            with open(os.path.join(crate, file), encoding="utf-8") as text:
                texts[file] = text.read()
        found = texts[file].count(old)
        if found != 1:
            return f"an `old:` text stands in {file} {found} times, and not once"
        texts[file] = texts[file].replace(old, new)
        is_changed = is_changed or old != new
    return None if is_changed else "it changes nothing"


def check():
    """Names each edit that doesn't apply, and gives the status to end with."""
    tried = lost = 0
    for kind in (TRIED, BY_HAND):
        for name, edits in edits_in(kind).items():
            for edit in edits:
                fault = fault_of(os.path.join(CRATES, name), os.path.join(CRATES, name, kind, edit))
                tried, lost = tried + 1, lost + bool(fault)
                if fault:
                    print(f"crates/{name}/{kind}/{edit} doesn't apply: {fault}", file=sys.stderr)
    print(f"{tried - lost} edits apply, {lost} don't")
    return 1 if lost else 0


# ---- trying them


def chosen(words, known):
    """The edits that the words ask for, by their crates."""
    asked = {}
    for name, _, edit in (word.partition("/") for word in words or known):
        if name not in known:
            sys.exit(f"{name} has no edits to be tried by hand; these have: {' '.join(known)}")
        file = edit if edit.endswith(".edit") else f"{edit}.edit"
        if edit and file not in known[name]:
            sys.exit(f"{name} has no edit {edit}; it has: {' '.join(known[name])}")
        asked.setdefault(name, set()).update([file] if edit else known[name])
    return asked


def changed_since(commit, known):
    """The crates, of those that have such edits, of which a file that they are proved from has changed since a commit."""
    words = ["git", "diff", "--name-only", commit, "--", "crates"]
    done = subprocess.run(words, cwd=TOP, stdout=subprocess.PIPE, text=True, check=False)
    if done.returncode:
        sys.exit(done.returncode)
    parts = [file.split("/") for file in done.stdout.splitlines()]
    changed = {part[1] for part in parts if len(part) > 3 and part[2] in PARTS}
    return sorted(changed.intersection(known))


@contextlib.contextmanager
def in_place(name, edits):
    """These edits alone stand where `rt must-fail` looks for them."""
    by_hand, tried, aside = (os.path.join(CRATES, name, folder) for folder in (BY_HAND, TRIED, ASIDE))
    has_own = os.path.isdir(tried)
    if has_own:
        os.rename(tried, aside)
    os.mkdir(tried)
    for edit in edits:
        os.rename(os.path.join(by_hand, edit), os.path.join(tried, edit))
    try:
        yield
    finally:
        for edit in edits:
            os.rename(os.path.join(tried, edit), os.path.join(by_hand, edit))
        os.rmdir(tried)
        if has_own:
            os.rename(aside, tried)


def try_edits(asked):
    """Has `rt` try these edits, by their crates, and gives the status to end with."""
    with contextlib.ExitStack() as stack:
        for name, edits in asked.items():
            stack.enter_context(in_place(name, edits))
        return subprocess.run(["rt", "must-fail", *asked], cwd=TOP, check=False).returncode


def main():
    words = sys.argv[1:]
    if words == ["--check"]:
        sys.exit(check())
    known = edits_in(BY_HAND)
    if words[:1] == ["--changed"]:
        if len(words) != 2:
            sys.exit("tools/edits.py --changed COMMIT")
        words = changed_since(words[1], known)
        if not words:
            print("no crate with edits to be tried by hand has changed")
            return
    sys.exit(try_edits(chosen(words, known)))


if __name__ == "__main__":
    main()
