"""The program that the gate built, run as a process."""

import os
import subprocess
from typing import NamedTuple

TOP = os.path.dirname(os.path.dirname(os.path.dirname(os.path.realpath(__file__))))

# Another program is tried where NFSCOPY_PROGRAM names one.
PROGRAM = os.environ.get("NFSCOPY_PROGRAM") or os.path.join(TOP, "crates", "nfscopy_main", "out", "nfscopy_main")

# No run of the tests lasts longer than this, in seconds: one that does hangs.
PATIENCE = 120


class Ended(NamedTuple):
    """How a run ended: its exit status, or the negative number of the signal that ended it, and what it wrote."""

    status: int
    printed: bytes
    errors: bytes


def run(*words, text=b"", folder=None, **how):
    """Runs the program with these words over this text as its standard input, to its end."""
    done = subprocess.run([PROGRAM, *map(str, words)], input=text, cwd=folder, capture_output=True, timeout=PATIENCE, check=False, **how)
    return Ended(done.returncode, done.stdout, done.stderr)


def run_into(output, *words, folder=None):
    """Runs the program with its standard output in this file, or closed where that is `&-`."""
    shell = ["sh", "-c", f'exec "$@" >{output}', "sh"]
    done = subprocess.run([*shell, PROGRAM, *map(str, words)], stdin=subprocess.DEVNULL, cwd=folder, capture_output=True, timeout=PATIENCE,
                          check=False)
    return Ended(done.returncode, done.stdout, done.stderr)
