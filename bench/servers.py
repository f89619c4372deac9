"""What the scripts share that run the program's servers on ports of this machine: starting, ending and killing them, and the realm that
they and their callers read."""

import os
import signal
import subprocess
import sys
import time

from programs import NFSCOPY, TOP

# The client that shares no code with the program is that of the tests.
sys.path.insert(0, os.path.join(TOP, "tests"))

from support.caller import Caller, Ended  # noqa: E402, F401 (the folder is on the path only now; the scripts have both from here)
from support.servers import KEYS, listens, write_realm  # noqa: E402, F401

PIECE = 65_536


def check(holds, what):
    """What isn't as it should be ends the script."""
    if not holds:
        sys.exit(what)


def run(folder, *words):
    """Runs a command of the program to its end."""
    return subprocess.run([NFSCOPY, *map(str, words)], cwd=folder, stdin=subprocess.DEVNULL, capture_output=True, check=False)


def format_volume(folder, volume, mebibytes, tag):
    """Makes a volume of one file with room for so many MiB."""
    made = run(folder, "format", volume, 1, mebibytes * 256, tag)
    check(made.returncode == 0, f"format: {made}")


def server(folder, *words):
    """A server, once it listens. Its port is the third word."""
    child = subprocess.Popen([NFSCOPY, *map(str, words)], cwd=folder, stdin=subprocess.DEVNULL, stdout=subprocess.PIPE,
                             stderr=subprocess.PIPE, start_new_session=True)
    deadline = time.monotonic() + 60
    while not listens(words[2]):
        check(child.poll() is None and time.monotonic() < deadline, f"{words[0]} doesn't listen: {child.poll()}")
        time.sleep(0.01)
    return child


def ended(child):
    """The server ends by itself with status 0, and printed nothing."""
    printed, errors = child.communicate(timeout=60)
    check(child.returncode == 0, f"a server ended with {child.returncode}: {printed!r} {errors!r}")
    check(printed == b"" and errors == b"", f"a server printed {printed!r} {errors!r}")


def kill(child):
    """Kills a server, if it goes on still."""
    if child.poll() is None:
        os.killpg(child.pid, signal.SIGKILL)
    child.communicate()


def joined(port, owner):
    """A caller of a server that listens, which has set itself up."""
    caller = Caller(port, "user", KEYS["user"])
    caller.join(owner)
    return caller
