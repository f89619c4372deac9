"""Standard inputs and outputs whose every read or write is known: in pieces, interrupted, or failing at a call."""

import contextlib
import fcntl
import os
import signal
import socket
import struct
import subprocess
import termios
import time

from support.program import PATIENCE, PROGRAM, Ended


def started(*words, **how):
    """The program at work, with what it writes in pipes where nothing else is said."""
    return subprocess.Popen([PROGRAM, *words], **{"stdout": subprocess.PIPE, "stderr": subprocess.PIPE, **how})


def ended(program):
    """How the program ends, which it does by itself."""
    try:
        printed, errors = program.communicate(timeout=PATIENCE)
    except subprocess.TimeoutExpired:
        program.kill()
        program.communicate()
        raise
    return Ended(program.returncode, printed, errors)


def until(is_so, what):
    """Waits until something is so, with some looks at once, and then a few each millisecond."""
    latest = time.monotonic() + PATIENCE
    looks = 0
    while not is_so():
        looks += 1
        if looks > 50:
            time.sleep(0.0002)
        if time.monotonic() > latest:
            raise AssertionError(f"not {what} within {PATIENCE} seconds")


def waiting(file):
    """How many bytes were written to a pipe or a socket and not yet read."""
    return struct.unpack("i", fcntl.ioctl(file, termios.FIONREAD, bytes(4)))[0]


def run_in_pieces(words, pieces):
    """Runs the program over an input that comes in these pieces: each is read before the next one is there, up to the program's end."""
    program = started(*words, stdin=subprocess.PIPE)
    with contextlib.suppress(BrokenPipeError):
        for piece in pieces:
            os.write(program.stdin.fileno(), piece)
            until(lambda: program.poll() is not None or not waiting(program.stdin.fileno()), "read")
    return ended(program)


def run_until_reset(words, content):
    """Runs the program over a connection that brings these bytes and fails in the read behind them."""
    with socket.create_server(("127.0.0.1", 0)) as server, socket.create_connection(server.getsockname()) as ours:
        theirs, _ = server.accept()
        with theirs:
            program = started(*words, stdin=theirs)
            ours.sendall(content)
            until(lambda: is_asleep(program) and not waiting(theirs), "read")
        # Closed so, a connection is reset: the other end's next call fails.
        ours.setsockopt(socket.SOL_SOCKET, socket.SO_LINGER, struct.pack("ii", 1, 0))
    return ended(program)


def state(program):
    """The letter by which the system tells what the program does: R at work, S in a call that waits, T stopped, Z ended."""
    with open(f"/proc/{program.pid}/stat", encoding="ascii", errors="replace") as stat:
        return stat.read().rpartition(")")[2].split()[0]


def is_asleep(program):
    return state(program) == "S"


def interrupt(program, times):
    """Interrupts the call that the program waits in, so many times, unless it ends before.

    A call on a socket with a time limit of its own isn't begun anew by the system where a program was stopped in it and goes on.
    """
    until(lambda: state(program) in "SZ", "in a call")
    for _ in range(times):
        if state(program) == "Z":
            return
        program.send_signal(signal.SIGSTOP)
        until(lambda: state(program) in "TZ", "stopped")
        program.send_signal(signal.SIGCONT)
        until(lambda: state(program) in "SZ", "in a call")


def with_time_limit(limit):
    """Both ends of a connection, of which the second has a time limit for its reads or its writes, and little room."""
    ours, theirs = socket.socketpair()
    theirs.setsockopt(socket.SOL_SOCKET, limit, struct.pack("ll", 10 * PATIENCE, 0))
    theirs.setsockopt(socket.SOL_SOCKET, socket.SO_SNDBUF, 4_096)
    return ours, theirs
