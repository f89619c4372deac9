"""The program's servers, each a process of its own at a port of this machine, with the files of their volumes and the realm that they and
their callers read. A test ends those that it started, and no other."""

import contextlib
import functools
import os
import signal
import socket
import subprocess
import tempfile
import threading
import time

from support.caller import Caller
from support.program import PATIENCE, PROGRAM, run

# The principals of each folder: who copies, and the destination when it calls the source.
KEYS = {"user": bytes([1] * 32), "dest": bytes([2] * 32)}

BLOCK = 4_096
PIECE = 65_536

# The statuses of docs/formats.md.
WORKED, NO_COMMAND, OUTPUT_FAULT, DISK_FAULT, NO_VOLUME, NET_FAULT, COPY_FAILED, NOT_OPENED = 0, 1, 4, 6, 7, 8, 9, 11

# A port that is free may be another's a moment later: then another one is tried, so often.
MOST_PORTS = 5


def check(holds, what):
    """What isn't as it should be fails the test."""
    if not holds:
        raise AssertionError(what)


@contextlib.contextmanager
def new_folder():
    """A folder for volumes, with a realm."""
    with tempfile.TemporaryDirectory() as folder:
        write_realm(folder)
        yield folder


def write_realm(folder, keys=None):
    with open(os.path.join(folder, "realm.txt"), "w", encoding="ascii") as realm:
        realm.write("".join(f"{name} {key.hex()}\n" for name, key in (keys or KEYS).items()))


def content(size):
    """So many bytes, each of which differs from its neighbours mostly."""
    made, word = bytearray(), 1
    for _ in range(size):
        word = (word * 1_664_525 + 1_013_904_223) % (1 << 32)
        made.append(word >> 24)
    return bytes(made)


# ---- ports


def free_port():
    """A port at which nothing listens."""
    with socket.socket() as it:
        it.bind(("127.0.0.1", 0))
        return it.getsockname()[1]


def listener_of(port):
    """The line of the system's table of sockets for what listens at a port of this machine, if something does. To look there is no
    connection, which would be counted."""
    with open("/proc/net/tcp", encoding="ascii") as table:
        rows = [line.split() for line in table][1:]
    return next((row for row in rows if row[1].endswith(f":{port:04X}") and row[3] == "0A"), None)


def listens(port):
    return listener_of(port) is not None


def listens_in(session, port):
    """Whether it is a process of this session that listens at a port: another's test may have come first."""
    row = listener_of(port)
    return row is not None and any(f"socket:[{row[9]}]" in files_of(int(process)) for process in os.listdir("/proc")
                                   if process.isdigit() and session_of(int(process)) == session)


def session_of(process):
    try:
        return os.getsid(process)
    except OSError:
        return None


def files_of(process):
    """What the open files of a process are."""
    folder = f"/proc/{process}/fd"
    try:
        return {os.readlink(os.path.join(folder, file)) for file in os.listdir(folder)}
    except OSError:
        return set()


def waiting_at(port):
    """How many connections to a port wait to be accepted."""
    row = listener_of(port)
    return int(row[4].split(":")[1], 16) if row else 0


def awaited(what, holds, seconds=PATIENCE):
    """Waits until something holds, and gives it."""
    deadline = time.monotonic() + seconds
    while True:
        found = holds()
        if found:
            return found
        check(time.monotonic() < deadline, f"in vain was it waited that {what}")
        time.sleep(0.005)


# ---- volumes


def make_volume(folder, name, blocks=32, tag=7, data=b"", files=1):
    """A volume in a file of this name, whose file 1 has these bytes. The file is no longer than the volume."""
    with open(os.path.join(folder, name), "wb") as file:
        file.write(volume_of(blocks, tag, data, files))


@functools.lru_cache(maxsize=None)
def volume_of(blocks, tag, data, files):
    """The bytes of such a volume's file, which the program has made."""
    with new_folder() as folder:
        made = run("format", "volume", files, blocks, tag, folder=folder)
        taken = 4 + 3 * files + 2 * files * blocks
        check(made == (WORKED, b"formatted %d\n" % taken, b""), f"format: {made}")
        os.truncate(os.path.join(folder, "volume"), taken * BLOCK)
        if data:
            with Server(folder, "serve-source", "volume") as server:
                with joined(server.port) as caller:
                    put(caller, data)
                server.end()
        with open(os.path.join(folder, "volume"), "rb") as file:
            return file.read()


def file_of(folder, name, count, file=1):
    """The front of a file of a volume, which is served for it. Past the file's end it has zeros."""
    with Server(folder, "serve-source", name) as server:
        with joined(server.port) as caller:
            found = get(caller, count, file)
        server.end()
    return found


@contextlib.contextmanager
def joined(port, owner=b"tests", name="user"):
    """A caller that has set itself up, and takes its leave."""
    caller = Caller(port, name, KEYS[name], PATIENCE)
    try:
        caller.join(owner)
        yield caller
        caller.leave()
    finally:
        caller.socket.close()


def put(caller, data, file=1, offset=0):
    """Writes and commits bytes of a file."""
    opened = caller.open(file)
    for at in range(0, len(data), PIECE):
        caller.write(opened, offset + at, data[at : at + PIECE])
    caller.commit(opened)
    caller.close(opened)


def get(caller, count, file=1, offset=0):
    """The bytes of a file. Past its end they are 0."""
    opened = caller.open(file)
    parts = [caller.read(opened, at, min(PIECE, offset + count - at)).ljust(min(PIECE, offset + count - at), b"\0")
             for at in range(offset, offset + count, PIECE)]
    caller.close(opened)
    return b"".join(parts)


# ---- servers


class Server:
    """A server, once it listens. It ends by itself where it has served what it was asked for, or is killed."""

    def __init__(self, folder, command, volume, conns=1, *more, port=None, failing=None, closed=False):
        self.folder, self.failing, self.closed = folder, failing, closed
        self.lock = threading.Lock()
        for _ in range(1 if port else MOST_PORTS):
            self.port = port or free_port()
            self.begin(command, volume, self.port, conns, *more)
            try:
                if self.comes_to_listen():
                    return
            except BaseException:
                # Nobody else would end it.
                self.kill()
                raise
            printed, errors = self.child.communicate()
            if self.child.returncode != NET_FAULT:
                break
        raise AssertionError(f"{command} doesn't listen: it ended with {self.child.returncode}, {printed!r} {errors!r}")

    def begin(self, *words):
        """Starts it; with its standard streams closed, where that was asked for."""
        shell = ["sh", "-c", 'exec "$@" <&- >&- 2>&-', "sh"] if self.closed else []
        self.child = subprocess.Popen([*shell, PROGRAM, *map(str, words)], cwd=self.folder, env=self.failing and self.failing.env,
                                      stdin=subprocess.DEVNULL, stdout=subprocess.PIPE, stderr=subprocess.PIPE, start_new_session=True)

    def comes_to_listen(self):
        """Whether it listens, now or soon. One that ends doesn't, but where calls fail in it: it may have listened."""
        awaited("a server listens", lambda: listens_in(self.child.pid, self.port) or self.child.poll() is not None)
        return self.child.poll() is None or self.failing is not None

    def __enter__(self):
        return self

    def __exit__(self, *_):
        self.kill()

    def kill(self, by=signal.SIGKILL):
        """Kills it where it goes on still, and gives its status."""
        with self.lock:
            if self.child.poll() is None:
                os.killpg(self.child.pid, by)
            self.child.communicate(timeout=PATIENCE)
            return self.child.returncode

    def end(self, status=WORKED, printed=b""):
        """It ends by itself with this status, and has printed this."""
        try:
            found = self.child.communicate(timeout=PATIENCE)
        except subprocess.TimeoutExpired:
            raise AssertionError(f"a server goes on, with {waiting_at(self.port)} connections that wait") from None
        check((self.child.returncode, *found) == (status, printed, b""), f"a server ended with {self.child.returncode}: {found}")

    def goes_on(self):
        return self.child.poll() is None

    def waiting(self):
        """How many connections wait to be accepted."""
        return waiting_at(self.port)

    def dial(self):
        """A connection that brings nothing yet."""
        return socket.create_connection(("127.0.0.1", self.port), PATIENCE)


def refused_server(folder, command, volume, conns=1, *more, **how):
    """What a server came to that ends by itself before anybody is served."""
    for _ in range(MOST_PORTS):
        port = free_port()
        ended = run(command, volume, port, conns, *more, folder=folder, **how)
        if ended.status != NET_FAULT or not listens(port):
            return ended
    return ended


def source(folder, conns, name="source", **how):
    return Server(folder, "serve-source", name, conns, **how)


def destination(folder, conns, workers, source_port, name="dest", **how):
    return Server(folder, "serve-dest", name, conns, workers, source_port, **how)


def copy(folder, source_port, dest_port, words, **how):
    """What a copy by the program came to."""
    return run("copy", source_port, dest_port, *words.split(), folder=folder, **how)


def turned_away(server):
    """What a connection brings that the server doesn't accept, to its end, which may come as soon as it is dialed."""
    try:
        with server.dial() as link:
            return has_ended(link)
    except ConnectionResetError:
        return b""


def has_ended(connection):
    """Waits until the other end has ended a connection, and gives what it brought before."""
    connection.settimeout(PATIENCE)
    data = b""
    try:
        while True:
            part = connection.recv(65_536)
            if not part:
                return data
            data += part
    except ConnectionResetError:
        return data
