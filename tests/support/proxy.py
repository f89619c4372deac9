"""A proxy between whoever dials it and a server. It cuts what goes each way into records (RFC 5531 section 11), and by its rules it
passes, drops, repeats, replaces, delays or holds them, puts others among them, or ends the link.

    with Proxy(server.port, Rule(TO_CLIENT, 7, cut(13)), Rule(TO_SERVER, ANY, repeated())) as proxy:
        ...                                                                                  # dial proxy.port

A rule names a way and a record of it: by its number from 1 on, by 0 for the moment at which the link is up and no record has come yet,
or by a test of the passage. The first rule that fits says what goes on in the record's place: its act is called with the passage, and
gives bytes, which go on, or OVER, CLOSED or RESET, which end the link, or Later, which goes on behind other records. Where no rule fits
the record goes on as it came. Each link has its own numbers; `link=2` makes a rule one of the second link alone.
"""

import socket
import struct
import threading
import time
from typing import Callable, NamedTuple, Optional, Union

TO_SERVER, TO_CLIENT = "to server", "to client"

# Ends of a link: nothing more goes on this way, and what still comes on it is dropped; both ways are closed; both are, by a reset.
OVER, CLOSED, RESET = "over", "closed", "reset"

# A held record is let go of after so many seconds, and the proxy says that it was missed.
PATIENCE = 20

LAST = 0x8000_0000


class Passage(NamedTuple):
    """A record on its way: by which link, counted from 1, which way, and which one of that way. Its bytes have their marks."""

    link: int
    way: str
    number: int
    record: bytes


class Later(NamedTuple):
    """Bytes that go on once so many more records have gone on behind them."""

    record: bytes
    behind: int


class Rule(NamedTuple):
    """What becomes of a record."""

    way: str
    which: Union[int, Callable[[Passage], bool]]
    act: Callable
    link: Optional[int] = None

    def fits(self, passage):
        if passage.way != self.way or self.link not in (None, passage.link):
            return False
        return self.which(passage) if callable(self.which) else self.which == passage.number


# ---- which records


def ANY(passage):
    """Each record."""
    return passage.number > 0


def longer(size):
    """Each record with more bytes than this, as the answer to a READ of a whole chunk, or a WRITE of one."""
    return lambda passage: len(passage.record) > size


def marked(record):
    """A record of these bytes, behind its mark."""
    return struct.pack(">I", LAST | len(record)) + record


# ---- what becomes of them


def instead(*parts):
    """These parts in the record's place: bytes, or an end."""
    return lambda passage: parts


def dropped():
    return instead()


def repeated(times=2):
    return lambda passage: [passage.record] * times


def before(*parts):
    """These parts, and then the record."""
    return lambda passage: [*parts, passage.record]


def behind(*parts):
    """The record, and then these parts."""
    return lambda passage: [passage.record, *parts]


def cut(count, end=OVER):
    """So many bytes of the record, its mark among them, and then the end."""
    return lambda passage: [passage.record[:count], end]


def later(records):
    """The record goes on behind so many of those that follow it on its way."""
    return lambda passage: [Later(passage.record, records)]


def held(gate):
    """The record, and all that comes behind it, waits for the gate, which has a `wait` with a limit in seconds."""
    def act(passage):
        if not gate.wait(PATIENCE):
            raise Missed(passage)
        yield passage.record
    return act


class Missed(Exception):
    """A held record waited in vain."""


class Meeting:
    """A gate that opens once so many wait at it, or have waited."""

    def __init__(self, count):
        self.count, self.met = count, threading.Event()
        self.lock = threading.Lock()

    def wait(self, seconds):
        with self.lock:
            self.count -= 1
            if self.count <= 0:
                self.met.set()
        return self.met.wait(seconds)


class Ending(Exception):
    """A link ends: OVER, CLOSED or RESET."""


class Way:
    """One way of a link: a thread that takes records from one socket and puts what the rules give to another."""

    def __init__(self, proxy, link, name, taken, put):
        self.proxy, self.link, self.name, self.taken, self.put = proxy, link, name, taken, put
        self.number, self.waiting = 0, []
        self.thread = threading.Thread(target=self.run, daemon=True)

    def receive(self, count):
        data = bytearray()
        while len(data) < count:
            part = self.taken.recv(count - len(data))
            if not part:
                break
            data += part
        return bytes(data)

    def record(self):
        """The next record with its marks, or what there is of it where the other end ended."""
        data, last = b"", False
        while not last:
            mark = self.receive(4)
            data += mark
            if len(mark) < 4:
                return data, False
            (length,) = struct.unpack(">I", mark)
            last, length = length >= LAST, length & ~LAST
            part = self.receive(length)
            data += part
            if len(part) < length:
                return data, False
        return data, True

    def put_on(self, parts):
        for part in parts:
            if isinstance(part, Later):
                self.waiting.append([part.behind, part.record])
            elif isinstance(part, bytes):
                self.put.sendall(part)
            else:
                raise Ending(part)

    def judge(self, record):
        """Puts on what the rules say of a record, and those that waited for it to go."""
        passage = Passage(self.link.number, self.name, self.number, record)
        self.proxy.seen.append(passage)
        due = list(self.waiting)
        self.put_on(self.proxy.act(passage))
        for waiter in due:
            waiter[0] -= 1
            if waiter[0] <= 0:
                self.waiting.remove(waiter)
                self.put.sendall(waiter[1])

    def pass_on(self):
        self.put_on(self.proxy.act(Passage(self.link.number, self.name, 0, b"")))
        while True:
            record, is_whole = self.record()
            if not is_whole:
                self.put.sendall(b"".join(waiter[1] for waiter in self.waiting) + record)
                return OVER
            self.number += 1
            self.judge(record)

    def run(self):
        end = OVER
        try:
            end = self.pass_on()
        except Ending as ending:
            (end,) = ending.args
        except Missed as missed:
            self.proxy.missed.append(missed.args[0])
            end = RESET
        except OSError:
            pass
        self.finish(end)

    def finish(self, end):
        if end == OVER:
            shut(self.put, socket.SHUT_WR)
            # The other end goes on as if it were heard.
            try:
                while self.taken.recv(65_536):
                    pass
            except OSError:
                pass
        else:
            self.link.end(end)


class Link:
    """A connection to the proxy, and one from it to the server."""

    def __init__(self, number, client, server):
        self.number, self.client, self.server = number, client, server

    def end(self, end):
        for it in (self.client, self.server):
            if end == RESET:
                reset(it)
            else:
                shut(it, socket.SHUT_RDWR)


def shut(it, how):
    try:
        it.shutdown(how)
    except OSError:
        pass


def reset(it):
    """Ends a connection so that the other end's calls fail."""
    try:
        it.setsockopt(socket.SOL_SOCKET, socket.SO_LINGER, struct.pack("ii", 1, 0))
    except OSError:
        pass
    # A thread that waits for bytes would keep the connection.
    shut(it, socket.SHUT_RD)
    it.close()


class Proxy:
    """Links to a port of this machine, by these rules."""

    def __init__(self, server_port, *rules):
        self.server_port, self.rules = server_port, rules
        # Each record that came to it, and those that were held in vain, in the order in which they were.
        self.seen, self.missed = [], []
        self.ways, self.links = [], []
        self.listener = socket.socket()
        self.listener.bind(("127.0.0.1", 0))
        self.listener.listen(64)
        self.port = self.listener.getsockname()[1]
        self.thread = threading.Thread(target=self.accept, daemon=True)

    def act(self, passage):
        for rule in self.rules:
            if rule.fits(passage):
                return rule.act(passage)
        return [passage.record]

    def count(self, way, link=None):
        """How many whole records have come this way."""
        return sum(passage.way == way and link in (None, passage.link) for passage in list(self.seen))

    def await_count(self, way, count, link=None):
        """Waits until so many records have come this way."""
        deadline = time.monotonic() + PATIENCE
        while self.count(way, link) < count:
            if time.monotonic() > deadline:
                raise AssertionError(f"only {self.count(way, link)} records came {way}")
            time.sleep(0.005)

    def accept(self):
        while True:
            try:
                client, _ = self.listener.accept()
            except OSError:
                return
            try:
                server = socket.create_connection(("127.0.0.1", self.server_port), PATIENCE)
            except OSError:
                reset(client)
                continue
            server.settimeout(None)
            for it in (client, server):
                it.setsockopt(socket.IPPROTO_TCP, socket.TCP_NODELAY, 1)
            link = Link(len(self.links) + 1, client, server)
            self.links.append(link)
            for way in (Way(self, link, TO_SERVER, client, server), Way(self, link, TO_CLIENT, server, client)):
                self.ways.append(way)
                way.thread.start()

    def __enter__(self):
        self.thread.start()
        return self

    def __exit__(self, *_):
        shut(self.listener, socket.SHUT_RDWR)
        self.listener.close()
        self.thread.join()
        for link in self.links:
            link.end(CLOSED)
        for way in self.ways:
            way.thread.join(PATIENCE)
        for link in self.links:
            link.client.close()
            link.server.close()
