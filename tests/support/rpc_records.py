"""Records of RPC made by hand, word for word, and what their answers say, over a connection to a server of the program.

None of this is the program's: XDR is RFC 4506, records and heads RFC 5531, contexts RFC 2203, operations RFC 8881, tokens and codes
docs/protocol.md."""

import hashlib
import hmac
import itertools
import os
import re
import socket
import struct
import time

OPERATIONS = {
    "GETATTR": 9,
    "OPEN": 18,
    "PUTFH": 22,
    "PUTROOTFH": 24,
    "READ": 25,
    "WRITE": 38,
    "EXCHANGE_ID": 42,
    "CREATE_SESSION": 43,
    "SEQUENCE": 53,
}
NAMES = {number: name for name, number in OPERATIONS.items()}

# No answer is awaited longer, in seconds.
PATIENCE = 30


def word(number):
    return struct.pack(">I", number)


def opaque(data):
    return word(len(data)) + data + bytes(-len(data) % 4)


def field(text):
    """A number is a word, the name of an operation its number, `'TEXT` the opaque bytes of a text, and `*COUNT` so many opaque bytes 7."""
    if text.startswith("'"):
        return opaque(text[1:].encode())
    if text.startswith("*"):
        return opaque(bytes([7]) * int(text[1:]))
    return word(OPERATIONS[text] if text in OPERATIONS else int(text))


def fields(text):
    """What words apart from one another by `:` spell."""
    return b"".join(map(field, text.split(":")))


def in_runs(items):
    """Items apart from one another by blanks. Where one stands four or more times in a row, how often it does."""
    told = []
    for item, same in itertools.groupby(items):
        times = len(list(same))
        told += [f"{item}*{times}"] if times > 3 else [item] * times
    return " ".join(told)


def words_of(data):
    """The words that bytes are."""
    return in_runs(str(number) for (number,) in struct.iter_unpack(">I", data))


class Reader:
    """XDR, read from its front."""

    def __init__(self, data):
        self.data, self.at = data, 0

    def take(self, count):
        part = self.data[self.at : self.at + count]
        if len(part) != count:
            raise ValueError("an answer is too short")
        self.at += count
        return part

    def word(self):
        return struct.unpack(">I", self.take(4))[0]

    def opaque(self):
        data = self.take(self.word())
        self.take(-len(data) % 4)
        return data


def skip_result(reader, name):
    """What stands behind the status of an operation that was done, where another result follows."""
    if name == "SEQUENCE":
        reader.take(36)
    elif name == "READ":
        reader.word()
        reader.opaque()
    elif name == "GETATTR":
        reader.take(4 * reader.word())
        reader.opaque()
    elif name not in ("PUTFH", "PUTROOTFH"):
        raise ValueError(f"what stands in a result of {name} isn't known here")


def results_told(result):
    """The status of a COMPOUND, each operation with its status, the tag's length where there is a tag, and the words of the last result."""
    reader = Reader(result)
    status, tag, count = reader.word(), len(reader.opaque()), reader.word()
    results = []
    for number in range(1, count + 1):
        name, its = NAMES.get(reader.word(), "?"), reader.word()
        results.append(f"{name} {its}")
        if number < count and its == 0:
            skip_result(reader, name)
    parts = (f"{status}:", in_runs(results), f"tag {tag}" if tag else "", words_of(reader.data[reader.at :]))
    return " ".join(filter(None, parts))


class Hand:
    """A connection to a server, on which records made by hand go out, with a context of RPCSEC_GSS once it is begun."""

    def __init__(self, port):
        deadline = time.monotonic() + PATIENCE
        while True:
            try:
                self.socket = socket.create_connection(("127.0.0.1", port), PATIENCE)
                break
            except ConnectionRefusedError:
                if time.monotonic() > deadline:
                    raise
                time.sleep(0.01)
        self.xid = self.number = self.next = 0

    def end(self):
        """Ends the connection. What came on it and was awaited by nobody."""
        with self.socket:
            self.socket.shutdown(socket.SHUT_WR)
            left = b""
            while part := self.socket.recv(65_536):
                left += part
        return left

    # ---- records

    def send(self, record):
        self.socket.sendall(word(0x8000_0000 | len(record)) + record)

    def receive(self, count):
        data = b""
        while len(data) < count:
            part = self.socket.recv(count - len(data))
            if not part:
                raise ValueError("the connection ended within an answer")
            data += part
        return data

    def record(self):
        """The next record, of one fragment."""
        return self.receive(Reader(self.receive(4)).word() & 0x7FFF_FFFF)

    # ---- a context

    def mic(self, side, data):
        return hmac.new(self.key, side + data, hashlib.sha256).digest()

    def begin(self, name, key):
        """INIT, by a new nonce. Its answer makes a context of window 128."""
        nonce = os.urandom(32)
        token = opaque(name) + nonce + hmac.new(key, b"\1" + name + nonce, hashlib.sha256).digest()
        self.xid += 1
        cred = word(3) + word(1) + word(0) + word(2) + opaque(b"")
        self.send(b"".join(map(word, (self.xid, 0, 2, 100_003, 4, 0, 6))) + opaque(cred) + word(0) + word(0) + opaque(token))
        reader = Reader(self.record())
        if reader.take(16) != b"".join(map(word, (self.xid, 1, 0, 6))):
            raise ValueError("INIT isn't answered")
        verifier = reader.opaque()
        reader.word()
        self.handle = reader.opaque()
        if reader.take(12) != word(0) + word(0) + word(128):
            raise ValueError("INIT is refused")
        token = reader.opaque()
        self.key = hmac.new(key, b"\2" + nonce + token[:32], hashlib.sha256).digest()
        if verifier != self.mic(b"\1", word(128)) or token[32:] != hmac.new(self.key, b"\3", hashlib.sha256).digest():
            raise ValueError("a code of INIT")

    def head(self, kind):
        cred = word(3) + word(0) + word(self.number) + word(2) + opaque(self.handle)
        return b"".join(map(word, (self.xid, kind, 2, 100_003, 4, 1, 6))) + opaque(cred)

    def call(self, body):
        """The result of a COMPOUND with this body, of which the codes are checked, and how long the record was that brought it."""
        self.xid, self.number = self.xid + 1, self.number + 1
        sealed = word(self.number) + body
        head = self.head(0)
        self.send(head + word(6) + opaque(self.mic(b"\0", head)) + opaque(sealed) + opaque(self.mic(b"\0", sealed)))
        answer = self.record()
        reader = Reader(answer)
        due = b"".join(map(word, (self.xid, 1, 0, 6))) + opaque(self.mic(b"\1", self.head(1))) + word(0)
        if reader.take(len(due)) != due:
            raise ValueError("the head of an answer")
        sealed, code = reader.opaque(), reader.opaque()
        if code != self.mic(b"\1", sealed) or sealed[:4] != word(self.number):
            raise ValueError("the seal of an answer")
        return sealed[4:], len(answer)

    def told(self, line):
        """The answer to a line: `call OPERATION..` is a COMPOUND of these operations, and `do OPERATION..` one behind SEQUENCE with the
        next number of slot 0 of session 1. `tag:FIELD` is no operation but the tag, and `N of OPERATION` is N times that one."""
        kind, *said = re.sub(r"(\d+) of (\S+)", lambda found: " ".join([found[2]] * int(found[1])), line).split(" ")
        tags = [field(part[4:]) for part in said if part.startswith("tag:")]
        operations = [fields(part) for part in said if not part.startswith("tag:")]
        if kind == "do":
            self.next += 1
            operations.insert(0, fields(f"SEQUENCE:1:1:0:0:{self.next}:0:15:0"))
        body = b"".join(tags or [opaque(b"")]) + word(2) + word(len(operations)) + b"".join(operations)
        result, length = self.call(body)
        return results_told(result) + (f"; {length} bytes" if length > 65_536 else "")
