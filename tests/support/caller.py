"""A small client of the servers over TCP, which shares no code with them: RPC with RPCSEC_GSS (RFC 5531, RFC 2203), the realm's own
tokens, and the operations of NFSv4.2 that set up a session and open, write, commit and read files (RFC 8881)."""

import hashlib
import hmac
import os
import socket
import struct

MOST_RECORD = 73_728
LAST = 0x8000_0000
INITIATOR, ACCEPTOR = b"\0", b"\1"
NULL, COMPOUND = 0, 1
DATA, INIT, DESTROY = 0, 1, 3
CLOSE, COMMIT, GETATTR, GETFH, OPEN, PUTFH, PUTROOTFH, READ, WRITE = 4, 5, 9, 10, 18, 22, 24, 25, 38
EXCHANGE_ID, CREATE_SESSION, DESTROY_SESSION, SEQUENCE, DESTROY_CLIENTID, RECLAIM_COMPLETE = 42, 43, 44, 53, 57, 58


class Ended(Exception):
    """The other end closed the connection."""


class Refused(Exception):
    """A call was answered with another status than 0."""


def word(number):
    return struct.pack(">I", number)


def long(number):
    return struct.pack(">Q", number)


def opaque(data):
    return word(len(data)) + data + bytes(-len(data) % 4)


def compound_of(operations):
    """The arguments of a COMPOUND of these operations, in minor version 2 and without a tag."""
    return opaque(b"") + word(2) + word(len(operations)) + b"".join(operations)


class Reader:
    """XDR, read from a record (RFC 4506)."""

    def __init__(self, data):
        self.data, self.at = data, 0

    def take(self, count):
        if self.at + count > len(self.data):
            raise ValueError("a record is too short")
        part = self.data[self.at : self.at + count]
        self.at += count
        return part

    def word(self):
        return struct.unpack(">I", self.take(4))[0]

    def long(self):
        return struct.unpack(">Q", self.take(8))[0]

    def opaque(self):
        count = self.word()
        part = self.take(count)
        self.take(-count % 4)
        return part

    def rest(self):
        return self.take(len(self.data) - self.at)


class Caller:
    """A connection to a server, with a context of RPCSEC_GSS, a session and files that are open."""

    def __init__(self, port, name, key, timeout=30):
        self.socket = socket.create_connection(("127.0.0.1", port), timeout)
        self.socket.setsockopt(socket.IPPROTO_TCP, socket.TCP_NODELAY, 1)
        self.xid = 0
        try:
            self.begin(name.encode(), key)
        except BaseException:
            self.socket.close()
            raise

    # ---- records and calls

    def send(self, record):
        self.socket.sendall(word(LAST | len(record)) + record)

    def receive(self, count):
        data = b""
        while len(data) < count:
            part = self.socket.recv(count - len(data))
            if not part:
                raise Ended
            data += part
        return data

    def record(self):
        data, last = b"", False
        while not last:
            (mark,) = struct.unpack(">I", self.receive(4))
            last = mark >= LAST
            data += self.receive(mark & ~LAST)
        return data

    def header(self, kind, procedure, step, number):
        cred = word(3) + word(step) + word(number) + word(2) + opaque(b"" if step == INIT else self.handle)
        return word(self.xid) + word(kind) + word(2) + word(100_003) + word(4) + word(procedure) + word(6) + opaque(cred)

    def mic(self, side, data):
        return hmac.new(self.key, side + data, hashlib.sha256).digest()

    def body(self, xid):
        """What follows the head of the reply to this call, with its verifier."""
        reader = Reader(self.record())
        if (reader.word(), reader.word()) != (xid, 1):
            raise ValueError("another reply")
        if reader.word() != 0:
            raise Refused("denied", reader.word(), reader.word())
        reader.word()
        verifier = reader.opaque()
        stat = reader.word()
        if stat:
            raise Refused("failed", stat)
        return verifier, reader

    def begin(self, name, key):
        """INIT: the realm's token, and the key of the context that comes of both nonces."""
        nonce = os.urandom(32)
        code = hmac.new(key, b"\1" + name + nonce, hashlib.sha256).digest()
        self.xid += 1
        token = opaque(name) + nonce + code
        self.send(self.header(0, NULL, INIT, 0) + word(0) + word(0) + opaque(token))
        verifier, reader = self.body(self.xid)
        self.handle = reader.opaque()
        major = reader.word()
        if major:
            raise Refused("INIT", major)
        reader.word()
        window = reader.word()
        token = reader.opaque()
        self.key = hmac.new(key, b"\2" + nonce + token[:32], hashlib.sha256).digest()
        if hmac.new(self.key, b"\3", hashlib.sha256).digest() != token[32:] or verifier != self.mic(ACCEPTOR, word(window)):
            raise ValueError("a code of INIT")
        self.number = 0

    def call(self, procedure, step, args):
        """The record of the next call with these arguments, under its seal."""
        self.xid += 1
        self.number += 1
        head = self.header(0, procedure, step, self.number)
        sealed = word(self.number) + args
        return head + word(6) + opaque(self.mic(INITIATOR, head)) + opaque(sealed) + opaque(self.mic(INITIATOR, sealed))

    def answer(self, procedure, step):
        """The results in the reply to the last call, whose seal is checked."""
        verifier, reader = self.body(self.xid)
        if verifier != self.mic(ACCEPTOR, self.header(1, procedure, step, self.number)):
            raise ValueError("the verifier of a reply")
        sealed, code = reader.opaque(), reader.opaque()
        if code != self.mic(ACCEPTOR, sealed) or sealed[:4] != word(self.number) or reader.rest():
            raise ValueError("the seal of a reply")
        return sealed[4:]

    def results(self, *operations):
        """What a COMPOUND is answered: its status, its tag and all its results."""
        self.send(self.call(COMPOUND, DATA, compound_of(operations)))
        return self.answer(COMPOUND, DATA)

    def compound(self, *operations):
        """The results of a COMPOUND that is answered with status 0."""
        result = Reader(self.results(*operations))
        status = result.word()
        if status:
            raise Refused("COMPOUND", status)
        result.opaque()
        result.word()
        return result

    def expect(self, result, operation):
        if (result.word(), result.word()) != (operation, 0):
            raise ValueError("another result")
        return result

    # ---- a session, and files

    def join(self, owner):
        """EXCHANGE_ID, CREATE_SESSION and RECLAIM_COMPLETE."""
        result = self.compound(word(EXCHANGE_ID) + os.urandom(8) + opaque(owner) + word(0) + word(0) + word(0))
        self.expect(result, EXCHANGE_ID)
        self.client, sequence = result.long(), result.word()
        attributes = word(0) + word(MOST_RECORD) + word(MOST_RECORD) + word(8_192) + word(8) + word(16) + word(0)
        result = self.compound(word(CREATE_SESSION) + long(self.client) + word(sequence) + word(0) + attributes + attributes
                               + word(0x4000_0000) + word(1) + word(0))
        self.session = self.expect(result, CREATE_SESSION).take(16)
        self.slot = 0
        self.in_session(word(RECLAIM_COMPLETE) + word(0))

    def in_session(self, *operations):
        self.slot += 1
        sequence = word(SEQUENCE) + self.session + word(self.slot) + word(0) + word(0) + word(0)
        result = self.expect(self.compound(sequence, *operations), SEQUENCE)
        result.take(16 + 20)
        return result

    def open(self, file):
        """A file by its number, to be read and written: its handle and its stateid."""
        owner = long(self.client) + opaque(b"caller")
        claim = word(0) + word(0) + opaque(str(file).encode())
        result = self.in_session(word(PUTROOTFH), word(OPEN) + word(0) + word(3) + word(0) + owner + claim, word(GETFH))
        self.expect(result, PUTROOTFH)
        stateid = self.expect(result, OPEN).take(16)
        result.take(4 + 16 + 4)
        result.take(4 * result.word() + 4)
        return self.expect(result, GETFH).opaque(), stateid

    def write(self, opened, offset, data):
        handle, stateid = opened
        result = self.in_session(word(PUTFH) + opaque(handle), word(WRITE) + stateid + long(offset) + word(0) + opaque(data))
        count = self.expect(self.expect(result, PUTFH), WRITE).word()
        if count != len(data):
            raise ValueError("a short write")

    def commit(self, opened):
        result = self.in_session(word(PUTFH) + opaque(opened[0]), word(COMMIT) + long(0) + word(0))
        return self.expect(self.expect(result, PUTFH), COMMIT).take(8)

    def read(self, opened, offset, count):
        handle, stateid = opened
        result = self.in_session(word(PUTFH) + opaque(handle), word(READ) + stateid + long(offset) + word(count))
        self.expect(self.expect(result, PUTFH), READ).word()
        return result.opaque()

    def close(self, opened):
        handle, stateid = opened
        self.in_session(word(PUTFH) + opaque(handle), word(CLOSE) + word(0) + stateid)

    def leave(self):
        """The session, the client and the context end, and the connection."""
        self.expect(self.compound(word(DESTROY_SESSION) + self.session), DESTROY_SESSION)
        self.expect(self.compound(word(DESTROY_CLIENTID) + long(self.client)), DESTROY_CLIENTID)
        self.send(self.call(NULL, DESTROY, b""))
        if self.answer(NULL, DESTROY):
            raise ValueError("a result of DESTROY")
        self.socket.close()
