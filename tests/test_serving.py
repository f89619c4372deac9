"""A source that is served on a port of this machine, alone: what it answers to whoever dials it, word by word; with which status it ends;
whom it hangs up and whom it leaves waiting; and what its file holds when it is opened anew."""

import contextlib
import os
import random
import resource
import signal
import socket
import threading
import unittest

from support.caller import (CLOSE, COMMIT, CREATE_SESSION, DATA, DESTROY, DESTROY_CLIENTID, DESTROY_SESSION, EXCHANGE_ID, GETFH, NULL,
                            OPEN, PUTFH, PUTROOTFH, RECLAIM_COMPLETE, SEQUENCE, WRITE, Caller, Ended, long, opaque, word)
from support.before import Failing
from support.program import PATIENCE, run, run_into
from support.proxy import marked, reset
from support.servers import (BLOCK, DISK_FAULT, KEYS, NET_FAULT, NO_COMMAND, NO_VOLUME, NOT_OPENED, OUTPUT_FAULT, PIECE, WORKED, Server,
                             awaited, content, destination, file_of, free_port, get, has_ended, joined, make_volume, new_folder,
                             refused_server, source, turned_away)
from support.tables import each

TAG = 7
WRITTEN = b"0123456789"
EMPTY = bytes(len(WRITTEN))

RUBBISH = marked(b"\1\2\3\4")
LARGE = b"\xFF\xFF\xFF\xFF\1\2\3\4"

# The file of a volume that was formatted: 32,964 blocks.
ROOM = 32_964 * BLOCK

KILLS = 5

# So many connections are served at once.
MOST_AT_ONCE = 16

# EXCHGID4_FLAG_USE_NON_PNFS; the seqid of a stateid that was closed.
NON_PNFS = 0x0001_0000
CLOSED_SEQID = 4_294_967_295

UNSTABLE = 0


class Talk:
    """A client that sets itself up, writes, commits and takes its leave, and that knows each word of what a source answers: `boot` is the
    number of the opening of its volume, and `number` that of the client in it."""

    def __init__(self, test, port, number=1, boot=1):
        self.test, self.number, self.boot = test, number, boot
        self.caller = Caller(port, "user", KEYS["user"], PATIENCE)
        test.addCleanup(self.hang_up)
        self.session = word(boot) + word(number) + bytes(8)
        self.client = word(boot) + word(number)
        self.stateid = word(1) + word(1) + word(boot) + word(number)
        self.handle = opaque(long(TAG) + word(1))
        self.slot = 0

    def ask(self, operations, results):
        """A COMPOUND of these operations has these results, and status 0."""
        due = word(0) + opaque(b"") + word(len(results)) + b"".join(results)
        self.test.assertEqual(self.caller.results(*operations).hex(), due.hex())

    def sequenced(self, operations, results):
        self.slot += 1
        asked = self.session + word(self.slot) + word(0)
        self.ask([word(SEQUENCE) + asked + word(0) + word(0), *operations],
                 [done(SEQUENCE, asked + word(15) + word(15) + word(0)), *results])

    def join(self):
        owner = long(TAG)
        self.ask([word(EXCHANGE_ID) + bytes(8) + opaque(b"talk %d" % self.number) + word(0) + word(0) + word(0)],
                 [done(EXCHANGE_ID, self.client + word(1) + word(NON_PNFS) + word(0) + long(0) + opaque(owner) + opaque(owner) + word(0))])
        channel = word(0) + 3 * word(73_728) + word(16) + word(16) + word(0)
        self.ask([word(CREATE_SESSION) + self.client + word(1) + word(0) + channel + channel + word(0) + word(1) + word(0)],
                 [done(CREATE_SESSION, self.session + word(1) + word(0) + channel + channel)])
        self.sequenced([word(RECLAIM_COMPLETE) + word(0)], [done(RECLAIM_COMPLETE)])

    def open(self):
        how = word(0) + word(3) + word(0) + self.client + opaque(b"owner") + word(0) + word(0) + opaque(b"1")
        # The open: atomic, from change 0 to change 0; no flag, no attribute was set, and no delegation.
        opened = self.stateid + word(1) + long(0) + long(0) + word(0) + word(0) + word(0)
        self.sequenced([word(PUTROOTFH), word(OPEN) + how, word(GETFH)], [done(PUTROOTFH), done(OPEN, opened), done(GETFH, self.handle)])

    def write(self):
        self.sequenced([word(PUTFH) + self.handle, word(WRITE) + self.stateid + long(0) + word(UNSTABLE) + opaque(WRITTEN)],
                       [done(PUTFH), done(WRITE, word(len(WRITTEN)) + word(UNSTABLE) + long(self.boot))])

    def commit(self):
        self.sequenced([word(PUTFH) + self.handle, word(COMMIT) + long(0) + word(0)], [done(PUTFH), done(COMMIT, long(self.boot))])

    def close(self):
        self.sequenced([word(PUTFH) + self.handle, word(CLOSE) + word(0) + self.stateid],
                       [done(PUTFH), done(CLOSE, word(CLOSED_SEQID) + bytes(12))])

    def end_client(self):
        self.ask([word(DESTROY_SESSION) + self.session], [done(DESTROY_SESSION)])
        self.ask([word(DESTROY_CLIENTID) + self.client], [done(DESTROY_CLIENTID)])

    def last_call(self):
        """The record of the last call, which ends the context."""
        return marked(self.caller.call(NULL, DESTROY, b""))

    def up_to_last(self):
        for part in (self.join, self.open, self.write, self.commit, self.close, self.end_client):
            part()

    def all(self):
        self.up_to_last()
        self.caller.socket.sendall(self.last_call())
        self.test.assertEqual(self.caller.answer(NULL, DESTROY), b"")
        self.hang_up()

    def hang_up(self):
        self.caller.socket.close()


def done(operation, body=b""):
    """A result with status 0."""
    return word(operation) + word(0) + body


class Serving(unittest.TestCase):
    """A source of a new volume."""

    def setUp(self):
        holder = new_folder()
        self.folder = holder.__enter__()
        self.addCleanup(holder.__exit__, None, None, None)
        make_volume(self.folder, "source", blocks=1, tag=TAG)

    def serve(self, conns, **how):
        server = source(self.folder, conns, **how)
        self.addCleanup(server.kill)
        return server

    def dial(self, server, data=b""):
        """A connection that brings this, and stays."""
        link = server.dial()
        self.addCleanup(link.close)
        link.sendall(data)
        return link

    def has(self, data):
        """What the file has when it is opened anew."""
        self.assertEqual(file_of(self.folder, "source", len(data)), data)

    def is_written(self):
        self.has(WRITTEN)

    def is_empty(self):
        self.has(EMPTY)

    # ---- connections, of which some bring nothing

    def test_one(self):
        server = self.serve(1)
        Talk(self, server.port).all()
        server.end()
        self.is_written()

    def test_one_and_one_that_brings_nothing(self):
        server = self.serve(2)
        Talk(self, server.port).all()
        self.dial(server).close()
        server.end()
        self.is_written()

    def test_one_that_brings_nothing_and_one(self):
        server = self.serve(2)
        self.dial(server).close()
        Talk(self, server.port).all()
        server.end()
        self.is_written()

    def test_fewer_than_asked_for(self):
        """A server that has had two of three serves a third."""
        server = self.serve(3)
        Talk(self, server.port).all()
        self.dial(server).close()
        talk = Talk(self, server.port, 2)
        talk.join()
        talk.hang_up()
        server.end()
        self.is_written()

    def test_more_than_asked_for(self):
        """The second connection is left waiting: it gets no answer to its call."""
        server = self.serve(1)
        first = self.dial(server)
        awaited("the first is accepted", lambda: server.waiting() == 0)
        second = self.dial(server, RUBBISH)
        awaited("the second waits", lambda: server.waiting() == 1)
        first.close()
        server.end()
        self.assertEqual(has_ended(second), b"")
        self.is_empty()

    def test_none(self):
        """A server to which nobody comes waits, prints nothing, and can be ended."""
        server = self.serve(1_000_000)
        self.assertEqual(server.kill(signal.SIGTERM), -signal.SIGTERM)
        self.is_empty()

    def test_more_than_at_once(self):
        """Sixteen are served at once: a seventeenth waits until one of them has ended."""
        server = self.serve(MOST_AT_ONCE + 1)
        links = [self.dial(server) for _ in range(MOST_AT_ONCE - 1)]
        talk = Talk(self, server.port)
        awaited("sixteen are accepted", lambda: server.waiting() == 0)
        last = self.dial(server)
        awaited("the seventeenth waits", lambda: server.waiting() == 1)
        for part in (talk.join, talk.open, talk.write, talk.commit):
            part()
        self.assertEqual(server.waiting(), 1)
        # One that has brought nothing gives all its records back.
        links[0].close()
        awaited("the seventeenth is accepted", lambda: server.waiting() == 0)
        for link in (last, *links):
            link.close()
        talk.hang_up()
        server.end()
        self.is_written()

    def test_twenty(self):
        """More than are served at once, of which the last one talks."""
        server = self.serve(20)
        for _ in range(19):
            self.dial(server).close()
        Talk(self, server.port).all()
        server.end()
        self.is_written()

    def test_sixteen_talk_at_once(self):
        """Each of sixteen is answered while the others wait for their next answer."""
        server = self.serve(MOST_AT_ONCE)
        talks = [Talk(self, server.port, number) for number in range(1, MOST_AT_ONCE + 1)]
        for talk in talks:
            talk.join()
        for talk in reversed(talks):
            talk.sequenced([], [])
        for talk in talks:
            talk.end_client()
            talk.hang_up()
        server.end()

    # ---- a client that ends early, or whose connection does

    def test_ends_before_its_last_call(self):
        server = self.serve(1)
        talk = Talk(self, server.port)
        talk.up_to_last()
        talk.hang_up()
        server.end()
        self.is_written()

    def test_ends_within_its_last_call(self):
        server = self.serve(1)
        talk = Talk(self, server.port)
        talk.up_to_last()
        talk.caller.socket.sendall(talk.last_call()[:13])
        talk.hang_up()
        server.end()
        self.is_written()

    def test_ends_before_it_commits(self):
        """What wasn't committed isn't there."""
        server = self.serve(1)
        talk = Talk(self, server.port)
        for part in (talk.join, talk.open, talk.write):
            part()
        talk.hang_up()
        server.end()
        self.is_empty()

    def test_is_hung_up_once_it_says_no_more(self):
        server = self.serve(2)
        talk = Talk(self, server.port)
        talk.join()
        talk.caller.socket.shutdown(socket.SHUT_WR)
        self.assertEqual(has_ended(talk.caller.socket), b"")
        self.dial(server).close()
        server.end()

    def test_goes_away_without_hearing(self):
        """Answers that nobody takes end their connection, and raise no signal."""
        server = self.serve(2)
        talk = Talk(self, server.port)
        talk.join()
        for _ in range(20):
            talk.caller.send(talk.caller.call(NULL, DATA, b""))
        reset(talk.caller.socket)
        another = Talk(self, server.port, 2)
        another.join()
        another.hang_up()
        server.end()

    # ---- a call of a link fails: that connection ends alone

    def test_first_recv_fails(self):
        failing = Failing(self.folder, "recv 1")
        server = self.serve(1, failing=failing)
        self.assertEqual(has_ended(self.dial(server, RUBBISH)), b"")
        server.end()
        self.assertEqual(failing.failed(), ["recv 1"])
        self.is_empty()

    def test_second_send_fails(self):
        """The context is made, and the client never learns of its ID."""
        failing = Failing(self.folder, "send 2")
        server = self.serve(1, failing=failing)
        talk = Talk(self, server.port)
        with self.assertRaises((Ended, ConnectionError)):
            talk.join()
        talk.hang_up()
        server.end()
        self.assertEqual(failing.failed(), ["send 2"])
        self.is_empty()

    def test_first_recv_fails_and_another_talks(self):
        failing = Failing(self.folder, "recv 1")
        server = self.serve(2, failing=failing)
        self.assertEqual(has_ended(self.dial(server, RUBBISH)), b"")
        Talk(self, server.port).all()
        server.end()
        self.assertEqual(failing.failed(), ["recv 1"])
        self.is_written()

    # ---- rubbish, and a record that is too large

    def test_rubbish(self):
        server = self.serve(1)
        link = self.dial(server, RUBBISH)
        link.shutdown(socket.SHUT_WR)
        self.assertEqual(has_ended(link), b"")
        server.end()
        self.is_empty()

    def test_rubbish_and_another_talks(self):
        server = self.serve(2)
        self.dial(server, RUBBISH).close()
        Talk(self, server.port).all()
        server.end()
        self.is_written()

    def test_too_large_and_another_talks(self):
        """The connection that brought it has ended when the other one has: nothing that it brings behind that is read."""
        server = self.serve(2)
        link = self.dial(server, LARGE)
        Talk(self, server.port).all()
        self.assertEqual(has_ended(link), b"")
        server.end()
        self.is_written()

    def test_rubbish_within_a_talk(self):
        """A record that is no call is dropped, and the client that brought it is answered as before."""
        server = self.serve(1)
        talk = Talk(self, server.port)
        talk.join()
        talk.caller.socket.sendall(RUBBISH)
        talk.open()
        talk.hang_up()
        server.end()

    # ---- a connection can't be accepted, and then those that are served are served to their end

    def test_first_accept_fails(self):
        server = self.serve(1, failing=Failing(self.folder, "accept 1"))
        self.assertEqual(turned_away(server), b"")
        server.end(NET_FAULT)
        self.is_empty()

    def test_second_accept_fails(self):
        server = self.serve(2, failing=Failing(self.folder, "accept 2"))
        talk = Talk(self, server.port)
        link = self.dial(server, RUBBISH)
        talk.all()
        server.end(NET_FAULT)
        self.assertEqual(has_ended(link), b"")
        self.is_written()

    def test_no_thread(self):
        """A connection for which no thread can be had is served by the one that accepts."""
        failing = Failing(self.folder, "thread 1")
        server = self.serve(2, failing=failing)
        Talk(self, server.port).all()
        self.dial(server).close()
        server.end()
        self.assertEqual(failing.failed(), ["thread 1"])
        self.is_written()

    # ---- standard streams, signals

    def test_closed_streams(self):
        """What is printed can't go into the volume's file."""
        server = self.serve(1, closed=True)
        Talk(self, server.port).all()
        server.end()
        self.is_written()

    def test_no_volume_and_closed_output(self):
        """The file is left as it is, where what is wrong with it can't be printed."""
        path = os.path.join(self.folder, "zeros")
        with open(path, "wb") as file:
            file.write(bytes(9 * BLOCK))
        self.assertEqual(run_into("&-", "serve-source", "zeros", free_port(), 1, folder=self.folder), (OUTPUT_FAULT, b"", b""))
        with open(path, "rb") as file:
            self.assertEqual(file.read(), bytes(9 * BLOCK))

    def test_ended_by_a_signal(self):
        """What was committed is there."""
        for by in (signal.SIGTERM, signal.SIGINT, signal.SIGHUP):
            make_volume(self.folder, "source", blocks=1, tag=TAG)
            server = self.serve(1)
            talk = Talk(self, server.port)
            for part in (talk.join, talk.open, talk.write, talk.commit):
                part()
            self.assertEqual(server.kill(by), -by)
            talk.hang_up()
            self.is_written()

    def test_stopped_for_a_while(self):
        server = self.serve(1)
        talk = Talk(self, server.port)
        talk.join()
        os.kill(server.child.pid, signal.SIGSTOP)
        goes_on = threading.Timer(0.2, os.kill, (server.child.pid, signal.SIGCONT))
        goes_on.start()
        for part in (talk.open, talk.write, talk.commit):
            part()
        goes_on.join()
        talk.hang_up()
        server.end()
        self.is_written()


class Killed(unittest.TestCase):
    """A server that is killed, and whose file is opened anew."""

    def test_what_was_not_committed_is_as_before(self):
        """The second boot has another write verifier, and knows nothing of the first one's sessions."""
        with new_folder() as folder:
            make_volume(folder, "source", blocks=1, tag=TAG)
            with source(folder, 1) as server:
                before = Talk(self, server.port)
                for part in (before.join, before.open, before.write):
                    part()
                self.assertEqual(server.kill(), -signal.SIGKILL)
                before.hang_up()
            with source(folder, 2) as server:
                with joined(server.port) as caller:
                    self.assertEqual(get(caller, len(EMPTY)), EMPTY)
                Talk(self, server.port, 2, boot=2).all()
                server.end()
            self.assertEqual(file_of(folder, "source", len(WRITTEN)), WRITTEN)

    def test_in_the_middle_of_writes(self):
        """Whatever the moment, what was answered as committed is there, and a commit under way was made whole or not at all."""
        dice = random.Random(3)
        with new_folder() as folder:
            make_volume(folder, "source", tag=TAG)
            known = bytes(PIECE)
            for _ in range(KILLS):
                with source(folder, 1) as server:
                    known, maybe, commits = self.write_until_killed(server, known, dice)
                    self.assertEqual(server.kill(), -signal.SIGKILL)
                found = file_of(folder, "source", PIECE)
                self.assertIn(found, (known, maybe))
                self.assertGreater(commits, 0)
                known = found

    def write_until_killed(self, server, known, dice):
        """Writes and commits until the server is killed, at some moment behind the first commit. What was committed, what was being
        written, and how many commits there were."""
        timer = threading.Timer(dice.uniform(0, 0.2), server.kill)
        maybe, commits = known, 0
        caller = Caller(server.port, "user", KEYS["user"], PATIENCE)
        caller.join(b"killed")
        opened = caller.open(1)
        try:
            while True:
                at = dice.randrange(PIECE - BLOCK)
                maybe = known[:at] + bytes([dice.randrange(256)]) * BLOCK + known[at + BLOCK :]
                caller.write(opened, at, maybe[at : at + BLOCK])
                caller.commit(opened)
                known, commits = maybe, commits + 1
                if commits == 1:
                    timer.start()
        except (Ended, OSError):
            pass
        if commits:
            timer.join()
        caller.socket.close()
        return known, maybe, commits


class Files(unittest.TestCase):
    """The files of volumes."""

    def test_a_file_that_is_not_there_is_made(self):
        with new_folder() as folder:
            self.assertEqual(run("format", "new", 2, 3, 7, folder=folder), (WORKED, b"formatted 22\n", b""))
            self.assertEqual(os.path.getsize(os.path.join(folder, "new")), ROOM)
            self.assertEqual(file_of(folder, "new", 3 * BLOCK, 2), bytes(3 * BLOCK))

    def test_a_shorter_file_is_made_longer(self):
        self.format_over(bytes(100), ROOM)

    def test_a_longer_file_stays_so(self):
        with new_folder() as folder:
            path = os.path.join(folder, "volume")
            with open(path, "wb") as file:
                file.truncate(ROOM + 5_000)
                file.seek(ROOM)
                file.write(b"\xA5" * 5_000)
            self.assertEqual(run("format", "volume", 1, 1, 7, folder=folder).status, WORKED)
            with open(path, "rb") as file:
                file.seek(ROOM)
                self.assertEqual(file.read(), b"\xA5" * 5_000)
            self.assertEqual(file_of(folder, "volume", 10), bytes(10))

    def test_what_a_file_held_is_lost(self):
        with new_folder() as folder:
            make_volume(folder, "volume", blocks=2, tag=3, data=content(5_000))
            self.assertEqual(run("format", "volume", 1, 2, 7, folder=folder).status, WORKED)
            self.assertEqual(file_of(folder, "volume", 2 * BLOCK), bytes(2 * BLOCK))

    def format_over(self, old, size):
        with new_folder() as folder:
            path = os.path.join(folder, "volume")
            with open(path, "wb") as file:
                file.write(old)
            self.assertEqual(run("format", "volume", 1, 1, 7, folder=folder), (WORKED, b"formatted 9\n", b""))
            self.assertEqual(os.path.getsize(path), size)
            self.assertEqual(file_of(folder, "volume", 10), bytes(10))

    def test_a_file_that_cannot_be_made_longer(self):
        def limit():
            resource.setrlimit(resource.RLIMIT_FSIZE, (BLOCK, BLOCK))
        with new_folder() as folder:
            # A signal that Python doesn't heed would end the program in its place.
            ended = run("format", "volume", 1, 1, 7, folder=folder, preexec_fn=limit, restore_signals=False)
            self.assertEqual(ended, (NOT_OPENED, b"", b""))


def cannot_be_opened(test, command, path, more):
    """A server of what is no file, or isn't there; or `format` of it."""
    with new_folder() as folder:
        os.mkdir(os.path.join(folder, "folder"))
        if command == "format":
            ended = run("format", path, 1, 1, 7, folder=folder)
        else:
            ended = refused_server(folder, command, path, 1, *more)
        test.assertEqual(ended, (NOT_OPENED, b"", b""))
        test.assertEqual(sorted(os.listdir(folder)), ["folder", "realm.txt"])


def has_no_realm(test, words, text):
    """A server or a copy in whose folder the realm isn't as it should be."""
    with new_folder() as folder:
        make_volume(folder, "volume")
        os.remove(os.path.join(folder, "realm.txt"))
        if text is not None:
            with open(os.path.join(folder, "realm.txt"), "wb") as realm:
                realm.write(text)
        test.assertEqual(run(*words, folder=folder), (NOT_OPENED, b"", b""))


def is_no_volume(test, command, more, at, data):
    """A server of a file whose front, from this place on, has other bytes than a volume's, and what it prints."""
    place, due = at
    with new_folder() as folder:
        make_volume(folder, "volume", blocks=1)
        with open(os.path.join(folder, "volume"), "r+b") as file:
            file.seek(place)
            file.write(data)
        with (source_of_workers(folder) if more else contextlib.nullcontext()) as of:
            ended = refused_server(folder, command, "volume", 1, *(more and [1, of.port]))
        test.assertEqual(ended, (NO_VOLUME, b"not a volume %s\n" % due, b""))


def source_of_workers(folder):
    """A source for the workers of a destination."""
    make_volume(folder, "other", blocks=1)
    return source(folder, MOST_AT_ONCE, "other")


def disk_fails(test, command, call, is_made):
    """A server whose disk fails at a call while its volume is opened: its file holds a volume still. One call more isn't made then."""
    with new_folder() as folder:
        make_volume(folder, "volume", blocks=1, tag=TAG)
        failing = Failing(folder, call)
        with (source_of_workers(folder) if command == "serve-dest" else contextlib.nullcontext()) as of:
            more = [1, of.port] if of else []
            if is_made:
                ended = refused_server(folder, command, "volume", 1, *more, env=failing.env)
                test.assertEqual(ended, (DISK_FAULT, b"", b""))
            else:
                with Server(folder, command, "volume", 1, *more, failing=failing) as server:
                    server.dial().close()
                    server.end()
        test.assertEqual(failing.failed(), [call] if is_made else [])
        test.assertEqual(file_of(folder, "volume", len(EMPTY)), EMPTY)


def is_no_command(test, words):
    with new_folder() as folder:
        make_volume(folder, "v")
        test.assertEqual(run(*words.split(), folder=folder), (NO_COMMAND, b"usage\n", b""))
        test.assertEqual(sorted(os.listdir(folder)), ["realm.txt", "v"])


class Ports(unittest.TestCase):
    """A port at which another listens, or nobody."""

    def test_a_port_that_is_taken(self):
        """The second server ends at once, and leaves its file alone; the first one serves."""
        with new_folder() as folder:
            make_volume(folder, "first", blocks=1, tag=TAG)
            make_volume(folder, "second", blocks=1)
            with open(os.path.join(folder, "second"), "rb") as file:
                kept = file.read()
            with source(folder, 2, "first") as server:
                self.assertEqual(run("serve-source", "second", server.port, 1, folder=folder), (NET_FAULT, b"", b""))
                self.assertEqual(run("serve-dest", "second", server.port, 1, 1, server.port, folder=folder), (NET_FAULT, b"", b""))
                Talk(self, server.port).all()
                server.dial().close()
                server.end()
            with open(os.path.join(folder, "second"), "rb") as file:
                self.assertEqual(file.read(), kept)

    def test_a_port_that_was_used(self):
        """A server listens at once at the port of one that has ended, or was killed."""
        with new_folder() as folder:
            make_volume(folder, "source", blocks=1, tag=TAG)
            with source(folder, 1) as server:
                Talk(self, server.port).all()
                server.end()
                port = server.port
            with source(folder, 1, port=port) as server:
                link = server.dial()
                server.kill()
                link.close()
            with source(folder, 1, port=port) as server:
                server.dial().close()
                server.end()

    def test_a_destination_without_a_source(self):
        with new_folder() as folder:
            make_volume(folder, "dest")
            self.assertEqual(refused_server(folder, "serve-dest", "dest", 1, 2, free_port()), (NET_FAULT, b"", b""))

    def test_a_destination_whose_second_worker_has_no_source(self):
        """The first one's connection is hung up: the source has served it then."""
        with new_folder() as folder:
            make_volume(folder, "dest")
            make_volume(folder, "source", blocks=1)
            with source(folder, 1) as server:
                failing = Failing(folder, f"connect@{server.port} 2")
                ended = refused_server(folder, "serve-dest", "dest", 1, 2, server.port, env=failing.env)
                self.assertEqual(ended, (NET_FAULT, b"", b""))
                server.end()
            self.assertEqual(failing.failed(), ["connect 2"])

    def test_a_destination_that_cannot_accept(self):
        """Its workers are sent home: the source has served their connections then."""
        with new_folder() as folder:
            make_volume(folder, "dest")
            make_volume(folder, "source", blocks=1)
            with source(folder, 2) as of:
                with destination(folder, 1, 2, of.port, failing=Failing(folder, "accept 1")) as server:
                    self.assertEqual(turned_away(server), b"")
                    server.end(NET_FAULT)
                of.end()


def load_tests(loader, suite, _):
    servers = (("serve-source", ()), ("serve-dest", (1, 2_049)))
    suite.addTests(each(cannot_be_opened, [
        (f"{command} of {what}", command, path, more)
        for command, more in (("format", ()), *servers)
        for what, path in (("a folder", "folder"), ("a file in no folder", "none/volume"), ("a file that isn't there", "none"))
        if (command, path) != ("format", "none")
    ]))
    key = KEYS["user"].hex().encode()
    realms = {
        "no realm": None, "an empty realm": b"", "a name alone": b"user\n", "a key that is too short": b"user " + key[1:] + b"\n",
        "a key that is too long": b"user " + key + b"0\n", "a letter in a key": b"user " + key[1:] + b"g\n",
        "a name twice": (b"user " + key + b"\n") * 2, "no name": b" " + key + b"\n", "a name of 65 bytes": 65 * b"n" + b" " + key + b"\n",
    }
    commands = {"serve-source": ("serve-source", "volume", 1, 1), "serve-dest": ("serve-dest", "volume", 1, 1, 1, 2),
                "copy": ("copy", 1, 2, 1, 0, 1, 0, 10, "c")}
    suite.addTests(each(has_no_realm, [(f"{command} with {what}", words, text)
                                       for command, words in commands.items() for what, text in realms.items()]))
    suite.addTests(each(is_no_volume, [
        (f"{command} of a file with {what}", command, more, at, data)
        for command, more in servers
        for what, at, data in (
            ("zeros", (0, b"0 0"), bytes(9 * BLOCK)), ("another letter", (7, b"0 0"), b"2"), ("no file", (8, b"0 8"), bytes(4)),
            ("65 files", (8, b"0 8"), word(65)), ("no block", (12, b"0 12"), bytes(4)), ("16,385 blocks", (12, b"0 12"), word(16_385)),
        )
    ]))
    # Opening syncs, reads the first block, both gates and the home that each names, and puts the boot cell.
    made = [f"{call} {number}" for call, most in (("fsync", 3), ("pread", 5), ("pwrite", 2)) for number in range(1, most + 1)]
    more = ["fsync 4", "pread 6", "pwrite 3"]
    suite.addTests(each(disk_fails, [(f"{command} whose {call} fails", command, call, True) for command, _ in servers for call in made]))
    suite.addTests(each(disk_fails, [(f"{command} makes no {call} while it opens", command, call, False)
                                     for command, _ in servers for call in more]))
    suite.addTests(each(is_no_command, [(words, words) for words in (
        "serve-source v 2049 0", "serve-source v 2049 1000001", "serve-source v 0 1", "serve-source v 65536 1", "serve-source v 02049 1",
        "serve-source v 2049 +1", "serve-source -v 2049 1", "serve-source v 2049", "serve-source v 2049 1 1", "serve-source",
        "Serve-source v 2049 1",
        "serve-dest v 2049 1 0 2050", "serve-dest v 2049 1 9 2050", "serve-dest v 2049 1 1 0", "serve-dest v 2049 1 1 65536",
        "serve-dest v 2049 1 1", "serve-dest -v 2049 1 1 2050", "serve-dest v 2049 0 1 2050",
        "copy 0 2 1 0 1 0 10 c", "copy 1 2 0 0 1 0 10 c", "copy 1 2 1 0 1 0 10 x", "copy 1 2 1 0 0 0 10 c", "copy 1 65536 1 0 1 0 10 c",
        "copy 1 2 4294967296 0 1 0 10 c", "copy 1 2 1 18446744073709551616 1 0 10 c", "copy 1 2 1 0 1 0 10", "copy 1 2 1 0 1 0 10 c c",
        "copy 1 2 1 00 1 0 10 c",
        "format -v 1 1 7", "format new 0 1 7", "format new 65 1 7", "format new 64 257 7", "format new 1 01 7", "format new 1 16385 7",
        "format new 1 1", "format new 1 1 18446744073709551616",
    )]))
    return suite
