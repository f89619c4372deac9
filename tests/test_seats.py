"""Who gets a server's seats: a connection that ended gives its seat and its records back, so that those that go on hold up nobody for whom
others left enough."""

import contextlib
import itertools
import threading
import time
import unittest

from support.caller import Caller
from support.program import PATIENCE
from support.proxy import marked
from support.servers import KEYS, PIECE, awaited, check, content, destination, make_volume, new_folder, source

RUBBISH = marked(b"\1\2\3\4")

WORKERS = 8
MOST_AT_ONCE = 16

# How long three peers disturb a source, in seconds.
DISTURBED = 5


class Seats(unittest.TestCase):
    def setUp(self):
        holder = new_folder()
        self.folder = holder.__enter__()
        self.addCleanup(holder.__exit__, None, None, None)
        self.owners = itertools.count()
        make_volume(self.folder, "source", tag=1, data=content(PIECE))

    def serve(self, conns=1_000, **how):
        server = source(self.folder, conns, **how)
        self.addCleanup(server.kill)
        return server

    def client(self, port):
        """A client that sets itself up, and won't wait long. Each is another one."""
        caller = Caller(port, "user", KEYS["user"], PATIENCE)
        self.addCleanup(caller.socket.close)
        caller.join(b"%d" % next(self.owners))
        return caller

    def is_served(self, port):
        """A client sets itself up and takes its leave."""
        self.client(port).leave()

    def dial(self, server, data=b""):
        link = server.dial()
        self.addCleanup(link.close)
        link.sendall(data)
        return link

    # ---- a source's records

    def test_one_of_fifteen_ends(self):
        """Once a record was taken, a sixteenth connection waits beside fifteen idle ones, and until one of them ends."""
        server = self.serve()
        self.is_served(server.port)
        idle = [self.dial(server) for _ in range(MOST_AT_ONCE - 1)]
        awaited("fifteen are accepted", lambda: server.waiting() == 0)
        link = self.dial(server, RUBBISH)
        awaited("the sixteenth waits", lambda: server.waiting() == 1)
        idle[0].close()
        awaited("the sixteenth is accepted", lambda: server.waiting() == 0)
        link.close()
        self.is_served(server.port)

    def test_rubbish_beside_workers(self):
        """Three clients without a key that bring rubbish and dial anew don't keep others from a source with two workers."""
        make_volume(self.folder, "dest", tag=2)
        server = self.serve(100_000)
        dest = destination(self.folder, 1, 2, server.port)
        self.addCleanup(dest.kill)
        over = threading.Event()

        def disturb():
            while not over.is_set():
                with contextlib.suppress(OSError), server.dial() as link:
                    link.sendall(RUBBISH)

        disturbers = [threading.Thread(target=disturb, daemon=True) for _ in range(3)]
        for one in disturbers:
            one.start()
        try:
            deadline = time.monotonic() + DISTURBED
            while time.monotonic() < deadline:
                self.is_served(server.port)
        finally:
            over.set()
        for one in disturbers:
            one.join(PATIENCE)
        self.is_served(server.port)

    def test_eight_workers_and_eight_clients(self):
        """Behind one that took a record they come at once, each stays until seven are there, and all are served, as is one behind them."""
        make_volume(self.folder, "dest", tag=2)
        server = self.serve()
        self.is_served(server.port)
        dest = destination(self.folder, 1, WORKERS, server.port)
        self.addCleanup(dest.kill)
        here, enough, served = threading.Semaphore(0), threading.Event(), []

        def use():
            caller = self.client(server.port)
            here.release()
            check(enough.wait(PATIENCE), "seven clients aren't there")
            caller.leave()
            served.append(caller)

        clients = [threading.Thread(target=use, daemon=True) for _ in range(MOST_AT_ONCE - WORKERS)]
        for one in clients:
            one.start()
        for _ in range(MOST_AT_ONCE - WORKERS - 1):
            check(here.acquire(timeout=PATIENCE), "seven clients aren't there")
        enough.set()
        for one in clients:
            one.join(PATIENCE)
        self.assertEqual(len(served), MOST_AT_ONCE - WORKERS)
        self.is_served(server.port)
