"""What `copy` prints and with which status it ends, where its links end, bring what they shouldn't or fail, or where a dial, a draw or its
output fails; and that both servers end with status 0 all the same."""

import contextlib
import unittest

from support.before import Failing
from support.program import run_into
from support.proxy import ANY, OVER, RESET, TO_CLIENT, TO_SERVER, Proxy, Rule, cut, instead, marked, repeated
from support.servers import (COPY_FAILED, NET_FAULT, OUTPUT_FAULT, WORKED, content, copy, destination, file_of, free_port,
                             make_volume, new_folder, source)
from support.tables import each

SMALL = 10
WHOLE = "1 0 1 0 10 c"

# How a copy ends: the session is gone before the first report; it is stable; a call of a link failed; the output did.
EXACT = (WORKED, b"stable\nexact\n")
UNSURE = (WORKED, b"stable\nunsure\n")
GONE = (COPY_FAILED, b"failed 10052\n")
FAULT = (NET_FAULT, b"")
STABLE_FAULT = (NET_FAULT, b"stable\n")

RUBBISH = marked(b"\1\2\3\4")
LARGE = b"\xFF\xFF\xFF\xFF\1\2\3\4"

# A record is cut behind its mark and so many bytes.
PART = 9


def ended(result):
    """How a copy ended, which says nothing on standard error."""
    assert result.errors == b"", result.errors
    return result.status, result.printed


class Servers:
    """A source with a small file and a destination with an empty one, for one copy."""

    def __init__(self, folder):
        self.folder = folder
        make_volume(folder, "source", tag=1, data=content(SMALL))
        make_volume(folder, "dest", tag=2)

    def __enter__(self):
        with contextlib.ExitStack() as started:
            self.source = started.enter_context(source(self.folder, 2))
            self.dest = started.enter_context(destination(self.folder, 1, 1, self.source.port))
            self.started = started.pop_all()
        return self

    def __exit__(self, *_):
        self.started.close()

    def end(self):
        """Both end with status 0. The destination's file is read then."""
        self.dest.end()
        self.source.end()
        return file_of(self.folder, "dest", SMALL)


def copies(test, words, due):
    """A copy over links at which nothing fails."""
    with new_folder() as folder, Servers(folder) as servers:
        test.assertEqual(ended(copy(folder, servers.source.port, servers.dest.port, words)), due)
        found = servers.end()
    test.assertEqual(found, content(SMALL) if due == EXACT else bytes(SMALL))


def copies_through(test, side, rules, due):
    """A copy whose client's link to this server goes through a proxy."""
    with new_folder() as folder, Servers(folder) as servers:
        ports = {"source": servers.source.port, "dest": servers.dest.port}
        with Proxy(ports[side], *rules) as proxy:
            ports[side] = proxy.port
            test.assertEqual(ended(copy(folder, ports["source"], ports["dest"], WHOLE)), due)
            found = servers.end()
        if due[1].startswith(b"stable"):
            test.assertEqual(found, content(SMALL))
        return proxy


def first(records):
    """So many records come, and then the link's end."""
    return [Rule(TO_CLIENT, records + 1, instead(OVER))] if records else [Rule(TO_CLIENT, 0, instead(OVER))]


def part_behind(records):
    """So many records come, then a part of the next one, and then the link's end."""
    return [Rule(TO_CLIENT, records + 1, cut(4 + PART))]


def only(part):
    """This comes in place of the first record, and then the link's end."""
    return [Rule(TO_CLIENT, 1, instead(part, OVER))]


def a_call_fails(test, call, due):
    """A copy in which a call of the client fails. Where it isn't made so often, nothing does."""
    with new_folder() as folder, Servers(folder) as servers:
        of, to = servers.source.port, servers.dest.port
        failing = Failing(folder, call.format(source=of, dest=to))
        test.assertEqual(ended(copy(folder, of, to, WHOLE, env=failing.env)), due)
        found = servers.end()
        if due[1]:
            test.assertEqual(found, content(SMALL))
        return failing.failed()


def each_call(kind, side, counts):
    """Each call of this kind of the client's link to a server, by how often the copy ends so: before the first report, between it and the
    last, and behind that."""
    nothing, stable, whole = counts
    dues = [FAULT] * nothing + [STABLE_FAULT] * stable + [EXACT] * whole
    for number, due in enumerate(dues, 1):
        yield f"{kind} {number} of the link to the {side} fails", f"{kind}@{{{side}}} {number}", due


def fails_so(test, call, due):
    name, number = call.split(" ")
    test.assertEqual(a_call_fails(test, call, due), [f"{name.split('@')[0]} {number}"])


def is_not_made(test, call):
    test.assertEqual(a_call_fails(test, call, EXACT), [])


class Dials(unittest.TestCase):
    """At one of the ports nothing listens."""

    def test_no_source(self):
        """The source is dialed first: the destination isn't, and serves whoever comes next as its one connection."""
        with new_folder() as folder, Servers(folder) as servers:
            self.assertEqual(ended(copy(folder, free_port(), servers.dest.port, WHOLE)), FAULT)
            with servers.dest.dial(), servers.source.dial():
                pass
            servers.end()

    def test_no_destination(self):
        """The source's connection is hung up: it has served two then, of which one is the destination's worker."""
        with new_folder() as folder, Servers(folder) as servers:
            self.assertEqual(ended(copy(folder, servers.source.port, free_port(), WHOLE)), FAULT)
            with servers.dest.dial():
                pass
            servers.end()


class Outputs(unittest.TestCase):
    """What is printed can't be."""

    def copy_into(self, output, rules=()):
        with new_folder() as folder, Servers(folder) as servers, Proxy(servers.source.port, *rules) as proxy:
            words = ("copy", proxy.port, servers.dest.port, *WHOLE.split())
            self.assertEqual(run_into(output, *words, folder=folder), (OUTPUT_FAULT, b"", b""))
            servers.end()

    def test_a_copy_that_is_stable(self):
        self.copy_into("/dev/full")

    def test_a_copy_that_fails(self):
        self.copy_into("/dev/full", first(0))

    def test_closed(self):
        self.copy_into("&-")


def load_tests(loader, suite, _):
    suite.addTests(each(copies, [
        ("a whole copy, in its order", WHOLE, EXACT),
        ("a whole copy, in any order", "1 0 1 0 10 n", EXACT),
        ("to the end of the file", "1 0 1 0 0 c", EXACT),
        ("a file that isn't there", "2 0 1 0 10 c", (COPY_FAILED, b"failed 2\n")),
        ("past the end of the destination's file", "1 0 1 131070 10 c", (COPY_FAILED, b"failed 27\n")),
    ]))
    # Before the first report the session is gone, then it isn't known whether a stable copy is exact, and behind the last report nothing
    # changes. The source gives seven answers before the first report and eight before the last, the destination seven and the report.
    suite.addTests(each(copies_through, [
        ("the source's link ends at once", "source", first(0), GONE),
        ("the destination's link ends at once", "dest", first(0), GONE),
        ("the source's link ends behind 6 records", "source", first(6), GONE),
        ("the source's link ends within the 7th", "source", part_behind(6), GONE),
        ("the source's link ends behind 7", "source", first(7), UNSURE),
        ("the source's link ends within the 8th", "source", part_behind(7), UNSURE),
        ("the source's link ends behind 8", "source", first(8), EXACT),
        ("the source's link ends behind 11", "source", first(11), EXACT),
        ("the destination's link ends behind 6 records", "dest", first(6), GONE),
        ("the destination's link ends behind 7", "dest", first(7), GONE),
        ("the destination's link ends within the report", "dest", part_behind(7), GONE),
        ("the destination's link ends behind the report", "dest", first(8), EXACT),
        ("the destination's link ends behind 10", "dest", first(10), EXACT),
        ("the source's link brings rubbish", "source", only(RUBBISH), GONE),
        ("the source's link brings a record that is too large", "source", only(LARGE), GONE),
        ("the destination's link brings rubbish", "dest", only(RUBBISH), GONE),
        ("the destination's link brings a record that is too large", "dest", only(LARGE), GONE),
        ("the source's link is reset at once", "source", [Rule(TO_CLIENT, 1, instead(RESET))], FAULT),
        ("the destination's link is reset at once", "dest", [Rule(TO_CLIENT, 1, instead(RESET))], FAULT),
        ("each record comes twice from the source, and goes twice to it", "source",
         [Rule(TO_CLIENT, ANY, repeated()), Rule(TO_SERVER, ANY, repeated())], EXACT),
        ("each record comes twice from the destination, and goes twice to it", "dest",
         [Rule(TO_CLIENT, ANY, repeated()), Rule(TO_SERVER, ANY, repeated())], EXACT),
    ]))
    # A draw fails: the secret's, and those of the two nonces; there is no fourth.
    suite.addTests(each(fails_so, [(f"draw {number} fails", f"draw {number}", FAULT) for number in (1, 2, 3)]))
    suite.addTests(each(is_not_made, [("there is no fourth draw", "draw 4")]))
    # A call is put in two pieces, its mark and the rest, and what comes is taken in two. To the source go seven calls before the first
    # report, one before the last and four behind it; to the destination seven, the answer to its report and four.
    for kind, side, counts in (("send", "source", (14, 2, 8)), ("send", "dest", (14, 2, 8)),
                               ("recv", "source", (14, 2, 8)), ("recv", "dest", (16, 0, 8))):
        suite.addTests(each(fails_so, each_call(kind, side, counts)))
        more = sum(counts) + 1
        suite.addTests(each(is_not_made, [(f"{kind} {more} of the link to the {side} isn't made", f"{kind}@{{{side}}} {more}")]))
    return suite
