"""Records that are made by hand, over a connection to each of the two servers: what is too large for vectors of their cores."""

import contextlib

from support.rpc_records import Hand
from support.servers import KEYS, destination, make_volume, new_folder, source
from support.tables import each, rows_of

# How many blocks the file has into which the rows write.
BLOCKS = 17


def answered(test, port):
    """Has the rows told one after the other on one connection. A row is `LINE = ANSWER`."""
    rows = [line.partition(" = ") for _, line in rows_of("rpc.txt")]
    test.assertGreater(len(rows), 10)
    hand = Hand(port)
    with hand.socket:
        hand.begin(b"user", KEYS["user"])
        for line, _, due in rows:
            test.assertEqual(f"{line} = {hand.told(line)}", f"{line} = {due}")
        test.assertEqual(hand.end(), b"")


def told(test, has_dest):
    """The answers of a source, or those of a destination whose one worker has the source's one connection."""
    with contextlib.ExitStack() as stack:
        folder = stack.enter_context(new_folder())
        for name in ("source", "dest"):
            make_volume(folder, name, blocks=BLOCKS)
        servers = [stack.enter_context(source(folder, 1))]
        if has_dest:
            servers.append(stack.enter_context(destination(folder, 1, 1, servers[0].port)))
        answered(test, servers[-1].port)
        for server in reversed(servers):
            server.end()


def load_tests(loader, suite, _):
    suite.addTests(each(told, [("rpc.txt: serve-source", False), ("rpc.txt: serve-dest", True)]))
    return suite
