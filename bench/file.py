#!/usr/bin/env python3
"""Writes a file at a server on a port of this machine, or reads one, by a client that shares no code with it (tests/support/caller.py).

    bench/file.py put PORT < BYTES      writes standard input to file 1, from its first byte on, and commits it
    bench/file.py get PORT COUNT        puts so many bytes of file 1 to standard output

The client is `user` of the file realm.txt in the folder that it is called in.
"""

import sys

from servers import PIECE, Caller


def key_of(name):
    """The key of a principal, by the lines `NAME HEX` of realm.txt."""
    with open("realm.txt", encoding="ascii") as realm:
        return bytes.fromhex(dict(line.split() for line in realm)[name])


def put(caller, opened, data):
    for at in range(0, len(data), PIECE):
        caller.write(opened, at, data[at : at + PIECE])
    caller.commit(opened)


def get(caller, opened, count):
    for at in range(0, count, PIECE):
        sys.stdout.buffer.write(caller.read(opened, at, min(PIECE, count - at)))


def main():
    words = sys.argv[1:]
    if (words[:1], len(words)) not in ((["put"], 2), (["get"], 3)):
        sys.exit(__doc__)
    caller = Caller(int(words[1]), "user", key_of("user"))
    caller.join(b"bench/file.py")
    opened = caller.open(1)
    if words[0] == "put":
        put(caller, opened, sys.stdin.buffer.read())
    else:
        get(caller, opened, int(words[2]))
    caller.close(opened)
    caller.leave()


if __name__ == "__main__":
    main()
