"""Volumes in files: each has one program at a time."""

import os
import unittest

from support.program import run
from support.servers import NOT_OPENED, WORKED, Server, content, copy, destination, file_of, make_volume, new_folder, refused_server, source

SIZE = 10_000


def held(folder, name):
    with open(os.path.join(folder, name), "rb") as file:
        return file.read()


class OneProgram(unittest.TestCase):
    """A volume that a server has open is neither served nor formatted by another program, and is as it was."""

    def refuse(self, folder, name, source_port):
        old = held(folder, name)
        for ended in (
            refused_server(folder, "serve-source", name),
            refused_server(folder, "serve-dest", name, 1, 1, source_port),
            run("format", name, 1, 16, 9, folder=folder),
        ):
            self.assertEqual(ended, (NOT_OPENED, b"", b""))
        self.assertEqual(held(folder, name), old)

    def test_a_served_volume_is_no_other_programs(self):
        with new_folder() as folder:
            data = content(SIZE)
            make_volume(folder, "source", data=data)
            make_volume(folder, "dest")
            with source(folder, 2) as of, destination(folder, 1, 1, of.port) as to:
                self.refuse(folder, "source", of.port)
                self.refuse(folder, "dest", of.port)
                ended = copy(folder, of.port, to.port, f"1 0 1 0 {SIZE} n")
                self.assertEqual(ended, (WORKED, b"stable\nexact\n", b""))
                to.end()
                of.end()
            self.assertEqual(file_of(folder, "dest", SIZE), data)

    def test_a_volume_whose_server_was_killed_is_free(self):
        with new_folder() as folder:
            make_volume(folder, "source")
            with source(folder, 1) as of:
                of.kill()
            with Server(folder, "serve-source", "source") as of:
                of.dial().close()
                of.end()
            self.assertEqual(run("format", "source", 1, 1, 9, folder=folder), (WORKED, b"formatted 9\n", b""))
