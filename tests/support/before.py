"""Libraries that stand before the C library of a program that is run: one by which calls of the system fail (failing.c), and one that tells
what is in its memory (memory.c)."""

import atexit
import functools
import os
import shutil
import subprocess
import tempfile

HERE = os.path.dirname(os.path.realpath(__file__))


@functools.lru_cache(maxsize=None)
def library(name):
    """The path of the library that is compiled, once, of a file of this folder."""
    compiler = next(filter(None, map(shutil.which, (os.environ.get("CC") or "cc", "gcc", "clang"))), None)
    if compiler is None:
        raise AssertionError("a C compiler is needed to stand before the C library, and there is no cc, gcc or clang")
    folder = tempfile.mkdtemp()
    atexit.register(shutil.rmtree, folder)
    source, made = os.path.join(HERE, f"{name}.c"), os.path.join(folder, f"{name}.so")
    done = subprocess.run([compiler, "-O1", "-shared", "-fPIC", "-o", made, source, "-ldl"], capture_output=True, text=True, check=False)
    if done.returncode != 0:
        raise AssertionError(f"{compiler} can't compile {source}: {done.stderr}")
    return made


class Failing:
    """The environment of a program of which calls fail, as `recv@24051 3`, and which of them did."""

    def __init__(self, folder, *rules):
        self.told = os.path.join(folder, "failed-calls")
        if os.path.exists(self.told):
            os.remove(self.told)
        self.env = {**os.environ, "LD_PRELOAD": library("failing"), "FAILING": ",".join(rules), "FAILED": self.told}

    def failed(self):
        """The calls that were made and failed, in their order."""
        if not os.path.exists(self.told):
            return []
        with open(self.told, encoding="ascii") as told:
            return told.read().split("\n")[:-1]


def failing(*rules):
    """The environment of a program of which these calls fail; that of every other where there are none."""
    return {**os.environ, "LD_PRELOAD": library("failing"), "FAILING": ",".join(rules)} if rules else None


def telling(mark, path):
    """The environment of a program that tells what is in its memory, in the file at the path, as it writes the line that begins so."""
    return {**os.environ, "LD_PRELOAD": library("memory"), "MARK": mark, "MEMORY": path}
