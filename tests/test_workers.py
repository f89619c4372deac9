"""Workers of a destination, as processes on ports of this machine: records that answer no call of theirs don't put them out of step, a
destination that has nothing to do hardly runs, and neither does one that waits for a chunk of a consecutive copy."""

import os
import subprocess
import sys
import time

from support.program import Ended
from support.proxy import ANY, TO_CLIENT, TO_SERVER, Proxy, Rule, before, held, marked, repeated
from support.servers import WORKED, awaited, content, copy, destination, file_of, make_volume, new_folder, source
from support.tables import each

EXACT = Ended(WORKED, b"stable\nexact\n", b"")

# Ten chunks.
SIZE = 655_360

# An answer with more bytes than these is that to a READ of a whole chunk.
CHUNK = 65_536

# A record that answers nothing: it has an xid, and nothing behind that.
STRAY = marked(bytes(4))

# How long a destination has nothing to do, and how long another process runs while it waits for a chunk, in seconds.
IDLE, SILENCE = 20, 1

# How many wakes of the system a worker takes at most where there is nothing to do: it had ten a second before its rests grew.
FEW = 20


def copies_over(test, workers, letter, *rules, first=lambda process, proxy: None):
    """A copy whose workers reach the source by a proxy with these rules, behind something that is done with the destination's process."""
    data = content(SIZE)
    with new_folder() as folder:
        make_volume(folder, "source", blocks=192, tag=1, data=data)
        make_volume(folder, "dest", blocks=192, tag=2)
        with source(folder, 1 + workers) as of, Proxy(of.port, *rules) as proxy:
            with destination(folder, 1, workers, proxy.port) as to:
                first(to.child.pid, proxy)
                test.assertEqual(copy(folder, of.port, to.port, f"1 0 1 0 {SIZE} {letter}"), EXACT)
                to.end()
                of.end()
        test.assertEqual(proxy.missed, [])
        test.assertEqual(file_of(folder, "dest", SIZE), data)


def stays_in_step(test, workers, act):
    """Each record to a worker has others beside it."""
    copies_over(test, workers, "n", Rule(TO_CLIENT, ANY, act))


def rests_long(test, workers):
    """A destination that has nothing to do wakes hardly ever, and copies behind that."""
    def rest(process, _):
        # Beside the workers there are the thread that accepts connections and the one that started the workers.
        awaited("the workers have begun", lambda: len(wakes_of(process)) == workers + 2)
        old = wakes_of(process)
        time.sleep(IDLE)
        new = wakes_of(process)
        test.assertEqual(sorted(new), sorted(old))
        test.assertLess(max(new[thread] - old[thread] for thread in new), FEW)
    copies_over(test, workers, "n", first=rest)


def waits_idly(test, workers):
    """Of a consecutive copy one chunk comes late, and the workers that hold the chunks behind it don't try to land them again and again."""
    silence = Silence()
    copies_over(test, workers, "c", Rule(TO_CLIENT, First(), held(silence)), first=silence.is_of)
    test.assertLess(silence.spent, SILENCE / 2)


class First:
    """The first answer to a READ of a chunk, at whichever link it comes."""

    def __init__(self):
        self.is_over = False

    def __call__(self, passage):
        if self.is_over or len(passage.record) <= CHUNK:
            return False
        self.is_over = True
        return True


class Silence:
    """A gate that opens late. It takes down how long a process runs where nothing more comes to a proxy, while one that never rests runs
    for so long beside it: on a machine with much to do that takes a while."""

    def __init__(self):
        self.process = self.proxy = self.spent = None

    def is_of(self, process, proxy):
        self.process, self.proxy = process, proxy

    def wait(self, _):
        while self.grows():
            pass
        with subprocess.Popen([sys.executable, "-c", "while True: pass"], start_new_session=True) as other:
            begun = seconds_of(self.process)
            while seconds_of(other.pid) < SILENCE:
                time.sleep(0.1)
            self.spent = seconds_of(self.process) - begun
            other.kill()
        return True

    def grows(self):
        """Whether calls await answers, or records come within five seconds."""
        count = len(self.proxy.seen)
        time.sleep(5)
        return len(self.proxy.seen) > count or self.proxy.count(TO_SERVER) > self.proxy.count(TO_CLIENT)


def wakes_of(process):
    """How often each thread of a process has waited for something and come back."""
    folder = f"/proc/{process}/task"
    return {thread: waits_in(os.path.join(folder, thread, "status")) for thread in os.listdir(folder)}


def waits_in(file):
    with open(file, encoding="ascii") as status:
        return next(int(line.split()[1]) for line in status if line.startswith("voluntary_ctxt_switches"))


def seconds_of(process):
    """How many seconds of a processor a process has taken."""
    with open(f"/proc/{process}/stat", encoding="ascii") as stat:
        user, system = stat.read().rpartition(")")[2].split()[11:13]
    return (int(user) + int(system)) / os.sysconf("SC_CLK_TCK")


def load_tests(loader, suite, _):
    acts = [
        ("twice", repeated()),
        ("behind a stray one", before(STRAY)),
        ("twice, each behind a stray one", lambda passage: [STRAY, passage.record] * 2),
    ]
    suite.addTests(each(stays_in_step, ((f"each record to a worker comes {how}, workers {workers}", workers, act)
                                        for how, act in acts for workers in (1, 4))))
    suite.addTests(each(rests_long, [("a destination has nothing to do", 4)]))
    suite.addTests(each(waits_idly, [("a chunk of a consecutive copy comes late", 4)]))
    return suite
