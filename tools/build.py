#!/usr/bin/env python3
"""Proves and builds the program, or runs a trial of it that proves nothing.

    tools/build.py prove           proves the crates that the program is made of, and builds it
    tools/build.py try WORD..      runs the program unproved, over standard input; a trial is compiled anew each time
    tools/build.py jobs            prints how many crates `rt ci` is to prove side by side here

`rt ci` does the proofs, in a copy of the crates that the program is made of: it keeps each crate as it is proved, on this machine, for
later builds and for the gate. So a build that was interrupted goes on where it was, and what the gate proved isn't proved again.
The status is 0 where all is built, 130 where it was interrupted, else 70; that of a trial is the program's own, or 70.
"""

import fcntl
import hashlib
import os
import re
import shutil
import signal
import subprocess
import sys
import tempfile
import threading
import time

TOP = os.path.dirname(os.path.dirname(os.path.realpath(__file__)))
NAME = "nfscopy_main"
PROGRAM = f"{TOP}/crates/{NAME}/out/{NAME}"

# What a crate is proved from, and what its program is run on once it is built.
PARTS, STORED = ("src", "specs", "proofs"), ("stdin", "stdout", "args")
FAILED, INTERRUPTED = 70, 130

# What a proof of 1,000 lines of code takes, in processor minutes, by docs/gate.md.
MINUTES = 3.7 / 1000

# What a proof takes of memory, in GiB, and what all that isn't one may have: the largest crate's takes 4.
EACH, OTHERS = 4, 4

# How long a trial may run, in seconds: less than an operator waits for nothing.
TRIAL_SECONDS = 120

# How rt's last line tells the status of a trial that ended.
ENDED = re.compile(rb"^run=ended status=(\d+) ", re.M)


def tell(text):
    """Says something to whoever waits."""
    print(f"nfscopy: {text}", file=sys.stderr, flush=True)


def in_minutes(minutes):
    return f"{max(1, round(minutes))} min"


def processors():
    return len(os.sched_getaffinity(0))


def jobs():
    """How many crates to prove side by side: one a processor, where there is memory. Where it isn't told, `rt ci` reckons three times what
    the largest crate takes, so that this one waits until nothing else is left to prove, and most processors idle behind it."""
    memory = os.sysconf("SC_PAGE_SIZE") * os.sysconf("SC_PHYS_PAGES") / 2**30
    return max(1, min(processors(), int((memory - OTHERS) / EACH)))


class Crates:
    """The crates that the program is made of, the lower ones first: their lines of crates.txt, what they use, and how long they are."""

    def __init__(self):
        self.lines, self.uses = {}, {}
        with open(f"{TOP}/crates.txt", encoding="utf-8") as text:
            for line in text:
                head, _, uses = line.partition("#")[0].strip().partition(":")
                if head:
                    self.lines[head.split()[0]], self.uses[head.split()[0]] = line, uses.split()
        self.names = []
        self.add(NAME)
        self.lengths = {name: self.length(name) for name in self.names}

    def add(self, name):
        """Adds a crate, behind those that it uses. The others that its line names are the kit's."""
        for below in self.uses[name]:
            if below in self.lines and below not in self.names:
                self.add(below)
        self.names.append(name)

    def files(self, name):
        """The files that a crate is proved from."""
        for part in PARTS:
            for at, folders, files in os.walk(f"{TOP}/crates/{name}/{part}"):
                folders.sort()
                yield from (f"{at}/{file}" for file in sorted(files))

    def length(self, name):
        """How many lines of code a crate has."""
        length = 0
        for file in self.files(name):
            if file.endswith(".rt"):
                with open(file, "rb") as text:
                    length += text.read().count(b"\n")
        return length

    def sources(self):
        """A sum of all that the program is made from."""
        whole = hashlib.sha256()
        for name in self.names:
            whole.update(self.lines[name].encode())
            for file in self.files(name):
                with open(file, "rb") as it:
                    text = it.read()
                whole.update(f"\n{file[len(TOP):]} {len(text)}\n".encode() + text)
        return whole.hexdigest()

    def minutes(self, done=()):
        """About how long the proofs of the crates that aren't done take here: no less than those of the longest chain of them."""
        chains = {}
        for name in self.names:
            below = max((chains.get(it, 0) for it in self.uses[name]), default=0)
            chains[name] = below + (0 if name in done else self.lengths[name])
        lines = sum(length for name, length in self.lengths.items() if name not in done)
        return MINUTES * max(lines / processors(), max(chains.values()))

    def copy_to(self, room):
        """Makes the top of a repository of these crates alone."""
        os.makedirs(f"{room}/.git")
        shutil.copy(f"{TOP}/HANDLES", room)
        with open(f"{room}/crates.txt", "w", encoding="utf-8") as text:
            text.writelines(self.lines[name] for name in self.names)
        for name in self.names:
            for part in PARTS:
                if os.path.isdir(f"{TOP}/crates/{name}/{part}"):
                    shutil.copytree(f"{TOP}/crates/{name}/{part}", f"{room}/crates/{name}/{part}")
        for part in STORED:
            shutil.copy(f"{TOP}/crates/{NAME}/{part}", f"{room}/crates/{NAME}/{part}")


class Progress:
    """How far `rt ci` is, by its lines. A terminal is told each minute what is done and what is at work, a file is told of each crate."""

    def __init__(self, crates, run):
        self.crates, self.run, self.done, self.kept, self.begun = crates, run, set(), 0, time.monotonic()
        self.is_over = threading.Event()
        if sys.stderr.isatty():
            threading.Thread(target=self.each_minute, daemon=True).start()

    def so_far(self):
        return f"{len(self.done)} of {len(self.crates.names)} crates, {(time.monotonic() - self.begun) / 60:.1f} min so far"

    def take(self, line):
        """Takes a line of `rt ci`."""
        found = re.match(r"rt: (\w+) (proved|is kept)\b", line)
        if not found or found[1] not in self.crates.lines:
            return
        self.done.add(found[1])
        self.kept += found[2] == "is kept"
        if found[2] == "proved" and not sys.stderr.isatty():
            tell(f"{self.so_far()}: {found[1]}")

    def each_minute(self):
        while not self.is_over.wait(60):
            names = " ".join(self.at_work()) or "what is built already"
            tell(f"{self.so_far()}, about {in_minutes(self.crates.minutes(self.done))} to go; at work: {names}")

    def at_work(self):
        """The crates that are being proved, by the words of the provers that `rt` started."""
        for process in filter(str.isdigit, os.listdir("/proc")):
            try:
                with open(f"/proc/{process}/stat", "rb") as text:
                    parent = int(text.read().rpartition(b")")[2].split()[1])
                with open(f"/proc/{process}/cmdline", "rb") as text:
                    words = text.read().split(b"\0")
            except OSError:
                continue
            if parent == self.run.pid and b"--crate-name" in words:
                yield words[words.index(b"--crate-name") + 1].decode()


def room():
    """The folder in which this checkout's program is proved, which is this user's alone, and a lock that goes with it."""
    mark = hashlib.sha256(TOP.encode()).hexdigest()[:16]
    folder = f"{tempfile.gettempdir()}/nfscopy-{os.getuid()}-{mark}"
    os.makedirs(folder, mode=0o700, exist_ok=True)
    found = os.lstat(folder)
    if found.st_uid != os.getuid() or os.path.islink(folder):
        raise PermissionError(f"{folder} is somebody else's")
    lock = open(f"{folder}/lock", "w", encoding="ascii")
    try:
        fcntl.flock(lock, fcntl.LOCK_EX | fcntl.LOCK_NB)
    except BlockingIOError:
        tell(f"waits for another build of this checkout, which tells in {folder}/log how far it is")
        fcntl.flock(lock, fcntl.LOCK_EX)
    shutil.rmtree(f"{folder}/repository", ignore_errors=True)
    return folder, lock


def is_current(sources):
    """Whether the program stands there, built from these sources."""
    if not os.path.isfile(PROGRAM) or not os.path.isfile(f"{PROGRAM}.sources"):
        return False
    with open(f"{PROGRAM}.sources", encoding="ascii") as text:
        return text.read() == sources


def put_program(made, sources, begun):
    """Puts the program in its place. It counts as old as the copy of its sources: an edit that came behind that is newer."""
    os.makedirs(os.path.dirname(PROGRAM), exist_ok=True)
    shutil.copy(made, f"{PROGRAM}.new")
    os.utime(f"{PROGRAM}.new", (begun, begun))
    with open(f"{PROGRAM}.sources", "w", encoding="ascii") as text:
        text.write(sources)
    os.replace(f"{PROGRAM}.new", PROGRAM)


def has_rt():
    """Whether there is an `rt`; where there is none, says what to do."""
    if shutil.which("rt"):
        return True
    tell("the program isn't built as its sources are now, and there is no command rt to build it with")
    tell("rt is part of a Rattle kit (the README says which): put the folder with rt into PATH, and try again")
    return False


def keeps():
    """Whether this kit's `rt ci` keeps what it proved."""
    told = subprocess.run(["rt", "help"], stdin=subprocess.DEVNULL, stdout=subprocess.PIPE, stderr=subprocess.STDOUT, check=False)
    return b"kept beside the kit" in told.stdout


def ran(crates, folder, lock):
    """Whether `rt ci` proved and built all in a copy of the crates. It holds the lock for as long as it runs, even where this is killed."""
    log = f"{folder}/log"
    how = {"cwd": f"{folder}/repository", "stdin": subprocess.DEVNULL, "stdout": subprocess.PIPE, "stderr": subprocess.STDOUT}
    how.update(start_new_session=True, pass_fds=(lock.fileno(),), env={"RT_JOBS": str(jobs()), **os.environ})
    run = subprocess.Popen(["rt", "ci"], text=True, errors="replace", **how)
    progress = Progress(crates, run)
    try:
        with open(log, "w", encoding="utf-8") as text:
            for line in run.stdout:
                text.write(line)
                text.flush()
                progress.take(line)
        status = run.wait()
    finally:
        progress.is_over.set()
        run.terminate()
        run.wait()
    tell(f"{progress.so_far()}; {progress.kept} were kept from earlier runs")
    if status:
        with open(log, encoding="utf-8") as text:
            print("".join(text.readlines()[-30:]), end="", file=sys.stderr)
        tell(f"not all is proved and built; above is the end of what the prover said, the rest is in {log}")
    return not status


def prove():
    """Proves and builds the program, and gives the status to end with."""
    begun = time.time()
    if is_current(Crates().sources()):
        os.utime(PROGRAM, (begun, begun))
        return 0
    if not has_rt():
        return FAILED
    folder, lock = room()
    try:
        # Another build may have ended meanwhile, and the sources may have changed.
        begun, crates = time.time(), Crates()
        sources = crates.sources()
        if is_current(sources):
            return 0
        crates.copy_to(f"{folder}/repository")
        tell(f"proves the {len(crates.names)} crates of the program, {sum(crates.lengths.values())} lines: about "
             f"{in_minutes(crates.minutes())} on {processors()} processors where nothing is kept; what the prover says is in {folder}/log")
        if not keeps():
            tell("this kit's rt keeps nothing of what it proves: an interrupted build begins anew, and the gate proves all again")
        if not ran(crates, folder, lock):
            return FAILED
        put_program(f"{folder}/repository/crates/{NAME}/out/{NAME}", sources, begun)
        return 0
    finally:
        shutil.rmtree(f"{folder}/repository", ignore_errors=True)


def trial(words):
    """Runs a trial of the program with these words, and gives the status to end with."""
    if not has_rt():
        return FAILED
    tell("nothing is built here: this is an unproved trial of the program, which is compiled first, in a minute or two")
    asked = ["rt", "try", "--seconds", str(TRIAL_SECONDS), "--", *words]
    done = subprocess.run(asked, cwd=f"{TOP}/crates/{NAME}", stderr=subprocess.PIPE, check=False)
    ended = ENDED.search(done.stderr)
    if not ended:
        sys.stderr.buffer.write(done.stderr)
        tell(f"the trial gave no answer: it may print 1 MiB, and run for {TRIAL_SECONDS} seconds")
    tell(f"./nfscopy prove proves and builds it, in about {in_minutes(Crates().minutes())} on these {processors()} processors; "
         "then a run takes milliseconds")
    return int(ended[1]) if ended else FAILED


def interrupted(*_):
    raise KeyboardInterrupt


def main():
    words = sys.argv[1:]
    for number in (signal.SIGTERM, signal.SIGHUP):
        signal.signal(number, interrupted)
    try:
        if words == ["prove"]:
            return prove()
        if words[:1] == ["try"]:
            return trial(words[1:])
        if words == ["jobs"]:
            print(jobs())
            return 0
        sys.exit(__doc__)
    except KeyboardInterrupt:
        tell("interrupted; what is proved stays so")
        return INTERRUPTED
    except OSError as error:
        tell(f"the build failed: {error}")
        return FAILED


if __name__ == "__main__":
    sys.exit(main())
