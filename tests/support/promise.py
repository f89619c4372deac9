"""A judge of transcripts: whether what a run shows of one file of each server is what is promised of it.

It knows nothing of how the program works. It goes over the transcript and keeps each state in which the two files may be by then: the
bytes that are safe and the bytes as they are now. A WRITE or COMMIT that was called may have been executed at any moment until it is
answered; a chunk that landed has bytes that the source's file may have had at a moment since the copy was accepted; and a crash leaves
what was safe, or what a commit that was under way made so. What the transcript shows rules states out. Where none is left, or where the
client says of a copy what can't be, the run is against the promise.
"""

from typing import FrozenSet, NamedTuple, Tuple

SIDES = ("s", "d")


class Broken(AssertionError):
    """What goes against the promise: a test of a run that does so fails."""


class Piece(NamedTuple):
    """Bytes that were put to a file at a place. The number tells pieces apart that are alike otherwise."""

    number: int
    at: int
    data: bytes


class State(NamedTuple):
    """A file as it may be: the pieces that are safe, those that were put by now, and whether what was called last was executed."""

    safe: Tuple[Piece, ...] = ()
    now: Tuple[Piece, ...] = ()
    done: bool = False


class Asked(NamedTuple):
    """A WRITE of a piece at a server, or a COMMIT, which has none."""

    piece: object


def content(pieces, at, length):
    """Bytes of a file, zeros where nothing was put."""
    held = bytearray(length)
    for piece in pieces:
        begin, end = max(at, piece.at), min(at + length, piece.at + len(piece.data))
        if begin < end:
            held[begin - at : end - at] = piece.data[begin - piece.at : end - piece.at]
    return bytes(held)


class Server:
    """The states in which a server's file may be, and what the client has for it to do."""

    def __init__(self, works):
        self.works, self.asked = works, None
        self.answered = []
        self.states = frozenset([State()])

    def executed(self, state):
        """A state once what was called last is executed."""
        if self.asked.piece is None:
            return State(state.now, state.now, True)
        return State(state.safe, state.now + (self.asked.piece,), True)

    def settled(self) -> FrozenSet[State]:
        """All states: what was called last may be executed or not."""
        if self.asked is None:
            return self.states
        return self.states | {self.executed(state) for state in self.states if not state.done}

    def keep(self, states, why):
        """Goes on with some of the states."""
        self.states = frozenset(states)
        if not self.states:
            raise Broken(why)

    def call(self, is_write, line):
        """The client calls: for the first time what it has to do next, or again what it called last."""
        if self.asked is None:
            if not self.works:
                raise Broken(f"nothing is to be called: {line}")
            self.asked = self.works.pop(0)
        if (self.asked.piece is not None) != is_write:
            raise Broken(f"another call is to come: {line}")

    def answer(self, is_met, line):
        """What was called last is answered: with status 0 it was executed."""
        states = [state._replace(done=False) for state in self.settled() if state.done or not is_met]
        asked, self.asked = self.asked or self.works.pop(0), None
        self.keep(states, f"it wasn't executed: {line}")
        return asked

    def crash(self, kept, has_jobs):
        """What is left is safe, or was being made so. What had been executed may be called again. Where no job goes on, a commit that was
        under way is the one that was called last."""
        is_committing = self.asked is not None and self.asked.piece is None and kept != "none" and not has_jobs
        left = [(state.now if kept == "new" else state.safe, state.done) for state in (self.states if is_committing else self.settled())]
        self.states = frozenset(State(pieces, pieces, again) for pieces, done in left for again in {done, False})


class Copy:
    """A copy as the client asked for it."""

    def __init__(self, number, soff, doff, count, consecutive):
        self.number, self.soff, self.doff, self.count, self.consecutive = number, soff, doff, count, consecutive
        self.jobs, self.said = [], []


class Job:
    """A copy as the destination carries it out: what landed, and the source's file as it may have been since then."""

    def __init__(self, copy, held):
        self.copy, self.length = copy, copy.count or None
        self.landed, self.ended, self.committed = {}, None, False
        # each content that the source may have had, and each that it had for certain
        self.seen, self.sure = set(), set()
        self.look(held)

    def look(self, held):
        nows = {state.now for state in held}
        self.seen |= nows
        if len(nows) == 1:
            self.sure |= nows

    def stood_still(self, state):
        """Whether all that landed was in the source's file at all moments."""
        pieces = [piece for piece in state.now if piece.number in self.landed.values()]
        begin, length = self.copy.soff, self.length
        for now in self.seen:
            due = content(now, begin, length)
            if all(content(other, begin, length) == due for other in self.sure) and all(
                due[piece.at - self.copy.doff :][: len(piece.data)] == piece.data for piece in pieces
            ):
                return True
        return False


class Judge:
    """Goes over a transcript, line by line."""

    def __init__(self, schedule):
        self.number = self.sent = 0
        self.copies, self.jobs = [], {}
        works = {side: [] for side in SIDES}
        for line in schedule.decode().splitlines():
            self.ask(line.split(" "), works)
        if len({(copy.doff, copy.count) for copy in self.copies}) < len(self.copies):
            raise ValueError("copies are told apart by where they land and how long they are")
        self.servers = {side: Server(works[side]) for side in SIDES}
        self.source, self.dest = self.servers["s"], self.servers["d"]

    def ask(self, words, works):
        """Takes what a line of the schedule asks for."""
        files = {"volume": 1, "write": 1, "commit": 1, "peek": 1, "copy": 2}.get(words[0], 0)
        if any(file != "1" for file in words[2 : 1 + 2 * files : 2]):
            raise ValueError("each server has one file here")
        if words[0] == "write":
            works[words[1]].append(Asked(self.piece(int(words[3]), bytes.fromhex(words[4]))))
        elif words[0] == "commit":
            works[words[1]].append(Asked(None))
        elif words[0] == "copy":
            self.copies.append(Copy(words[1], int(words[3]), int(words[5]), int(words[6]), words[7] == "c"))

    def piece(self, at, data):
        self.number += 1
        return Piece(self.number, at, data)

    def judge(self, transcript):
        """Goes over it all. The copies then have what the client said of them."""
        lines = transcript.decode().splitlines()
        for line in lines:
            words = line.split(" ")
            rule = getattr(self, f"on_{words[0]}", None)
            if rule is not None:
                rule(words[1:], line)
            for job in self.jobs.values():
                if job.ended is None and not job.committed:
                    job.look(self.source.settled())
        if lines[-1:] != [f"end {self.sent}"]:
            raise Broken("the run didn't come to its end")
        return self

    # ---- the client, and the calls of its queues

    def on_sent(self, words, line):
        self.sent += 1
        if int(words[0]) != self.sent:
            raise Broken(f"another record is next: {line}")
        if words[1] in ("cs", "cd") and words[2] in ("WRITE", "COMMIT"):
            self.servers[words[1][1]].call(words[2] == "WRITE", line)

    def on_written(self, words, line):
        server = self.servers[words[0]]
        asked = server.answer(True, line)
        if asked.piece is None or len(asked.piece.data) != int(words[2]):
            raise Broken(f"another call was answered: {line}")
        server.answered.append(asked.piece)

    def on_refused(self, words, line):
        self.servers[words[0]].answer(False, line)

    def on_commit(self, words, line):
        server = self.servers[words[0]]
        if server.answer(True, line).piece is not None:
            raise Broken(f"another call was answered: {line}")
        answered, server.answered = server.answered, []
        if words[2] == "same":
            safe = [state for state in server.states if all(piece in state.safe for piece in answered)]
            server.keep(safe, f"what was written isn't safe: {line}")

    # ---- the destination's jobs

    def on_accepted(self, words, line):
        asked = [copy for copy in self.copies if str(copy.doff) == words[2] and str(copy.count or "end") == words[3]]
        if not asked:
            raise Broken(f"no such copy was asked for: {line}")
        copy = min(asked, key=lambda one: len(one.jobs))
        self.jobs[words[0]] = job = Job(copy, self.source.settled())
        copy.jobs.append(job)

    def going(self, name, line):
        job = self.jobs.get(name)
        if job is None or job.ended is not None or job.committed:
            raise Broken(f"no such job goes on: {line}")
        return job

    def on_sized(self, words, line):
        job = self.going(words[0], line)
        if job.copy.count not in (0, int(words[1])):
            raise Broken(f"another length was asked for: {line}")
        job.length = int(words[1])

    def on_landed(self, words, line):
        job = self.going(words[0], line)
        off, length = int(words[1]), int(words[2])
        if (off, length) in job.landed or job.length is None or off + length > job.length:
            raise Broken(f"no such chunk is to land: {line}")
        if job.copy.consecutive and off != self.landed(job):
            raise Broken(f"out of its order: {line}")
        # the pieces that may have landed have one number, so that all are this chunk
        self.number += 1
        job.landed[off, length] = self.number
        at = job.copy.doff + off
        pieces = {Piece(self.number, at, content(now, job.copy.soff + off, length)) for now in job.seen}
        self.dest.states = frozenset(state._replace(now=state.now + (piece,)) for state in self.dest.settled() for piece in pieces)

    def landed(self, job):
        return sum(length for _, length in job.landed)

    def on_committed(self, words, line):
        job = self.going(words[0], line)
        if self.landed(job) != job.length:
            raise Broken(f"not all of it had landed: {line}")
        job.committed = True
        self.dest.states = frozenset(State(state.now, state.now, state.done) for state in self.dest.settled())

    def on_stopped(self, words, line):
        self.going(words[0], line).ended = words[1]

    # ---- what the client says of its copies

    def on_stable(self, words, line):
        copy = self.said("stable", words, (), line)
        if not any(job.committed for job in copy.jobs):
            raise Broken(f"it wasn't committed: {line}")

    def on_exact(self, words, line):
        copy = self.said("exact", words, ("stable",), line)
        jobs = [job for job in copy.jobs if job.committed]
        still = [state for state in self.dest.settled() if any(job.stood_still(state) for job in jobs)]
        self.dest.keep(still, f"the source didn't stand still: {line}")

    def on_unsure(self, words, line):
        self.said("unsure", words, ("stable",), line)

    def on_failed(self, words, line):
        self.said("failed", words, (), line)

    def on_cancelled(self, words, line):
        self.said("cancelled", words, (), line)

    def said(self, word, words, behind, line):
        copy = next(copy for copy in self.copies if copy.number == words[0])
        if tuple(copy.said) != behind:
            raise Broken(f"behind {copy.said}: {line}")
        copy.said.append(word)
        return copy

    # ---- what is seen

    def on_crash(self, words, line):
        going = [job for job in self.jobs.values() if words[0] == "d" and job.ended is None and not job.committed]
        self.servers[words[0]].crash(words[2], bool(going))
        for job in going:
            job.ended = "crash"

    def on_bytes(self, words, line):
        server, held = self.servers[words[0]], bytes.fromhex(words[3])
        shown = [state for state in server.settled() if content(state.now, int(words[2]), len(held)) == held]
        server.keep(shown, f"no such bytes can be there: {line}")


def judged(schedule, ended):
    """The copies of a schedule, with what the client said of each, where its run keeps the promise."""
    if ended.status != 0:
        raise Broken(f"the status is {ended.status}")
    return Judge(schedule).judge(ended.printed)
