"""What `show` prints of streams of records: where records begin and end, which are too large, and how the heads of messages are told."""

from support.program import run
from support.shows import Shows
from support.tables import bytes_of, each, rows_of


def lines_of(answer):
    return "".join(f"{line}\n" for line in answer.split("|"))


def shows_the_lines(test, stream, answer):
    status, _, lines = answer.partition(" ")
    ended = run("show", text=stream)
    test.assertEqual(ended.printed.decode(), lines_of(lines))
    test.assertEqual(ended.status, int(status))
    test.assertEqual(ended.errors, b"")


def shows_each(test, shows, due):
    for place, lines in due:
        test.assertEqual(shows.of(place), lines, shows.records[place].hex()[:2_000])


def fronts(shows, content, answer):
    """Each front of the bytes as a record, and the line that is due of it."""
    steps = [(int(at), told) for at, told in (step.split(": ") for step in answer.split("; "))]
    assert steps[-1][0] == len(content), answer
    return [(shows.add(content[:size]), [told for at, told in steps if at <= size][-1:]) for size in range(len(content) + 1)]


def case(shows, row):
    """What is checked of a row, and of what."""
    asked, _, answer = row.partition(" = ")
    kind, *words = asked.split(" ")
    content = bytes_of(words)
    if kind == "show":
        return shows_the_lines, content, answer
    due = {"fronts": fronts, "shape": lambda *_: [(shows.add(content), answer.split("|"))]}[kind](shows, content, answer)
    return shows_each, shows, due


def is_met(test, check, *given):
    check(test, *given)


def load_tests(loader, suite, _):
    shows = Shows()
    suite.addTests(each(is_met, [(f"{name} {row[:60]}", *case(shows, row)) for name, row in rows_of("records.txt")]))
    return suite
