"""What `show` prints of streams of records."""

from support.program import run
from support.xdr import fragment


class Shows:
    """Many records, of which `show` is asked at once, and then one by one.

    The records are put together before the first is asked for. Where `show` fails, or tells of fewer records, each of them is missed.
    """

    def __init__(self):
        self.records, self.texts = [], None

    def add(self, content):
        """Puts a record, and says how to ask for it."""
        self.records.append(content)
        return len(self.records) - 1

    def of(self, place):
        """The lines of the record at a place, behind the one with its number and length."""
        if self.texts is None:
            ended = run("show", text=b"".join(map(fragment, self.records)))
            assert ended.status == 0, f"show ended with {ended.status}"
            self.texts = ended.printed.decode().split("record ")[1:]
            self.texts[-1] = self.texts[-1].replace("rest 0\n", "")
        first, *lines = self.texts[place].splitlines()
        assert first == f"{place + 1} {len(self.records[place])}", f"record {place + 1} is shown as {first}"
        return lines
