#!/usr/bin/env python3
"""Makes a sequence picture of a transcript of `nfscopy run`, as SVG.

    tools/picture.py TRANSCRIPT [TITLE] > PICTURE.svg

The client, the source and the destination are three lines from top to bottom. Each `sent` line is an arrow with its
number and label, each other line a note at the end that tells it. What a transcript doesn't say isn't drawn: whether a
record arrived is seen only by what comes of it. So an arrow is dashed where the record was lost or came late as far as
the transcript shows: a call that nothing answers, the earlier ones where fewer answers come than there are calls of that
name; an answer of which nothing comes before its call is sent again. A record that is dropped, as one that comes twice,
and a server that stops are marked at their end.
"""

import sys
from dataclasses import dataclass
from xml.sax.saxutils import escape

LANES = {"c": 150, "s": 430, "d": 710}
NAMES = {"c": "client", "s": "source", "d": "destination"}
LEAST_WIDTH = 860
TOP = 64
ROW = 22

# How wide a letter of a note is, and the blank beside one.
LETTER = 6.7
GAP = 10

# What the words of a note say of the end that tells it, where they don't name it.
OF_DESTINATION = {"accepted", "overlap", "sized", "landed", "held", "late", "stopped", "committed", "reported"}
OF_SOURCE = {"permit"}


@dataclass
class Sent:
    """A record: its number, its two ends, and its label."""

    number: int
    origin: str
    target: str
    label: str
    is_missed: bool = False

    def call(self):
        """The label of the call, of a call or of its answer."""
        return self.label.split(" ")[0]

    def is_answer(self):
        return " " in self.label or self.label == "mismatch"

    def is_refused(self):
        """Whether it is an answer that doesn't name its call."""
        return self.call() in ("denied", "mismatch", "fault")


@dataclass
class Note:
    """A line that an end tells."""

    end: str
    text: str
    is_mark: bool


def end_of(words):
    """The end that tells a note."""
    if words[0] in ("drop", "crash", "bytes"):
        return "d" if words[1] == "w" else words[1]
    if words[0] in OF_DESTINATION:
        return "d"
    if words[0] in OF_SOURCE:
        return "s"
    return "c"


def parsed(lines):
    """The rows of a picture, in the order of the lines."""
    rows = []
    for place, line in enumerate(lines):
        words = line.split(" ")
        if words[0] == "sent" and len(words) >= 4:
            rows.append(Sent(int(words[1]), words[2][0], words[2][1], " ".join(words[3:])))
        elif words[0] != "end":
            end = end_of(words)
            if words[0] == "privilege":
                # It is told by the end that sends the next record, which is the refusal.
                behind = [it.split(" ") for it in lines[place + 1:] if it.startswith("sent ")]
                end = behind[0][2][0] if behind else "s"
            rows.append(Note(end, line, words[0] in ("drop", "crash", "mistaken", "none")))
    return rows


def mark_missed(rows):
    """Marks the records that were lost or came late, as far as the rows show it."""
    awaited, answered = [], {}
    for row in rows:
        if isinstance(row, Note):
            # What an end tells comes of an answer that it took.
            answered = {key: answer for key, answer in answered.items() if key[0] != row.end}
        elif row.is_answer():
            calls = [it for it in awaited if (it.origin, it.target) == (row.target, row.origin)]
            calls = calls if row.is_refused() else [it for it in calls if it.label == row.call()]
            if calls:
                awaited.remove(calls[-1])
            answered[row.target, row.origin, row.call()] = row
        else:
            earlier = answered.pop((row.origin, row.target, row.label), None)
            if earlier:
                earlier.is_missed = True
            awaited.append(row)
    for call in awaited:
        call.is_missed = True


def text_at(x, y, text, anchor, kind):
    return f'<text class="{kind}" x="{x}" y="{y}" text-anchor="{anchor}">{escape(text)}</text>'


def arrow(row, y):
    start, end = LANES[row.origin], LANES[row.target]
    step = 6 if end > start else -6
    kind = "missed" if row.is_missed else "sent"
    middle = (start + end) / 2
    # An arrow that passes the line between its ends has its label beside the first of them.
    if abs(end - start) > 300:
        middle = start + (140 if end > start else -140)
    return [
        f'<line class="{kind}" x1="{start + step / 2}" y1="{y}" x2="{end - step}" y2="{y}" marker-end="url(#tip)"/>',
        text_at(middle, y - 4, f"{row.number} {row.label}", "middle", "label"),
    ]


def note(row, y):
    x = LANES[row.end]
    side, anchor = (-GAP, "end") if row.end == "c" else (GAP, "start")
    kind = "mark" if row.is_mark else "note"
    return [f'<circle class="{kind}" cx="{x}" cy="{y - 4}" r="3"/>', text_at(x + side, y, row.text, anchor, kind)]


STYLE = """
  text { font: 11px monospace; fill: #222; }
  .name { font-weight: bold; font-size: 13px; }
  .lane { stroke: #bbb; stroke-width: 1; }
  .sent { stroke: #246; stroke-width: 1.2; }
  .missed { stroke: #b40; stroke-width: 1.2; stroke-dasharray: 5 4; }
  text.note { fill: #060; } circle.note { fill: #060; }
  text.mark { fill: #b40; } circle.mark { fill: #b40; }
"""


def picture(rows, title):
    """The picture of these rows."""
    height = TOP + ROW * (len(rows) + 1)
    ends = [LANES[row.end] + 2 * GAP + LETTER * len(row.text) for row in rows if isinstance(row, Note) and row.end != "c"]
    width = round(max([LEAST_WIDTH, *ends]))
    drawn = [
        f'<svg xmlns="http://www.w3.org/2000/svg" width="{width}" height="{height}" viewBox="0 0 {width} {height}">',
        f"<title>{escape(title)}</title>",
        f"<style>{STYLE}</style>",
        '<defs><marker id="tip" markerWidth="8" markerHeight="8" refX="6" refY="3" orient="auto">'
        '<path d="M0,0 L6,3 L0,6 z" fill="#246"/></marker></defs>',
        f'<rect width="{width}" height="{height}" fill="white"/>',
        text_at(12, 20, title, "start", "name"),
    ]
    for end, x in LANES.items():
        drawn.append(text_at(x, 46, NAMES[end], "middle", "name"))
        drawn.append(f'<line class="lane" x1="{x}" y1="52" x2="{x}" y2="{height - 8}"/>')
    for place, row in enumerate(rows):
        y = TOP + ROW * (place + 1)
        drawn += arrow(row, y) if isinstance(row, Sent) else note(row, y)
    return "\n".join(drawn + ["</svg>", ""])


def drawn(path, title):
    """The picture of the transcript in a file."""
    with open(path, encoding="ascii") as transcript:
        rows = parsed(transcript.read().splitlines())
    mark_missed(rows)
    return picture(rows, title)


def main():
    if len(sys.argv) not in (2, 3):
        sys.exit(__doc__)
    sys.stdout.write(drawn(sys.argv[1], sys.argv[2] if len(sys.argv) == 3 else sys.argv[1]))


if __name__ == "__main__":
    main()
