#!/usr/bin/env python3
"""Draws a report of nwf: `examples/draw_report.py [--svg] [FILE]`.

FILE is a report as `nwf replay` or `nwf run` writes it; without one it is read from standard input. A line for each seat has
its calls from begin to end, so that one sees which calls overlapped. A slow call, which its seat announced and any seat may
have finished, is drawn with `=` in place of `-`, and with `--svg` in another colour and marked `slow`. A call that was
pending when the run ended has no end.

The picture goes to standard output. The status is 1 where the text is no report.
"""
import sys
from dataclasses import dataclass
from html import escape

# how many numbers each command has
NUMBERS = {"put": 1, "take": 0, "peek": 0, "add": 1, "del": 1, "has": 1, "min": 0, "set": 2, "rem": 1, "get": 1}
PATHS = ("fast", "slow")


class NoReport(Exception):
    """A text that is no report."""


@dataclass(frozen=True)
class Call:
    """A line of a report. A pending call has no end."""

    seat: int
    number: int
    command: str
    reply: str
    begin: int
    end: int | None
    slow: bool

    @property
    def label(self):
        return f"{self.command}: {self.reply}"


def read_call(line):
    """The call of a line."""
    words = line.split(" ")
    try:
        numbers = NUMBERS[words[2]]
        *start, begin, end, path = words
        seat, number = int(start[0]), int(start[1])
        command, reply = " ".join(start[2 : 3 + numbers]), " ".join(start[3 + numbers :])
        last = None if end == "-" else int(end)
        if not reply or path not in PATHS or (last is None) != (reply == "pending"):
            raise NoReport(line)
        return Call(seat, number, command, reply, int(begin), last, path == "slow")
    except (ValueError, KeyError, IndexError):
        raise NoReport(line) from None


def read_report(text):
    """The calls of a report, and its summary line."""
    lines = text.splitlines()
    if not lines or not lines[-1].startswith("calls "):
        raise NoReport("there is no summary line")
    return [read_call(line) for line in lines[:-1]], lines[-1]


def places(calls):
    """How far from the left each tick stands: ticks in order, and room for the label of each call that ended. The last place
    is the end of the picture, with room for the calls that are pending."""
    ticks = sorted({call.begin for call in calls} | {call.end for call in calls if call.end is not None})
    at, place = {}, 0
    for tick in ticks:
        ended = [at[call.begin] + len(call.label) + 4 for call in calls if call.end == tick and call.begin in at]
        place = max([place + 3 if at else 0, *ended])
        at[tick] = place
    pending = [at[call.begin] + len(call.label) + 4 for call in calls if call.end is None]
    return at, max([place, *pending])


def seats_of(calls):
    return range(max((call.seat for call in calls), default=-1) + 1)


def text_bar(call, at, end):
    """A call from its begin to its end: `|-- put 7: done --|`."""
    width = (end if call.end is None else at[call.end]) - at[call.begin]
    line = "=" if call.slow else "-"
    last = ">" if call.end is None else "|"
    room = width - 1 - len(call.label)
    return "|" + line * (room // 2) + call.label + line * (room - room // 2) + last


def text_picture(calls, summary):
    """The picture as lines of text."""
    at, end = places(calls)
    ruler = [" "] * (end + 8)
    for tick, place in at.items():
        ruler[place : place + len(str(tick))] = str(tick)
    lines = [("tick    " + "".join(ruler)).rstrip()]
    for seat in seats_of(calls):
        line = f"seat {seat}  "
        for call in (call for call in calls if call.seat == seat):
            line = line.ljust(8 + at[call.begin])
            # two calls that touch share the mark between them
            line = line[: 8 + at[call.begin]] + text_bar(call, at, end)
        lines.append(line)
    return "\n".join([*lines, summary]) + "\n"


UNIT, ROW, LEFT, TOP = 9, 44, 70, 36
COLOURS = {False: ("#cfe3f5", "#2f6ea8"), True: ("#f8d9b0", "#b5651d")}


def svg_bar(call, at, end):
    """A call as a box with its label."""
    fill, edge = COLOURS[call.slow]
    left, top = LEFT + UNIT * at[call.begin], TOP + ROW * call.seat
    width = UNIT * ((end if call.end is None else at[call.end]) - at[call.begin])
    dashes = ' stroke-dasharray="5 3"' if call.end is None else ""
    mark = f'<text x="{left + width - 4}" y="{top + 27}" class="mark">slow</text>' if call.slow else ""
    return (
        f'<rect x="{left}" y="{top}" width="{width}" height="30" rx="3" fill="{fill}" stroke="{edge}"{dashes}/>'
        f'<text x="{left + 6}" y="{top + 15}">{escape(call.label)}</text>{mark}'
    )


def svg_picture(calls, summary):
    """The picture as SVG."""
    at, end = places(calls)
    seats = seats_of(calls)
    width, height = LEFT + UNIT * max(end, len(summary) - 4) + 20, TOP + ROW * len(seats) + 30
    bottom = TOP + ROW * len(seats) - 8
    parts = [
        f'<svg xmlns="http://www.w3.org/2000/svg" viewBox="0 0 {width} {height}" width="{width}" height="{height}">',
        "<style>text{font:13px monospace;fill:#222}.mark{font-size:10px;text-anchor:end;fill:#b5651d}"
        ".tick{font-size:10px;text-anchor:middle;fill:#777}</style>",
        f'<rect width="{width}" height="{height}" fill="white"/>',
    ]
    for tick, place in at.items():
        x = LEFT + UNIT * place
        parts.append(f'<line x1="{x}" y1="26" x2="{x}" y2="{bottom}" stroke="#ddd"/>')
        parts.append(f'<text x="{x}" y="20" class="tick">{tick}</text>')
    parts += [f'<text x="8" y="{TOP + ROW * seat + 19}">seat {seat}</text>' for seat in seats]
    parts += [svg_bar(call, at, end) for call in calls]
    parts.append(f'<text x="8" y="{height - 10}">{escape(summary)}</text>')
    return "\n".join([*parts, "</svg>"]) + "\n"


def main(words):
    names = [word for word in words if word != "--svg"]
    if len(names) > 1 or any(name.startswith("-") for name in names):
        print(__doc__, file=sys.stderr)
        return 2
    try:
        if names:
            with open(names[0], encoding="ascii", newline="") as file:
                text = file.read()
        else:
            text = sys.stdin.read()
        report = read_report(text)
    except (NoReport, UnicodeDecodeError) as fault:
        print(f"draw_report: no report: {fault}", file=sys.stderr)
        return 1
    except OSError as fault:
        print(f"draw_report: {fault}", file=sys.stderr)
        return 1
    print((svg_picture if "--svg" in words else text_picture)(*report), end="")
    return 0


if __name__ == "__main__":
    sys.exit(main(sys.argv[1:]))
