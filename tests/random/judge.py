"""Judges the text of a report against the case that it is of. Nothing here knows how the program works."""
from dataclasses import dataclass

# how many numbers each command has
NUMBERS = {"put": 1, "take": 0, "peek": 0, "add": 1, "del": 1, "has": 1, "min": 0, "set": 2, "rem": 1, "get": 1}

# replies that a call of each command may have
REPLIES = {
    "put": ("done", "exhausted"),
    "take": ("value", "empty", "exhausted"),
    "peek": ("value", "empty"),
    "add": ("yes", "no", "exhausted"),
    "del": ("yes", "no", "exhausted"),
    "has": ("yes", "no"),
    "min": ("value", "empty"),
    "set": ("yes", "no", "exhausted"),
    "rem": ("yes", "no", "exhausted"),
    "get": ("value", "absent"),
}

# commands that may claim a block on their fast path
CLAIM = ("put", "add", "set", "rem")


class Wrong(Exception):
    """A report that is not one of its case."""


@dataclass(frozen=True)
class Call:
    """A line of a report. A pending call has no reply and no end."""

    seat: int
    number: int
    command: str
    reply: str
    begin: int
    end: int
    path: str

    @property
    def is_pending(self):
        return self.reply == "pending"


def read_line(text):
    """The call of a line."""
    words = text.split(" ")
    try:
        seat, number, numbers = int(words[0]), int(words[1]), NUMBERS[words[2]]
        command = " ".join(words[2 : 3 + numbers])
        reply = " ".join(words[3 + numbers : -3])
        begin, end, path = int(words[-3]), words[-2], words[-1]
        if (end == "-") != (reply == "pending"):
            raise Wrong(f"an end without a reply, or a reply without an end: {text}")
        call = Call(seat, number, command, reply, begin, -1 if end == "-" else int(end), path)
    except (ValueError, KeyError, IndexError):
        raise Wrong(f"no line of a call: {text}") from None
    if reply != "pending" and reply.split(" ")[0] not in REPLIES[words[2]]:
        raise Wrong(f"no reply of its command: {text}")
    if path not in ("fast", "slow"):
        raise Wrong(f"no path: {text}")
    return call


def read_report(text):
    """The calls of a report, and the words of its summary."""
    if not text.endswith("\n"):
        raise Wrong("the last line has no end")
    *lines, summary = text[:-1].split("\n")
    words = summary.split(" ")
    names = ["calls", "fast", "slow", "exhausted", "pending", "overtaken"]
    if words[0::2] != names or not all(word.isdigit() for word in words[1::2]):
        raise Wrong(f"no summary: {summary}")
    return [read_line(line) for line in lines], dict(zip(names, map(int, words[1::2])))


def judge_ticks(calls):
    """The ticks are 0 and the next ones, each drawn once, and the lines are in order of the begin ticks."""
    begins = [call.begin for call in calls]
    ends = [call.end for call in calls if not call.is_pending]
    if begins != sorted(begins):
        raise Wrong("the lines are not in order of their begin ticks")
    if sorted(begins + ends) != list(range(len(begins) + len(ends))):
        raise Wrong("the ticks are not 0 and the next ones, each once")
    if any(call.end < call.begin for call in calls if not call.is_pending):
        raise Wrong("a call ends before it begins")


def judge_files(calls, files):
    """Each seat makes the commands of its file in order, one after the other, and may leave the last one pending."""
    for seat, file in enumerate(files):
        own = [call for call in calls if call.seat == seat]
        if [call.number for call in own] != list(range(1, len(own) + 1)):
            raise Wrong(f"the calls of seat {seat} are not numbered from 1 on")
        if [call.command for call in own] != list(file[: len(own)]):
            raise Wrong(f"the calls of seat {seat} are not those of its file")
        for before, after in zip(own, own[1:]):
            if before.is_pending or before.end > after.begin:
                raise Wrong(f"call {after.number} of seat {seat} began before the last one had ended")
    if any(call.seat >= len(files) for call in calls):
        raise Wrong("a call of a seat without a file")


def judge_summary(calls, summary, seats):
    """The summary counts the lines, and the overtaking count is in its bound."""
    counts = {
        "calls": len(calls),
        "fast": sum(call.path == "fast" for call in calls),
        "slow": sum(call.path == "slow" for call in calls),
        "exhausted": sum(call.reply == "exhausted" for call in calls),
        "pending": sum(call.is_pending for call in calls),
    }
    for name, count in counts.items():
        if summary[name] != count:
            raise Wrong(f"the summary has {name} {summary[name]}, and the lines {count}")
    if summary["overtaken"] > ((seats - 1) * (seats + 2) // 2 if counts["slow"] else 0):
        raise Wrong(f"overtaken {summary['overtaken']} with {seats} seats and {counts['slow']} slow calls")


def judge_blocks(calls, cap):
    """Where no call was published, a call claims one block at most, and `exhausted` means that others claimed all."""
    if any(call.path == "slow" for call in calls):
        return
    for call in calls:
        if call.reply == "exhausted":
            others = [
                other
                for other in calls
                if other != call and other.command.split(" ")[0] in CLAIM and other.begin < call.end
            ]
            if len(others) < cap:
                raise Wrong(f"call {call.number} of seat {call.seat} is exhausted, and {len(others)} others claimed")


def judge(case, text, status, publishes):
    """Raises Wrong where the text and the status are not those of a run of the case."""
    from orders import has_legal_order

    calls, summary = read_report(text)
    judge_ticks(calls)
    judge_files(calls, case.files)
    judge_summary(calls, summary, len(case.files))
    judge_blocks(calls, case.cap)
    if status != (7 if summary["exhausted"] else 0):
        raise Wrong(f"status {status} with {summary['exhausted']} exhausted calls")
    if case.is_whole() and (summary["pending"] or summary["calls"] != sum(map(len, case.files))):
        raise Wrong("a call was not made or not answered, and each seat had time to end all")
    if publishes and case.limit == 0 and any(call.path == "fast" for call in calls if not call.is_pending):
        raise Wrong("a call that may not fail was answered on the fast path")
    if not has_legal_order(case.client, calls):
        raise Wrong("no order of the calls is legal")
    return calls, summary
