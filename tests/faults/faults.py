#!/usr/bin/env python3
"""A host that refuses: `tests/faults/faults.py PROGRAM`.

Each row below is run as it is, and then once for each allocation, each opening, each read and each write that it makes,
with that one refused; once for each thread, with that one not made; and with reads and writes of one, two and seven bytes.

- An allocation refused: the program ends with status 6 and its message, or with no word where the words of the command line
  found no room, which are the first to want some; or, where the C library alone wanted it, as if none had been refused.
- A file that can't be opened or read: status 4, and the message names it by its number.
- A write refused: status 5, and what was written is the beginning of the right text. Where a message can't be written its
  status stays.
- A thread that isn't made, and cut reads and writes: the same status and text. Of a run with several threads, whose report
  depends on them, the summary line alone.

Needs `cc`. Prints a line for each row and for each way in which it is wrong. The status is 1 where one was wrong.
"""
import os
import subprocess
import sys
import tempfile
from pathlib import Path

HERE = Path(__file__).resolve().parent
# how long one run may take, in seconds
PATIENCE = 60
# the most calls of a kind that are refused one after another
MOST_CALLS = 10_000

FILES = {
    "s": "0 end\n0 end\n",
    "f": "put 7\ntake\n",
    "p": "put 1\nput 2\n",
    "t": "take\ntake\nput 3\n",
    "l0": "add 5\nadd 6\nhas 5\n",
    "l1": "del 5\nhas 6\nadd 5\n",
    "both": "0 40\n1 40\n0 200\n1 200\n",
    "bad": "put 7\ntake 7\n",
    "none": "",
    "report": "0 1 put 7 done 0 3 slow\n1 1 take value 7 1 2 slow\ncalls 2 fast 0 slow 2 exhausted 0 pending 0 overtaken 0\n",
    "order": "0 1\n1 1\n",
    "swapped": "1 1\n0 1\n",
}
# words, status, and the last line, where the row gives one
ROWS = [
    ("replay queue 8 3 s f", 0, "calls 2 fast 2 slow 0 exhausted 0 pending 0 overtaken 0"),
    ("replay list 8 0 both l0 l1", 0, None),
    ("replay queue 1 0 both p t", 7, None),
    ("replay queue 8 3 s bad", 3, None),
    ("run queue 8 3 f", 0, "calls 2 fast 2 slow 0 exhausted 0 pending 0"),
    ("run list 8 3 l0 l1 none", 0, None),
    ("run queue 8 0 p t", 0, None),
    ("load list 65536 3 1 100 7", 0, None),
    ("load buckets 64 0 3 20 7", 0, None),
    ("load queue", 2, None),
    ("check queue report order", 0, "legal"),
    ("check queue report swapped", 8, "not legal place 1 reason 4"),
    ("check queue f order", 3, None),
]


class Host:
    """A program with the library of failing calls before the C library."""

    def __init__(self, program, folder):
        self.program = program
        self.folder = Path(folder)
        self.told = self.folder / "told"
        self.shim = self.folder / "failing.so"
        subprocess.run(
            ["cc", "-shared", "-fPIC", "-O1", "-o", self.shim, HERE / "failing.c", "-ldl"], check=True
        )
        for name, text in FILES.items():
            (self.folder / name).write_text(text)

    def run(self, words, **settings):
        """Status and text of a run, and how many files were open when a call failed, if one did."""
        self.told.unlink(missing_ok=True)
        made = subprocess.run(
            [self.program, *words.split()],
            cwd=self.folder,
            env={**os.environ, "LD_PRELOAD": str(self.shim), "TOLD": str(self.told), **settings},
            stdout=subprocess.PIPE,
            stderr=subprocess.DEVNULL,
            stdin=subprocess.DEVNULL,
            timeout=PATIENCE,
        )
        opened = int(self.told.read_text()) if self.told.exists() else None
        return made.returncode, made.stdout, opened


def summary(text):
    """Calls, exhausted and pending ones of a summary line: what a run with threads has in common with another."""
    words = text.decode().split("\n")[-2].split()
    told = dict(zip(words[::2], words[1::2]))
    return told["calls"], told["exhausted"], told["pending"]


def same(words, right, made):
    """Whether a run came to the same: of several threads, what their reports have in common."""
    if right[0] != made[0]:
        return False
    threads = words.startswith("run") and len(words.split()) > 5
    return summary(right[1]) == summary(made[1]) if threads else right[1] == made[1]


def judge(kind, number, words, right, status, text, opened):
    """What is wrong with a run in which the call of this kind and number was refused."""
    first = 0 if words.startswith(("replay", "check")) else 1
    if kind == "malloc":
        of_words = number <= 2 * len(words.split()) + 2 and text == b""
        told = status == 6 and (of_words or text == b"nwf: no memory\n")
        return None if told or same(words, right, (status, text)) else "neither no memory nor the same"
    if kind in ("open", "read"):
        # an opening fails of the next file, a read of the last one that was opened
        file = opened + first - (kind == "read")
        message = f"nwf: read fault file {file}\n".encode()
        return None if (status, text) == (4, message) else f"not the read fault of file {file}"
    if kind == "write":
        message = right[0] in (2, 3)
        if status != (right[0] if message else 5):
            return "not the write fault's status"
        begins = right[1].startswith(text) or (words.startswith("run") and len(words.split()) > 5)
        return None if begins else "what was written is no beginning of the text"
    return None if same(words, right, (status, text)) else "not the same"


def faults(host, words, status, last):
    """Each way in which the runs of a row are wrong, and at the end how many calls were refused."""
    right = host.run(words)[:2]
    if right[0] != status:
        yield f"status {right[0]}, not {status}"
    if last is not None and right[1].decode().split("\n")[-2] != last:
        yield "another summary: " + right[1].decode().split("\n")[-2]
    refused = {}
    for kind in ("malloc", "open", "read", "write", "pthread_create"):
        for number in range(1, MOST_CALLS):
            *made, opened = host.run(words, FAIL=f"{kind}:{number}")
            if opened is None:
                refused[kind] = number - 1
                break
            wrong = judge(kind, number, words, right, *made, opened)
            if wrong:
                yield f"{kind} {number} refused: {wrong}: status {made[0]}, text {made[1][:60]!r}"
    for most in ("1", "2", "7"):
        made = host.run(words, MOST=most)[:2]
        if not same(words, right, made):
            yield f"pieces of {most} bytes: status {made[0]}, text {made[1][:60]!r}"
    yield refused


def main():
    if len(sys.argv) != 2:
        print(__doc__)
        return 2
    wrong = 0
    with tempfile.TemporaryDirectory() as folder:
        host = Host(str(Path(sys.argv[1]).resolve()), folder)
        for words, status, last in ROWS:
            *told, refused = faults(host, words, status, last)
            print(words + ": refused " + ", ".join(f"{kind} {count}" for kind, count in refused.items()))
            for fault in told:
                print(f"  {fault}")
            wrong += bool(told)
    print(f"rows {len(ROWS)}, wrong {wrong}")
    return 1 if wrong else 0


if __name__ == "__main__":
    sys.exit(main())
