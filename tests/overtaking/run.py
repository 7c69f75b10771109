#!/usr/bin/env python3
"""The runs that overtake most: `tests/overtaking/run.py PROGRAM`.

Each folder beside this file is a replay: `words` are those behind the program's name, `schedule` and `f0`, `f1` ..
are the files they name, and `report` is what has to be written, byte for byte, with status 0. `docs/overtaking.md`
says how such a run comes to its count. PROGRAM publishes calls, as `replay` with LIMIT 0 to 3 does.

Prints a line for each run, and a line for each way in which it is wrong. The status is 1 where a run was wrong.
"""
import subprocess
import sys
from pathlib import Path

# how long a replay may take, in seconds
PATIENCE = 60


def bound(seats):
    """How often a call of so many seats is overtaken at most."""
    return (seats - 1) * (seats + 2) // 2


def faults(program, folder):
    """What is wrong with the program's run of a folder."""
    words = (folder / "words").read_text().split()
    made = subprocess.run(
        [program, *words], cwd=folder, capture_output=True, timeout=PATIENCE, stdin=subprocess.DEVNULL
    )
    if made.returncode != 0:
        yield f"status {made.returncode}, not 0"
    if made.stdout != (folder / "report").read_bytes():
        yield "another report:\n" + made.stdout.decode(errors="replace")


def main():
    if len(sys.argv) != 2:
        print(__doc__)
        return 2
    program = str(Path(sys.argv[1]).resolve())
    wrong = runs = 0
    for words in sorted(Path(__file__).resolve().parent.glob("*/words")):
        folder = words.parent
        seats = len(list(folder.glob("f[0-7]")))
        overtaken = (folder / "report").read_text().split()[-1]
        print(f"{folder.name}: {seats} seats, overtaken {overtaken} of {bound(seats)}")
        told = list(faults(program, folder))
        for fault in told:
            print(f"  {fault}")
        runs += 1
        wrong += bool(told)
    print(f"runs {runs}, wrong {wrong}")
    return 1 if wrong or not runs else 0


if __name__ == "__main__":
    sys.exit(main())
