#!/usr/bin/env python3
"""Random runs of the built program: `tests/random/random_runs.py PROGRAM [--runs N] [--seed S]`.

Each run is a replay of random command files by a random schedule, with 1 to 8 seats, little room and a low limit. Its
report is judged by `judge.py`: that it is a report of these files, its ticks and numbers, its counts, and, by a search
over all orders, that its calls have a legal order. LIMIT 0 is used where the program serves it.

Prints each case that is wrong, made as small as it could be, then one line of counts. The status is 1 where a case was wrong.
"""
import argparse
import subprocess
import sys
import tempfile
from dataclasses import replace
from pathlib import Path
from random import Random

import cases
import judge

# how long a replay may take, in seconds
PATIENCE = 60

# after so many tries a wrong case is as small as it gets
TRIES = 300


def replay(program, case):
    """Status and output of the program on a case."""
    with tempfile.TemporaryDirectory() as folder:
        for name, text in case.texts().items():
            (Path(folder) / name).write_text(text)
        made = subprocess.run(
            [program, *case.words()], cwd=folder, capture_output=True, timeout=PATIENCE, stdin=subprocess.DEVNULL
        )
    return made.returncode, made.stdout.decode(errors="replace")


def publishes(program):
    """Whether the program serves LIMIT 0, and so publishes calls."""
    status, _ = replay(program, cases.Case("queue", 1, 0, (("take",),), ((0, "end"),)))
    return status == 0


def fault(program, case, helps):
    """What is wrong with the program's report of a case, if anything, and the report's counts."""
    try:
        status, text = replay(program, case)
    except subprocess.TimeoutExpired:
        return f"no end in {PATIENCE} seconds", {}
    try:
        _, summary = judge.judge(case, text, status, helps)
        return None, summary
    except judge.Wrong as wrong:
        return f"{wrong}\nstatus {status}\n{text}", {}


def smaller(case):
    """Cases that have an entry of the schedule or a last command less."""
    for place in range(len(case.entries)):
        yield replace(case, entries=case.entries[:place] + case.entries[place + 1 :])
    for seat, file in enumerate(case.files):
        if file:
            yield replace(case, files=case.files[:seat] + (file[:-1],) + case.files[seat + 1 :])


def smallest(program, case, helps):
    """A smaller case that is wrong too, where one is found."""
    tries = TRIES
    found = True
    while found:
        found = False
        for other in smaller(case):
            tries -= 1
            if tries < 0:
                return case
            if fault(program, other, helps)[0]:
                case, found = other, True
                break
    return case


def show(program, case, helps):
    """Prints a wrong case and what is wrong with it."""
    case = smallest(program, case, helps)
    print(f"--- {' '.join(case.words())}")
    for name, text in sorted(case.texts().items()):
        print(f"{name}: {'/'.join(text.splitlines())}")
    print(fault(program, case, helps)[0])


def main():
    parser = argparse.ArgumentParser(description=__doc__, formatter_class=argparse.RawDescriptionHelpFormatter)
    parser.add_argument("program")
    parser.add_argument("--runs", type=int, default=2000)
    parser.add_argument("--seed", type=int, default=1)
    parser.add_argument("--clients", default="queue,list,tree,buckets")
    words = parser.parse_args()
    program = str(Path(words.program).resolve())
    helps = publishes(program)
    random = Random(words.seed)
    totals = {"calls": 0, "slow": 0, "exhausted": 0, "pending": 0}
    greatest = wrong = 0
    for _ in range(words.runs):
        case = cases.case(random, words.clients.split(","), [0, 0, 1, 1, 2, 3] if helps else [1, 2, 3])
        told, summary = fault(program, case, helps)
        if told:
            wrong += 1
            show(program, case, helps)
        for name in totals:
            totals[name] += summary.get(name, 0)
        greatest = max(greatest, summary.get("overtaken", 0))
    counts = " ".join(f"{name} {count}" for name, count in totals.items())
    print(f"runs {words.runs} {counts} overtaken {greatest} at most, wrong {wrong}")
    return 1 if wrong else 0


if __name__ == "__main__":
    sys.exit(main())
