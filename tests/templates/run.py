#!/usr/bin/env python3
"""What begins a client: `tests/templates/run.py [--no-proof]`.

Copies the crates into a folder of its own, and there

- gives `examples/new_client.py` names that it has to refuse, and sees that nothing was made;
- lets it make a client, and sees that its crates name the stack's nowhere;
- runs the worked runs of the stack (`worked_runs/src/stacks.rt`) with the new client, by `rt try --test`;
- proves both new crates by `rt check`, if not `--no-proof`: some minutes, or much more where the crates below aren't proved yet.

It needs the toolchain. It prints what it did and each thing that is wrong; the status is 1 where one was.
"""
import subprocess
import sys
import tempfile
from pathlib import Path
from shutil import copy, copytree, ignore_patterns

ROOT = Path(__file__).resolve().parents[2]
NAME = "pile_of_plates"
TYPE = "PileOfPlates"
REFUSED = ("treiber_stack", "ms_queue", "Pile", "1pile", "pile_form", "pile__two", "../pile", "")


def begin(top, name):
    """Runs the script in the copy."""
    return subprocess.run(
        [sys.executable, top / "examples/new_client.py", name], capture_output=True, text=True, check=False
    )


def tells_failure(crate, *words):
    """What rt says last in a crate, where its status isn't 0."""
    made = subprocess.run(["rt", *words], cwd=crate, capture_output=True, text=True, check=False)
    print(f"{crate.name}: rt {' '.join(words)}: status {made.returncode}", flush=True)
    if made.returncode != 0:
        yield f"rt {' '.join(words)} in {crate.name}:\n" + "\n".join((made.stdout + made.stderr).splitlines()[-15:])


def refusal_faults(top):
    """Names that were taken, or refused with something made."""
    before = (top / "crates.txt").read_text(), sorted((top / "crates").iterdir())
    for name in REFUSED:
        if begin(top, name).returncode != 1:
            yield f"the name {name!r} is not refused"
        if before != ((top / "crates.txt").read_text(), sorted((top / "crates").iterdir())):
            yield f"something was made for the name {name!r}"
    print(f"{len(REFUSED)} names refused")


def naming_faults(top):
    """Files of the new crates that name the stack's crates or type."""
    for crate in (NAME, NAME + "_form"):
        for path in sorted((top / "crates" / crate).rglob("*.*")):
            if any(word in path.read_text() for word in ("treiber_stack", "TreiberStack", "StackSearch")):
                yield f"{path.relative_to(top)} names the stack"


def use_in_runs(top):
    """The worked runs of the stack with the new client in its place."""
    runs = top / "crates/worked_runs/src/stacks.rt"
    runs.write_text(runs.read_text().replace("treiber_stack", NAME).replace("TreiberStack", TYPE))
    lines = (top / "crates.txt").read_text().splitlines()
    lines = [line + f" {NAME}" if line.startswith("worked_runs:") else line for line in lines]
    (top / "crates.txt").write_text("\n".join(lines) + "\n")


def faults(top, proves):
    """All that is wrong."""
    yield from refusal_faults(top)
    made = begin(top, NAME)
    print(made.stdout, end="")
    if made.returncode != 0:
        yield f"no client was made: {made.stderr}"
        return
    yield from naming_faults(top)
    use_in_runs(top)
    crates = [top / "crates" / NAME, top / "crates" / (NAME + "_form")]
    for crate in crates:
        yield from tells_failure(crate, "fmt")
    yield from tells_failure(top / "crates/worked_runs", "try", "--test")
    if proves:
        yield from tells_failure(crates[1], "check")
        yield from tells_failure(crates[0], "check")


def main():
    if sys.argv[1:] not in ([], ["--no-proof"]):
        print(__doc__)
        return 2
    with tempfile.TemporaryDirectory() as folder:
        top = Path(folder)
        for name in ("crates.txt", "HANDLES"):
            copy(ROOT / name, top)
        copytree(ROOT / "examples", top / "examples")
        copytree(ROOT / "crates", top / "crates", ignore=ignore_patterns("out"))
        found = list(faults(top, sys.argv[1:] == []))
    for fault in found:
        print(fault)
    return 1 if found else 0


if __name__ == "__main__":
    sys.exit(main())
