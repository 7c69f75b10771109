#!/usr/bin/env python3
"""Begins a client of one's own: `examples/new_client.py NAME`.

Copies the stack, which is the first example of docs/writing-a-client.md, to two new crates: `treiber_stack_form` to NAME_form,
the definitions with the proof of the laws, and `treiber_stack` to NAME, the code. Types, definitions and the crates' names are
renamed, and crates.txt gets a line for each. The copy is a stack, and proved as one; its comments still say so. NAME is words of
lowercase letters and digits joined by `_`, as in `two_ended_queue`, and stands in crates.txt neither alone nor with `_form`.

It tells what is left to do. The status is 1 where NAME can't be taken, and then nothing was made.
"""
import re
import sys
from pathlib import Path

ROOT = Path(__file__).resolve().parents[1]
# the crates that are copied, the lower first; a crate of definitions keeps its ending
MODELS = ("treiber_stack_form", "treiber_stack")
# each name with `stack` in it, but not the word itself
NAMED = re.compile(r"\b(?!stacks?\b)\w*[Ss]tack\w*")
# the file of the structure itself, which is not named as its crate
MODULE = re.compile(r"\bmod stack;|\bstack::|\bsrc/stack\.rt")


def camel(name):
    """The name of a type."""
    return "".join(word.capitalize() for word in name.split("_"))


def renamed(text, name):
    """A text of the stack's crates, as it stands in the copy."""

    def other(found):
        return re.sub("TreiberStack|Stack", camel(name), re.sub("treiber_stack|stack", name, found.group()))

    def moved(found):
        return found.group().replace("stack", "structure")

    return NAMED.sub(other, MODULE.sub(moved, text))


def fault(name, lines):
    """Why the name can't be taken, if it can't."""
    if not re.fullmatch(r"[a-z][a-z0-9]*(_[a-z0-9]+)*", name) or name.endswith("_form"):
        return f"{name} is not words of lowercase letters and digits joined by _, without _form"
    for crate in (name, name + "_form"):
        if (ROOT / "crates" / crate).exists() or any(line.split(":")[0].strip() == crate for line in lines):
            return f"there is a crate {crate}"
    return None


def copy(model, name):
    """Makes the copy of a crate."""
    source = ROOT / "crates" / model
    target = ROOT / "crates" / renamed(model, name)
    for path in sorted(source.rglob("*")):
        place = path.relative_to(source)
        if path.is_file() and place.parts[0] != "out":
            file = target / ("src/structure.rt" if str(place) == "src/stack.rt" else place)
            file.parent.mkdir(parents=True, exist_ok=True)
            file.write_text(renamed(path.read_text(), name))
    return target


def main():
    if len(sys.argv) != 2 or sys.argv[1].startswith("-"):
        print(__doc__)
        return 1
    name = sys.argv[1]
    listed = ROOT / "crates.txt"
    lines = listed.read_text().splitlines()
    why = fault(name, lines)
    if why is not None:
        print(why, file=sys.stderr)
        return 1
    for model in MODELS:
        print(f"made {copy(model, name).relative_to(ROOT)}")
        at = next(i for i, line in enumerate(lines) if line.split(":")[0].strip() == model)
        lines.insert(at + 1, renamed(lines[at], name))
    listed.write_text("\n".join(lines) + "\n")
    print(f"added {name}_form and {name} to crates.txt")
    print(f"next: `rt fmt` and `rt check` in crates/{name}_form and in crates/{name}; then docs/writing-a-client.md, 'In this order'")
    print("each crate wants a row in docs/architecture.md and in docs/proved.md")
    return 0


if __name__ == "__main__":
    sys.exit(main())
