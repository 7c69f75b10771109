#!/usr/bin/env python3
"""What the documents name: `tests/documents/check.py [ROOT]`.

Looks over README.md, CONTRIBUTING.md, CHANGELOG.md and docs/*.md, and checks that

- each path that stands in backquotes is there. It is read from the top of the repository or, where it begins with the name
  of a crate, below `crates/`. A file that is named alone (`Runs.antt`, `specs/Runs.antt`) is in a crate that its paragraph
  or row names, or that the document named before it;
- each link and each document that is named is there;
- each crate of crates.txt has one row of the table of crates in docs/architecture.md, and one in docs/proved.md;
- each name in backquotes that stands in a row of a crate in docs/proved.md occurs in the sources of this crate, of one that
  the row names, or of one that these pass on; in the other tables there, and in those of docs/reading-the-theorem.md, also of
  one that the words above the table name, or on which those stand.

It reads and proves nothing of the sources but their names. It prints each fault, and nothing where there is none; the status
is 1 where there is one.
"""
import re
import sys
from functools import lru_cache
from pathlib import Path

TICKED = re.compile(r"`([^`\n]+)`")
LINK = re.compile(r"\[[^\]\n]*\]\(([^)\s]+)\)")
WORD = re.compile(r"[A-Za-z_][A-Za-z0-9_]*")
PASSED_ON = re.compile(r"^pub use (?:Rattle\.)?([a-z_0-9]+)(?:\.|::)", re.M)
CODE = (".rt", ".antt")
TOPS = ("crates", "docs", "tests", ".ci")
# words of schedules and commands, which are no names of the sources
PRINTED = {"end", "exchange", "replay", "load", "run"}


class Repository:
    """The files of a repository, and the crates that crates.txt lists."""

    def __init__(self, root):
        self.root = root
        lines = [line.split("#")[0] for line in (root / "crates.txt").read_text().splitlines()]
        self.uses = {line.split(":")[0].strip(): line.split(":")[1].split() for line in lines if ":" in line}
        self.crates = list(self.uses)

    @lru_cache(None)
    def sources(self, crate):
        """The files of a crate with code, definitions or proofs."""
        folder = self.root / "crates" / crate
        return [path for path in folder.rglob("*") if path.suffix in CODE and "out" not in path.relative_to(folder).parts]

    @lru_cache(None)
    def words(self, crate):
        """The names that occur in the sources of a crate."""
        return {word for path in self.sources(crate) for word in WORD.findall(path.read_text())}

    @lru_cache(None)
    def passes_on(self, crate):
        """The crates whose items a crate passes on, and those that they pass on."""
        folder = self.root / "crates" / crate
        heads = [folder / "src/lib.rt", folder / "specs/Lib.antt", folder / "proofs/Lib.antt"]
        named = {name for head in heads if head.is_file() for name in PASSED_ON.findall(head.read_text())}
        below = {name for name in named if name in self.uses and name != crate}
        return below | {more for name in below for more in self.passes_on(name)}

    def has_path(self, path):
        """Whether a path, which may have stars, is there below the top or below `crates/`."""
        path = path.rstrip("/")
        return any(any(self.root.glob(start + path)) for start in ("", "crates/"))

    def has_in(self, crate, path):
        """Whether a crate has a file or a folder whose path ends so."""
        folder = self.root / "crates" / crate
        return (folder / path).exists() or any(str(file).endswith("/" + path) for file in self.sources(crate))


def documents(root):
    """The documents that are looked over."""
    tops = [root / name for name in ("README.md", "CONTRIBUTING.md", "CHANGELOG.md")]
    return [path for path in tops if path.is_file()] + sorted((root / "docs").glob("*.md"))


def blocks(text):
    """The paragraphs and rows of a document, each with the number of its first line; indented text is left out."""
    block, first = [], 1
    for number, line in enumerate(text.splitlines() + [""], 1):
        alone = line.startswith("|")
        if block and (alone or not line.strip() or re.match(r"\s*(?:- |\d+\. )", line)):
            yield first, " ".join(block)
            block = []
        if alone:
            yield number, line
        elif line.strip() and not line.startswith("    "):
            first = first if block else number
            block.append(line.strip())


def crates_in(repository, text):
    """The crates that a text names in backquotes, alone or in front of a path or an item."""
    heads = [re.split(r"::|[/. ]", ticked.removeprefix("crates/"))[0] for ticked in TICKED.findall(text)]
    return {head for head in heads if head in repository.uses}


def is_path(repository, ticked):
    """Whether what stands in backquotes is a path, from the top or from a crate on. What a build leaves in out/ is none, nor is
    a path of a crate NAME."""
    parts = ticked.split("/")
    told = len(parts) > 1 and (parts[0] in TOPS or parts[0] in repository.uses)
    return told and "out" not in parts and "NAME" not in parts and re.fullmatch(r"[\w./*-]+", ticked) is not None


def path_faults(repository, path):
    """Paths and files that a document names and that aren't there."""
    before = set()
    for number, block in blocks(path.read_text()):
        here = crates_in(repository, block)
        for ticked in (words.split()[0] for words in TICKED.findall(block) if words.split()):
            if is_path(repository, ticked):
                if not repository.has_path(ticked):
                    yield number, f"no such path: {ticked}"
            elif ticked.endswith(".md"):
                if not any((top / ticked).is_file() for top in (repository.root, repository.root / "docs", path.parent)):
                    yield number, f"no such document: {ticked}"
            elif re.fullmatch(r"[\w./-]+", ticked) and ticked.endswith(CODE) and not ticked.startswith("NAME/"):
                if not any(repository.has_in(crate, ticked) for crate in here | before):
                    yield number, f"in no crate that is named here: {ticked}"
        before |= here


def link_faults(path):
    """Links whose ends aren't there."""
    for number, line in enumerate(path.read_text().splitlines(), 1):
        for end in LINK.findall(line):
            target = end.split("#")[0]
            if target and "://" not in target and not (path.parent / target).exists():
                yield number, f"no such end of a link: {end}"


def tables(text):
    """The rows of each table, each with its line and cells, behind the first cell of the head and the text since the last
    heading."""
    head, said, rows = None, "", []
    for number, line in enumerate(text.splitlines() + [""], 1):
        if line.startswith("|"):
            cells = [cell.strip() for cell in line.strip().strip("|").split("|")]
            if head is None:
                head = cells[0]
            elif not set(line) <= set("|-: "):
                rows.append((number, cells))
            continue
        if head is not None:
            yield head, said, rows
            head, rows = None, []
        said = "" if line.startswith("#") else said + " " + line


def row_faults(repository, path):
    """Crates that have no row of the table of crates, or more than one; and rows of crates that there aren't."""
    rows = [row for head, _, table in tables(path.read_text()) if head == "Crate" for row in table]
    first = [(number, name) for number, cells in rows for name in TICKED.findall(cells[0])]
    for crate in repository.crates:
        lines = [number for number, name in first if name == crate]
        if len(lines) != 1:
            yield lines[-1] if lines else 1, f"{len(lines)} rows of the crate {crate}, not one"
    for number, name in first:
        if name not in repository.uses:
            yield number, f"a row of {name}, which crates.txt hasn't"


def names_in(cell):
    """The names in backquotes of a cell: of functions, types, clauses and modules."""
    for ticked in TICKED.findall(cell):
        if re.fullmatch(r"[A-Za-z_][\w:<>]*", ticked):
            yield from (name for name in WORD.findall(ticked) if name not in PRINTED)


def name_faults(repository, path):
    """Names of a row that occur in no source of its crates."""
    for head, said, rows in tables(path.read_text()):
        for number, cells in rows:
            row = " ".join(cells)
            named = crates_in(repository, row) if head == "Crate" else crates_in(repository, said + row)
            near = named | {more for crate in named for more in repository.passes_on(crate)}
            if head != "Crate":
                near |= {use for crate in named for use in repository.uses[crate] if use in repository.uses}
            for name in names_in(row) if named else ():
                if name not in repository.uses and not any(name in repository.words(crate) for crate in near):
                    yield number, f"in no source of {', '.join(sorted(named))}: {name}"


def faults(root):
    """All faults, each with its document and line."""
    repository = Repository(root)
    for path in documents(root):
        checks = [path_faults(repository, path), link_faults(path)]
        if path.name in ("architecture.md", "proved.md"):
            checks.append(row_faults(repository, path))
        if path.name in ("proved.md", "reading-the-theorem.md"):
            checks.append(name_faults(repository, path))
        for number, text in (fault for check in checks for fault in check):
            yield f"{path.relative_to(root)}:{number}: {text}"


def main():
    root = Path(sys.argv[1] if len(sys.argv) > 1 else Path(__file__).resolve().parents[2])
    found = list(faults(root))
    for fault in found:
        print(fault)
    return 1 if found else 0


if __name__ == "__main__":
    sys.exit(main())
