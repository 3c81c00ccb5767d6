#!/usr/bin/env python3
"""Checks what documents say of the repository, as far as a script can: prints what is not so, and ends with `N passed, M failed`,
and with status 1 where something failed.

    bench/documents.py

- docs/MAP.md has each crate of crates.txt once, in its order, and beside it exactly what it stands on: the crates of this repository
  that its line names, less those that another one of them stands on already, in the order of the line, and then those of the kit.
- Each file and folder that a table of docs/MAP.md names is there.
- Each link of a document leads to a file, and to a heading of it.
- README.md has at most 3,500 words, docs/MEANING.md 8,000, docs/DECISIONS.md 5,000 and docs/GATE.md 1,200; no cell of a table has more
  than 60.
"""
import pathlib
import re
import sys

ROOT = pathlib.Path(__file__).resolve().parent.parent
MOST_WORDS = {"README.md": 3_500, "docs/MEANING.md": 8_000, "docs/DECISIONS.md": 5_000, "docs/GATE.md": 1_200}
MOST_WORDS_OF_A_CELL = 60
counts = {True: 0, False: 0}


def check(what, holds):
    counts[bool(holds)] += 1
    if not holds:
        print(f"not so: {what}")


def crates():
    """What each crate stands on, in the order of crates.txt."""
    made = {}
    for line in (ROOT / "crates.txt").read_text().split("\n"):
        if ":" in line and not line.startswith("#"):
            head, names = line.split(":", 1)
            made[head.split()[0]] = names.split()
    return made


def below(lines, name, known):
    """All crates of the repository that one stands on."""
    if name not in known:
        own = [it for it in lines[name] if it in lines]
        known[name] = set(own).union(*(below(lines, it, known) for it in own))
    return known[name]


def cell_of(lines, name, known):
    """The last cell of a crate's row: its crates of the repository that no other of them stands on, and then those of the kit."""
    own = [it for it in lines[name] if it in lines]
    shown = [it for it in own if not any(it in below(lines, other, known) for other in own)]
    return [f"`{it}`" for it in shown] + [f"*{it}*" for it in lines[name] if it not in lines]


def cells(line):
    return [it.strip() for it in line.strip().strip("|").split("|")]


def check_crates(text, lines):
    rows = [cells(it) for it in text.split("\n") if re.match(r"\| `\w+` \|", it)]
    rows = [it for it in rows if it[0].strip("`") in lines and len(it) == 3]
    check("docs/MAP.md has each crate of crates.txt once, in its order", [it[0].strip("`") for it in rows] == list(lines))
    known = {}
    for name, _, last in rows:
        wanted = cell_of(lines, name.strip("`"), known)
        check(f"docs/MAP.md: {name} stands on {' '.join(wanted)}, and not on {last}", sorted(last.split()) == sorted(wanted))


def named_files(text):
    """The files and folders of the cells in backquotes that have a slash, each as far as it is written out."""
    for line in text.split("\n"):
        if not line.startswith("|"):
            continue
        for cell in cells(line):
            folder = None
            for name in re.findall(r"`([^`]+)`", cell):
                if re.fullmatch(r"[\w.]+(/[\w.]+)+", name):
                    folder = name.rsplit("/", 1)[0]
                    yield name
                elif folder and re.fullmatch(r"\w+\.(rt|antt)", name):
                    yield f"{folder}/{name}"


def check_files(text):
    for name in sorted(set(named_files(text))):
        check(f"docs/MAP.md: {name} is there", (ROOT / "crates" / name).exists() or (ROOT / name).exists())


def anchors(path):
    heads = re.findall(r"(?m)^#+ (.*)$", path.read_text())
    return {re.sub(r"[^\w\- ]", "", it.lower()).replace(" ", "-") for it in heads}


def check_links(name, text):
    for target, anchor in re.findall(r"\]\(([^)#\s]*)(#[^)\s]*)?\)", text):
        if target.startswith("http"):
            continue
        path = (ROOT / name).parent / target if target else ROOT / name
        there = path.exists() and (not anchor or path.suffix != ".md" or anchor[1:] in anchors(path))
        check(f"{name}: {target}{anchor} is there", there)


def check_words(name, text):
    if name in MOST_WORDS:
        check(f"{name} has at most {MOST_WORDS[name]} words: it has {len(text.split())}", len(text.split()) <= MOST_WORDS[name])
    longest = max((len(cell.split()) for line in text.split("\n") if line.startswith("|") for cell in cells(line)), default=0)
    check(f"{name}: no cell of a table has more than {MOST_WORDS_OF_A_CELL} words: one has {longest}", longest <= MOST_WORDS_OF_A_CELL)


def main():
    map_text = (ROOT / "docs" / "MAP.md").read_text()
    check_crates(map_text, crates())
    check_files(map_text)
    for name in ["README.md", "bench/README.md", *sorted(f"docs/{it.name}" for it in (ROOT / "docs").glob("*.md"))]:
        text = (ROOT / name).read_text()
        check_links(name, text)
        check_words(name, text)
    print(f"{counts[True]} passed, {counts[False]} failed")
    return 0 if counts[False] == 0 else 1


if __name__ == "__main__":
    sys.exit(main())
