#!/usr/bin/env python3
"""Tries the wrong bodies that the gate does not: the edits of crates/NAME/wrong/, each of which the prover must refuse.

    bench/wrong.py [NAME..]     # NAME is a crate; no name: every crate that has such edits

It makes a copy of crates/, crates.txt and HANDLES in a temporary folder, in which the edits of wrong/ stand as the must-fail
edits of the crates named, and no other edits are there, and runs `rt must-fail` on it, which begins with what earlier checks
kept. It prints a line for each edit as soon as its crate is done, with the seconds that the crate took for all of them, and the
counts: how many are refused, and how many of these only by a limit of the prover, which gave no verdict, or only because a proof
names what the edit took away. Both show little of the contract. The status is 1 where an edit is not refused or not tried, else 0.
Nothing in the repository is changed.
"""
import collections
import os
import pathlib
import re
import shutil
import subprocess
import sys
import tempfile
import time

ROOT = pathlib.Path(__file__).resolve().parent.parent
REFUSED, BY_A_LIMIT, BY_A_NAME = "refused", "refused, by a limit of the prover alone", "refused, by a name in a proof alone"
NOT_REFUSED, NOT_TRIED = "NOT REFUSED", "not tried"
LINE = re.compile(r"must-fail ([^/ ]+)/([^:]+)\.edit: (.*)")


def with_edits():
    return sorted(it.parent.name for it in ROOT.glob("crates/*/wrong") if any(it.glob("*.edit")))


def link_or_copy(source, target):
    """Gives a file a second name, or a copy where that can't be had. The kit removes such a file before it makes it anew."""
    try:
        os.link(source, target)
    except OSError:
        shutil.copy2(source, target)


def copied(room, names):
    """Writes the copy, with the edits of wrong/ in the place of the others."""
    for name in ("crates.txt", "HANDLES"):
        shutil.copy(ROOT / name, room / name)
    for crate in sorted((ROOT / "crates").iterdir()):
        left_out = ["must-fail", "wrong"] + ([] if crate.name in names else ["out"])
        shutil.copytree(crate, room / "crates" / crate.name, ignore=shutil.ignore_patterns(*left_out), symlinks=True)
        # a library that stands there is taken, where it is current; else the kit builds it
        library = crate / "out" / "rlib"
        if crate.name not in names and library.is_dir():
            shutil.copytree(library, room / "crates" / crate.name / "out" / "rlib", copy_function=link_or_copy)
    for name in names:
        shutil.copytree(ROOT / "crates" / name / "wrong", room / "crates" / name / "must-fail")


def word(text):
    """What a line of rt says of an edit, in the words above, and why it was not tried where that is so."""
    if text.startswith("refused"):
        return (BY_A_LIMIT if "(only by a limit" in text else BY_A_NAME if "(only because a proof file" in text else REFUSED), ""
    if text.startswith("NOT REFUSED"):
        return NOT_REFUSED, ""
    return NOT_TRIED, ": " + re.sub(r"^(BAD EDIT|NOT TRIED): *", "", text)[:160]


def tried(room, name):
    """Tries the edits of one crate, prints a line for each, and returns how many there are of each kind."""
    wanted = sorted(it.stem for it in (room / "crates" / name / "must-fail").glob("*.edit"))
    begin = time.monotonic()
    ran = subprocess.run(["rt", "must-fail", name], cwd=room, stdin=subprocess.DEVNULL, stdout=subprocess.PIPE, stderr=subprocess.STDOUT, text=True, errors="replace")
    seconds = time.monotonic() - begin
    told = {found[2]: word(found[3]) for found in map(LINE.search, ran.stdout.splitlines()) if found and found[1] == name}
    counts = collections.Counter()
    for edit in wanted:
        said, why = told.get(edit, (NOT_TRIED, ": rt said nothing of it"))
        counts[said] += 1
        print(f"{name}/{edit}: {said}{why}", flush=True)
    print(f"{name}: {len(wanted)} edits in {seconds:.0f} seconds, {seconds / max(1, len(wanted)):.0f} each", flush=True)
    if len(told) < len(wanted):
        print(ran.stdout, file=sys.stderr)
    return counts


def main():
    names = sys.argv[1:] or with_edits()
    for name in names:
        if name not in with_edits():
            sys.exit(f"crates/{name} has no edits in wrong/")
    counts = collections.Counter()
    with tempfile.TemporaryDirectory(prefix="wrong-") as folder:
        room = pathlib.Path(folder)
        copied(room, names)
        for name in names:
            counts += tried(room, name)
    refused = counts[REFUSED] + counts[BY_A_LIMIT] + counts[BY_A_NAME]
    little = f"{counts[BY_A_LIMIT]} by a limit of the prover alone, {counts[BY_A_NAME]} by a name in a proof alone"
    print(f"{refused} refused ({little}), {counts[NOT_REFUSED]} not refused, {counts[NOT_TRIED]} not tried")
    return 1 if counts[NOT_REFUSED] or counts[NOT_TRIED] else 0


if __name__ == "__main__":
    sys.exit(main())
