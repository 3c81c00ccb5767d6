#!/usr/bin/env python3
"""Runs the built program on scripts, and compares what is told, the exit status and the bytes of the five areas with what they are
to be. Ends with `N passed, M failed`, and with status 1 where one failed.

    bench/scripts.py [--no-ticks] [--random COUNT] [--seed FIRST] [PROGRAM]

- The stored scripts: `NAME.txt` in examples/, bench/scripts/ and the folders in it has its answers in `NAME.told`, and where they are
  others than `run` and 0 its words in `NAME.words` and its exit status in `NAME.status`. `NAME.1.txt`, `NAME.2.txt` are runs in one folder.
- Each of them that bench/model.py knows, with the bytes of all areas as the model has them.
- Scripts that are cut into several runs; an area limited to each number of bytes; tokens that were not given; scripts by chance.

`--no-ticks` leaves out bench/scripts/clock/ and ticks by chance, for a program that does not build `! tick`. The tables among the stored scripts are
made by bench/tables.py.
"""
import argparse
import hmac
import os
import pathlib
import random
import re
import subprocess
import sys
import tempfile

import model
from model import AREAS, Folder, Full
from model_sql import ARCHIVED, UNARCHIVED, Unknown, mac
from tables import Script, control, dl, table, tokens_of

ROOT = pathlib.Path(__file__).resolve().parent.parent
BUILT_PROGRAM = ROOT / "crates" / "datalinks_main" / "out" / "datalinks_main"
# Runs sync at each record: a folder in memory is quicker.
ROOM = "/dev/shm" if os.path.isdir("/dev/shm") else None
counts = {"passed": 0, "failed": 0}
# The stored scripts that have lines which the model does not know.
unknown = []
program, has_ticks = None, True


def check(name, found, wanted):
    """Counts one comparison, and tells where two differ."""
    if found == wanted:
        counts["passed"] += 1
        return True
    counts["failed"] += 1
    print(f"FAILED {name}: {difference(found, wanted)}", flush=True)
    return False


def difference(found, wanted):
    """The first line of two texts, or the first part of two lists of parts, that differs."""
    if isinstance(found, str) and isinstance(wanted, str):
        pairs = zip(found.split("\n"), wanted.split("\n"))
    elif isinstance(found, tuple) and isinstance(wanted, tuple) and len(found) == len(wanted):
        return next(difference(one, other) for one, other in zip(found, wanted) if one != other)
    elif isinstance(found, dict) and isinstance(wanted, dict):
        return next(f"{key} is {found.get(key)}, not {wanted.get(key)}" for key in wanted if found.get(key) != wanted.get(key))
    else:
        return f"{found}, not {wanted}"
    for one, other in pairs:
        if one != other:
            return f"{one!r}, not {other!r}"
    return f"{len(found)} bytes, not {len(wanted)}"


def room():
    return tempfile.TemporaryDirectory(dir=ROOM)


def run(folder, words, text):
    """The exit status and what is told of a run in a folder."""
    ended = subprocess.run([program, *words.split()], cwd=folder, input=text.encode("latin-1"), capture_output=True, timeout=600)
    return ended.returncode, ended.stdout.decode("latin-1")


def areas_in(folder):
    found = {}
    for area in AREAS:
        path = os.path.join(folder, f"datalinks.{area}")
        with open(path, "rb") as file:
            found[area] = file.read()
    return found


# ---- stored scripts


def content(path, otherwise):
    return path.read_bytes().decode("latin-1") if path.exists() else otherwise


def stored(folders):
    """Each stored script with its runs: words, text, status and what is told."""
    cases = {}
    for folder in folders:
        for path in sorted(folder.glob("*.txt")):
            name, _, part = path.name[: -len(".txt")].partition(".")
            cases.setdefault((folder, name), []).append((int(part or 0), path))
    for (folder, name), parts in sorted(cases.items()):
        runs = []
        for _, path in sorted(parts):
            beside = {kind: path.with_name(path.name[: -len("txt")] + kind) for kind in ("words", "status", "told")}
            words = content(beside["words"], "run").strip()
            runs.append((words, content(path, ""), int(content(beside["status"], "0")), content(beside["told"], None)))
        yield f"{folder.relative_to(ROOT)}/{name}", runs


def stored_scripts(cases):
    for name, runs in cases:
        with room() as folder:
            for i, (words, text, status, told) in enumerate(runs, 1):
                check(f"{name}, run {i}", run(folder, words, text), (status, told))
            by_the_model(name, runs, areas_in(folder))


def by_the_model(name, runs, areas):
    """Whether the model tells the same, and leaves the same bytes in the areas."""
    folder = Folder()
    try:
        for i, (words, text, status, told) in enumerate(runs, 1):
            check(f"{name}, run {i}, by the model", model.run(folder, words, text), (status, told))
    except Unknown:
        unknown.append(name)
        return
    check(f"{name}, the areas by the model", areas, folder.areas)


# ---- runs that are cut


def masked(told):
    """What is told without numbers of transactions, and without the tokens that these are part of."""
    return re.sub(r"\b[0-9]+-[0-9]+(-[0-9]+)?\b|\b[0-9]+\.[0-9a-f]{32}\b", "#", told)


def shifted(told, by):
    """What is told with so much added to each number of a line."""
    return re.sub(r"^([0-9]+)([:|])", lambda found: f"{int(found[1]) + by}{found[2]}", told, flags=re.MULTILINE)


def in_pieces(lines, cuts):
    """What is told of the lines that are cut before these places into runs in one folder, as the lines of one script."""
    told = ""
    with room() as folder:
        for begin, end in zip([0] + cuts, cuts + [len(lines)]):
            status, piece = run(folder, "run", "".join(lines[begin:end]))
            if status:
                return f"status {status}"
            told += shifted(piece, begin)
    return told


def cut_anywhere():
    """Lines that leave nothing open tell the same however they are cut into runs, but for the numbers of transactions."""
    text = (ROOT / "bench" / "scripts" / "cut_anywhere.txt").read_text()
    whole = masked((ROOT / "bench" / "scripts" / "cut_anywhere.told").read_text())
    lines = text.splitlines(keepends=True)
    places = list(range(1, len(lines)))
    dice = random.Random(7)
    ways = [[place] for place in places] + [places] + [sorted(dice.sample(places, dice.randint(2, 9))) for _ in range(60)]
    for cuts in ways:
        check(f"cut before {cuts}", masked(in_pieces(lines, cuts)), whole)


def cut_by_the_model(cases):
    """Each short script, cut at each place into two runs: what was open is gone, dropped or finished, as the model has it."""
    for name, runs in cases:
        words, text, _, _ = runs[0]
        lines = text.splitlines(keepends=True)
        if len(runs) > 1 or len(lines) > 60 or name in unknown:
            continue
        for place in range(1, len(lines)):
            pieces = [(words, "".join(lines[:place])), (words, "".join(lines[place:]))]
            try:
                wanted = in_the_model(pieces)
            except Unknown as line:
                wanted = f"in the model, which does not know {line}"
            check(f"{name} cut before line {place + 1}", in_the_program(pieces), wanted)


def in_the_model(pieces):
    folder = Folder()
    ends = tuple(model.run(folder, words, text) for words, text in pieces)
    return ends + (folder.areas,)


def in_the_program(pieces):
    with room() as folder:
        ends = tuple(run(folder, words, text) for words, text in pieces)
        return ends + (areas_in(folder),)


# ---- the bytes of an empty script, and limits of an area

OPENED = bytes.fromhex("01 0000000000000005 01 00000001 00")
FIRST = bytes.fromhex("01 0000000000000024 01 0000000000000000 00000001 01 00000002 2f61 00000003 616e6e 01 00 00000003 6f6e65 00")
EMPTY = {"rows": OPENED, "links": OPENED, "files": b"\0", "archive": b"\0", "backups": b"\0"}


def script_of(lines):
    """A script of these lines."""
    return "".join(line + "\n" for line in lines)


EVERY_RECORD = script_of(
    [
        "@ann create /a one",
        "A: " + table("m", UNARCHIVED[3]),
        f"A: INSERT INTO m VALUES (1, {dl('/a')})",
        "@ann delete /a",
        "A: BEGIN",
        "A: DELETE FROM m",
        "A: !prepare",
        "A: !decide",
        "A: !finish",
        "@ann create /a two",
        "@ann rename /a /b",
        "@ann chmod /b off",
        "A: BEGIN",
        f"A: INSERT INTO m VALUES (2, {dl('/b')})",
        "A: !prepare",
        "A: ROLLBACK",
        "B: BEGIN",
        "B: SELECT COUNT(*) FROM m",
        f"A: INSERT INTO m VALUES (3, {dl('/b')})",
        "B: INSERT INTO m VALUES (4, NULL)",
        "B: COMMIT",
        "A: DROP TABLE m",
        "@ann create /c three",
        "A: " + table("r", ARCHIVED[2]),
        f"A: INSERT INTO r VALUES (1, {dl('/c')})",
        "! archive",
        "@ann create /d four",
        f"A: UPDATE r SET f = {dl('/d')}",
        "A: DELETE FROM r",
        "! backup",
    ]
)
LOOK = "@bob list\nA: SELECT id, f FROM m\nA: BEGIN\nA: ROLLBACK\n"


def limits():
    first = "@ann create /a one\n"
    for words, text, status, told, areas in (
        ("run", "", 0, "", EMPTY),
        ("run --area 14", "", 6, "", {**EMPTY, "rows": b"\0", "links": b"\0"}),
        ("run --area 15", "", 0, "", EMPTY),
        ("run --area 45", first, 6, "", EMPTY),
        ("run --area 46", first, 0, "1: ok\n", {**EMPTY, "files": FIRST}),
    ):
        check(f"{words}, {len(text)} bytes", in_the_program([(words, text)]), ((status, told), areas))
    most = in_the_model([("run", EVERY_RECORD)])[-1]
    for limit in range(1, max(map(len, most.values())) + 2):
        pieces = [(f"run --area {limit}", EVERY_RECORD), ("run", LOOK)]
        check(f"an area of {limit} bytes", in_the_program(pieces), in_the_model(pieces))


# ---- tokens that were not given

KEY = "00112233445566778899aabbccddeeff0f1e2d3c4b5a69788796a5b4c3d2e1f0"
COUNT = 10_000


def forged_tokens():
    """Texts with a token that nobody was given, and whether they are of the form of a token."""
    key, link = bytes.fromhex(KEY), (2**32 + 2, 1)
    good = mac(key, "/a", link, 160)
    yield from ((f"/160.{good[:i]}{digit}{good[i + 1:]};a", True) for i in range(32) for digit in "0123456789abcdef" if digit != good[i])
    yield from ((f"/160.{(good * 3)[:length]};a", False) for length in range(80) if length != 32)
    yield from ((f"/160.{good[:i]}{good[i].upper()}{good[i + 1:]};a", False) for i in range(32) if good[i] in "abcdef")
    for other in ((opening * 2**32 + n, k) for opening in (1, 2, 3) for n in range(1, 13) for k in range(1, 9)):
        if other != link:
            yield f"/160.{mac(key, '/a', other, 160)};a", True
    for path in ["/b", "/A", "/a/a", "/aa", "a", "", "/", "/a\0", "/a;a", "http://fs1/a"] + [f"/{n}" for n in range(90)]:
        yield f"/160.{mac(key, path, link, 160)};a", True
    for expiry in list(range(160)) + list(range(161, 400)) + [1600, 2**32, 2**63, 2**64 - 1]:
        yield f"/{expiry}.{good};a", True
    for i in range(256):
        yield f"/160.{mac(key[:31] + bytes([key[31] ^ i or 1]), '/a', link, 160)};a", True
    for text in (b"/a1-2-1160", b"/a\x001-2-1160", b"/a1-2-1\x00160", b"1-2-1\0/a\x00160", b"/a\x001-2-1\x000160", b"/a\x001-2-1\x00160\0"):
        yield f"/160.{hmac.new(key, text, 'sha256').hexdigest()[:32]};a", True
    digest = hmac.new(key, b"/a\x001-2-1\x00160", "sha256").hexdigest()
    yield from ((f"/160.{digest[i : i + 32]};a", True) for i in range(1, 33))
    yield from ((f"/{expiry}.{good};a", False) for expiry in ("0160", "00", "", "+160", "-160", "160.", str(2**64), "1" * 40, "a160", "0xa0"))
    yield from ((text, False) for text in (f"/160;{good};a", f"/160{good};a", f"/160.{good}:a", f"/160.{good}a", f"/;160.{good};a"))
    dice = random.Random(160)
    while True:
        yield f"/160.{dice.getrandbits(128):032x};a", True


def forged():
    """Each of these tokens is refused, among good ones that are not."""
    words = f"run --now 100 --life 60 --key {KEY}"
    lines = ["@ann create /a one", "A: " + table("m", UNARCHIVED[2]), f"A: INSERT INTO m VALUES (1, {dl('/a')})", "A: SELECT DLURLPATH(f) FROM m"]
    good = f"/160.{mac(bytes.fromhex(KEY), '/a', (2**32 + 2, 1), 160)};a"
    wanted = ["1: ok", "2: ok", "3: ok 1", "4: rows 1", f"4| '{good}'"]
    made = set()
    for text, is_token in forged_tokens():
        if text in made or text == good:
            continue
        made.add(text)
        lines.append(f"@bob read {text}")
        wanted.append(f"{len(lines)}: refused " + ("linked /a 1-2-1 wrong token" if is_token else f"no file {text}"))
        if len(made) % 500 == 0:
            lines.append(f"@bob read {good}")
            wanted += [f"{len(lines)}: bytes 3", f"{len(lines)}| one"]
        if len(made) == COUNT:
            break
    script = script_of(lines)
    with room() as folder:
        status, told = run(folder, words, script)
    answers = told.split("\n")[:-1]
    check(f"{COUNT} tokens that were not given: status", status, 0)
    check(f"{COUNT} tokens that were not given: number of lines", len(answers), len(wanted))
    for answer, want in zip(answers, wanted):
        if answer != want:
            check(f"tokens that were not given: {lines[int(want.split(':')[0]) - 1]}", answer, want)
    counts["passed"] += sum(answer == want for answer, want in zip(answers, wanted))


# ---- scripts by chance

LINKING = dict(zip("nompqrs", UNARCHIVED + ARCHIVED))
PATHS = ["/a", "/b", "/c", "/d/1.e;f"]
STEPS = ["BEGIN", "COMMIT", "ROLLBACK", "!prepare", "!decide", "!finish"]
LIKELY = {
    None: ["BEGIN"],
    "active": ["!prepare", "COMMIT", "ROLLBACK"],
    "prepared": ["!decide", "!decide", "COMMIT", "ROLLBACK"],
    "decided": ["!finish", "COMMIT"],
}


def a_command(dice, script):
    user, path = dice.choice(["ann", "ann", "ann", "bob"]), dice.choice(PATHS)
    given = list(tokens_of(script, path))
    if given and dice.random() < 0.2:
        return f"@{user} read {dice.choice(given)}"
    kinds = ["create {p} {x}", "create {p} {x}", "write {p} {x}", "delete {p}", "rename {p} {q}", "chmod {p} on", "chmod {p} off", "read {p}"]
    form = dice.choice(kinds + ["read $" + dice.choice("ABC"), "list"])
    return f"@{user} " + form.format(p=path, q=dice.choice(PATHS), x="x" * dice.randint(0, 5))


WIDE = f"CREATE TABLE w (id INTEGER PRIMARY KEY, s VARCHAR(3) NOT NULL, f {control(UNARCHIVED[2])}, g {control(UNARCHIVED[0])}, h DATALINK)"


def a_wide_statement(dice):
    """One on a table with two columns under link control and one without."""
    number, some = dice.randint(1, 6), [dice.choice([dl(path) for path in PATHS] + ["NULL"]) for _ in range(3)]
    return dice.choice([
        f"INSERT INTO w VALUES ({number}, 'x', {some[0]}, {some[1]}, {some[2]})",
        f"INSERT INTO w VALUES ({number}, 'x', {some[0]}, {some[1]}, {some[2]})",
        f"INSERT INTO w (s, f, id) VALUES ('{'y' * dice.randint(0, 4)}', {some[0]}, {number}), ('z', NULL, {number + 1})",
        f"INSERT INTO w (id, f) VALUES ({number}, {some[0]})",
        f"UPDATE w SET f = g WHERE id = {number}",
        f"UPDATE w SET f = g, g = f WHERE id <> {number}",
        f"UPDATE w SET h = f, g = h, f = NULL WHERE id = {number}",
        f"UPDATE w SET f = {some[0]}, g = {some[1]}",
        f"UPDATE w SET s = '{'y' * dice.randint(0, 4)}' WHERE f IS NULL OR id > {number}",
        f"DELETE FROM w WHERE g IS NOT NULL AND id < {number}",
        "SELECT id, s, f, g, h FROM w ORDER BY s DESC",
        "SELECT DLURLPATH(f), DLURLPATH(g), DLURLCOMPLETE(h) FROM w",
        "SELECT COUNT(*), MAX(id), MIN(s) FROM w",
    ])


def a_statement(dice, tables):
    name = dice.choice("mnopqrstw")
    is_there = any(held.name == name for held in tables)
    if (not is_there and dice.random() < 0.8) or dice.random() < 0.02:
        return {"t": "CREATE TABLE t (x INTEGER)", "w": WIDE}.get(name) or table(name, LINKING[name])
    if dice.random() < 0.04:
        return f"DROP TABLE {name}"
    number, path = dice.randint(1, 6), dice.choice(PATHS)
    if name == "w":
        return a_wide_statement(dice)
    if name == "t":
        return dice.choice([
            f"INSERT INTO t VALUES ({number})",
            f"UPDATE t SET x = x + 1 WHERE x < {number}",
            f"DELETE FROM t WHERE x = {number}",
            "SELECT COUNT(*) FROM t",
            "SELECT x FROM t ORDER BY x DESC",
        ])
    return dice.choice([
        f"INSERT INTO {name} VALUES ({number}, {dl(path)})",
        f"INSERT INTO {name} VALUES ({number}, {dl(path)})",
        f"INSERT INTO {name} VALUES ({number}, {dl(path)}), ({number + 1}, {dl(dice.choice(PATHS))})",
        f"INSERT INTO {name} VALUES ({number}, NULL)",
        f"DELETE FROM {name} WHERE id = {number}",
        f"DELETE FROM {name}",
        f"UPDATE {name} SET f = {dl(path)} WHERE id = {number}",
        f"UPDATE {name} SET f = DLVALUE('file://fs1{path}', 'URL', 'again') WHERE id < {number}",
        f"UPDATE {name} SET id = id + 1 WHERE id > {number}",
        f"UPDATE {name} SET f = NULL WHERE id = {number}",
        f"SELECT id, f FROM {name}",
        f"SELECT DLURLPATH(f), DLURLCOMPLETE(f) FROM {name} WHERE id = {number}",
    ])


def a_line(dice, script):
    if has_ticks and dice.random() < 0.04:
        return f"! tick {dice.choice((0, 1, 30, 61))}"
    if dice.random() < 0.04:
        return dice.choice(("! archive", "! archive", "! backup"))
    if dice.random() < 0.06:
        return dice.choice((f"! restore backup {dice.randint(0, 3)}", f"! restore commit {dice.randint(0, script.folder.commits + 1)}"))
    if dice.random() < 0.4:
        return a_command(dice, script)
    name = dice.choice("ABC")
    txn = script.run.sessions.get(name)
    phase = txn.phase if txn else None
    if dice.random() < (0.3 if phase in (None, "active") else 0.8):
        return f"{name}: {dice.choice(LIKELY[phase] * 4 + STEPS)}"
    return f"{name}: {a_statement(dice, txn.tables if txn else script.folder.tables)}"


def a_run(dice, folder, words):
    """A run of so many lines by chance, up to where its area is full: its words, its text, how it ends and what it tells."""
    try:
        script = Script(words, folder)
    except Full:
        return words, "@ann list\n", 6, ""
    try:
        for _ in range(dice.randint(5, 80)):
            script.add(a_line(dice, script))
    except Full:
        return words, script.text() + "@ann list\n", 6, script.answers()
    return words, script.text(), 0, script.answers()


def by_chance(seed):
    """Some runs in one folder, and what stands in the areas behind them."""
    dice, folder, now, runs = random.Random(seed), Folder(), 100, []
    for _ in range(dice.randint(1, 4)):
        limit = f" --area {dice.randint(60, 2000)}" if dice.random() < 0.2 else ""
        runs.append(a_run(dice, folder, f"run --now {now} --life {dice.choice((1, 30, 60))}{limit}"))
        now += dice.choice((0, 1, 30, 61))
    return runs, folder.areas


def scripts_by_chance(first, count):
    for seed in range(first, first + count):
        runs, areas = by_chance(seed)
        pieces = [(words, text) for words, text, _, _ in runs]
        wanted = tuple((status, told) for _, _, status, told in runs) + (areas,)
        check(f"by chance, seed {seed}", in_the_program(pieces), wanted)


def main():
    global program, has_ticks
    asked = argparse.ArgumentParser(description="Compares what the built program tells with what it is to tell.")
    asked.add_argument("program", nargs="?")
    asked.add_argument("--no-ticks", action="store_true")
    asked.add_argument("--random", type=int, default=100)
    asked.add_argument("--seed", type=int, default=0)
    given = asked.parse_args()
    if given.program is None:
        subprocess.run([ROOT / "bin" / "datalinks"], stdin=subprocess.DEVNULL, stderr=subprocess.DEVNULL)
    program = os.path.abspath(given.program or BUILT_PROGRAM)
    has_ticks = not given.no_ticks
    scripts = ROOT / "bench" / "scripts"
    inner = sorted(it for it in scripts.iterdir() if it.is_dir() and (has_ticks or it.name != "clock"))
    cases = list(stored([ROOT / "examples", scripts, *inner]))
    stored_scripts(cases)
    check(f"stored scripts with lines that the model does not know, {', '.join(unknown)}: how many", len(unknown), 4 if has_ticks else 3)
    cut_anywhere()
    cut_by_the_model(cases)
    limits()
    forged()
    scripts_by_chance(given.seed, given.random)
    print(f"{len(unknown)} stored scripts have lines that the model does not know")
    print(f"{counts['passed']} passed, {counts['failed']} failed")
    return 1 if counts["failed"] else 0


if __name__ == "__main__":
    sys.exit(main())
