#!/usr/bin/env python3
"""Stops the machine at each device call of a script, and looks at what the built program finds then: rows, links and files are as some of
the steps leave them. Ends with `N passed, M failed`: with status 1 where one failed, else with 77 where a part was left out.

    bench/stops.py [PROGRAM]

- **Made**: the areas as a crash leaves them at each of the six calls of each record that the script and the opening before it write, where
  what was not synced is kept, lost or torn; the program then finds what bench/model.py says. The same where that run, which opens what
  the crash left, is itself stopped at each call of each of its records.
- **Killed**: the program is killed at each of its calls that write or sync, by strace, and each of these calls fails once, which is status
  3; to go on as if it had not failed, or to make it again, is a failure here. What stands in the areas then is what the first records of
  the script leave, in the model's order; all that was told stands, and the line behind it is the last with a record. The next run finds
  what the model says. A call that is interrupted is made again.
- **Opened**: an opening gives the gate of the last record of each area again, and then syncs the area.

The last two are left out where there is no strace.
"""
import os
import re
import shutil
import signal
import subprocess
import sys

import model
import scripts
from model import AREAS, Folder, Stop, u64
from model_sql import ARCHIVED, UNARCHIVED
from scripts import EVERY_RECORD, LOOK, areas_in, check, counts, room, run, script_of

# A transaction that gives and takes at once: its Finish has each kind of record, and changes two files.
MOVED = script_of(
    [
        "@ann create /a one",
        "@ann create /b two",
        "A: " + scripts.table("m", UNARCHIVED[3]),
        "A: " + scripts.table("n", UNARCHIVED[2]),
        f"A: INSERT INTO m VALUES (1, {scripts.dl('/a')})",
        "A: BEGIN",
        "A: DELETE FROM m",
        f"A: INSERT INTO n VALUES (1, {scripts.dl('/b')})",
        "B: BEGIN",
        f"B: INSERT INTO m VALUES (2, {scripts.dl('/c')})",
        "A: !prepare",
        "@ann delete /b",
        "A: !decide",
        "A: !finish",
        "B: COMMIT",
        "A: UPDATE n SET f = NULL",
    ]
)
# A restore that brings a file back from its copy, gives another back to its user, and drops a table; and one that undoes it.
RESTORED = script_of(
    [
        "@ann create /a one",
        "@ann create /b two",
        "A: " + scripts.table("m", ARCHIVED[2]),
        f"A: INSERT INTO m VALUES (1, {scripts.dl('/a')})",
        "! backup",
        "A: DELETE FROM m",
        "A: " + scripts.table("n", UNARCHIVED[2]),
        f"A: INSERT INTO n VALUES (1, {scripts.dl('/b')})",
        "! restore backup 1",
        "! restore commit 5",
    ]
)
# A file whose link wants a copy: a transaction lets it go and links it anew, so that a copy is made, and another one in the end.
COPIED = script_of(
    [
        "@ann create /a abc",
        "A: " + scripts.table("m", ARCHIVED[2]),
        f"A: INSERT INTO m VALUES (1, {scripts.dl('/a')})",
        "A: BEGIN",
        "A: DELETE FROM m WHERE id = 1",
        f"A: INSERT INTO m VALUES (2, {scripts.dl('/a')})",
        "A: COMMIT",
        "@ann list",
        "! archive",
    ]
)
# One that is deleted with its row, and comes back from its copy with a restore.
BROUGHT_BACK = script_of(
    [
        "@ann create /a abc",
        "A: " + scripts.table("m", ARCHIVED[2]),
        f"A: INSERT INTO m VALUES (1, {scripts.dl('/a')})",
        "A: DELETE FROM m",
        "@ann read /a",
        "! restore commit 2",
    ]
)
LOOKS = LOOK + "A: SELECT id, f FROM n\n@ann read /a\n@ann read /b\n"


SCRIPTS = (
    ("every record", EVERY_RECORD),
    ("one file for another", MOVED),
    ("a restore", RESTORED),
    ("a file that is copied", COPIED),
    ("a file that is brought back", BROUGHT_BACK),
)


def closed(area):
    """An area up to its closing gate, as it is written when nothing stands behind it."""
    at = 0
    while len(area) > 1 and area[at] == 1:
        at += 9 + int.from_bytes(area[at + 1 : at + 9], "big")
    return area[:at] + b"\0"


def inverted(part):
    return bytes(byte ^ 255 for byte in part)


def images(held, body):
    """What a crash may leave of an area while a record is appended, and whether the record is one of its list then."""
    before, parts = held[:-1] + b"\0", [u64(len(body)), body, b"\0"]
    yield "before it", held, False
    for i in range(1, 4):
        written = b"".join(parts[:i])
        yield f"{i} parts kept", before + written, False
        yield f"{i} parts torn", before + inverted(written), False
    yield "closed", before + b"".join(parts), False
    yield "its gate torn", held[:-1] + b"\xfe" + b"".join(parts), False
    yield "its gate open", held[:-1] + b"\1" + b"".join(parts), True


def at_record(folder, text, left):
    """The folder as a stop at this record of a run leaves it, and the record; None for that where the run ends before."""
    there = folder.copy()
    there.left = left
    try:
        model.run(there, "run", text)
        return there, None
    except Stop as stop:
        there.left = None
        return there, (stop.area, stop.body)


def found(areas):
    """What the program finds in these areas: its status, what it tells, and what stands in them then."""
    with room() as folder:
        for area in AREAS:
            with open(os.path.join(folder, f"datalinks.{area}"), "wb") as file:
                file.write(areas[area])
        ended = run(folder, "run", LOOKS)
        return ended + ({area: closed(held) for area, held in areas_in(folder).items()},)


def wanted(folder):
    there = folder.copy()
    return model.run(there, "run", LOOKS) + (there.areas,)


def stops_of(name, folder, text, inside):
    """Every stop of a run in a folder, and what is found then; `inside` does the same of the run behind each stop."""
    left = 0
    while True:
        there, record = at_record(folder, text, left)
        behind = at_record(folder, text, left + 1)[0] if record else None
        if record is None:
            check(f"{name}: at its end", found(there.areas), wanted(there))
        else:
            area, body = record
            for how, image, counts_now in images(there.areas[area], body):
                left_there = behind if counts_now else there
                check(f"{name}: record {left + 1}, of {area}, {how}", found({**there.areas, area: image}), wanted(left_there))
        if inside:
            inside(f"{name}, stopped at record {left + 1}, opened again", there)
        if record is None:
            return
        left += 1


def made(name, text):
    stops_of(name, Folder(), text, lambda where, there: stops_of(where, there, "", None))


# ---- killed, and calls that fail

CALLS = ("pwrite64", "write", "fdatasync", "fsync", "ftruncate")


def traced(folder, call, how, number, text):
    """The status and what is told of a run whose call of a kind, the one of this number, is made to do so."""
    words = ["strace", "-f", "-qq", "-o", "/dev/null", "-e", f"trace={call}", "-e", f"inject={call}:{how}:when={number}", scripts.program, "run"]
    ended = subprocess.run(words, cwd=folder, input=text.encode("latin-1"), stdout=subprocess.PIPE, stderr=subprocess.DEVNULL, timeout=100)
    return ended.returncode, ended.stdout.decode("latin-1")


def written_by_line(text):
    """The records of a whole run, and how many of them there are behind the opening and behind each line that is answered."""
    folder = Folder()
    this = model.Run(folder, "run")
    this.open()
    behind, told = [len(folder.written)], [""]
    for answer in this.script(text):
        if answer:
            behind.append(len(folder.written))
            told.append(told[-1] + answer)
    return folder, behind, told


def records_in(area):
    """The bodies of an area's list."""
    at, bodies, list_of = 0, [], closed(area)
    while at + 1 < len(list_of):
        length = int.from_bytes(list_of[at + 1 : at + 9], "big")
        bodies.append(list_of[at + 9 : at + 9 + length])
        at += 9 + length
    return bodies


def front_of(written, areas):
    """How many of the first records these areas have; None where they have others."""
    held = {area: records_in(areas[area]) for area in AREAS}
    count = sum(map(len, held.values()))
    first = {area: [body for of, body in written[:count] if of == area] for area in AREAS}
    return count if held == first else None


def held_in(folder):
    """The areas of a folder in which some may not be made yet."""
    for area in AREAS:
        with open(os.path.join(folder, f"datalinks.{area}"), "ab"):
            pass
    return areas_in(folder)


def is_behind(count, said, behind, told):
    """Whether so many records go with what was told: those of all lines that were told are there, and at most those of one line more."""
    if count is None or not told[-1].startswith(said):
        return False
    lines = max(i for i, front in enumerate(told) if said.startswith(front))
    return (behind[lines] if said else 0) <= count <= behind[min(lines + 1, len(behind) - 1)]


def stopped(name, text, how, status, known=None):
    """A run that is stopped so at each of its calls; how many calls of each kind it makes. Where that is known, each of these is to stop it."""
    whole, behind, told = written_by_line(text)
    calls = {}
    for call in CALLS:
        for number in range(1, 100_000):
            with room() as folder:
                ended, said = traced(folder, call, how, number, text)
                if ended == 0 and (known is None or number > known[call]):
                    calls[call] = number - 1
                    break
                where = f"{name}, {how}, at {call} {number}"
                count = front_of(whole.written, held_in(folder))
                if check(f"{where}: what is told and what stands", (ended, is_behind(count, said, behind, told)), (status, True)):
                    there, _ = at_record(Folder(), text, count)
                    found_then = run(folder, "run", LOOKS) + ({area: closed(held) for area, held in areas_in(folder).items()},)
                    check(f"{where}: what is found", found_then, wanted(there))
                elif ended not in (status, 3, 0):
                    sys.exit("strace does not work here")
    return calls


def synced(name, text, calls):
    """In an empty folder each record is written by four calls and synced twice; each of the five areas has its first gate written and
    synced, is synced once more by its opening, and has its folder synced for its name. Where a program makes fewer, there is none to
    be stopped at."""
    records = len(written_by_line(text)[0].written)
    made = (calls["pwrite64"], calls["fsync"] + calls["fdatasync"])
    check(f"{name}: {records} records, {calls}: writes and syncs", made, (4 * records + 5, 2 * records + 15))


def interrupted(name, text, calls):
    """A call that is interrupted is made again."""
    whole, _, told = written_by_line(text)
    for call, most in calls.items():
        for number in range(1, most + 1):
            with room() as folder:
                ended = traced(folder, call, "error=EINTR", number, text) + (areas_in(folder),)
                check(f"{name}, {call} {number} interrupted", ended, (0, told[-1], whole.areas))


# ---- what an opening gives again

OPENED = re.compile(r'openat\(AT_FDCWD, "datalinks\.(\w+)".* = (\d+)$')
WRITTEN = re.compile(r'pwrite64\((\d+), "(.*)", (\d+), (\d+)\) += (\d+)$')
SYNCED = re.compile(r"fsync\((\d+)\) += 0$")


def calls_of_an_opening(folder):
    """By area, the writes and syncs of a run without a line: of a write what it writes, how many bytes, where, and how many it wrote."""
    with room() as beside:
        log = os.path.join(beside, "log")
        words = ["strace", "-f", "-qq", "-o", log, "-e", "trace=openat,pwrite64,fsync,fdatasync", scripts.program, "run"]
        ended = subprocess.run(words, cwd=folder, input=b"", stdout=subprocess.DEVNULL, stderr=subprocess.DEVNULL, timeout=100)
        areas, calls = {}, {area: [] for area in AREAS}
        with open(log, encoding="latin-1") as lines:
            for line in lines:
                if found := OPENED.search(line):
                    areas[found[2]] = found[1]
                elif found := WRITTEN.search(line):
                    calls[areas[found[1]]].append(("write", found[2], *map(int, found.group(3, 4, 5))))
                elif (found := SYNCED.search(line)) and found[1] in areas:
                    calls[areas[found[1]]].append("sync")
    return ended.returncode, calls


def calls_wanted(area):
    """The first calls: an area with records has the open gate of the last one given again, and its sync; another gets its first gate."""
    bodies = records_in(area)
    if not bodies:
        return ["sync", ("write", "\\0", 1, 0, 1), "sync"]
    return [("write", "\\1", 1, sum(9 + len(body) for body in bodies[:-1]), 1), "sync"]


def opened(name, text):
    with room() as folder:
        run(folder, "run", text)
        wanted_first = {area: calls_wanted(held) for area, held in areas_in(folder).items()}
        ended, calls = calls_of_an_opening(folder)
        first = {area: calls[area][: len(wanted_first[area])] for area in AREAS}
        check(f"{name}, opened: what is given again", (ended, first), (0, wanted_first))


def main():
    scripts.program = os.path.abspath(sys.argv[1]) if len(sys.argv) > 1 else str(scripts.BUILT_PROGRAM)
    has_strace = shutil.which("strace") is not None
    for name, text in SCRIPTS:
        made(name, text)
        if has_strace:
            calls = stopped(name, text, "signal=KILL", -signal.SIGKILL)
            synced(name, text, calls)
            stopped(name, text, "error=EIO", 3, calls)
            interrupted(name, text, calls)
            opened(name, text)
    if not has_strace:
        print("killed, failed, interrupted and opened: left out, since there is no strace")
    print(f"{counts['passed']} passed, {counts['failed']} failed")
    return 1 if counts["failed"] else 77 if not has_strace else 0


if __name__ == "__main__":
    sys.exit(main())
