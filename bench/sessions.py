#!/usr/bin/env python3
"""Statements by key of sessions whose rows last, beside SQLite on the same statements in the same run, in memory and on a disk; the
calls on the device that a commit makes; and how fast a folder is opened.

    bench/sessions.py [--program PATH] [--disk FOLDER] [--few ROWS] [--many ROWS] [--runs RUNS] [--traced STATEMENTS]

What is timed is the built program over copies of folders that an earlier run of it has filled: a table of 1,000 rows, or of 100,000.
The time of some lines is that between the answer of a line before them, which touches nothing, and the answer of the last of them, as
they come through a pipe, so neither the opening nor the end of the run is in it. In memory the best 500 lines in a row count, here and
in SQLite, since a machine that does other work too is slower at one time than at another. It is real time: of another process the system
tells processor time by ticks of some milliseconds alone.
SQLite is the one that Python brings along, over a file in the same place, with a write-ahead log that is synced at each commit
(`journal_mode` WAL, `synchronous` FULL); its time is that of handing it the statements one by one. Each time is the best of some runs,
those of 1,000 rows, of 100,000 and of SQLite taken in turn, and of up to four times as many where a run has few lines. An answer that is not the right one ends the script.

Printed are, for INSERTs, and UPDATEs, DELETEs and SELECTs by key, that are transactions of their own, and for BEGIN, ten statements and
COMMIT: the time of one, the ratio of 100,000 rows to 1,000, and the ratio to SQLite's time; from `strace`, what a commit calls beside
what it takes of memory and the telling of its answer; and what is opened in a second, of a folder whose rows came in few commits and of
one with a commit for each row; and the time of an INSERT that is a transaction of its own, in memory, in folders of few tables and of
many. It ends with status 1 where a bound is broken: in memory 100,000 rows cost at most 1.5 times what 1,000
do, a commit makes six calls on the area Rows and no other call, a SELECT makes none, and on a disk the time of what commits is at most
2.5 times SQLite's. Where there is no disk or no `strace`, it says so. On a machine that does other work too, the times on a disk say
little.
"""
import argparse
import collections
import fcntl
import os
import pathlib
import re
import shutil
import sqlite3
import subprocess
import sys
import tempfile
import time

from lines import PROGRAM, build, peak_so_far, place as in_memory, surroundings

# How often the answers of a run are looked for, in seconds.
POLL = 0.0001
GROWTH = 1.5
OF_SQLITE = 2.5
TUPLES = 1_000
TABLES = (1, 10, 50, 100, 250)
IN_A_ROW = 500
COLUMNS = "(id INTEGER PRIMARY KEY, v INTEGER, s VARCHAR(20))"
MARK = "@nobody read /nothing"
MARK_TOLD = "refused no file /nothing"
# Calls that take or give memory.
OF_MEMORY = {"brk", "mmap", "munmap", "mremap", "madvise"}
COMMIT = ["write", "write", "write", "sync", "write", "sync"]
broken = []


def judge(what, seen, most):
    """A figure beside its bound."""
    if seen > most:
        broken.append("%s: %.2f, at most %.2f" % (what, seen, most))
    return "%.2f times%s" % (seen, "" if seen <= most else " (BROKEN: at most %.2f)" % most)


def require(what, holds, why):
    if not holds:
        broken.append("%s: %s" % (what, why))
    return "" if holds else " (BROKEN: %s)" % why


def kind_of(folder):
    """The kind of the file system that a folder stands in."""
    found, kind = "", "unknown"
    for line in pathlib.Path("/proc/mounts").read_text().splitlines():
        point, kind_there = line.split()[1:3]
        there = os.path.realpath(folder)
        if (there == point or there.startswith(point.rstrip("/") + "/")) and len(point) >= len(found):
            found, kind = point, kind_there
    return kind


def is_disk(folder):
    return kind_of(folder) not in ("tmpfs", "ramfs", "unknown")


def program_of(words):
    """The program that is named, or the built one, which is built where it is not."""
    if words.program:
        return os.path.abspath(words.program)
    build()
    return str(PROGRAM)


def copied(folder, place):
    """A copy of a folder in another place, synced."""
    made = tempfile.mkdtemp(prefix="datalinks-bench-", dir=place)
    for name in os.listdir(folder):
        shutil.copyfile(os.path.join(folder, name), os.path.join(made, name))
    for name in os.listdir(made) + ["."]:
        opened = os.open(os.path.join(made, name), os.O_RDONLY)
        os.fsync(opened)
        os.close(opened)
    return made


def fits(told, wanted):
    """Whether an answer is the wanted one; of one that ends with two dots the begin is enough."""
    return told.startswith(wanted[:-2]) if wanted.endswith("..") else told == wanted


def done_of(told):
    """The number of the line that was told last, from the whole lines of what was told, with their rows: `12: ok 1`, `13| 5 | 'x'`."""
    end = told.rfind(b"\n")
    head = re.match(rb"\d+", told[told.rfind(b"\n", 0, max(end, 0)) + 1:end])
    return int(head.group()) if head else 0


def processor_of(pid):
    """The processor time of a process so far, in seconds: of its own clock, whose number Linux makes of the process's."""
    return time.clock_gettime((~pid << 3) | 2)


class Run:
    """A run of the program in a folder: what it told, how long the opening took and how many bytes were in memory then; how long the
    lines took behind the mark, both in seconds and in seconds of the processor; and how many lines had been told by which look,
    with the moment of the look before, from the mark on."""

    def __init__(self, program, folder, lines, before=()):
        given = "".join(text + "\n" for text, _ in [(MARK, MARK_TOLD)] + lines).encode()
        read, write = os.pipe()
        try:
            fcntl.fcntl(write, fcntl.F_SETPIPE_SZ, 1 << 20)
        except (AttributeError, OSError):
            pass
        os.set_blocking(read, False)
        told = bytearray()
        with tempfile.TemporaryFile() as source:
            source.write(given)
            source.seek(0)
            start = time.monotonic()
            child = subprocess.Popen([*before, program, "run"], cwd=folder, stdin=source, stdout=write, env=surroundings())
            os.close(write)
            # The first answer came behind the last look that found none, so no time is told too short.
            empty = first = last = former = start, 0
            self.peak, looks = 0, []
            while True:
                look = time.monotonic(), processor_of(child.pid)
                try:
                    part = os.read(read, 1 << 20)
                except BlockingIOError:
                    empty = empty if told else look
                    former = look
                    time.sleep(POLL)
                    continue
                if not part:
                    break
                last = time.monotonic(), processor_of(child.pid)
                if not told:
                    first, self.peak = last, peak_so_far(child.pid)
                told += part
                looks.append((done_of(told), former[0], last[0]))
                former = look
            child.wait()
            os.close(read)
        self.told = told.decode().splitlines()
        self.opening = first[0] - start, first[1]
        self.seconds = last[0] - empty[0]
        self.processor = last[1] - empty[1]
        # The mark counts as told at the last look before its answer.
        self.looks = [(1, empty[0], empty[0]), *looks]
        wanted = [MARK_TOLD] + [answer for _, answer in lines]
        heads = [line.partition(": ") for line in self.told if line.partition(":")[0].isdigit()]
        for i, answer in enumerate(wanted):
            if i >= len(heads) or heads[i][0] != str(i + 1) or not fits(heads[i][2], answer):
                sys.exit("line %d was not answered `%s` but `%s`" % (i + 1, answer, "".join(heads[i]) if i < len(heads) else ""))
        if child.returncode != 0:
            sys.exit("the program ended with status %d" % child.returncode)


def best_of(looks, lines):
    """The best time of one among so many in a row, or a few more, in seconds, from how many were done when. They are taken from the last look
    before them to the first one behind them, so a look that came late makes them longer and never shorter. With fewer in all it is that of all."""
    times, (place, since, _) = [], looks[0]
    lines = min(lines, looks[-1][0] - place)
    for there, former, now in looks[1:]:
        if there - place >= lines:
            times.append((now - since) / (there - place))
            place, since = there, former
    return min(times)


def run_in(program, folder, place, lines):
    """A run in a copy of a folder."""
    there = copied(folder, place)
    try:
        return Run(program, there, lines)
    finally:
        shutil.rmtree(there)


class Cost:
    """How long some lines take in copies of a folder, the best of the rounds so far: on a disk the time between the answers, in memory
    the processor time between them; with a number of lines in a row the time as if all were as quick as the best so many."""

    def __init__(self, program, folder, place, lines, in_a_row=None):
        self.given = program, folder, place, lines
        self.in_a_row = in_a_row
        self.best = float("inf")

    def round(self):
        run = run_in(*self.given)
        if self.in_a_row:
            took = best_of(run.looks, self.in_a_row) * len(self.given[3])
        else:
            took = run.seconds if is_disk(self.given[2]) else run.processor
        self.best = min(self.best, took)
        return self

    def seconds(self):
        return max(self.best, 1e-6)


def key(i, rows):
    """Keys of the table, far apart and none twice among as many as it has; the keys between them are free."""
    return 2 * (i * 7919 % rows)


def tuples(first, last):
    return ", ".join("(%d, %d, 'text %d')" % (2 * i, i * 7919 % 10_007, i % 100) for i in range(first, last))


def table(rows):
    """The statements that make a table of so many rows, many rows a statement, each with its answer."""
    made = [("CREATE TABLE t " + COLUMNS, "ok")]
    for first in range(0, rows, TUPLES):
        last = min(first + TUPLES, rows)
        made.append(("INSERT INTO t VALUES " + tuples(first, last), "ok %d" % (last - first)))
    return made


def insert(i, rows):
    return "INSERT INTO t VALUES (%d, %d, 'text %d')" % (key(i, rows) + 1, i, i % 100), "ok 1"


def update(i, rows):
    return "UPDATE t SET v = v + 1 WHERE id = %d" % key(i, rows), "ok 1"


def delete(i, rows):
    return "DELETE FROM t WHERE id = %d" % key(i, rows), "ok 1"


def select(i, rows):
    return "SELECT v, s FROM t WHERE id = %d" % key(i, rows), "rows 1"


def inserts(count, rows):
    return [insert(i, rows) for i in range(count)]


def updates(count, rows):
    return [update(i, rows) for i in range(count)]


def deletes(count, rows):
    return [delete(i, rows) for i in range(count)]


def selects(count, rows):
    return [select(i, rows) for i in range(count)]


def tens(count, rows):
    """BEGIN, five INSERTs, five UPDATEs and COMMIT, so many times."""
    made = []
    for i in range(count):
        made.append(("BEGIN", "ok .."))
        made += [insert(j, rows) for j in range(5 * i, 5 * i + 5)] + [update(j, rows) for j in range(5 * i, 5 * i + 5)]
        made.append(("COMMIT", "ok commit .."))
    return made


# What is made so many times, and how many rows one puts in or removes.
KINDS = {
    "an INSERT": (inserts, 1),
    "an UPDATE by key": (updates, 0),
    "a DELETE by key": (deletes, 1),
    "a SELECT by key": (selects, 0),
    "BEGIN, ten statements and COMMIT": (tens, 5),
}


def count_for(name, most, rows):
    """How many are made over so many rows, so that a table grows or shrinks by half at most."""
    changed = KINDS[name][1]
    return min(most, rows // 2 // changed) if changed else most


def in_session(statements):
    return [("A: " + text, answer) for text, answer in statements]


def filled(program, lines):
    """A folder in memory that a run of these lines leaves."""
    folder = tempfile.mkdtemp(prefix="datalinks-bench-", dir=in_memory())
    Run(program, folder, lines)
    return folder


def opened_base(folder):
    base = sqlite3.connect(os.path.join(folder, "base"), isolation_level=None)
    base.execute("PRAGMA journal_mode = WAL")
    base.execute("PRAGMA synchronous = FULL")
    return base


def filled_base(statements):
    """A folder in memory with the base of SQLite that these statements leave, its log written back."""
    folder = tempfile.mkdtemp(prefix="datalinks-bench-", dir=in_memory())
    base = opened_base(folder)
    base.execute("BEGIN")
    for text, _ in statements:
        base.execute(text)
    base.execute("COMMIT")
    base.execute("PRAGMA wal_checkpoint(TRUNCATE)")
    base.close()
    return folder


def seconds_of_sqlite(folder, place, statements, in_a_row):
    """How long SQLite takes for some statements, in seconds, as if all were as quick as the best so many in a row."""
    there = copied(folder, place)
    try:
        base = opened_base(there)
        base.execute("SELECT COUNT(*) FROM t").fetchall()
        now = time.monotonic()
        looks = [(0, now, now)]
        for count, (text, _) in enumerate(statements):
            base.execute(text).fetchall()
            now = time.monotonic()
            looks.append((count + 1, now, now))
        base.close()
        return best_of(looks, in_a_row) * len(statements)
    finally:
        shutil.rmtree(there)


def compared(words, place, counts, folders, bases):
    """Each kind of statement at both sizes, here and in SQLite."""
    for name, (make, _) in KINDS.items():
        # As many over many rows as over few, so that the best of as many counts.
        count = count_for(name, counts[name], words.few)
        statements = {rows: make(count, rows) for rows in (words.few, words.many)}
        in_a_row = len(statements[words.few]) if is_disk(place) else IN_A_ROW
        costs = {rows: Cost(words.program, folders[rows], place, in_session(made), in_a_row) for rows, made in statements.items()}
        best = collections.defaultdict(lambda: float("inf"))
        # Where a run has few of them there are more runs.
        for _ in range(words.runs * max(1, min(4, counts[name] // count))):
            for rows, made in statements.items():
                best["here", rows] = costs[rows].round().seconds() / count
                best["SQLite", rows] = min(best["SQLite", rows], seconds_of_sqlite(bases[rows], place, made, in_a_row) / count)
        for rows in (words.few, words.many):
            ratio = best["here", rows] / best["SQLite", rows]
            judged = is_disk(place) and make is not selects
            shown = judge("%s over %d rows on a disk, to SQLite's time" % (name, rows), ratio, OF_SQLITE) if judged else "%.2f times" % ratio
            print("  %s over %d rows: %.1f us, SQLite %.1f us, %s SQLite's time" % (name, rows, best["here", rows] * 1e6, best["SQLite", rows] * 1e6, shown), flush=True)
        grown = best["here", words.many] / best["here", words.few]
        theirs = best["SQLite", words.many] / best["SQLite", words.few]
        shown = "%.2f times" % grown if is_disk(place) else judge("%s over %d rows, to %d" % (name, words.many, words.few), grown, GROWTH)
        print("  %s: %s the time for %d times as many rows (SQLite %.2f times)" % (name, shown, words.many // words.few, theirs), flush=True)


CALL = re.compile(r"(?:\d+ +)?(\w+)\((.*)\) += (-?\d+)")
WORD_OF = {"pwrite64": "write", "fsync": "sync", "fdatasync": "sync"}


def traced(program, folder, lines):
    """For the mark and for each line the calls of the system that it makes before it is told, but for those of memory: the call, the
    area, how many bytes, and where. None where `strace` can't be had."""
    if shutil.which("strace") is None:
        return None
    with tempfile.NamedTemporaryFile() as log:
        Run(program, folder, lines, before=("strace", "-f", "-s", "0", "-o", log.name))
        areas, calls, told = {}, [], []
        for line in pathlib.Path(log.name).read_text().splitlines():
            found = CALL.match(line)
            if not found:
                continue
            call, rest, result = found.groups()
            opened = re.match(r'AT_FDCWD, "datalinks\.(\w+)"', rest)
            if call == "openat" and opened:
                areas[result] = opened.group(1)
            parts = [part.strip() for part in rest.split(",")]
            if call == "write" and parts[0] == "1":
                told.append(calls)
                calls = []
            elif call not in OF_MEMORY:
                at = parts[3] if call == "pwrite64" else "0"
                calls.append((WORD_OF.get(call, call), areas.get(parts[0], parts[0]), int(parts[2]) if call == "pwrite64" else 0, int(at)))
    return told


def commits(words, folder):
    """What a commit calls: of INSERTs, and UPDATEs and DELETEs by key, of their own, and of COMMIT behind ten statements, which call nothing;
    nor does a SELECT."""
    for name, (make, _) in KINDS.items():
        count = count_for(name, words.traced, words.few)
        statements = in_session(make(count, words.few))
        there = copied(folder, in_memory())
        told = traced(words.program, there, statements)
        shutil.rmtree(there)
        if told is None:
            print("what a commit calls was not looked at: there is no strace", flush=True)
            return
        ends = [calls for (text, _), calls in zip(statements, told[1:]) if make is not tens or text == "A: COMMIT"]
        others = [calls for (text, _), calls in zip(statements, told[1:]) if make is tens and text != "A: COMMIT" and calls]
        seen = collections.Counter(" ".join("%s %s" % call[:2] for call in calls) for calls in ends)
        right = [("%s rows" % word) for word in COMMIT if make is not selects]
        shown = require("what %s calls" % name, set(seen) == {" ".join(right)} and not others, "not %d calls on Rows and no other" % len(right))
        for calls, times in seen.most_common(5):
            print("  %s, %d of %d: %d calls (%s)%s" % (name, times, len(ends), len(calls.split()) // 2, calls, shown), flush=True)
        if others:
            print("  %d statements inside of a transaction call something, as %s%s" % (len(others), others[0], shown), flush=True)


def openings(words, rows, made, how):
    """How fast a folder is opened: from the start of the program to its first answer."""
    size = sum(os.path.getsize(os.path.join(made, name)) for name in os.listdir(made))
    best, used, peak = float("inf"), float("inf"), 0
    for _ in range(words.runs):
        run = run_in(words.program, made, in_memory(), [])
        best, used, peak = min(best, run.opening[0]), min(used, run.opening[1]), max(peak, run.peak)
    shown = "; %.1f MB in memory then" % (peak / 1e6) if peak else ""
    print("  %d rows in %s: %.1f MB in %.3f s, %.3f s of the processor, %.1f MB a second%s" % (rows, how, size / 1e6, best, used, size / 1e6 / best, shown), flush=True)


def among_tables(words):
    """An INSERT that is a transaction of its own beside so many other tables, in memory."""
    for count in TABLES:
        made = filled(words.program, in_session([("CREATE TABLE t%d " % i + COLUMNS, "ok") for i in range(count - 1)] + table(0)))
        try:
            cost = Cost(words.program, made, in_memory(), in_session(inserts(IN_A_ROW, words.many)), IN_A_ROW)
            took = min(cost.round().seconds() for _ in range(words.runs)) / IN_A_ROW
        finally:
            shutil.rmtree(made)
        print("  an INSERT in a folder of %d table%s: %.1f us" % (count, "s" * (count > 1), took * 1e6), flush=True)


def read_words():
    words = argparse.ArgumentParser(description="Statements of sessions beside SQLite.")
    words.add_argument("--program", help="the built program, where it stands elsewhere")
    words.add_argument("--disk", default="/var/tmp", help="a folder on a disk")
    words.add_argument("--few", type=int, default=1_000)
    words.add_argument("--many", type=int, default=100_000)
    words.add_argument("--runs", type=int, default=5)
    words.add_argument("--traced", type=int, default=50)
    return words.parse_args()


def done():
    """The end of the script, with what is broken."""
    for what in broken:
        print("BROKEN %s" % what)
    sys.exit(1 if broken else 0)


def main():
    words = read_words()
    words.program = program_of(words)
    print("load of the machine, on %d processors: %.1f" % (os.cpu_count(), os.getloadavg()[0]), flush=True)
    made = []
    try:
        folders, bases = {}, {}
        for rows in (words.few, words.many):
            folders[rows], bases[rows] = filled(words.program, in_session(table(rows))), filled_base(table(rows))
            made += [folders[rows], bases[rows]]
        print("what a commit calls:", flush=True)
        commits(words, folders[words.few])
        print("in memory:", flush=True)
        compared(words, in_memory(), {"an INSERT": 10_000, "an UPDATE by key": 10_000, "a DELETE by key": 10_000, "a SELECT by key": 10_000, "BEGIN, ten statements and COMMIT": 1_000}, folders, bases)
        if is_disk(words.disk):
            print("on a disk (%s):" % kind_of(words.disk), flush=True)
            compared(words, words.disk, {"an INSERT": 300, "an UPDATE by key": 300, "a DELETE by key": 300, "a SELECT by key": 300, "BEGIN, ten statements and COMMIT": 100}, folders, bases)
        else:
            print("nothing was measured on a disk: %s is %s" % (words.disk, kind_of(words.disk)), flush=True)
        print("opening, in memory:", flush=True)
        openings(words, words.many, folders[words.many], "%d commits" % (words.many // TUPLES))
        single = filled(words.program, in_session(table(0) + [("INSERT INTO t VALUES " + tuples(i, i + 1), "ok 1") for i in range(words.many)]))
        made.append(single)
        openings(words, words.many, single, "a commit each")
        print("among tables, in memory:", flush=True)
        among_tables(words)
    finally:
        for folder in made:
            shutil.rmtree(folder)
    done()


if __name__ == "__main__":
    main()
