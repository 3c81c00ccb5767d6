#!/usr/bin/env python3
"""What the archive costs: a commit that links a file with RECOVERY YES beside one without, `! archive` beside the plain work that it is,
and a restore beside the statements that bring the same rows back.

    bench/archive.py [--program PATH] [--runs RUNS] [--count STATEMENTS] [--size BYTES] [--rows ROWS] [--back ROWS]

What is timed is the built program over folders in memory that earlier runs of it have filled, as `bench/sessions.py` says; times are
processor times, the best of some runs, those that are compared taken in turn.

- A commit copies no file: an INSERT that links one with RECOVERY YES takes at most 1.05 times what the same with RECOVERY NO takes.
- `! archive` of some files stands beside a script that copies their bytes twice and makes their SHA-256 once.
- A restore to the commit before 1,000 of 100,000 rows were deleted stands beside the INSERT of these rows, and beside the same restore of
  a table of no other rows: it looks at each row of the tables before and after, so it costs them too.

It ends with status 1 where the bound is broken.
"""
import argparse
import hashlib
import os
import shutil
import time

from sessions import Cost, done, filled, in_memory, in_session, judge, program_of, table, tuples

OF_UNARCHIVED = 1.05
CONTROL = "DATALINK LINKTYPE URL FILE LINK CONTROL INTEGRITY ALL READ PERMISSION FS WRITE PERMISSION BLOCKED RECOVERY %s ON UNLINK RESTORE"


def create(name, recovery):
    return "A: CREATE TABLE %s (id INTEGER PRIMARY KEY, f %s)" % (name, CONTROL % recovery), "ok"


def files(count, content):
    return [("@ann create /f/%d %s" % (i, content), "ok") for i in range(count)]


def links(name, count):
    return [("A: INSERT INTO %s VALUES (%d, DLVALUE('http://fs1/f/%d'))" % (name, i, i), "ok 1") for i in range(count)]


def best_of(words, costs):
    """The best seconds of each of some costs, taken in turn."""
    for _ in range(words.runs):
        for cost in costs:
            cost.round()
    return [cost.seconds() for cost in costs]


def commits(words):
    folder = filled(words.program, [create("yes", "YES"), create("no", "NO")] + files(words.count, "x" * 100))
    try:
        yes, no = best_of(words, [Cost(words.program, folder, in_memory(), links(name, words.count)) for name in ("yes", "no")])
        shown = judge("a commit with RECOVERY YES, to one without", yes / no, OF_UNARCHIVED)
        print("a linking INSERT with RECOVERY YES: %.1f us, with RECOVERY NO: %.1f us: %s" % (yes / words.count * 1e6, no / words.count * 1e6, shown), flush=True)
    finally:
        shutil.rmtree(folder)


def plainly(parts):
    """Seconds of the processor that it takes to copy these bytes twice and to make their digest once."""
    start = time.process_time()
    for part in parts:
        copy = bytearray(part)
        hashlib.sha256(part).digest()
        bytes(copy)
    return time.process_time() - start


def archiving(words):
    for size in (100, words.size):
        content = "y" * size
        folder = filled(words.program, [create("yes", "YES")] + files(words.count, content) + links("yes", words.count))
        try:
            took, = best_of(words, [Cost(words.program, folder, in_memory(), [("! archive", "ok archived %d" % words.count)])])
            plain = min(plainly([content.encode()] * words.count) for _ in range(words.runs))
            print("`! archive` of %d files of %d bytes: %.2f ms, the plain work %.2f ms: %.1f times, %.0f MB a second" % (words.count, size, took * 1e3, plain * 1e3, took / plain, words.count * size / took / 1e6), flush=True)
        finally:
            shutil.rmtree(folder)


def restores(words):
    taken = {}
    for rows in (words.rows, words.back):
        deleted = "DELETE FROM t WHERE id >= %d" % (2 * (rows - words.back)), "ok %d" % words.back
        folder = filled(words.program, in_session(table(rows) + [deleted]))
        commit = 1 + -(-rows // 1_000)
        try:
            back = [("! restore commit %d" % commit, "ok commit ..")]
            again = in_session([("INSERT INTO t VALUES " + tuples(rows - words.back, rows), "ok %d" % words.back)])
            restore, insert = best_of(words, [Cost(words.program, folder, in_memory(), lines) for lines in (back, again)])
            taken[rows] = restore
            print("a restore that brings %d rows of %d back: %.2f ms, an INSERT of them: %.2f ms: %.1f times" % (words.back, rows, restore * 1e3, insert * 1e3, restore / insert), flush=True)
        finally:
            shutil.rmtree(folder)
    print("for each row that stays: %.0f ns" % ((taken[words.rows] - taken[words.back]) / max(words.rows - words.back, 1) * 1e9), flush=True)


def main():
    words = argparse.ArgumentParser(description="What the archive costs.")
    words.add_argument("--program", help="the built program, where it stands elsewhere")
    words.add_argument("--runs", type=int, default=5)
    words.add_argument("--count", type=int, default=2_000)
    words.add_argument("--size", type=int, default=20_000)
    words.add_argument("--rows", type=int, default=100_000)
    words.add_argument("--back", type=int, default=1_000)
    words = words.parse_args()
    words.program = program_of(words)
    print("load of the machine, on %d processors: %.1f" % (os.cpu_count(), os.getloadavg()[0]), flush=True)
    commits(words)
    archiving(words)
    restores(words)
    done()


if __name__ == "__main__":
    main()
