#!/usr/bin/env python3
"""Time of statements of SQL over tables in memory, beside SQLite in memory on the same statements in the same run.

What is timed is the built program of `crates/sql_shell`, which reads statements from a file, a line each, and tells their answers. How
far it has read is looked at all the while, so neither what comes before the statements that are measured nor the end of the program is in
their time: a comment stands before them and one behind them, in which nothing is done. It is real time, since of another process the
system tells processor time by ticks of some milliseconds alone, and the best of nine runs, and of as many as begin within two seconds,
but of no more than begin within six. Of statements by key, here and in SQLite, the best 2,000 in a row count, and runs over few and over
many rows take turns, since a machine that does other work too is slower at one time than at another. The program runs with what
`bin/datalinks` asks of the C library. An answer that is not the right one ends the script. SQLite is the one that Python brings along;
its time is that of handing it the same statements one by one and taking their rows.

Printed are: INSERTs of a row each into a table with a key, 10,000 and 20,000 of them; UPDATE, DELETE and SELECT by key over 1,000 and
over 100,000 rows, for one statement, of keys far apart, UPDATE of one key after the other too, and SELECT by keys that are texts; joins
by a key; a join of three tables of 200 rows; a COUNT over 10,000,000 combined rows and GROUP BY over as many, with the peak of memory;
SELECTs that look at all rows, ORDER BY and GROUP BY; and how many bytes a row takes.

With a word, only the kinds whose name has it are measured.
"""
import os
import pathlib
import sqlite3
import subprocess
import sys
import tempfile
import time

from lines import surroundings

ROOT = pathlib.Path(__file__).resolve().parent.parent
FOLDER = ROOT / "crates" / "sql_shell"
PROGRAM = FOLDER / "out" / "sql_shell"
RUNS = 9
PART = 2_000
COMMENT = b"-- " + b"." * 300_000 + b"\n"
LEAST = 2.0
ENOUGH = 6.0
TUPLES = 1_000
CREATE = "CREATE TABLE %s (id INTEGER PRIMARY KEY, v INTEGER, s VARCHAR(20))"


def tuple_of(i):
    """The row with this key: a number that goes up and down, and one of 100 texts."""
    return "(%d, %d, 'text %d')" % (i, i * 7919 % 10_007, i % 100)


def table(name, rows):
    """The statements that make a table of so many rows, many rows a statement, each with its answer."""
    made = [(CREATE % name, "ok")]
    for first in range(0, rows, TUPLES):
        last = min(first + TUPLES, rows)
        tuples = ", ".join(tuple_of(i) for i in range(first, last))
        made.append(("INSERT INTO %s VALUES %s" % (name, tuples), "ok %d" % (last - first)))
    return made


def inserts(count):
    return [(CREATE % "t", "ok")], [("INSERT INTO t VALUES " + tuple_of(i), "ok 1") for i in range(count)]


def by_key(statement, answer, rows, count, apart=7919):
    """A statement for each of some keys, which are so far apart, and none twice before all had their turn."""
    keys = [i * apart % rows for i in range(count)]
    return table("t", rows), [(statement % key, answer) for key in keys]


def updates(rows):
    return by_key("UPDATE t SET v = v + 1 WHERE id = %d", "ok 1", rows, 20_000)


def updates_in_order(rows):
    """Of one row after the other, so that the pages of the one before are near at hand."""
    return by_key("UPDATE t SET v = v + 1 WHERE id = %d", "ok 1", rows, 20_000, 1)


def deletes(rows):
    """Of a table of few rows nine in ten, which are enough to be timed: they cost less as it empties. Of one of many a fifth."""
    return by_key("DELETE FROM t WHERE id = %d", "ok 1", rows, min(rows * 9 // 10, 20_000))


def selects(rows):
    return by_key("SELECT v, s FROM t WHERE id = %d", "rows 1", rows, 20_000)


def selects_by_text(rows):
    """By a key that is a text; all of them begin alike."""
    made = [("CREATE TABLE t (name VARCHAR(40) PRIMARY KEY, v INTEGER)", "ok")]
    for first in range(0, rows, TUPLES):
        last = min(first + TUPLES, rows)
        tuples = ", ".join("('archive/film/%08d.mov', %d)" % (i, i) for i in range(first, last))
        made.append(("INSERT INTO t VALUES " + tuples, "ok %d" % (last - first)))
    keys = [i * 7919 % rows for i in range(20_000)]
    return made, [("SELECT v FROM t WHERE name = 'archive/film/%08d.mov'" % key, "rows 1") for key in keys]


def join(rows, others):
    """By the key of the second table."""
    return table("a", rows) + table("b", others), [("SELECT a.id, b.v FROM a JOIN b ON a.id = b.id", "rows %d" % min(rows, others))]


def three(rows):
    made = table("a", rows) + table("b", rows) + table("c", rows)
    return made, [("SELECT a.id, b.v, c.s FROM a JOIN b ON a.id = b.id JOIN c ON b.id = c.id", "rows %d" % rows)] * 20


def three_by_other_columns(rows):
    made = table("a", rows) + table("b", rows) + table("c", rows)
    return made, [("SELECT COUNT(*) FROM a JOIN b ON a.v = b.v JOIN c ON b.v = c.v", "rows 1")]


def counted(rows, others):
    return table("a", rows) + table("b", others), [("SELECT COUNT(*) FROM a, b", "rows 1")]


def counted_in_groups(rows, others):
    return table("a", rows) + table("b", others), [("SELECT b.id, COUNT(*), SUM(a.v) FROM a, b GROUP BY b.id", "rows %d" % others)]


def filters(rows):
    return table("t", rows), [("SELECT COUNT(*) FROM t WHERE v >= 0 AND s <> 'text'", "rows 1")] * 20


def orders(rows):
    return table("t", rows), [("SELECT id, v FROM t ORDER BY v, id DESC", "rows %d" % rows)]


def groups(rows):
    return table("t", rows), [("SELECT s, COUNT(*), SUM(v) FROM t GROUP BY s", "rows %d" % min(rows, 100))]


def peak_of(pid):
    """The peak of memory of a process so far, in bytes; 0 where that is not told. (What a wait tells has Python's own in it.)"""
    try:
        for text in pathlib.Path("/proc/%d/status" % pid).read_text().splitlines():
            if text.startswith("VmHWM:"):
                return int(text.split()[1]) * 1024
    except OSError:
        pass
    return 0


def watched(run, source, begun):
    """How many bytes of its source a run has done with, at least, each time that it was seen to have read on, with the moment of the look
    before and that of this one, between which it did; and its peak of memory, in bytes. When it reads on it has done with all that it had
    read before. It is looked at without a pause, some 500,000 times a second: with one, looks are as far apart as 20 statements take."""
    seen, last, peak, looks, former = [], 0, 0, 0, begun
    while run.poll() is None:
        before = time.perf_counter()
        place = os.lseek(source, 0, os.SEEK_CUR)
        if place != last:
            seen.append((last, former, time.perf_counter()))
            last = place
        former = before
        if looks % 5_000 == 0:
            peak = max(peak, peak_of(run.pid))
        looks += 1
    return seen, peak


def ran(before, statements):
    """What the program was given, where the statements begin and end in it, how far it had read when, and its peak of memory."""
    first, given = ("".join(text + "\n" for text, _ in some).encode() for some in (before, statements))
    answers = [answer for _, answer in before] + [None] + [answer for _, answer in statements]
    wanted = ["%d: %s" % (i + 1, answer) for i, answer in enumerate(answers) if answer]
    text = first + COMMENT + given + COMMENT
    with tempfile.TemporaryFile() as source, tempfile.TemporaryFile() as told:
        source.write(text)
        source.seek(0)
        begun = time.perf_counter()
        run = subprocess.Popen([str(PROGRAM)], stdin=source, stdout=told, env=surroundings())
        seen, peak = watched(run, source.fileno(), begun)
        status = run.wait()
        told.seek(0)
        lines = told.read().decode().splitlines()
    if status != 0 or [line for line in lines if line.partition(":")[0].isdigit()] != wanted:
        sys.exit("the program ended with status %d, or another answer was told" % status)
    return text, len(first) + len(COMMENT), len(first) + len(COMMENT) + len(given), seen, peak


def times_of(before, statements, size):
    """The time of a statement in each part of a run that has so many statements or a few more, in seconds, and the peak of memory. A part is
    taken from the last look before it to the first one behind it, so a look that came late makes it longer and never shorter."""
    text, start, stop, seen, peak = ran(before, statements)
    # It begins when the comment before the statements is being read, and ends when that behind them is.
    first = max(i for i, (place, _, _) in enumerate(seen) if place <= start)
    times, (place, since, _) = [], seen[first]
    for there, former, now in seen[first + 1:]:
        count = text.count(b"\n", max(place, start), min(there, stop))
        if count >= size:
            times.append((now - since) / count)
            place, since = there, former
    return times, peak


def times_of_sqlite(before, statements, size):
    """The times in which SQLite takes one of the statements, of each part that has so many, in seconds."""
    base = sqlite3.connect(":memory:", isolation_level=None)
    for text, _ in before:
        base.execute(text)
    times = []
    for first in range(0, len(statements) - size + 1, size):
        start = time.perf_counter()
        for text, _ in statements[first:first + size]:
            base.execute(text).fetchall()
        times.append((time.perf_counter() - start) / size)
    base.close()
    return times


class Cost:
    """The best times of one of some statements, which come behind others, here and in SQLite, in seconds, and the peak of memory
    here, in bytes."""

    def __init__(self, before, statements, size=None):
        self.given = before, statements, min(size or len(statements), len(statements))
        self.rounds, self.spent, self.peak = 0, 0.0, 0
        self.here = self.sqlite = float("inf")

    def is_enough(self):
        return self.rounds >= RUNS and self.spent >= LEAST or self.spent >= ENOUGH

    def round(self):
        start = time.monotonic()
        times, peak = times_of(*self.given)
        self.peak, self.here = max(self.peak, peak), min([self.here, *times])
        self.sqlite = min([self.sqlite, *times_of_sqlite(*self.given)])
        self.rounds, self.spent = self.rounds + 1, self.spent + time.monotonic() - start

    def of_all(self):
        """The times of all statements."""
        count = len(self.given[1])
        return self.here * count, self.sqlite * count


def measured(*costs):
    """The costs, once each has had its rounds, by turns."""
    while not all(cost.is_enough() for cost in costs):
        for cost in costs:
            if not cost.is_enough():
                cost.round()
    return costs


def line(name, took, sqlite):
    print("%s: %.4f s, SQLite %.4f s, %.2f times SQLite's time" % (name, took, sqlite, took / sqlite), flush=True)


def twice(name, make, size):
    costs = measured(Cost(*make(size)), Cost(*make(2 * size)))
    for count, cost in zip((size, 2 * size), costs):
        line("%d %s" % (count, name), *cost.of_all())
    print("  %.2f times the time for twice as many" % (costs[1].of_all()[0] / costs[0].of_all()[0]), flush=True)


def grown(name, make, few, many):
    """A statement over few and over many rows."""
    costs = measured(*(Cost(*make(rows), size=PART) for rows in (few, many)))
    for rows, cost in zip((few, many), costs):
        print("%s over %d rows: %.2f us, SQLite %.2f us, %.2f times SQLite's time" % (name, rows, cost.here * 1e6, cost.sqlite * 1e6, cost.here / cost.sqlite), flush=True)
    print("  %.2f times the time for %d times as many rows" % (costs[1].here / costs[0].here, many // few), flush=True)


def one(name, made):
    cost, = measured(Cost(*made))
    line(name, *cost.of_all())
    return cost.peak


def product(name, make):
    peak = one(name, make(10_000, 1_000))
    before = ran(make(10_000, 1_000)[0], [])[-1]
    print("  a peak of %.1f MB, and of %.1f MB without it" % (peak / 1e6, before / 1e6), flush=True)


def row_bytes():
    full, empty = (ran(table("t", rows), [])[-1] for rows in (100_000, TUPLES))
    print("a row of two numbers and a short text, with its key's entry: %d bytes" % ((full - empty) // (100_000 - TUPLES)), flush=True)


KINDS = {
    "INSERT": lambda: twice("INSERTs of a row into a table with a key", inserts, 10_000),
    "UPDATE by key": lambda: grown("an UPDATE by key", updates, 1_000, 100_000),
    "UPDATE by key, in order": lambda: grown("an UPDATE by key, in the order of the keys,", updates_in_order, 1_000, 100_000),
    "DELETE by key": lambda: grown("a DELETE by key", deletes, 1_000, 100_000),
    "SELECT by key": lambda: grown("a SELECT by key", selects, 1_000, 100_000),
    "SELECT by a text": lambda: grown("a SELECT by a key that is a text", selects_by_text, 1_000, 100_000),
    "join by key": lambda: one("a join by key of 10,000 rows with 1,000", join(10_000, 1_000)),
    "three-way join by key": lambda: one("20 joins by key of three tables of 200 rows", three(200)),
    "three-way join": lambda: one("a join of three tables of 200 rows by columns that are no keys", three_by_other_columns(200)),
    "COUNT": lambda: product("COUNT(*) over 10,000,000 combined rows", counted),
    "GROUP BY of combined rows": lambda: product("1,000 groups of 10,000,000 combined rows, with their counts and sums", counted_in_groups),
    "SELECT of all rows": lambda: one("20 SELECTs with a WHERE on each of 10,000 rows", filters(10_000)),
    "ORDER BY": lambda: twice("rows in ORDER BY two columns", orders, 10_000),
    "GROUP BY": lambda: twice("rows in GROUP BY a text", groups, 10_000),
    "bytes of a row": row_bytes,
}


def main():
    # Builds the program where it is not built.
    subprocess.run(["rt", "run"], cwd=FOLDER, stdin=subprocess.DEVNULL, stdout=subprocess.DEVNULL, stderr=subprocess.DEVNULL, check=False)
    words = sys.argv[1:]
    for name, measure in KINDS.items():
        if not words or any(word in name for word in words):
            measure()


if __name__ == "__main__":
    main()
