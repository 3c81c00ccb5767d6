#!/usr/bin/env python3
"""How the cost of each kind of line grows: its time, the time of the next opening, and the memory of that opening, at n, 2n and 4n.

    bench/growth.py [--program PATH] [--rounds ROUNDS] [--scale PART] [--most SECONDS] [--list] [WORD ..]

With words it measures only the kinds whose names have all of them; `--list` prints the names alone. `--scale 0.5` halves each n.

What is timed is the built program over copies of folders in memory that an earlier run of it has filled, which is not part of the time.
A run begins with lines that touch nothing and print more than its pipe takes. There it waits, with its opening done, and the script
reads its processor time (user and system) and its peak of memory so far: these are those of the opening. (The peak that the system
reports of a child at its end has that of its parent in it.) Then the script takes the output, and the run goes on. What it takes from
there to its end, less what a run of those first lines alone takes there, is the time of doing. The opening after a kind is that of a
run without its lines, over the areas that they left. Times are the least of some rounds, of each n in turn.

There are two parts. In the first the lines, or the rows that one line touches, are n, 2n and 4n. In the second the lines stay as
many, and what else is stored is n, 2n and 4n. A row of the table has

- `n`, the seconds of doing, and how often that is the time of the row above;
- the seconds of the opening after it, less those of the opening over what was prepared, how often that is the time of the row above, and
  what part it is of the time of doing, which counts as 30 ms at least;
- the seconds of the opening over what was prepared;
- the bytes of all areas, the memory of the opening above that of a run over nothing, how many bytes that is for each byte of the areas,
  and how many more bytes of memory the opening takes for each byte that the lines added.

The bounds:

- Twice as many lines or rows take at most 2.3 times the time, and so does the opening after them. Over twice as much that is stored and
  not touched the same lines take at most 1.3 times the time. A time below 30 ms counts as 30 ms, of an opening as much and a fifth of the
  opening over what was prepared.
- An opening takes at most half the time of the lines whose work it finds, at most all of it where they give or take links, and at most
  three times the time of a line that touches many rows. One below that floor is not judged.
- For each byte that lines add that are transactions of their own, an opening takes at most 12 bytes more of memory. Less than 4 MB are not judged.
- No run takes more than 20 seconds (`--most`). One that does is stopped, and its kind ends there; the time of an opening that was
  stopped is `inf`.

It ends with status 1 where a kind is past a bound, and prints all these again at its end. On a machine that does other work too, times
are longer and never shorter: a kind that is a little past a bound gets up to three times the rounds.
"""
import argparse
import collections
import fcntl
import os
import shutil
import subprocess
import sys
import tempfile
import termios
import time

from lines import peak_so_far, place as in_memory, surroundings
from sessions import MARK, MARK_TOLD, copied, fits, processor_of, program_of

GROWTH = 2.3
OVER_MORE = 1.3
OPENING = 0.5
OPENING_OF_LINKS = 1.0
OPENING_OF_BULK = 3.0
MEMORY = 12
FLOOR = 0.030
FLOOR_OF_MEMORY = 4_000_000
# An opening is told from noise where it is the floor and this part of the opening over what was prepared, from which it is taken.
NOISE = 0.2
# One page: the least that a pipe takes. The marks print more than that.
PAGE = 4096
MARKS = 200
LEAST_MARK = 28
POLL = 0.0005
# Runs that took so many seconds together are not made again. Figures that are less than so many times their bound get at most so many
# times the rounds.
LONG = 3
NEAR = 1.3
MORE_ROUNDS = 3
TUPLES = 1_000
SESSIONS = 8

CONTENT = "x" * 100
PLAIN = "(id INTEGER PRIMARY KEY, v INTEGER, s VARCHAR(20))"
CONTROL = "DATALINK LINKTYPE URL FILE LINK CONTROL INTEGRITY ALL READ PERMISSION FS WRITE PERMISSION BLOCKED RECOVERY %s ON UNLINK RESTORE"
LINKED = "(id INTEGER PRIMARY KEY, v INTEGER, f %s)" % (CONTROL % "NO")
ARCHIVED = "(id INTEGER PRIMARY KEY, v INTEGER, f %s)" % (CONTROL % "YES")

# Lines of a script, each with its answer.


def create(name, columns):
    return [("A: CREATE TABLE %s %s" % (name, columns), "ok")]


def plain(i):
    return "(%d, %d, 'text %d')" % (i, i * 7919 % 10_007, i % 100)


def linked(i):
    return "(%d, %d, DLVALUE('http://fs1/f/%d'))" % (i, i, i)


def files(count, first=0):
    return [("@ann create /f/%d %s" % (i, CONTENT), "ok") for i in range(first, count)]


def filling(name, tuple_of, count, first=0):
    """INSERTs of many rows each."""
    made = []
    for start in range(first, count, TUPLES):
        end = min(start + TUPLES, count)
        made.append(("A: INSERT INTO %s VALUES %s" % (name, ", ".join(tuple_of(i) for i in range(start, end))), "ok %d" % (end - start)))
    return made


def at_once(lines):
    return [("A: BEGIN", "ok ..")] + lines + [("A: COMMIT", "ok..")]


def plain_rows(count, name="t"):
    return create(name, PLAIN) + at_once(filling(name, plain, count))


def linked_rows(count, columns=LINKED, name="t"):
    return files(count) + create(name, columns) + at_once(filling(name, linked, count))


def spread(count):
    """The numbers below a count, each once, in an order that is far from theirs."""
    return [i * 7919 % count for i in range(count)]


def insert(i, name="t"):
    return "A: INSERT INTO %s VALUES %s" % (name, plain(i)), "ok 1"


def link(i, name="t"):
    return "A: INSERT INTO %s VALUES %s" % (name, linked(i)), "ok 1"


def update(i):
    return "A: UPDATE t SET v = v + 1 WHERE id = %d" % i, "ok 1"


def delete(i):
    return "A: DELETE FROM t WHERE id = %d" % i, "ok 1"


def select(i):
    return "A: SELECT v FROM t WHERE id = %d" % i, "rows 1"


def unlink(i):
    return "A: UPDATE t SET f = NULL WHERE id = %d" % i, "ok 1"


def relink(i):
    return "A: UPDATE t SET f = DLVALUE('http://fs1/f/%d') WHERE id = %d" % (i, i), "ok 1"


def moved(i):
    """The link of a row becomes that of another file of its own."""
    return "A: UPDATE t SET f = DLVALUE('http://fs1/f/new%d') WHERE id = %d" % (i, i), "ok 1"


def new_files(count):
    return [("@ann create /f/new%d %s" % (i, CONTENT), "ok") for i in range(count)]


def each(lines_of, numbers):
    return [line for i in numbers for line in lines_of(i)]


def rolled_back(lines):
    return [("A: BEGIN", "ok ..")] + lines + [("A: ROLLBACK", "ok")]


def in_sessions(count, tuple_of, a_transaction):
    """Transactions of some sessions, each in a table of its own, whose statements are done in turn."""
    made = []
    for first in range(0, count, a_transaction):
        names = ["S%d" % s for s in range(SESSIONS)]
        made += [("%s: BEGIN" % name, "ok ..") for name in names]
        for i in range(first, min(first + a_transaction, count)):
            name = i % SESSIONS
            made.append(("S%d: INSERT INTO t%d VALUES %s" % (name, name, tuple_of(i)), "ok 1"))
        made += [("%s: COMMIT" % name, "ok ..") for name in names]
    return made


def session_tables(columns):
    return [line for s in range(SESSIONS) for line in create("t%d" % s, columns)]


def tables(count):
    return [line for i in range(count) for line in create("other%d" % i, PLAIN)]


def already_linked(i):
    return "A: INSERT INTO t VALUES (%d, 0, DLVALUE('http://fs1/f/0'))" % (1_000_000 + i), "refused already linked /f/0 .."


def without_file(i):
    return "A: INSERT INTO t VALUES (%d, 0, DLVALUE('http://fs1/none/%d'))" % (1_000_000 + i, i), "refused no file /none/%d" % i


def archive(count):
    return [("! archive", "ok archived %d" % count)]


def backup():
    return [("! backup", "ok backup ..")]


def restore(what):
    return [("! restore %s" % what, "ok commit ..")]


def deleted(count):
    return [("A: DELETE FROM t", "ok %d" % count)]


class Kind:
    """Lines that are measured for some numbers, over a folder that other lines fill: whether they give or take links, whether each
    is a small commit of its own (`small`), whether the lines stay as many (`more`), and whether one touches many rows (`bulk`)."""

    def __init__(self, name, sizes, before, lines, links=False, small=False, more=False, bulk=False):
        self.name, self.sizes, self.before, self.lines = name, sizes, before, lines
        self.links, self.small, self.more, self.bulk = links, small, more, bulk

    def growth(self):
        return OVER_MORE if self.more else GROWTH

    def opening(self):
        if self.bulk:
            return OPENING_OF_BULK
        return OPENING_OF_LINKS if self.links else OPENING


def changes(kinds):
    """Each kind of change, in a plain table and in one of linked rows, as transactions of their own and in one."""
    def both(name, n, n_at_once, before, lines, links=False):
        """What is prepared is that of the greatest number."""
        kinds.append(Kind(name + ", each alone", n, lambda _, most: before(most), lambda count, most: lines(count, most), links, small=True))
        kinds.append(Kind(name + ", in one transaction", n_at_once, lambda _, most: before(most), lambda count, most: at_once(lines(count, most)), links))

    def picked(line):
        return lambda count, most: [line(i) for i in spread(most)[:count]]

    both("INSERTs", 2_000, 2_500, lambda most: create("t", PLAIN), picked(insert))
    both("UPDATEs by key", 1_000, 1_500, plain_rows, picked(update))
    both("DELETEs by key", 1_000, 2_000, plain_rows, picked(delete))
    both("SELECTs by key", 1_500, 3_000, plain_rows, picked(select))
    both("linking INSERTs", 400, 400, lambda most: files(most) + create("t", LINKED), picked(link), True)
    both("UPDATEs by key of a plain cell in linked rows", 600, 400, linked_rows, picked(update), True)
    both("UPDATEs by key of the link", 400, 200, lambda most: linked_rows(most) + new_files(most), picked(moved), True)
    both("DELETEs by key of linked rows", 400, 300, linked_rows, picked(delete), True)
    both("SELECTs by key in linked rows", 1_500, 2_500, linked_rows, picked(select), True)
    both("plain INSERTs beside linked rows", 1_000, 1_500, lambda most: linked_rows(most // 4, name="l") + create("t", PLAIN), picked(insert), True)


def relinking(kinds):
    def twice(count, most):
        return each(lambda i: [unlink(i), relink(i)], spread(most)[:count])

    def again(count, most):
        return each(lambda i: [delete(i), link(i)], spread(most)[:count])

    def one_row(count, _):
        return each(lambda i: [unlink(0), relink(0)], range(count))

    before = lambda _, most: linked_rows(most)
    kinds.append(Kind("a link taken from a row and given again, each alone", 250, before, twice, True, small=True))
    kinds.append(Kind("a link taken from a row and given again, in one transaction", 200, before, lambda *n: at_once(twice(*n)), True))
    kinds.append(Kind("the link of one row taken and given again, in one transaction", 1_000, before, lambda *n: at_once(one_row(*n)), True))
    kinds.append(Kind("linked rows deleted and put in again, in one transaction", 200, before, lambda *n: at_once(again(*n)), True))


def refusals(kinds):
    before = lambda _, most: files(most) + create("t", LINKED)
    for name, refused in (("of a path that is linked in it", already_linked), ("of a file that is not there", without_file)):
        kinds.append(Kind("refused INSERTs %s, in one transaction" % name, 1_500, before, lambda count, _, refused=refused: at_once([link(0)] + [refused(i) for i in range(count)]), True))
        kinds.append(Kind("an INSERT and a refused one %s, in turn in one transaction" % name, 250, before, lambda count, _, refused=refused: at_once(each(lambda i: [link(i), refused(i)], range(count))), True))


def rolling_back(kinds):
    for name, n, n_at_once, line, before, links in (("an INSERT", 1_500, 2_000, insert, lambda _, most: create("t", PLAIN), False), ("a linking INSERT", 1_000, 400, link, lambda _, most: files(most) + create("t", LINKED), True)):
        kinds.append(Kind("%s rolled back, each alone" % name, n, before, lambda count, _, line=line: each(lambda i: rolled_back([line(i)]), range(count)), links, small=True))
        kinds.append(Kind("%ss rolled back, in one transaction" % name[name.index(" ") + 1:], n_at_once, before, lambda count, _, line=line: rolled_back([line(i) for i in range(count)]), links))


def sessions(kinds):
    for name, n, n_at_once, tuple_of, before, links in (("INSERTs", 2_000, 2_500, plain, lambda _, most: session_tables(PLAIN), False), ("linking INSERTs", 600, 400, linked, lambda _, most: files(most) + session_tables(LINKED), True)):
        kinds.append(Kind("%s of %d sessions in turn, in small transactions" % (name, SESSIONS), n, before, lambda count, _, t=tuple_of: in_sessions(count, t, 5 * SESSIONS), links, small=True))
        kinds.append(Kind("%s of %d sessions in turn, in one transaction each" % (name, SESSIONS), n_at_once, before, lambda count, _, t=tuple_of: in_sessions(count, t, count), links))


def made_tables(kinds):
    """Rows of tables that are made in the same transaction, and tables that come and go."""
    def made(columns, line):
        return lambda count, _: at_once(create("t", columns) + [line(i) for i in range(count)])

    def changed(columns, line, then):
        return lambda count, _: at_once(create("t", columns) + filling("t", line, count) + [then(i) for i in spread(count)])

    def come_and_go(inner):
        return lambda count, _: each(lambda i: create("n%d" % i, LINKED) + inner(i) + [("A: DROP TABLE n%d" % i, "ok")], range(count))

    with_files = lambda _, most: files(most)
    nothing = lambda *_: []
    kinds.append(Kind("INSERTs into a table of the same transaction", 2_000, nothing, made(PLAIN, insert)))
    kinds.append(Kind("linking INSERTs into a table of the same transaction", 400, with_files, made(LINKED, link), True))
    kinds.append(Kind("UPDATEs by key in a table of the same transaction", 1_500, nothing, changed(PLAIN, plain, update)))
    kinds.append(Kind("UPDATEs by key of linked rows of a table of the same transaction", 400, with_files, changed(LINKED, linked, update), True))
    kinds.append(Kind("DELETEs by key of linked rows of a table of the same transaction", 250, with_files, changed(LINKED, linked, delete), True))
    kinds.append(Kind("tables made and dropped, each alone", 600, nothing, come_and_go(lambda i: []), small=True))
    kinds.append(Kind("tables made and dropped, in one transaction", 400, nothing, lambda *n: at_once(come_and_go(lambda i: [])(*n))))
    kinds.append(Kind("tables of a linked row made and dropped, each alone", 300, with_files, come_and_go(lambda i: [link(i, "n%d" % i)]), True, small=True))
    kinds.append(Kind("tables of a linked row made and dropped, in one transaction", 200, with_files, lambda *n: at_once(come_and_go(lambda i: [link(i, "n%d" % i)])(*n)), True))


def many_at_once(kinds):
    """One commit, or one statement, of many rows."""
    kinds.append(Kind("rows put in by statements of 1,000, in one transaction", 4_000, lambda *_: create("t", PLAIN), lambda count, _: at_once(filling("t", plain, count)), bulk=True))
    kinds.append(Kind("rows changed by one statement", 3_000, lambda count, _: plain_rows(count), lambda count, _: [("A: UPDATE t SET v = v + 1", "ok %d" % count)], bulk=True))
    kinds.append(Kind("linked rows put in by statements of 1,000, in one transaction", 1_500, lambda _, most: files(most) + create("t", LINKED), lambda count, _: at_once(filling("t", linked, count)), True, bulk=True))
    kinds.append(Kind("linked rows put in by statements of 1,000, each alone", 1_500, lambda _, most: files(most) + create("t", LINKED), lambda count, _: filling("t", linked, count), True, bulk=True))
    kinds.append(Kind("plain cells of linked rows changed by one statement", 2_000, lambda count, _: linked_rows(count), lambda count, _: [("A: UPDATE t SET v = v + 1", "ok %d" % count)], True, bulk=True))
    kinds.append(Kind("linked rows deleted by one statement", 1_200, lambda count, _: linked_rows(count), lambda count, _: deleted(count), True, bulk=True))
    kinds.append(Kind("a table of linked rows dropped", 1_500, lambda count, _: linked_rows(count), lambda *_: [("A: DROP TABLE t", "ok")], True, bulk=True))


def file_commands(kinds):
    def commands(text):
        return lambda count, _: [(text % {"i": i}, "bytes 100" if "read" in text else "ok") for i in range(count)]

    with_files = lambda _, most: files(most)
    kinds.append(Kind("creates", 3_000, lambda *_: [], commands("@ann create /f/%(i)d " + CONTENT), small=True))
    for name, text in (("writes", "@ann write /f/%(i)d " + CONTENT), ("reads", "@bob read /f/%(i)d"), ("deletes", "@ann delete /f/%(i)d"), ("renames", "@ann rename /f/%(i)d /g/%(i)d"), ("chmods", "@ann chmod /f/%(i)d off")):
        kinds.append(Kind(name, 6_000 if name == "reads" else 3_000, with_files, commands(text), small=True))
    kinds.append(Kind("writes of one file", 3_000, lambda *_: files(1), lambda count, _: [("@ann write /f/0 " + CONTENT, "ok")] * count, small=True))


def archives(kinds):
    before = lambda _, most: files(most) + create("t", ARCHIVED)
    with_copies = lambda _, most: linked_rows(most, ARCHIVED) + archive(most)
    kinds.append(Kind("an archive of linked files", 1_000, lambda count, _: linked_rows(count, ARCHIVED), lambda count, _: archive(count), True, bulk=True))
    kinds.append(Kind("a linking INSERT and an archive, in turn", 200, before, lambda count, _: each(lambda i: [link(i)] + archive(1), range(count)), True, small=True))
    kinds.append(Kind("DELETEs by key of archived rows, each alone", 300, with_copies, lambda count, most: [delete(i) for i in spread(most)[:count]], True, small=True))
    kinds.append(Kind("DELETEs by key of rows whose copies are waited for, each alone", 300, lambda _, most: linked_rows(most, ARCHIVED), lambda count, most: [delete(i) for i in spread(most)[:count]], True, small=True))


def backups(kinds):
    kinds.append(Kind("a backup of rows", 8_000, lambda count, _: plain_rows(count), lambda *_: backup(), bulk=True))
    kinds.append(Kind("a backup of linked rows", 1_000, lambda count, _: linked_rows(count, ARCHIVED), lambda *_: backup(), True, bulk=True))
    kinds.append(Kind("an UPDATE and a backup of 100 rows, in turn", 150, lambda *_: plain_rows(100), lambda count, _: each(lambda i: [update(i % 100)] + backup(), range(count)), bulk=True))


def restores(kinds):
    def history(count):
        return create("t", PLAIN) + [insert(i) for i in range(count)]

    kinds.append(Kind("a restore of rows to a commit", 3_000, lambda count, _: plain_rows(count) + deleted(count), lambda *_: restore("commit 2"), bulk=True))
    kinds.append(Kind("a restore of rows to a backup", 3_000, lambda count, _: plain_rows(count) + backup() + deleted(count), lambda *_: restore("backup 1"), bulk=True))
    kinds.append(Kind("a restore of linked rows to a commit", 1_500, lambda count, _: linked_rows(count) + deleted(count), lambda *_: restore("commit 2"), True, bulk=True))
    kinds.append(Kind("a restore of archived rows to a backup", 1_500, lambda count, _: linked_rows(count, ARCHIVED) + backup() + deleted(count), lambda *_: restore("backup 1"), True, bulk=True))
    kinds.append(Kind("a restore in the midst of commits", 3_000, lambda count, _: history(count), lambda count, _: restore("commit %d" % (count // 2))))
    kinds.append(Kind("an INSERT and a restore over 200 commits, in turn", 100, lambda *_: history(200), lambda count, _: each(lambda i: [insert(1_000 + i)] + restore("commit 100"), range(count))))


def over_more(kinds):
    """The same lines over more of what they do not touch."""
    lines = 250
    most_of_them = (1_000, 2_000, 4_000)

    def mixed(*_):
        made = []
        for i in range(lines):
            made += [insert(i), link(i, "l"), ("@ann write /f/w %s" % CONTENT, "ok"), select(i), update(i), ("@bob read /f/w", "bytes 100")]
            made += rolled_back([("A: UPDATE t SET v = 0 WHERE id = %d" % i, "ok 1"), ("A: DELETE FROM l WHERE id = %d" % i, "ok 1")])
        return made

    def over(name, sizes, before):
        start = lambda count, _: before(count) + create("t", PLAIN) + files(lines) + create("l", LINKED) + [("@ann create /f/w", "ok")]
        kinds.append(Kind("lines of all kinds over %s" % name, sizes, start, mixed, True, more=True))

    def linked_elsewhere(count, columns):
        made = [("@ann create /e/%d %s" % (i, CONTENT), "ok") for i in range(count)] + create("e", columns)
        return made + at_once(filling("e", lambda i: linked(i).replace("/f/", "/e/"), count))

    def commits(count):
        return create("e", PLAIN) + [insert(i, "e") for i in range(count)]

    over("tables", (1, 60, 125, 250), tables)
    over("rows", (8_000, 16_000, 32_000), lambda count: plain_rows(count, "e"))
    over("linked rows", most_of_them, lambda count: linked_elsewhere(count, LINKED))
    over("files", (5_000, 10_000, 20_000), lambda count: [("@ann create /e/%d" % i, "ok") for i in range(count)])
    over("commits", most_of_them, commits)
    over("backups", (50, 100, 200), lambda count: plain_rows(10, "e") + backup() * count)
    over("copies that are waited for", most_of_them, lambda count: linked_elsewhere(count, ARCHIVED))
    over("archived copies", most_of_them, lambda count: linked_elsewhere(count, ARCHIVED) + archive(count))
    nothing_new = lambda *_: archive(0) * 400
    kinds.append(Kind("archives of nothing over linked rows", most_of_them, lambda count, _: linked_elsewhere(count, LINKED), nothing_new, more=True))
    kinds.append(Kind("archives of nothing over archived copies", most_of_them, lambda count, _: linked_elsewhere(count, ARCHIVED) + archive(count), nothing_new, more=True))
    for name, columns, line, before in (("INSERTs", PLAIN, insert, lambda: []), ("linking INSERTs", LINKED, link, lambda: files(400))):
        start = lambda count, _, columns=columns, before=before: tables(count - 1) + before() + create("t", columns)
        few = lambda *_, line=line: [line(i) for i in range(400)]
        kinds.append(Kind("%s among tables, each alone" % name, (1, 60, 125, 250), start, few, name != "INSERTs", small=True, more=True))
        kinds.append(Kind("%s among tables, in one transaction" % name, (1, 60, 125, 250), start, lambda *_, few=few: at_once(few()), name != "INSERTs", more=True))
    kinds.append(Kind("creates among tables", (1, 60, 125, 250), lambda count, _: tables(count), lambda *_: files(2_000), more=True))


def all_kinds():
    kinds = []
    for part in (changes, relinking, refusals, rolling_back, sessions, made_tables, many_at_once, file_commands, archives, backups, restores, over_more):
        part(kinds)
    return kinds


# Runs.

Seen = collections.namedtuple("Seen", "opening peak rest")


class TooLong(Exception):
    pass


def stop_if_long(child, since, most):
    if processor_of(child.pid) - since > most:
        child.kill()
        child.wait()
        raise TooLong


def told_until(read, child, since, most):
    """What the run prints from here to its end. It is taken a lot at a time, so that it costs the run little."""
    told = bytearray()
    while True:
        try:
            part = os.read(read, 1 << 20)
        except BlockingIOError:
            stop_if_long(child, since, most)
            time.sleep(4 * POLL)
            continue
        if not part:
            return told
        told += part


def tested(told, lines):
    """Ends the script where an answer is not the right one."""
    heads = [line.partition(": ") for line in told.decode().splitlines() if line.partition(":")[0].isdigit()]
    for i, (text, answer) in enumerate(lines):
        if i >= len(heads) or heads[i][0] != str(i + 1) or not fits(heads[i][2], answer):
            sys.exit("line %d, `%s`, was not answered `%s` but `%s`" % (i + 1, text[:200], answer, "".join(heads[i]) if i < len(heads) else ""))


def run(program, folder, lines, most):
    """One run of the marks and some lines in a folder: the processor time and the peak of its opening, and the time from there to its end."""
    lines = [(MARK, MARK_TOLD)] * MARKS + lines
    read, write = os.pipe()
    try:
        fcntl.fcntl(write, fcntl.F_SETPIPE_SZ, PAGE)
        os.set_blocking(read, False)
        with tempfile.TemporaryFile(dir=in_memory()) as source:
            source.write("".join(text + "\n" for text, _ in lines).encode())
            source.seek(0)
            child = subprocess.Popen([program, "run"], cwd=folder, stdin=source, stdout=write, stderr=subprocess.PIPE, env=surroundings())
        os.close(write)
        write = None
        while waiting(read) < PAGE - 2 * LEAST_MARK and is_running(child):
            stop_if_long(child, 0, most)
            time.sleep(POLL)
        opening, peak = processor_of(child.pid), peak_so_far(child.pid)
        fcntl.fcntl(read, fcntl.F_SETPIPE_SZ, 1 << 20)
        told = told_until(read, child, opening, most)
        _, status, used = os.wait4(child.pid, 0)
        child.returncode = os.waitstatus_to_exitcode(status)
        if child.returncode != 0:
            sys.exit("the program ended with status %d: %s" % (child.returncode, child.stderr.read().decode()))
        child.stderr.close()
        tested(told, lines)
        return Seen(opening, peak, used.ru_utime + used.ru_stime - opening)
    finally:
        os.close(read)
        if write is not None:
            os.close(write)


def waiting(read):
    """How many bytes stand in a pipe."""
    return int.from_bytes(fcntl.ioctl(read, termios.FIONREAD, b"\0" * 4), sys.byteorder)


def is_running(child):
    """Whether a process has not ended; one that has is not waited for."""
    return os.waitid(os.P_PID, child.pid, os.WEXITED | os.WNOHANG | os.WNOWAIT) is None


class Runs:
    """Runs of lines over copies of a folder in memory, or over none: the least of each figure so far. The copy of the first may be kept."""

    def __init__(self, words, folder, lines, keeps=False):
        self.program, self.most = words.program, words.most
        self.folder, self.lines, self.keeps = folder, lines, keeps
        self.kept, self.least, self.spent = None, None, 0

    def round(self):
        """One run more, where those before it were not long."""
        if self.spent > LONG:
            return
        there = copied(self.folder, in_memory()) if self.folder else new_folder()
        try:
            seen = run(self.program, there, self.lines, self.most)
            if self.keeps and not self.kept:
                self.kept, there = there, None
        finally:
            if there:
                shutil.rmtree(there)
        self.spent += seen.opening + seen.rest
        self.least = Seen(*map(min, seen, self.least or seen))


def new_folder():
    return tempfile.mkdtemp(prefix="datalinks-bench-", dir=in_memory())


def filled(words, lines):
    """A folder that a run of these lines leaves, however long that takes."""
    made = new_folder()
    run(words.program, made, lines, float("inf"))
    return made


def size_of(folder):
    return sum(os.path.getsize(os.path.join(folder, name)) for name in os.listdir(folder))


# The table.

Figures = collections.namedtuple("Figures", "doing opening before areas memory added more")


class Case:
    """A kind at one number: the runs of its lines, over areas whose opening `base` has, and of the openings after them. Cases over the
    same areas share their base, which the first of them runs."""

    def __init__(self, words, base, is_first, lines):
        self.words, self.base, self.is_first = words, base, is_first
        self.done, self.after = Runs(words, base.folder, lines, keeps=True), None
        self.is_stopped = False

    def round(self):
        """One run more of each. An opening that is stopped is the last of its kind's runs."""
        if self.is_first:
            self.base.round()
        self.done.round()
        if self.after is None:
            self.after = Runs(self.words, self.done.kept, [])
        try:
            if not self.is_stopped:
                self.after.round()
        except TooLong:
            self.is_stopped = True

    def figures(self, nothing):
        base, after = self.base.least, self.after.least if not self.is_stopped else Seen(float("inf"), 0, 0)
        areas = size_of(self.done.kept)
        return Figures(
            max(self.done.least.rest - base.rest, 0), max(after.opening - base.opening, 0), base.opening, areas, max(after.peak - nothing.peak, 0),
            areas - size_of(self.base.folder), max(after.peak - base.peak, 0),
        )


def cases_of(words, kind, sizes):
    """The cases of a kind. What is prepared for them is made once where it is the same."""
    cases, base, given = [], None, None
    for count in sizes:
        before = kind.before(count, sizes[-1])
        is_first = before != given
        if is_first:
            given, base = before, Runs(words, filled(words, before), [])
        cases.append(Case(words, base, is_first, kind.lines(count, sizes[-1])))
    return cases


def measured(words, nothing, kind, sizes):
    """The figures of a kind for its numbers, up to one that was stopped. Where they are a little past a bound there are more rounds, since
    other work on the machine makes times longer and never shorter."""
    cases = cases_of(words, kind, sizes)
    left, seen = cases, []
    try:
        for count in range(MORE_ROUNDS * words.rounds):
            if count >= words.rounds and not may_be_noise(judged(kind, sizes, seen)):
                break
            left = round_of(left)
            seen = [case.figures(nothing) for case in left]
        return seen
    finally:
        for case in cases:
            if case.is_first:
                shutil.rmtree(case.base.folder)
            if case.done.kept:
                shutil.rmtree(case.done.kept)


def round_of(cases):
    """One run more of each of some cases, up to one that is stopped; returns those that have figures."""
    for i, case in enumerate(cases):
        try:
            case.round()
        except TooLong:
            return cases[:i]
        if case.is_stopped:
            return cases[:i + 1]
    return cases


def floor_of_opening(figures):
    """Up to where an opening is not told from noise."""
    return FLOOR + NOISE * figures.before


def steps_past(kind, sizes, seen, what):
    """The steps at which a time grows more than it may; a time below the floor counts as it. Each is a text, and how often it is the bound."""
    for smaller, larger, count in zip(seen, seen[1:], sizes[1:]):
        was, now = getattr(smaller, what), getattr(larger, what)
        excess = now / max(was, FLOOR if what == "doing" else floor_of_opening(larger)) / kind.growth()
        if excess > 1:
            yield "%s %d takes %.1f times as long" % ("doing" if what == "doing" else "opening after", count, now / max(was, 1e-6)), excess


def openings_past(kind, sizes, seen):
    """The openings that take more than they may of time or of memory, in the same way."""
    for figures, count in zip(seen, sizes):
        share = figures.opening / max(figures.doing, FLOOR)
        if figures.opening > floor_of_opening(figures) and share > kind.opening():
            yield "opening after %d takes %.2f of doing" % (count, share), share / kind.opening()
        if kind.small and not kind.more and figures.more > max(FLOOR_OF_MEMORY, MEMORY * figures.added):
            a_byte = figures.more / figures.added
            yield "opening after %d takes %.0f bytes a byte" % (count, a_byte), a_byte / MEMORY


def judged(kind, sizes, seen):
    """What of a kind is past its bounds, and how often it is the bound."""
    past = [("stopped before %d" % count, float("inf")) for count in sizes[len(seen):len(seen) + 1]]
    past += steps_past(kind, sizes, seen, "doing")
    if not kind.more:
        past += steps_past(kind, sizes, seen, "opening")
    return past + list(openings_past(kind, sizes, seen))


def may_be_noise(past):
    """Whether something is so little past its bound that more rounds may show it within."""
    return any(excess < NEAR for _, excess in past)


HEAD = "         n   doing s  times  opening s  times  of doing  before s  areas MB  memory MB  a byte  added"


def times_of(smaller, larger):
    """How often one time is another, where that is no noise."""
    return "%.2f" % (larger / smaller) if smaller > 0.002 else "-"


def shown(kind, sizes, seen, past):
    print("%s%s" % (kind.name, " (PAST)" if past else ""))
    for i, (count, figures) in enumerate(zip(sizes, seen)):
        former = seen[i - 1] if i else None
        print("%10d %9.3f %6s %10.3f %6s %9.2f %9.3f %9.2f %10.1f %7.1f %6s" % (
            count, figures.doing, times_of(former.doing, figures.doing) if i else "", figures.opening, times_of(former.opening, figures.opening) if i else "",
            figures.opening / max(figures.doing, FLOOR), figures.before, figures.areas / 1e6, figures.memory / 1e6, figures.memory / figures.areas,
            "%.1f" % (figures.more / figures.added) if figures.added > 10_000 else "-"))
    for what in past:
        print("    PAST: %s" % what)
    sys.stdout.flush()


def sizes_of(kind, scale):
    given = kind.sizes if isinstance(kind.sizes, tuple) else (kind.sizes, 2 * kind.sizes, 4 * kind.sizes)
    return given if kind.more and given[0] == 1 else tuple(max(1, int(n * scale)) for n in given)


def all_of(words, kinds):
    """Measures and prints the kinds, and returns those past a bound with what they are past."""
    nothing = Runs(words, None, [])
    for _ in range(words.rounds):
        nothing.round()
    found = []
    for kind in kinds:
        sizes = sizes_of(kind, words.scale)
        seen = measured(words, nothing.least, kind, sizes)
        past = [text for text, _ in judged(kind, sizes, seen)]
        shown(kind, sizes, seen, past)
        if past:
            found.append((kind.name, past))
    return found


def read_words():
    words = argparse.ArgumentParser(description="How the cost of each kind of line grows.")
    words.add_argument("--program", help="the built program, where it stands elsewhere")
    words.add_argument("--rounds", type=int, default=3)
    words.add_argument("--scale", type=float, default=1)
    words.add_argument("--most", type=float, default=20, help="seconds that a run may take")
    words.add_argument("--list", action="store_true", help="prints the names of the kinds alone")
    words.add_argument("words", nargs="*", help="words that the name of a kind is to have")
    return words.parse_args()


def main():
    words = read_words()
    kinds = [kind for kind in all_kinds() if all(word in kind.name for word in words.words)]
    if words.list:
        print("\n".join(kind.name for kind in kinds))
        return
    words.program = program_of(words)
    print("load of the machine, on %d processors: %.1f" % (os.cpu_count(), os.getloadavg()[0]), flush=True)
    print(HEAD, flush=True)
    start = time.monotonic()
    found = all_of(words, kinds)
    for name, past in found:
        print("PAST %s: %s" % (name, "; ".join(past)))
    print("%.0f s in all" % (time.monotonic() - start))
    print("%d within, %d past" % (len(kinds) - len(found), len(found)))
    sys.exit(1 if found else 0)


if __name__ == "__main__":
    main()
