#!/usr/bin/env python3
"""What links cost: a row that links a file beside the calls on the device that it makes, a claim over few links and over many, a read
by a token beside a plain one, and a link that takes its file over beside one that does not.

    bench/links.py [--program PATH] [--disk FOLDER] [--few LINKS] [--many LINKS] [--runs RUNS] [--count STATEMENTS]

What is timed is the built program over folders that earlier runs of it have filled, as `bench/sessions.py` says. The raw calls of a
linking INSERT are those that `strace` shows for the same statements: the same writes, of as many bytes at the same places of the same
areas, and the same syncs, made in the same order by this script over a copy of the same folder. The time of a claim is that of BEGIN, an INSERT
that links a file into a small table, and ROLLBACK, less that of BEGIN and ROLLBACK, while another table holds 1,000 links, or 60,000 (a
folder has at most 65,536 files); beside it stands the same INSERT without link control, and a delete that a link forbids, which asks
what is linked on its path: of one file, and of each file by turns, which finds what is asked for in no cache. Times are the best of some
runs; those in memory are processor times.

It ends with status 1 where a bound is broken: on a disk a linking INSERT takes at most 1.15 times its raw calls, and a claim and a
refused delete of one file over many links at most 1.3 times what they take over few. Where there is no disk or no `strace`, it says so.
"""
import argparse
import collections
import os
import shutil
import time

from sessions import Cost, copied, done, filled, in_memory, is_disk, judge, kind_of, program_of, run_in, traced

OF_RAW = 1.15
GROWTH = 1.3
TUPLES = 1_000
# How long the lines of a measured time are to take together, and how often they are made at most.
ENOUGH = 0.2
MOST = 262_144
CONTROL = "DATALINK LINKTYPE URL FILE LINK CONTROL INTEGRITY ALL READ PERMISSION %s WRITE PERMISSION %s RECOVERY NO ON UNLINK %s"
HELD = CONTROL % ("FS", "FS", "NONE")
TAKEN_OVER = CONTROL % ("DB", "BLOCKED", "RESTORE")
CONTENT = "x" * 100


def create(name, column):
    return "A: CREATE TABLE %s (id INTEGER PRIMARY KEY, f %s)" % (name, column), "ok"


def file_line(path):
    return "@ann create %s %s" % (path, CONTENT), "ok"


def link(table, number, path):
    return "A: INSERT INTO %s VALUES (%d, DLVALUE('http://fs1%s'))" % (table, number, path), "ok 1"


def links_of(table, count):
    """A transaction that links the files /f/0 and so on, many a statement."""
    made = [("A: BEGIN", "ok ..")]
    for first in range(0, count, TUPLES):
        last = min(first + TUPLES, count)
        tuples = ", ".join("(%d, DLVALUE('http://fs1/f/%d'))" % (i, i) for i in range(first, last))
        made.append(("A: INSERT INTO %s VALUES %s" % (table, tuples), "ok %d" % (last - first)))
    return made + [("A: COMMIT", "ok commit ..")]


def cost_of(words, folder, make):
    """Seconds that one of some lines takes in memory: as many are made as take long enough."""
    count = 4
    cost = Cost(words.program, folder, in_memory(), make(count)).round()
    while cost.seconds() < ENOUGH and count < MOST:
        count *= 4
        cost = Cost(words.program, folder, in_memory(), make(count)).round()
    for _ in range(words.runs - 1):
        cost.round()
    return cost.seconds() / count


def raw(folder, place, calls):
    """Seconds of these writes and syncs in a copy of a folder, as `Cost` counts them."""
    clock = time.monotonic if is_disk(place) else time.process_time
    there = copied(folder, place)
    try:
        areas = {area: os.open(os.path.join(there, "datalinks." + area), os.O_RDWR) for area in {call[1] for call in calls}}
        made = [(areas[area], b"\1" * size if call == "write" else None, at) for call, area, size, at in calls]
        start = clock()
        for area, content, at in made:
            if content is None:
                os.fsync(area)
            else:
                os.pwrite(area, content, at)
        took = clock() - start
        for area in areas.values():
            os.close(area)
        return took
    finally:
        shutil.rmtree(there)


def records(calls):
    """The areas of the records that some calls write: each is three writes and a sync, and one write and a sync."""
    words = [call for call, _, _, _ in calls]
    if words != ["write", "write", "write", "sync", "write", "sync"] * (len(calls) // 6):
        return None
    return [calls[i][1] for i in range(0, len(calls), 6)]


def beside_raw_calls(words, folder, count):
    """A linking INSERT outside of a transaction beside its raw calls, for both kinds of link."""
    taken = {}
    for table, name in (("held", "a link that holds its file"), ("over", "a link that takes its file over")):
        lines = [link(table, i, "/f/%d" % i) for i in range(count)]
        there = copied(folder, in_memory())
        told = traced(words.program, there, lines)
        shutil.rmtree(there)
        if told is None:
            print("%s: its calls were not looked at: there is no strace" % name, flush=True)
        else:
            per = collections.Counter(" ".join(records(calls) or ["(%s)" % " ".join(call[0] for call in calls)]) for calls in told[1:])
            for shown, times in per.most_common(3):
                size = sum(call[2] for calls in told[1:] for call in calls) / count
                print("%s: %d of %d INSERTs write the records %s; %.1f calls and %.0f bytes each" % (name, times, count, shown, sum(map(len, told[1:])) / count, size), flush=True)
        for place in (in_memory(), words.disk):
            on_disk = place == words.disk
            if on_disk and not is_disk(place):
                print("  nothing was measured on a disk: %s is %s" % (place, kind_of(place)), flush=True)
                continue
            cost, least = Cost(words.program, folder, place, lines), float("inf")
            for _ in range(words.runs):
                best = cost.round().seconds()
                if told is not None:
                    least = min(least, raw(folder, place, [call for calls in told[1:] for call in calls]))
            taken[table, on_disk] = best / count
            where = "on a disk (%s)" % kind_of(place) if on_disk else "in memory"
            if told is None:
                print("  %s: %.1f us" % (where, best / count * 1e6), flush=True)
                continue
            ratio = best / least
            shown = judge("%s %s, to its raw calls" % (name, where), ratio, OF_RAW) if on_disk else "%.2f times" % ratio
            print("  %s: %.1f us, its raw calls %.1f us: %s" % (where, best / count * 1e6, least / count * 1e6, shown), flush=True)
    for on_disk in (False, True):
        if ("over", on_disk) in taken:
            ratio = taken["over", on_disk] / taken["held", on_disk]
            print("a link that takes its file over, to one that holds it, %s: %.2f times" % ("on a disk" if on_disk else "in memory", ratio), flush=True)


def transactions(inner):
    """BEGIN, a line or none, and ROLLBACK, so many times."""
    def made(count):
        return ([("A: BEGIN", "ok ..")] + inner + [("A: ROLLBACK", "ok")]) * count
    return made


def looks(count):
    """Lines that ask for a path over so many links, by name."""
    return {
        "a claim": transactions([link("small", 1, "/free")]),
        "the same INSERT without link control": transactions([link("plain", 1, "/free")]),
        "a delete that a link forbids": lambda times: [("@ann delete /f/%d" % (count // 2), "refused linked ..")] * times,
        "a delete that a link forbids, of each file by turns": lambda times: [("@ann delete /f/%d" % (i * 7919 % count), "refused linked ..") for i in range(times)],
    }


def claims(words):
    """A claim, and a look at a path, over few links and over many."""
    seen = collections.defaultdict(dict)
    for count in (words.few, words.many):
        start = [create("many", HELD), create("small", HELD), create("plain", "DATALINK"), file_line("/free")]
        folder = filled(words.program, start + [file_line("/f/%d" % i) for i in range(count)] + links_of("many", count))
        try:
            alone = cost_of(words, folder, transactions([]))
            for name, make in looks(count).items():
                cost = cost_of(words, folder, make)
                seen[name][count] = cost if "delete" in name else max(cost - alone, 1e-9)
                print("  over %d links, %s: %.1f us" % (count, name, seen[name][count] * 1e6), flush=True)
        finally:
            shutil.rmtree(folder)
    for name, costs in seen.items():
        ratio = costs[words.many] / costs[words.few]
        shown = "%.2f times" % ratio if "without" in name or "turns" in name else judge("%s over %d links, to %d" % (name, words.many, words.few), ratio, GROWTH)
        print("  %s: %s the time over %d links" % (name, shown, words.many), flush=True)


def reads(words, count):
    """A read by a token of a file that is taken over, beside a read of one that is not linked."""
    start = [create("over", TAKEN_OVER)]
    start += [file_line("/%s/%d" % (place, i)) for place in "fg" for i in range(count)]
    folder = filled(words.program, start + links_of("over", count))
    try:
        asked = run_in(words.program, folder, in_memory(), [("A: SELECT DLURLPATH(f) FROM over", "rows %d" % count)])
        paths = [line.split("| ", 1)[1].strip("'") for line in asked.told if line.startswith("2| ")]
        token = cost_of(words, folder, lambda n: [("@bob read %s" % paths[i % count], "bytes %d" % len(CONTENT)) for i in range(n)])
        plain = cost_of(words, folder, lambda n: [("@bob read /g/%d" % (i % count), "bytes %d" % len(CONTENT)) for i in range(n)])
        print("a read by a token: %.1f us, a plain one: %.1f us: %.2f times" % (token * 1e6, plain * 1e6, token / plain), flush=True)
    finally:
        shutil.rmtree(folder)


def read_words():
    words = argparse.ArgumentParser(description="What links cost.")
    words.add_argument("--program", help="the built program, where it stands elsewhere")
    words.add_argument("--disk", default="/var/tmp", help="a folder on a disk")
    words.add_argument("--few", type=int, default=1_000)
    words.add_argument("--many", type=int, default=60_000)
    words.add_argument("--runs", type=int, default=5)
    words.add_argument("--count", type=int, default=200)
    return words.parse_args()


def main():
    words = read_words()
    words.program = program_of(words)
    print("load of the machine, on %d processors: %.1f" % (os.cpu_count(), os.getloadavg()[0]), flush=True)
    start = [create("held", HELD), create("over", TAKEN_OVER)]
    folder = filled(words.program, start + [file_line("/f/%d" % i) for i in range(words.count)])
    try:
        beside_raw_calls(words, folder, words.count)
    finally:
        shutil.rmtree(folder)
    print("claims, in memory:", flush=True)
    claims(words)
    reads(words, words.count)
    done()


if __name__ == "__main__":
    main()
