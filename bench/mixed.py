#!/usr/bin/env python3
"""Time and memory of the built program for 10,000 and for 20,000 lines of statements and file lines, and their ratio; and the time of
the statements alone against SQLite's.

What the lines do: a catalogue of films, a table a year with up to 99 rows of a key, a title and a length, so that twice the lines
make twice as many tables of the same size. Of ten lines three put a film in, one changes a film by its key, one reads a film by its key,
one adds up a year's lengths of more than an hour, one joins a year with the countries (a table of 20 rows), two create a
file of 100 bytes, and one reads a file.

The program runs in a folder in memory where the machine has one, and so does SQLite, since the tables of both last: Python's module
over a database in a file, as it comes, one statement at a time, each its own transaction, and all rows fetched. Times are the best and peaks the greatest of three runs, all in this one
invocation. The program's time has its start and the reading of the script in it; SQLite's has not.
"""
import os
import shutil
import sqlite3
import tempfile
import time

from lines import best, build, place

ROWS = 99
CONTENT = "x" * 100
COUNTRIES = 20


def steps_of(lines):
    """The steps of a script of about so many lines: a statement's text, or the word of a file line and the file's number."""
    yield "CREATE TABLE country (id INTEGER PRIMARY KEY, name VARCHAR(20))"
    for i in range(COUNTRIES):
        yield "INSERT INTO country VALUES (%d, 'country %d')" % (i, i)
    film = 0
    for block in range(lines // 10):
        year, row = divmod(film, ROWS)
        if row == 0:
            yield "CREATE TABLE films%d (id INTEGER PRIMARY KEY, title VARCHAR(40) NOT NULL, minutes INTEGER, country INTEGER)" % year
        for i in range(3):
            yield "INSERT INTO films%d VALUES (%d, 'It''s film %d', %d, %d)" % (year, row + i, film + i, 30 + (film + i) % 90, (film + i) % COUNTRIES)
        film += 3
        some = (row + 3) * 7 // 11
        yield "UPDATE films%d SET minutes = minutes + 1 WHERE id = %d" % (year, some)
        yield "SELECT title, minutes FROM films%d WHERE id = %d" % (year, some)
        yield "SELECT COUNT(*), SUM(minutes) FROM films%d WHERE minutes > 60" % year
        yield "SELECT c.name, COUNT(*) FROM films%d f JOIN country c ON f.country = c.id WHERE f.id > %d GROUP BY c.name" % (year, row - 3)
        yield ("create", 2 * block)
        yield ("create", 2 * block + 1)
        yield ("read", block)


def line(step):
    if isinstance(step, str):
        return "A: " + step
    word, number = step
    if word == "create":
        return "@ann create /film/%08d %s" % (number, CONTENT)
    return "@bob read /film/%08d" % number


def by_sqlite(steps):
    """Seconds of the statements in SQLite, the best of three, and how many lines their answers have."""
    least = None
    for _ in range(3):
        folder = tempfile.mkdtemp(prefix="datalinks-bench-", dir=place())
        base = sqlite3.connect(os.path.join(folder, "base"), isolation_level=None)
        rows = 0
        start = time.monotonic()
        for step in steps:
            rows += len(base.execute(step).fetchall())
        seconds = time.monotonic() - start
        base.close()
        shutil.rmtree(folder)
        least = seconds if least is None else min(least, seconds)
    return least, len(steps) + rows


def main():
    build()
    figures = {}
    for lines in (10_000, 20_000):
        steps = list(steps_of(lines))
        alone = [step for step in steps if isinstance(step, str)]
        theirs, told = by_sqlite(alone)
        files = len(steps) - len(alone)
        reads = sum(1 for step in steps if not isinstance(step, str) and step[0] == "read")
        given = "".join(line(step) + "\n" for step in steps).encode()
        seconds, peak = figures[lines] = best(given, told + files + reads)
        ours, _ = best("".join(line(step) + "\n" for step in alone).encode(), told)
        print("%d lines, %d of them statements: %.3f s, peak %d bytes, script %d bytes" % (len(steps), len(alone), seconds, peak, len(given)))
        print("the statements alone: %.3f s, SQLite %.3f s, %.2f times its time" % (ours, theirs, ours / theirs))
    print("twice the lines: %.2f times the time, %.2f times the peak" % (figures[20_000][0] / figures[10_000][0], figures[20_000][1] / figures[10_000][1]))


if __name__ == "__main__":
    main()
