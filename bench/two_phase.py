#!/usr/bin/env python3
"""A row that links a file, outside of a transaction, beside the nearest that PostgreSQL has: a row in one database and a row in another,
committed together by two-phase commit.

    bench/two_phase.py [--program PATH] [--disk FOLDER] [--runs RUNS] [--count STATEMENTS]

A server of its own is made, run and removed, in a folder on the disk, with its settings as they come but for `max_prepared_transactions`; it
syncs each commit. One client, this script over libpq, has a connection to each database, and does for each row: BEGIN, INSERT and PREPARE
TRANSACTION in both, then COMMIT PREPARED in both. Ours is an INSERT that links a file, as `bench/links.py` has it. Times are real times on
the disk, the best of some runs, both in turn. Where there is no server, no libpq or no disk, it says so.
"""
import argparse
import ctypes
import ctypes.util
import glob
import os
import pwd
import shutil
import subprocess
import tempfile
import time

from links import HELD, create, file_line, link
from sessions import Cost, filled, is_disk, kind_of, program_of

DONE = (1, 2)  # PGRES_COMMAND_OK, PGRES_TUPLES_OK


def programs():
    """The folder of the server's programs; None where there is none."""
    found = sorted(glob.glob("/usr/lib/postgresql/*/bin/initdb")) or [path for path in [shutil.which("initdb")] if path]
    return os.path.dirname(found[-1]) if found else None


class Server:
    """A server with the databases `rows` and `links`."""

    def __init__(self, bin_folder, disk):
        self.bin, self.folder = bin_folder, tempfile.mkdtemp(prefix="datalinks-bench-", dir=disk)
        # it does not run as root
        self.user = pwd.getpwnam("nobody") if os.geteuid() == 0 else None
        if self.user:
            os.chown(self.folder, self.user.pw_uid, self.user.pw_gid)
        self.do("initdb", "-D", f"{self.folder}/data", "-A", "trust", "-U", "bench")
        self.do("pg_ctl", "-D", f"{self.folder}/data", "-w", "-l", f"{self.folder}/log", "-o", f"-c listen_addresses= -c unix_socket_directories={self.folder} -c max_prepared_transactions=4", "start")

    def do(self, name, *words):
        drop = {"user": self.user.pw_uid, "group": self.user.pw_gid, "extra_groups": []} if self.user else {}
        subprocess.run([f"{self.bin}/{name}", *words], check=True, stdin=subprocess.DEVNULL, stdout=subprocess.DEVNULL, cwd=self.folder, **drop)

    def stop(self):
        try:
            self.do("pg_ctl", "-D", f"{self.folder}/data", "-m", "immediate", "stop")
        finally:
            shutil.rmtree(self.folder)


class Connection:
    def __init__(self, pq, server, base):
        self.pq, self.at = pq, pq.PQconnectdb(f"host={server.folder} dbname={base} user=bench".encode())
        if pq.PQstatus(self.at) != 0:
            raise SystemExit(pq.PQerrorMessage(self.at).decode())

    def do(self, text):
        result = self.pq.PQexec(self.at, text.encode())
        status = self.pq.PQresultStatus(result)
        self.pq.PQclear(result)
        if status not in DONE:
            raise SystemExit(f"{text}: {self.pq.PQerrorMessage(self.at).decode()}")

    def close(self):
        self.pq.PQfinish(self.at)


def library():
    name = ctypes.util.find_library("pq")
    if name is None:
        return None
    pq = ctypes.CDLL(name)
    pq.PQconnectdb.restype = pq.PQexec.restype = ctypes.c_void_p
    pq.PQerrorMessage.restype = ctypes.c_char_p
    for call in (pq.PQstatus, pq.PQresultStatus, pq.PQclear, pq.PQfinish, pq.PQerrorMessage):
        call.argtypes = [ctypes.c_void_p]
    pq.PQexec.argtypes = [ctypes.c_void_p, ctypes.c_char_p]
    return pq


def together(bases, first, count):
    """Seconds that so many rows take, each with its link in the other database."""
    rows, links = bases
    start = time.monotonic()
    for i in range(first, first + count):
        rows.do("BEGIN")
        rows.do(f"INSERT INTO films VALUES ({i}, 'http://fs1/f/{i}')")
        links.do("BEGIN")
        links.do(f"INSERT INTO held VALUES ('/f/{i}', {i})")
        links.do(f"PREPARE TRANSACTION 'links {i}'")
        rows.do(f"PREPARE TRANSACTION 'rows {i}'")
        rows.do(f"COMMIT PREPARED 'rows {i}'")
        links.do(f"COMMIT PREPARED 'links {i}'")
    return time.monotonic() - start


def main():
    words = argparse.ArgumentParser(description="A linking row beside two databases of PostgreSQL in one two-phase commit.")
    words.add_argument("--program", help="the built program, where it stands elsewhere")
    words.add_argument("--disk", default="/var/tmp", help="a folder on a disk")
    words.add_argument("--runs", type=int, default=5)
    words.add_argument("--count", type=int, default=200)
    words = words.parse_args()
    pq, bin_folder = library(), programs()
    if pq is None or bin_folder is None or not is_disk(words.disk):
        print("nothing was measured: " + ("no libpq" if pq is None else "no server" if bin_folder is None else f"{words.disk} is {kind_of(words.disk)}"))
        return
    program = program_of(words)
    folder = filled(program, [create("held", HELD)] + [file_line(f"/f/{i}") for i in range(words.count)])
    server = Server(bin_folder, words.disk)
    try:
        first = Connection(pq, server, "postgres")
        for base in ("rows", "links"):
            first.do(f"CREATE DATABASE {base}")
        first.close()
        bases = [Connection(pq, server, base) for base in ("rows", "links")]
        bases[0].do("CREATE TABLE films (id INTEGER PRIMARY KEY, reel TEXT)")
        bases[1].do("CREATE TABLE held (path TEXT PRIMARY KEY, film INTEGER)")
        cost, theirs = Cost(program, folder, words.disk, [link("held", i, f"/f/{i}") for i in range(words.count)]), float("inf")
        for run in range(words.runs):
            cost.round()
            theirs = min(theirs, together(bases, run * words.count, words.count))
        for base in bases:
            base.close()
        ours = cost.seconds()
        print(f"load of the machine, on {os.cpu_count()} processors: {os.getloadavg()[0]:.1f}")
        print(f"a linking INSERT on a disk ({kind_of(words.disk)}): {ours / words.count * 1e6:.0f} us; PostgreSQL, two databases in one two-phase commit: {theirs / words.count * 1e6:.0f} us; {ours / theirs:.2f} times")
    finally:
        server.stop()
        shutil.rmtree(folder)


if __name__ == "__main__":
    main()
