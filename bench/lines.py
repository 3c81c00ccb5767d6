#!/usr/bin/env python3
"""Time and memory of the built program for 10,000 and for 20,000 lines, and their ratio.

Half of the lines create a file of 100 bytes, half read one made before. The program runs in a folder in memory where
the machine has one. The time is the best and the peak the greatest of three runs, all in this one invocation.
"""
import os
import pathlib
import shutil
import subprocess
import sys
import tempfile
import time

ROOT = pathlib.Path(__file__).resolve().parent.parent
COMMAND = ROOT / "bin" / "datalinks"
PROGRAM = ROOT / "crates" / "datalinks_main" / "out" / "datalinks_main"
CONTENT = 100


def surroundings():
    """The environment in which `bin/datalinks` starts the program: what it asks of the C library."""
    return {"GLIBC_TUNABLES": "glibc.malloc.hugetlb=1:glibc.malloc.tcache_count=127", **os.environ}


def script(lines):
    """The bytes of a script of so many lines, and of the files that it makes."""
    text = []
    for i in range(lines // 2):
        text.append("@ann create /file/%08d %s" % (i, "x" * CONTENT))
        text.append("@bob read /file/%08d" % (i // 2))
    return ("\n".join(text) + "\n").encode(), CONTENT * (lines // 2)


def peak_so_far(pid):
    """The most bytes that the process has had in memory, or 0 where it has gone."""
    try:
        with open("/proc/%d/status" % pid) as status:
            for line in status:
                if line.startswith("VmHWM:"):
                    return int(line.split()[1]) * 1024
    except OSError:
        pass
    return 0


def place():
    """A folder in memory, where the machine has one."""
    return "/dev/shm" if os.path.isdir("/dev/shm") else None


def measured(given, answers):
    """Seconds and peak bytes of one run of a script that tells so many lines."""
    folder = tempfile.mkdtemp(prefix="datalinks-bench-", dir=place())
    try:
        with open(os.path.join(folder, "script"), "wb") as out:
            out.write(given)
        with open(os.path.join(folder, "script"), "rb") as source, open(os.path.join(folder, "told"), "wb") as told:
            start = time.monotonic()
            child = subprocess.Popen([str(PROGRAM), "run"], cwd=folder, stdin=source, stdout=told, env=surroundings())
            peak = 0
            while child.poll() is None:
                peak = max(peak, peak_so_far(child.pid))
                time.sleep(0.0005)
            seconds = time.monotonic() - start
        with open(os.path.join(folder, "told"), "rb") as told:
            count = told.read().count(b"\n")
        if child.returncode != 0 or count != answers:
            sys.exit("the program ended with status %d and told %d lines" % (child.returncode, count))
        return seconds, peak
    finally:
        shutil.rmtree(folder)


def best(given, answers):
    """The least seconds and the most peak bytes of three runs."""
    runs = [measured(given, answers) for _ in range(3)]
    return min(r[0] for r in runs), max(r[1] for r in runs)


def build():
    """Builds the program where it is not built; with no words it does nothing."""
    subprocess.run([str(COMMAND)], stdin=subprocess.DEVNULL, stderr=subprocess.DEVNULL, check=False)


def main():
    build()
    figures = {}
    for lines in (10_000, 20_000):
        given, made = script(lines)
        seconds, peak = figures[lines] = best(given, lines // 2 * 3)
        size = len(given) + made
        print("%d lines: %.3f s, peak %d bytes, script and files %d bytes, peak over these %.2f" % (lines, seconds, peak, size, peak / size))
    print("twice the lines: %.2f times the time, %.2f times the peak" % (figures[20_000][0] / figures[10_000][0], figures[20_000][1] / figures[10_000][1]))


if __name__ == "__main__":
    main()
