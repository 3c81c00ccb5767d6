#!/usr/bin/env python3
"""Runs the built program where its surroundings fail: closed streams, streams that are areas, a folder that another run has, areas that are no
files of their own, a kill, a full disk, output that nobody takes, streams that do not block, and each end that has a
status of its own. It looks at the status, at what was told, and at what stands in the files of the five areas afterwards.
Prints a line for each, and ends with status 1 where one is not as it should be, else with 77 where a part was left out.

    bench/streams.py [PROGRAM]
"""
import fcntl
import os
import resource
import shutil
import signal
import subprocess
import sys
import tempfile
import time

ROOT = os.path.dirname(os.path.dirname(os.path.abspath(__file__)))
BUILT = os.path.join(ROOT, "crates", "datalinks_main", "out", "datalinks_main")
AREAS = ["datalinks.rows", "datalinks.links", "datalinks.files", "datalinks.archive", "datalinks.backups"]
OPENED = b"\x01\0\0\0\0\0\0\0\x05\x01\0\0\0\x01\0"
FIRST = b"@ann create /a one\n"
READ = b"@ann read /a\n"
READ_TOLD = b"1: bytes 3\n1| one\n"
bad, left_out = [], []


def program():
    if len(sys.argv) > 1:
        return os.path.abspath(sys.argv[1])
    subprocess.run([os.path.join(ROOT, "bin", "datalinks")], stdin=subprocess.DEVNULL, stderr=subprocess.DEVNULL)
    return BUILT


PROGRAM = program()


def check(name, holds, why=""):
    print(f"{'ok ' if holds else 'BAD'}  {name}{'' if holds else '  ' + str(why)}", flush=True)
    if not holds:
        bad.append(name)


def leave_out(name, why):
    print(f"     {name}: left out, since {why}", flush=True)
    left_out.append(name)


def run(folder, script=b"", words=("run",), before=None, **streams):
    """Status, what was told, and what stands on standard error; None for a stream that was given another way."""
    given = dict(stdin=subprocess.PIPE, stdout=subprocess.PIPE, stderr=subprocess.PIPE)
    given.update(streams)
    process = subprocess.Popen([PROGRAM, *words], cwd=folder, preexec_fn=before, **given)
    told, complaint = process.communicate(script if given["stdin"] == subprocess.PIPE else None, timeout=110)
    return process.returncode, told, complaint


def content(folder):
    held = {}
    for name in sorted(os.listdir(folder)):
        with open(os.path.join(folder, name), "rb") as file:
            held[name] = file.read()
    return held


def extends(old, new):
    """Whether there are the five areas and no other file, and each still begins with the records that it had; its last byte is the gate
    that the next record opens."""
    return sorted(new) == sorted(AREAS) and all(new[name].startswith(old[name][:-1]) for name in old)


def with_file(folder):
    status, told, _ = run(folder, FIRST)
    assert (status, told) == (0, b"1: ok\n"), (status, told)
    held = content(folder)
    assert sorted(held) == sorted(AREAS), sorted(held)
    assert held[AREAS[0]] == held[AREAS[1]] == OPENED and held[AREAS[3]] == held[AREAS[4]] == b"\0", held
    return held


def reads_again(folder):
    return run(folder, READ)[:2] == (0, READ_TOLD)


def acknowledged(folder, told):
    """Whether each create that was told is there: line n makes /fn."""
    numbers = [line.split(b":")[0] for line in told.split(b"\n")[:-1] if line.endswith(b": ok")]
    script = b"".join(b"@ann read /f%s\n" % n for n in numbers)
    status, text, complaint = run(folder, script)
    want = b"".join(b"%d: bytes 1\n%d| x\n" % (i + 1, i + 1) for i in range(len(numbers)))
    return status == 0 and text == want


def creates(count):
    return b"".join(b"@ann create /f%d x\n" % (i + 1) for i in range(count))


TABLE = (
    b"A: CREATE TABLE m (id INTEGER PRIMARY KEY, f DATALINK LINKTYPE URL FILE LINK CONTROL INTEGRITY ALL READ PERMISSION FS "
    b"WRITE PERMISSION BLOCKED RECOVERY NO ON UNLINK RESTORE)\n"
)


def links(count):
    """Line 1 makes a table, line 2n makes /fn, and line 2n + 1 links it with a row of its own."""
    pairs = (b"@ann create /f%d x\nA: INSERT INTO m VALUES (%d, DLVALUE('http://fs1/f%d'))\n" % (n, n, n) for n in range(1, count + 1))
    return TABLE + b"".join(pairs)


def linked(folder, told):
    """Whether rows and files are as the lines of `links` that were told leave them, or as one more leaves them: one row each, whose file
    nobody writes, and no more than one file without a row."""
    answers = told.split(b"\n")[:-1]
    made, rows = sum(1 for a in answers[1:] if a.endswith(b": ok")), sum(1 for a in answers[1:] if a.endswith(b": ok 1"))
    status, text, complaint = run(folder, b"A: SELECT COUNT(*) FROM m\n@ann list\n")
    lines = text.split(b"\n")[:-1]
    if not answers or status != 0 or lines[:1] != [b"1: rows 1"]:
        return not answers and status == 0
    kept = int(lines[1].split(b"| ")[1])
    off, on = sum(1 for a in lines[3:] if a.endswith(b" ann off 1")), sum(1 for a in lines[3:] if a.endswith(b" ann on 1"))
    steps = made + rows
    return steps <= off + on + kept <= steps + 1 and off == kept and on <= 1


def closed_streams():
    script = b"@ann create /b two\n" + READ
    for closed in range(8):
        shut = [fd for fd in (0, 1, 2) if closed & (1 << fd)]
        name = "closed: " + (", ".join(map(str, shut)) or "none")
        want = 4 if 0 in shut else 3 if 1 in shut else 0
        with tempfile.TemporaryDirectory() as folder:
            old = with_file(folder)

            def close(shut=shut):
                for fd in shut:
                    os.close(fd)

            status, told, complaint = run(folder, script, before=close)
            new = content(folder)
            check(f"{name}: status {want}", status == want, status)
            check(f"{name}: the areas have what they had", extends(old, new) and reads_again(folder), new)
            if want == 4:
                check(f"{name}: nothing is written", new == old, new)
            if want == 0:
                check(f"{name}: all is told", told == b"1: ok\n2: bytes 3\n2| one\n", told)
            elif 1 not in shut:
                check(f"{name}: nothing is told", told == b"", told)
            if 2 not in shut and want:
                check(f"{name}: the status is on standard error", complaint == b"datalinks: status %d\n" % want, complaint)
    with tempfile.TemporaryDirectory() as folder:

        def close_all():
            for fd in (0, 1, 2):
                os.close(fd)

        status, _, _ = run(folder, before=close_all)
        check("closed: all, in an empty folder: no file is made", status == 4 and content(folder) == {}, (status, content(folder)))


def streams_that_are_areas():
    """Standard output, or standard error, is an area's file, by its name or by a link, or is written behind its end."""
    for stream in ("stdout", "stderr"):
        for area in AREAS:
            for how, flags in (("", os.O_RDWR), (", behind its end", os.O_WRONLY | os.O_APPEND)):
                with tempfile.TemporaryDirectory() as folder:
                    old = with_file(folder)
                    given = os.open(os.path.join(folder, area), flags)
                    status, told, complaint = run(folder, READ, **{stream: given})
                    os.close(given)
                    name = f"{stream} is {area}{how}"
                    check(f"{name}: status 3", status == 3, status)
                    check(f"{name}: the areas are as they were", content(folder) == old and reads_again(folder), content(folder))
                    if stream == "stdout":
                        check(f"{name}: the status is on standard error", complaint == b"datalinks: status 3\n", complaint)
                    else:
                        check(f"{name}: nothing is told", told == b"", told)
    with tempfile.TemporaryDirectory() as folder, tempfile.TemporaryDirectory() as elsewhere:
        with_file(folder)
        os.rename(os.path.join(folder, AREAS[2]), os.path.join(elsewhere, "kept"))
        os.symlink(os.path.join(elsewhere, "kept"), os.path.join(folder, AREAS[2]))
        given = os.open(os.path.join(elsewhere, "kept"), os.O_RDWR)
        status, _, _ = run(folder, READ, stdout=given)
        os.close(given)
        check("stdout is the file that an area's symbolic link leads to", status == 3 and reads_again(folder), status)
    with tempfile.TemporaryDirectory() as folder:
        with_file(folder)
        given = os.open(os.path.join(folder, "told"), os.O_RDWR | os.O_CREAT)
        status, _, _ = run(folder, READ, stdout=given, stderr=given)
        os.close(given)
        with open(os.path.join(folder, "told"), "rb") as file:
            told = file.read()
        check("both are another file of the folder", (status, told) == (0, READ_TOLD), (status, told))


def locked_folder():
    with tempfile.TemporaryDirectory() as folder:
        old = with_file(folder)
        held = os.open(folder, os.O_RDONLY)
        fcntl.flock(held, fcntl.LOCK_EX)
        status, told, complaint = run(folder, creates(3))
        check("a locked folder: status 3, nothing told", (status, told) == (3, b""), (status, told))
        check("a locked folder: nothing written", content(folder) == old)
        os.close(held)
        check("a folder that is free again", reads_again(folder))
    with tempfile.TemporaryDirectory() as folder:
        # the first is held in its telling, by a pipe that has no room
        first = subprocess.Popen([PROGRAM, "run"], cwd=folder, stdin=subprocess.PIPE, stdout=subprocess.PIPE)
        fcntl.fcntl(first.stdout, fcntl.F_SETPIPE_SZ, 4096)
        first.stdin.write(creates(3000))
        first.stdin.close()
        began = first.stdout.readline()
        status, told, _ = run(folder, creates(3000))
        check("two at once: the second has status 3 and tells nothing", (status, told) == (3, b""), (status, told))
        told_first = began + first.stdout.read()
        first.wait()
        check("two at once: the first tells each line", first.returncode == 0 and told_first.count(b": ok\n") == 3000)
        check("two at once: what the first told is there", acknowledged(folder, told_first))


def refused_area(name, change, undo=None):
    """A folder of one run, where something else then stands in the place of an area: the next run is to refuse it."""
    with tempfile.TemporaryDirectory() as folder:
        with_file(folder)
        change(folder)
        old = None if undo else content(folder)
        status, told, complaint = run(folder, creates(3))
        check(f"{name}: status 3, nothing told", (status, told) == (3, b""), (status, told))
        check(f"{name}: its line on standard error", complaint == b"datalinks: status 3\n", complaint)
        if undo:
            undo(folder)
            check(f"{name}: the areas have what they had", reads_again(folder))
        else:
            check(f"{name}: nothing written", content(folder) == old)


def shared_areas():
    def in_place_of(make, old, new):
        def change(folder):
            os.remove(os.path.join(folder, old))
            make(os.path.join(folder, new) if make is os.link else new, os.path.join(folder, old))

        return change

    for old, new in ((AREAS[1], AREAS[0]), (AREAS[3], AREAS[4])):
        refused_area(f"{old} is a second name of {new}", in_place_of(os.link, old, new))
        refused_area(f"{old} is a symbolic link to {new}", in_place_of(os.symlink, old, new))
    with tempfile.TemporaryDirectory() as elsewhere:
        refused_area("an area has a second name in another folder", lambda folder: os.link(os.path.join(folder, AREAS[2]), os.path.join(elsewhere, AREAS[2])))

    def to_fifo(folder):
        os.rename(os.path.join(folder, AREAS[3]), os.path.join(folder, "kept"))
        os.mkfifo(os.path.join(folder, AREAS[3]))

    def from_fifo(folder):
        os.rename(os.path.join(folder, "kept"), os.path.join(folder, AREAS[3]))

    refused_area("an area is a FIFO", to_fifo, from_fifo)
    with tempfile.TemporaryDirectory() as elsewhere:
        image = os.path.join(elsewhere, "image")
        with open(image, "wb") as file:
            file.truncate(1 << 20)
        made = shutil.which("losetup") and subprocess.run(["losetup", "--show", "-f", image], stdout=subprocess.PIPE, stderr=subprocess.DEVNULL)
        if not made or made.returncode:
            leave_out("an area that is a block device", "none can be made here")
            return
        device = made.stdout.decode().strip()
        try:
            refused_area("an area is a block device", in_place_of(os.symlink, AREAS[3], device))
        finally:
            subprocess.run(["losetup", "-d", device])


def folders_of_one_store():
    """Two folders whose areas are symbolic links to the same files. The first run is held in its telling, by a pipe that has no room."""
    with tempfile.TemporaryDirectory() as store, tempfile.TemporaryDirectory() as one, tempfile.TemporaryDirectory() as other:
        for folder in (one, other):
            for area in AREAS:
                os.symlink(os.path.join(store, area), os.path.join(folder, area))
        first = subprocess.Popen([PROGRAM, "run"], cwd=one, stdin=subprocess.PIPE, stdout=subprocess.PIPE)
        fcntl.fcntl(first.stdout, fcntl.F_SETPIPE_SZ, 4096)
        first.stdin.write(creates(3000))
        first.stdin.close()
        began = first.stdout.readline()
        status, told, _ = run(other, creates(3))
        check("two folders of one store: the second run has status 3 and tells nothing", (status, told) == (3, b""), (status, told))
        told_first = began + first.stdout.read()
        first.wait()
        check("two folders of one store: the first run tells each line", first.returncode == 0 and told_first.count(b": ok\n") == 3000)
        check("two folders of one store: what the first told is there for both", acknowledged(one, told_first) and acknowledged(other, told_first))
        check("two folders of one store: the links stay", all(os.path.islink(os.path.join(f, a)) for f in (one, other) for a in AREAS))


def told_until_killed(name, folder, script, lines):
    """The whole lines that a run told which was killed when it had told so many, and was not at its end: the pipe has no room for all."""
    process = subprocess.Popen([PROGRAM, "run"], cwd=folder, stdin=subprocess.PIPE, stdout=subprocess.PIPE)
    fcntl.fcntl(process.stdout, fcntl.F_SETPIPE_SZ, 4096)
    process.stdin.write(script)
    process.stdin.close()
    told = b"".join(process.stdout.readline() for _ in range(lines))
    process.send_signal(signal.SIGKILL)
    told += process.stdout.read()
    process.wait()
    ended = (process.returncode, told.count(b"\n") >= lines)
    check(f"{name}: it was, and had told so many", ended == (-signal.SIGKILL, True), ended)
    return told[: told.rfind(b"\n") + 1]


def killed():
    for lines in (1, 7, 100):
        name = f"killed behind line {lines}"
        with tempfile.TemporaryDirectory() as folder:
            told = told_until_killed(name, folder, creates(3000), lines)
            check(f"{name}: what was told is there", acknowledged(folder, told))
        name += " of links"
        with tempfile.TemporaryDirectory() as folder:
            told = told_until_killed(name, folder, links(1500), lines)
            check(f"{name}: rows and files go together", linked(folder, told))


def full_disk():
    with tempfile.TemporaryDirectory() as folder:

        def limit():
            signal.signal(signal.SIGXFSZ, signal.SIG_IGN)
            resource.setrlimit(resource.RLIMIT_FSIZE, (1000, 1000))

        status, told, _ = run(folder, creates(100), before=limit)
        check("no room in a file: status 3", status == 3, status)
        check("no room in a file: what was told is there", told.count(b": ok\n") > 5 and acknowledged(folder, told), told)
    with tempfile.TemporaryDirectory() as folder:
        mounted = subprocess.run(["mount", "-t", "tmpfs", "-o", "size=64k", "tmpfs", folder], stderr=subprocess.DEVNULL)
        if mounted.returncode:
            leave_out("a full disk", "nothing can be mounted here")
        else:
            try:
                status, told, _ = run(folder, creates(3000))
                check("a full disk: status 3", status == 3, status)
                check("a full disk: what was told is there", told.count(b": ok\n") > 100 and acknowledged(folder, told))
            finally:
                subprocess.run(["umount", folder])


def lost_output():
    with tempfile.TemporaryDirectory() as folder:
        old = with_file(folder)
        with open("/dev/full", "wb") as full:
            status, _, _ = run(folder, READ, stdout=full)
        check("output to a full device: status 3", status == 3, status)
        check("output to a full device: the areas have what they had", extends(old, content(folder)) and reads_again(folder))
        for name, restore in (("ignored", False), ("as the system has it", True)):
            reading, writing = os.pipe()
            os.close(reading)
            status, _, _ = run(folder, READ, stdout=writing, restore_signals=restore)
            os.close(writing)
            check(f"a pipe that nobody reads, SIGPIPE {name}: status 3", status == 3, status)
            check(f"a pipe that nobody reads, SIGPIPE {name}: the areas have what they had", extends(old, content(folder)) and reads_again(folder))


def pipe_that_does_not_block():
    """Both ends of one with room for 4,096 bytes."""
    reading, writing = os.pipe()
    fcntl.fcntl(writing, fcntl.F_SETPIPE_SZ, 4096)
    for end in (reading, writing):
        os.set_blocking(end, False)
    return reading, writing


def no_waiting():
    with tempfile.TemporaryDirectory() as folder:
        reading, writing = pipe_that_does_not_block()
        ended = run(folder, stdin=reading)
        for end in (reading, writing):
            os.close(end)
        check("input that does not block and had nothing yet: status 4", ended == (4, b"", b"datalinks: status 4\n"), ended)
        check("input that does not block and had nothing yet: no file is made", content(folder) == {}, content(folder))
    with tempfile.TemporaryDirectory() as folder:
        reading, writing = pipe_that_does_not_block()
        status, _, complaint = run(folder, creates(3000), stdout=writing)
        os.close(writing)
        with open(reading, "rb") as file:
            told = file.read()
        check("output that does not block and had no room: status 3", (status, complaint) == (3, b"datalinks: status 3\n"), (status, complaint))
        check("output that does not block: what was told is there", told.count(b": ok\n") > 100 and acknowledged(folder, told), told[-100:])


def statuses():
    def ends(name, want, script=b"", words=("run",), area=None, held=None):
        with tempfile.TemporaryDirectory() as folder:
            if area is not None:
                with open(os.path.join(folder, area), "wb") as file:
                    file.write(held)
            status, told, complaint = run(folder, script, words)
            check(f"{name}: status {want}", status == want, status)
            check(f"{name}: nothing told", told == b"", told)
            check(f"{name}: its line on standard error", complaint == b"datalinks: status %d\n" % want, complaint)
            if area is not None:
                check(f"{name}: the area stays", content(folder)[area] == held)
            if want == 2:
                check(f"{name}: no file is made", content(folder) == {})

    ends("no words", 2, words=())
    ends("an unknown word", 2, words=("walk",))
    ends("a word that is no text", 2, words=(b"\xff",))
    with tempfile.TemporaryDirectory() as folder:
        status, told, _ = run(folder, stdin=os.open(folder, os.O_RDONLY))
        check("a script that can't be read: status 4", (status, told) == (4, b""), status)
    for area in AREAS:
        ends(f"{area} is no list of records", 5, FIRST, area=area, held=b"\x01\0\0\0\0\0\0\0\x24\x01")
        ends(f"{area} has a record that is none", 5, FIRST, area=area, held=b"\x01\0\0\0\0\0\0\0\x01\x09\0")
    ends("no room for an opening", 6, FIRST, words=("run", "--area", "14"))
    ends("an area that is full", 6, FIRST, words=("run", "--area", "45"))
    ends("a script that is too long", 7, b"\n" * 67108865)


closed_streams()
streams_that_are_areas()
locked_folder()
shared_areas()
folders_of_one_store()
killed()
full_disk()
lost_output()
no_waiting()
statuses()
print(f"{len(bad)} not as it should be")
sys.exit(1 if bad else 77 if left_out else 0)
