#!/usr/bin/env python3
"""Runs bin/datalinks over a stub that stands for `rt`, in a copy of the repository's skeleton: when it builds, what it ends with and
leaves, and what the program gets. Ends with `N passed, M failed`: with status 1 where one failed, else with 77 where a part was left out.

    bench/building.py [SCRIPT]      # another script in the place of bin/datalinks

Each crate of the skeleton has one source, and the program is a stub too: it tells which build it is of, its folder, its words, its tunables
and its standard input. Nothing is proved, and the repository is only read.
"""
import contextlib
import fcntl
import os
import pathlib
import select
import shutil
import signal
import subprocess
import sys
import tempfile
import termios
import time

from scripts import ROOT, check, counts

NAME = "datalinks_main"
OUT = f"crates/{NAME}/out"
SCRIPT = pathlib.Path(sys.argv[1] if len(sys.argv) > 1 else ROOT / "bin" / "datalinks").resolve()
INTERRUPTS = (signal.SIGINT, signal.SIGTERM, signal.SIGHUP)
SECONDS = 60
NOBODY = 65534
TUNABLES = "glibc.malloc.hugetlb=1:glibc.malloc.tcache_count=127"
# What bin/datalinks calls, and the stubs with it, but for `flock`.
COMMANDS = "awk bash cat chmod cp dirname env find grep mkdir mktemp mv readlink rm sh sleep sync tail touch wc".split()
left_out = []

# Notes each call, what stands in its folder and on its standard input; builds a program, where it is not told another one, once it is not held.
RT = f"""#!/bin/sh
echo "$$ $*" >>"$NOTES/calls"
find . -type f >"$NOTES/room"
cat >"$NOTES/read"
echo "rt: dl_base proved"
while [ -e "$NOTES/hold" ]; do sleep 0.02; done
mkdir -p {OUT}
case "$(cat "$NOTES/makes")" in
whole) (echo "#!/bin/sh"; echo "build=$(wc -l <"$NOTES/calls")"; cat "$NOTES/program") >{OUT}/{NAME} && chmod +x {OUT}/{NAME} ;;
empty) : >{OUT}/{NAME} && chmod +x {OUT}/{NAME} ;;
text) echo "exit 0" >{OUT}/{NAME} ;;
esac
exit "$(cat "$NOTES/status")"
"""
PROGRAM = """
echo "build $build in $(pwd)"
for word; do printf '<%s>' "$word"; done
echo
echo "$GLIBC_TUNABLES"
cat
exit "${ENDS-0}"
"""
# Notes whether the program has its name already, and whether what is synced is whole.
SYNC = f"""#!/bin/sh
[ -e "$ROOT_OF_COPY/{OUT}/{NAME}" ] && named=named || named=nameless
cmp -s "$1" "$(cat "$NOTES/room_of_build")/{OUT}/{NAME}" && whole=whole || whole=half
echo "$named $whole" >>"$NOTES/syncs"
while [ -e "$NOTES/hold_sync" ]; do sleep 0.02; done
exit "$(cat "$NOTES/sync_status")"
"""


def crates_of(text):
    """Each crate of a crates.txt, and what it stands on there."""
    lines = (line.partition(":") for line in text.splitlines() if line[:1].islower())
    return {name.strip(): rest.split() for name, _, rest in lines}


def needed(crates, name):
    """The crates that one stands on, and itself."""
    return {name}.union(*(needed(crates, below) for below in crates[name] if below in crates))


ALL_CRATES = (ROOT / "crates.txt").read_text()
# Most parts have these crates alone, so that the looks at all of them don't take minutes: of the last one the program has no need.
FEW_CRATES = f"dl_base:\ndl_host: dl_base\n{NAME}: dl_base dl_host\nsql_echo: dl_base\n"


def wait_until(holds, process=None):
    """Whether something comes to hold, before this process ends."""
    end = time.monotonic() + SECONDS
    while not holds() and time.monotonic() < end and (process is None or process.poll() is None):
        time.sleep(0.02)
    return holds()


def is_running(number):
    """Whether there is a process of this number, which is no child of this one."""
    try:
        os.kill(number, 0)
    except ProcessLookupError:
        return False
    return True


def line_of(stream):
    """The next line of a stream without a buffer, where one comes in time."""
    return stream.readline() if select.select([stream], [], [], SECONDS)[0] else b""


def send(process, signal_sent, to_all):
    """To the call alone, or, as a terminal does, to all that it started; to nobody where it has ended."""
    if process.poll() is None:
        (os.killpg if to_all else os.kill)(process.pid, signal_sent)


def as_a_terminal_starts_it():
    """Whoever started this script may have had it ignore signals."""
    for it in INTERRUPTS:
        signal.signal(it, signal.SIG_DFL)


class Checkout:
    """A copy of the skeleton, the stubs, what these note, and folders for what is temporary and to call from."""

    def __init__(self, room, crates):
        self.root, self.tmp, self.notes, self.here, self.path = (room / name for name in ("a copy", "for a while", "notes", "from here", "path"))
        for folder in (self.root / "bin", self.tmp, self.notes, self.here, self.path):
            folder.mkdir(parents=True)
        shutil.copy(ROOT / "HANDLES", self.root)
        self.write(self.root / "crates.txt", crates)
        self.script = self.root / "bin" / "datalinks"
        shutil.copy(SCRIPT, self.script)
        for crate in crates_of(crates):
            for part in ("src/lib.rt", "must-fail/a.edit", "wrong/b.edit", "out/kept"):
                self.write(self.root / "crates" / crate / part, crate)
        shutil.rmtree(self.root / OUT)
        self.program = self.root / OUT / NAME
        self.stub("rt", RT)
        self.tell(program=PROGRAM, makes="whole", status="0", sync_status="0")
        self.env = {name: value for name, value in os.environ.items() if name != "GLIBC_TUNABLES"}
        self.env.update(PATH=f"{self.path}:{os.environ['PATH']}", TMPDIR=str(self.tmp), NOTES=str(self.notes), ROOT_OF_COPY=str(self.root))
        self.complaint = ""

    def write(self, path, text):
        path.parent.mkdir(parents=True, exist_ok=True)
        path.write_text(text)

    def place(self, text, mode=0o755, seconds=None):
        """Puts a program where the built one stands, of this time or of now."""
        self.write(self.program, text)
        self.program.chmod(mode)
        os.utime(self.program, None if seconds is None else (seconds, seconds))

    def stub(self, name, text):
        self.write(self.path / name, text)
        (self.path / name).chmod(0o755)

    def tell(self, **said):
        for name, text in said.items():
            self.write(self.notes / name, text)

    def hold(self, name="hold"):
        self.tell(**{name: ""})

    def go(self, name="hold"):
        (self.notes / name).unlink()

    def noted(self, name):
        path = self.notes / name
        return path.read_text().splitlines() if path.exists() else []

    def builds(self):
        return len(self.noted("calls"))

    def begins(self, process, count=1):
        """Whether so many builds begin before this call ends."""
        return wait_until(lambda: self.builds() >= count, process)

    def left(self):
        """What stands in the folder for what is temporary, and where the program is to stand."""
        return [sorted(it.name for it in folder.iterdir()) if folder.exists() else [] for folder in (self.tmp, self.program.parent)]

    def start(self, *words, ends="0", **others):
        how = dict(cwd=self.here, env={**self.env, "ENDS": ends}, stdin=subprocess.DEVNULL, stdout=subprocess.PIPE, stderr=subprocess.PIPE)
        # without buffers, so that a line can be read before `communicate` reads the rest
        how.update(start_new_session=True, preexec_fn=as_a_terminal_starts_it, bufsize=0)
        how.update(others)
        return subprocess.Popen([self.script, *words], **how)

    def end(self, process, text=None):
        """Status and what is told of a call; what it complained stands in `complaint` then."""
        try:
            told, complaint = process.communicate(None if text is None else text.encode(), timeout=SECONDS)
        except subprocess.TimeoutExpired:
            os.killpg(process.pid, signal.SIGKILL)
            process.communicate()
            return "goes on", ""
        self.complaint = (complaint or b"").decode()
        return process.returncode, told.decode()

    def call(self, *words, **others):
        return self.end(self.start(*words, **others))

    def ran(self, build, *words, status=0, text="", tunables=TUNABLES):
        """How a call ends that runs the program of this build."""
        return status, f"build {build} in {self.here}\n" + "".join(f"<{word}>" for word in words) + f"\n{tunables}\n{text}"


@contextlib.contextmanager
def checkout(crates=FEW_CRATES):
    with tempfile.TemporaryDirectory() as room:
        os.chmod(room, 0o755)
        yield Checkout(pathlib.Path(room), crates)


NOTHING = [[], []]
BUILT = [[], [NAME]]


# ---- what is built, and when

# The first three words of each line, where there is no program yet.
FIRST_SAID = ["proving and building", "unproved, it answers"]


def says(complaint):
    """The first three words of each line on standard error."""
    return [" ".join(line.split()[1:4]) for line in complaint.splitlines()]


def built_once():
    crates = crates_of(ALL_CRATES)
    with checkout(ALL_CRATES) as it:
        check("a first call", (it.call("run"), it.builds(), it.left()), (it.ran(1, "run"), 1, BUILT))
        check("it says that it builds, and how to look first", says(it.complaint), FIRST_SAID)
        check("what the kit is asked for", [call.partition(" ")[2] for call in it.noted("calls")], ["ci"])
        wanted = ["./HANDLES", "./crates.txt"] + [f"./crates/{crate}/src/lib.rt" for crate in needed(crates, NAME)]
        check("what the kit finds", (sorted(it.noted("room")), it.noted("read")), (sorted(wanted), []))
        check("a second call", (it.call("run"), it.builds(), it.left(), it.complaint), (it.ran(1, "run"), 1, BUILT, ""))


def built_anew():
    below, beside = "crates/dl_base", "crates/sql_echo"
    newer = ["crates.txt", "HANDLES", f"crates/{NAME}/src/lib.rt", f"{below}/src/lib.rt", f"{below}/proofs/deep/New.antt"]
    no_matter = ["README.md", f"{beside}/src/lib.rt", f"{below}/out/kept", f"{below}/must-fail/a.edit", f"{below}/wrong/b.edit", f"{OUT}/{NAME}.1"]
    with checkout() as it:
        it.call("run")
        for path in newer + no_matter:
            builds = it.builds() + (path in newer)
            it.write(it.root / path, (it.root / path).read_text() if (it.root / path).exists() else "new")
            check(f"{path} is newer", (it.call("run"), it.builds()), (it.ran(builds, "run"), builds))
            check(f"{path} is newer: what it says", says(it.complaint), ["proving and building"] if path in newer else [])
        for name, change in (
            ("no program", lambda: it.program.unlink(missing_ok=True)),
            ("an empty program", lambda: it.place("")),
            ("a program that can't be started", lambda: it.place("exit 0", mode=0o644)),
            ("a program that is older than all sources", lambda: it.place("exit 0", seconds=0)),
        ):
            builds = it.builds() + 1
            change()
            check(name, (it.call("run"), it.builds()), (it.ran(builds, "run"), builds))


def changed_meanwhile():
    with checkout() as it:
        it.hold()
        first = it.start("run")
        it.begins(first)
        it.write(it.root / "crates/dl_base/src/lib.rt", "changed")
        it.go()
        check("a source changes while it is built", it.end(first), it.ran(1, "run"))
        check("a source changed while it was built", it.call("run"), it.ran(2, "run"))


def synced():
    """A program gets its name when it is whole and synced."""
    with checkout() as it:
        it.stub("sync", SYNC)
        it.hold()
        first = it.start("run")
        it.begins(first)
        it.tell(room_of_build=str(next(it.tmp.glob("datalinks-room.*"), "")))
        it.go()
        check("a program is synced before it has its name", (it.end(first), it.noted("syncs")), (it.ran(1, "run"), ["nameless whole"]))
        it.program.unlink(missing_ok=True)
        it.tell(sync_status="1")
        status, told = it.call("run")
        check("a program that can't be synced", (status, told, it.left()[1]), (1, "", []))


# ---- calls that don't build


def not_built():
    for name, makes, status in (
        ("the kit refuses", "nothing", "1"),
        ("the kit refuses, and a program is there", "whole", "1"),
        ("the kit makes no program", "nothing", "0"),
        ("the kit makes an empty program", "empty", "0"),
        ("the kit makes one that can't be started", "text", "0"),
    ):
        with checkout() as it:
            it.place("exit 0", seconds=0)
            it.tell(makes=makes, status=status)
            ended = it.call("run")
            logs, programs = it.left()
            check(f"{name}: status 1, and no program", (ended, programs), ((1, ""), []))
            check(f"{name}: the log alone stays", [log.partition(".")[0] for log in logs], ["datalinks-build"])
            said = ["", *it.complaint.splitlines()]
            named = said[-1].endswith(f"{it.tmp}/{logs[0]}" if logs else "?")
            check(f"{name}: the log is shown and named", (said[-2:-1], named), (["rt: dl_base proved"], True))
            it.tell(makes="whole", status="0")
            check(f"{name}: the next call builds", it.call("run"), it.ran(2, "run"))
    with checkout() as it:
        (it.path / "rt").unlink()
        ended = it.call("run", env={**it.env, "PATH": with_commands(it)})
        check("there is no kit", (ended, it.left()[1], "rt: not found" in it.complaint), ((1, ""), [], True))


def with_commands(it):
    """A folder of links to the commands, which is to be the whole PATH, behind that of the stubs."""
    commands = it.path.parent / "commands"
    commands.mkdir()
    for name in COMMANDS:
        if found := shutil.which(name):
            (commands / name).symlink_to(found)
    return f"{it.path}:{commands}"


def interrupted():
    """By a signal to the call alone, and to all that it started, as a terminal sends it."""
    for sent in INTERRUPTS:
        for whom, to_all in (("the call", False), ("all", True)):
            name = f"{sent.name} to {whom}"
            with checkout() as it:
                it.hold()
                first = it.start("run")
                check(f"{name}: the build began", it.begins(first), True)
                send(first, sent, to_all)
                check(f"{name}: status 130, no room, no log, no program", (it.end(first), it.left()), ((130, ""), NOTHING))
                check(f"{name}: the kit has ended", wait_until(lambda: not any(is_running(int(call.split()[0])) for call in it.noted("calls"))), True)
                it.go()
                check(f"{name}: the next call builds", (it.call("run"), it.left()), (it.ran(2, "run"), BUILT))
    for sent in (*INTERRUPTS, signal.SIGKILL):
        name = f"{sent.name} before the program has its name"
        with checkout() as it:
            it.stub("sync", SYNC)
            it.hold("hold_sync")
            first = it.start("run")
            check(f"{name}: there is another", wait_until(lambda: it.noted("syncs") and it.left()[1] not in ([], [NAME]), first), True)
            send(first, sent, True)
            if sent == signal.SIGKILL:
                check(f"{name}: it is killed", it.end(first), (-signal.SIGKILL, ""))
            else:
                check(f"{name}: status 130, no room, no log, no program", (it.end(first), it.left()), ((130, ""), NOTHING))
            it.go("hold_sync")
            check(f"{name}: the next call builds", it.call("run"), it.ran(2, "run"))


def on_a_terminal():
    """A build tells there how far it is. Where the terminal goes away, the system sends HUP."""

    def starts_it():
        as_a_terminal_starts_it()
        fcntl.ioctl(2, termios.TIOCSCTTY, 0)

    for name, goes_away in (("a terminal", False), ("a terminal that goes away", True)):
        with checkout() as it:
            it.hold()
            ours, theirs = os.openpty()
            os.set_blocking(ours, False)
            shown = bytearray()

            def shows(text):
                with contextlib.suppress(OSError):
                    shown.extend(os.read(ours, 1000))
                return text in shown

            process = it.start("run", stderr=theirs, preexec_fn=starts_it)
            os.close(theirs)
            check(f"{name}: how far the build is", wait_until(lambda: shows(b"\rdatalinks: 1 of 3 crates"), process), True)
            if goes_away:
                os.close(ours)
                check(f"{name}: status 130, no room, no log, no program", (it.end(process), it.left()), ((130, ""), NOTHING))
            else:
                it.go()
                check(f"{name}: the line goes", wait_until(lambda: shows(b"\r\33[K")), True)
                check(f"{name}: the program runs", (it.end(process), it.left()), (it.ran(1, "run"), BUILT))
                os.close(ours)


def can_not_be_written():
    """As one who may not write the checkout: root is nobody for it."""
    who = {"user": NOBODY, "group": NOBODY, "extra_groups": []} if os.geteuid() == 0 else {}
    for name, older in (("no program", False), ("an older program", True)):
        with checkout() as it:
            if older:
                it.place("exit 0", seconds=0)
            for folder in (it.tmp, it.notes):
                folder.chmod(0o777)
            for folder in (it.program.parent, it.program.parent.parent):
                if folder.exists():
                    folder.chmod(0o555)
            try:
                ended = it.call("run", **who)
            except PermissionError:
                left_out.append("a checkout that can't be written: root can be nobody else here")
                print(left_out[-1])
                return
            left = [[], [NAME] if older else []]
            check(f"a checkout that can't be written, {name}: nothing is made or removed", (ended, it.builds(), it.left()), ((1, ""), 0, left))
            check(f"a checkout that can't be written, {name}: it says so", f"{OUT} can't be written" in it.complaint, True)
            if older:
                it.place("#!/bin/sh\nbuild=0" + PROGRAM)
                check("a checkout that can't be written, a program: it runs", (it.call("run", **who), it.builds()), (it.ran(0, "run"), 0))
            for folder in (it.program.parent.parent, it.program.parent):
                if folder.exists():
                    folder.chmod(0o755)


# ---- two at once


def waiting(it):
    """A call that builds, and one behind it that waits; whether it said so, and went on waiting."""
    it.hold()
    first = it.start("run")
    it.begins(first)
    second = it.start("again")
    said = line_of(second.stderr)
    return first, second, b"waits" in said and second.poll() is None and it.builds() == 1


def two_at_once():
    if shutil.which("flock") is None:
        left_out.append("two at once: there is no flock")
        print(left_out[-1])
        return
    with checkout() as it:
        first, second, waits = waiting(it)
        it.go()
        check("two at once: the second says that it waits", waits, True)
        check("two at once: they build once", (it.end(first), it.end(second), it.builds(), it.left()), (it.ran(1, "run"), it.ran(1, "again"), 1, BUILT))
        check("two at once: the second says nothing else", it.complaint, "")
    with checkout() as it:
        first, second, _ = waiting(it)
        it.tell(status="1")
        it.go()
        check("two at once, and the first can't build: the second tries", (it.end(first), it.end(second), it.builds()), ((1, ""), (1, ""), 2))
    for sent in INTERRUPTS:
        for whom, to_all in (("the call", False), ("all", True)):
            name = f"two at once, {sent.name} to {whom}"
            with checkout() as it:
                first, second, _ = waiting(it)
                send(second, sent, to_all)
                check(f"{name} of the second: it ends", it.end(second), (130, ""))
                it.go()
                check(f"{name} of the second: the first builds", (it.end(first), it.builds(), it.left()), (it.ran(1, "run"), 1, BUILT))
    for name, sent, to_all in (("is interrupted", signal.SIGINT, True), ("is killed, and its kit goes on", signal.SIGKILL, False)):
        with checkout() as it:
            first, second, _ = waiting(it)
            send(first, sent, to_all)
            check(f"two at once, the first {name}: the second builds", it.begins(second, 2), True)
            with contextlib.suppress(ProcessLookupError):
                os.killpg(first.pid, signal.SIGKILL)
            it.go()
            check(f"two at once, the first {name}: the second runs", it.end(second), it.ran(2, "again"))
            it.end(first)


def without_locks():
    with checkout() as it:
        it.env["PATH"] = with_commands(it)
        check("no flock: a call builds", (it.call("run"), it.builds(), it.left()), (it.ran(1, "run"), 1, BUILT))
        it.program.unlink(missing_ok=True)
        it.hold()
        both = it.start("run"), it.start("run")
        it.begins(both[1], 3)
        it.go()
        check("no flock: two at once end well", ([it.end(one)[0] for one in both], it.builds(), it.left()), ([0, 0], 3, BUILT))
    with checkout() as it:
        it.stub("flock", "#!/bin/sh\nexit 65\n")
        check("no locks on the file system: a call builds", (it.call("run"), it.builds(), says(it.complaint)), (it.ran(1, "run"), 1, FIRST_SAID))


def free_while_it_runs():
    with checkout() as it:
        process = it.start("run", stdin=subprocess.PIPE)
        told = line_of(process.stdout)
        with open(it.root / "crates.txt") as file:
            try:
                fcntl.flock(file, fcntl.LOCK_EX | fcntl.LOCK_NB)
                is_free = True
            except BlockingIOError:
                is_free = False
        check("while the program runs others may build", (told != b"", is_free), (True, True))
        it.end(process, "")


# ---- what the program gets


def given():
    words = ["run", "", "two words", "*", "$HOME", '"', "a\nb", "--", "-x", "\\"]
    for name, before in (("built in this call", False), ("built before", True)):
        with checkout() as it:
            link = it.here / "a link"
            link.symlink_to(it.script)
            it.script = link
            if before:
                it.call("run")
            script = "@ann create /a one\n  last line without end"
            process = it.start(*words, ends="42", stdin=subprocess.PIPE)
            check(f"{name}: folder, words, standard input, status", it.end(process, script), it.ran(1, *words, status=42, text=script))
            tunables = "glibc.malloc.tcache_count=9"
            check(f"{name}: a caller's own tunables", it.call("run", env={**it.env, "GLIBC_TUNABLES": tunables}), it.ran(1, "run", tunables=tunables))
            process = it.start("run", stdin=subprocess.PIPE)
            line_of(process.stdout)
            words_of_it = pathlib.Path(f"/proc/{process.pid}/cmdline").read_bytes().split(b"\0")
            check(f"{name}: the process of the call is the program's", str(it.program).encode() in words_of_it, True)
            send(process, signal.SIGTERM, False)
            check(f"{name}: a signal ends it", it.end(process, "")[0], -signal.SIGTERM)


def main():
    parts = (built_once, built_anew, changed_meanwhile, synced, not_built, interrupted, on_a_terminal, can_not_be_written)
    for part in (*parts, two_at_once, without_locks, free_while_it_runs, given):
        part()
    print(f"{counts['passed']} passed, {counts['failed']} failed")
    return 1 if counts["failed"] else 77 if left_out else 0


if __name__ == "__main__":
    sys.exit(main())
