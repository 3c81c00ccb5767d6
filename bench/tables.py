#!/usr/bin/env python3
"""Makes the tables among the scripts of bench/scripts/: each case of two or three lists by each other, with what is told of it by
bench/model.py, which knows nothing of the program. Five of them stand also in the stored run of the program
(crates/datalinks_main/stdin, stdout), behind what is written there by hand, so that the gate runs them.

    bench/tables.py            # makes them again, and tells which changed
    bench/tables.py --check    # only tells; status 1 where one changed

Whoever changes the model looks at each answer that changed.
"""
import pathlib
import re
import sys

import model
from model import Folder, Run
from model_sql import ARCHIVED, UNARCHIVED, Unknown, links_of, mac, with_token

SCRIPTS = pathlib.Path(__file__).resolve().parent / "scripts"
PROGRAM = SCRIPTS.parent.parent / "crates" / "datalinks_main"


def control(options):
    return (
        f"DATALINK LINKTYPE URL FILE LINK CONTROL INTEGRITY ALL READ PERMISSION {options.read} WRITE PERMISSION {options.write} "
        f"RECOVERY {'YES' if options.recovery else 'NO'} ON UNLINK {options.unlink}"
    )


def table(name, options):
    return f"CREATE TABLE {name} (id INTEGER PRIMARY KEY, f {control(options)})"


def dl(path, server="fs1"):
    return f"DLVALUE('http://{server}{path}')"


class Script:
    """A script with the model beside it, so that what comes next can depend on what stands. In its lines L(/p) stands for a datalink of
    the path /p, and F(/p) for another of the same path."""

    def __init__(self, words="run", folder=None):
        self.folder = folder or Folder()
        self.words, self.run = words, Run(self.folder, words)
        self.run.open()
        self.lines, self.told = [], []

    def add(self, *lines):
        for line in lines:
            line = re.sub(r"\bL\((/[^)]*)\)", lambda found: dl(found[1], self.run.server), line)
            line = re.sub(r"\bF\((/[^)]*)\)", rf"DLVALUE('file://{self.run.server}\1', 'URL', 'again')", line)
            self.lines.append(line)
            self.told.append(self.run.told(len(self.lines), line))

    def note(self, text):
        self.add("-- " + text)

    def has_txn(self, name):
        return bool(self.run.sessions.get(name))

    def rows(self, name):
        """The committed rows of a table, datalinks as their paths; None where there is no such table."""
        for held in self.folder.tables:
            if held.name == name:
                return [tuple(getattr(cell, "path", cell) for cell in values) for _, values in sorted(held.rows.items())]
        return None

    def end(self, name):
        """Ends the transaction of a session, if it has one."""
        if self.has_txn(name):
            self.add(f"{name}: COMMIT" if self.run.sessions[name].phase == "decided" else f"{name}: ROLLBACK")

    def text(self):
        return "".join(line + "\n" for line in self.lines)

    def answers(self):
        return "".join(self.told)


# ---- each step of a session in each phase of it

WORK = {
    "nothing done": [],
    "a row put in": ["A: INSERT INTO t VALUES (2)"],
    "a file linked": ["A: INSERT INTO m VALUES (2, L(/b))"],
    "a file let go": ["A: DELETE FROM m WHERE id = 1"],
}
PHASES = {"active": [], "prepared": ["A: !prepare"], "decided": ["A: !prepare", "A: !decide"]}
STEPS = [
    "A: BEGIN",
    "A: COMMIT",
    "A: ROLLBACK",
    "A: !prepare",
    "A: !decide",
    "A: !finish",
    "A: SELECT x FROM t",
    "A: INSERT INTO t VALUES (3)",
    "A: UPDATE t SET x = x + 1",
    "A: DELETE FROM t",
    "A: INSERT INTO m VALUES (3, L(/c))",
    "A: UPDATE m SET f = L(/c)",
    "A: DELETE FROM m",
    "A: DROP TABLE t",
    "A: CREATE TABLE u (x INTEGER)",
    "A: INSERT INTO v VALUES (1)",
]


def as_wanted(script):
    """Brings tables and files back to where each case begins."""
    if script.rows("t") is None:
        script.add("A: CREATE TABLE t (x INTEGER)")
    if script.rows("t") != [(1,)]:
        if script.rows("t"):
            script.add("A: DELETE FROM t")
        script.add("A: INSERT INTO t VALUES (1)")
    if script.rows("m") != [(1, "/a")]:
        if script.rows("m"):
            script.add("A: DELETE FROM m")
        script.add("A: INSERT INTO m VALUES (1, L(/a))")
    if script.rows("u") is not None:
        script.add("A: DROP TABLE u")


def session_steps(script):
    script.note("Each step of a session, in each phase of its transaction, behind several kinds of work.")
    script.add("@ann create /a one", "@ann create /b two", "@ann create /c three", "A: " + table("m", UNARCHIVED[1]))
    cases = [("no transaction", [])]
    for phase, then in PHASES.items():
        cases += [(f"{phase}, {work}", ["A: BEGIN"] + done + then) for work, done in WORK.items() if (phase, work) != ("decided", "nothing done")]
    for case, before in cases:
        for step in STEPS:
            as_wanted(script)
            script.note(f"{case}: {step[3:].split(' (')[0]}")
            script.add(*before, step)
            script.add("B: SELECT x FROM t", "B: SELECT id, f FROM m", "@bob list", "A: !finish")
            script.end("A")


# ---- another's step on a file that a transaction holds, in each phase of that transaction

HOLDS = {
    "takes it": (None, ["A: INSERT INTO m VALUES (1, L(/a))"]),
    "gives it": ("A: INSERT INTO m VALUES (1, L(/a))", ["A: DELETE FROM m WHERE id = 1"]),
    "gives and takes it": ("A: INSERT INTO m VALUES (1, L(/a))", ["A: DELETE FROM m WHERE id = 1", "A: INSERT INTO k VALUES (1, L(/a))"]),
}
HOLDING = {
    "active": [],
    "prepared": ["A: !prepare"],
    "decided": ["A: !prepare", "A: !decide"],
    "finished": ["A: COMMIT"],
    "rolled back": ["A: ROLLBACK"],
    "rolled back behind its vote": ["A: !prepare", "A: ROLLBACK"],
}
SPARED = ["B: BEGIN", "B: INSERT INTO m VALUES (2, L(/spare))"]
# What the other does before the transaction of A begins, and then.
OTHERS = [
    (["B: BEGIN"], ["B: INSERT INTO n VALUES (1, L(/a))"]),
    ([], ["B: BEGIN", "B: INSERT INTO n VALUES (1, L(/a))"]),
    ([], ["B: INSERT INTO n VALUES (1, L(/a))"]),
    (["B: BEGIN"], ["B: INSERT INTO m VALUES (2, L(/a))"]),
    ([], ["B: INSERT INTO m VALUES (2, L(/a))"]),
    ([], ["B: UPDATE n SET f = L(/a) WHERE id = 9"]),
    (["B: BEGIN"], ["B: DELETE FROM m"]),
    ([], ["B: DELETE FROM m"]),
    ([], ["B: UPDATE m SET f = F(/a)"]),
    ([], ["B: DROP TABLE m"]),
    (SPARED, ["B: !prepare"]),
    (SPARED, ["B: COMMIT"]),
    (SPARED + ["B: !prepare"], ["B: !decide"]),
    (SPARED + ["B: !prepare"], ["B: ROLLBACK"]),
    (SPARED + ["B: !prepare", "B: !decide"], ["B: !finish"]),
    ([], ["@ann create /a x"]),
    ([], ["@ann write /a x"]),
    ([], ["@ann rename /a /c"]),
    ([], ["@ann delete /a"]),
]
HELD_TABLES = (("m", UNARCHIVED[1]), ("n", UNARCHIVED[0]), ("k", UNARCHIVED[2]))


def emptied(script):
    """Brings tables and files back to where each case begins: no row but one of `n`, and the files /a, /b and /spare as ann made them."""
    for name, options in HELD_TABLES:
        if script.rows(name) is None:
            script.add("A: " + table(name, options))
        elif name != "n" and script.rows(name):
            script.add(f"A: DELETE FROM {name}")
    if "/c" in script.folder.files:
        script.add("@ann delete /c")
    if script.rows("n") != [(9, "/b")]:
        if script.rows("n"):
            script.add("A: DELETE FROM n")
        script.add("A: INSERT INTO n VALUES (9, L(/b))")
    for path in ("/a", "/spare"):
        if script.folder.files.get(path) != model.File("ann", True, "one", None):
            if path in script.folder.files:
                script.add(f"@ann delete {path}")
            script.add(f"@ann create {path} one")


def held_files(script):
    script.note("A transaction of A takes, gives, or gives and takes the file /a. What another's step is told then, in each phase of A's.")
    script.add("@ann create /b two")
    for hold, (before, claims) in HOLDS.items():
        for phase, then in HOLDING.items():
            for others, steps in OTHERS:
                emptied(script)
                script.note(f"{hold}, {phase}: {steps[-1].split(' (')[0]}" + (f", behind {others[-1][3:].split(' (')[0]}" if others else ""))
                script.add(*([before] if before else []), *others, "A: BEGIN", *claims, *then, *steps)
                for name in "BA":
                    if script.has_txn(name):
                        script.add(f"{name}: COMMIT")
                        script.end(name)
                script.add("A: SELECT id, f FROM m", "A: SELECT id, f FROM n", "@bob list")


# ---- each option by each command by each user, in each phase of a transaction that gives and takes

COMMANDS = [
    "create {p} x",
    "write {p} x",
    "delete {p}",
    "rename {p} {p}-",
    "rename /{user} {p}",
    "chmod {p} off",
    "chmod {p} on",
    "read {p}",
]


def same_as_before(script, path):
    """Undoes what a command did, where it did something, so that the file stands again."""
    if path + "-" in script.folder.files:
        script.add(f"@ann rename {path}- {path}")
    if path not in script.folder.files:
        script.add(f"@ann create {path} one")
    for user in ("ann", "bob"):
        if "/" + user not in script.folder.files:
            script.add(f"@{user} create /{user}")


def tokens_of(script, path):
    """A good, a wrong and an expired token for each link of the path that is committed or being taken."""
    live = [txn for txn in script.run.sessions.values() if txn]
    links = links_of(script.folder.tables) + [link for txn in live for link in txn.gives + txn.takes]
    numbers = sorted({link.number for link in links if link.path == path and link.options.read == "DB"})
    for number in numbers:
        good, old = script.run.moment + 60, script.run.moment - 1
        digits = mac(script.run.key, path, number, good)
        for expiry, given in ((good, digits), (good + 1, digits), (old, mac(script.run.key, path, number, old))):
            yield with_token(path, expiry, given)


def each_command(script, path, is_there, has_tokens):
    for command in COMMANDS:
        for user in ("ann", "bob"):
            script.add(f"@{user} " + command.format(p=path, user=user))
            if is_there:
                same_as_before(script, path)
    for text in tokens_of(script, path) if has_tokens else []:
        script.add(f"@bob read {text}")
    script.add("@bob list")


def option_words(options):
    return "none" if options is None else f"{options.read} {options.write} {options.unlink}"


def files_under_options(script, has_tokens=True):
    script.note("A transaction gives a file that one column links, takes it for another, or both: what each command on it of ann, whose")
    script.note("file it was, and of bob is told in each phase" + (", also with tokens: good, of another expiry, and expired." if has_tokens else "."))
    script.add("@ann create /ann", "@bob create /bob")
    for i, options in enumerate(UNARCHIVED):
        script.add(f"A: {table(f'g{i}', options)}", f"A: {table(f't{i}', options)}")
    for i, giver in enumerate((None,) + UNARCHIVED):
        for j, taker in enumerate((None,) + UNARCHIVED):
            if giver is None and taker is None:
                continue
            path = f"/{i}{j}"
            script.note(f"from {option_words(giver)} to {option_words(taker)}: free")
            script.add(f"@ann create {path} one")
            if giver is None:
                each_command(script, path, True, has_tokens)
            else:
                script.add(f"A: INSERT INTO g{i - 1} VALUES ({j}, L({path}))")
            script.add("A: BEGIN")
            if giver is not None:
                script.add(f"A: DELETE FROM g{i - 1} WHERE id = {j}")
            if taker is not None:
                script.add(f"A: INSERT INTO t{j - 1} VALUES ({i}, L({path}))")
            for phase, step in (("active", None), ("prepared", "A: !prepare"), ("decided", "A: !decide"), ("finished", "A: !finish")):
                script.note(f"from {option_words(giver)} to {option_words(taker)}: {phase}")
                script.add(*([step] if step else []))
                each_command(script, path, phase != "finished" or path in script.folder.files, has_tokens)
            if taker is not None:
                script.add(f"A: DELETE FROM t{j - 1}")
            if path in script.folder.files:
                script.add(f"@{script.folder.files[path].owner} delete {path}")


# ---- files of columns with RECOVERY YES

def copies(script):
    script.note("Copies and backups: what waits for a copy, what a link that ends leaves, and what refuses a backup.")
    script.add("@ann create /reel abc", "@ann create /print one")
    script.add("A: " + table("reels", ARCHIVED[2]), "A: " + table("prints", ARCHIVED[0]))
    script.add("! archive", "A: INSERT INTO reels VALUES (1, L(/reel))", "A: INSERT INTO prints VALUES (1, L(/print))", "! archive", "! archive")
    script.add("A: UPDATE reels SET f = NULL", "@ann read /reel", "A: DELETE FROM prints", "@ann write /print two")
    script.add("A: INSERT INTO prints VALUES (2, L(/print))", "! backup", "! archive", "!  backup")
    for step in ("A: BEGIN", "A: UPDATE prints SET id = 3", "A: UPDATE prints SET f = NULL", "A: !prepare", "A: !decide", "A: !finish"):
        script.add(step, "! archive", "! backup")
    script.add("A: DROP TABLE prints", "A: DROP TABLE reels", "! archive", "@ann list", "@ann delete /print")


# What becomes of a file behind the end of its link, before the link is brought back.
BEHIND = {
    "left": [],
    "deleted": ["@ann delete /p"],
    "of other bytes": ["@ann write /p other"],
    "made anew": ["@ann delete /p", "@bob create /p one"],
    "another's": ["@ann create /p two", "A: INSERT INTO n VALUES (1, L(/p))"],
}


def restores(script, under=UNARCHIVED + ARCHIVED):
    script.note("A link ends, its file is left, deleted, written, made anew or linked by another row, and a restore brings the link back and")
    script.note("takes it away again, archived before or not.")
    script.add("A: " + table("n", UNARCHIVED[0]))
    for options in under:
        script.add("A: " + table("m", options))
        for archived in ([], ["! archive"])[: 1 + options.recovery]:
            for behind, lines in BEHIND.items():
                script.note(f"{option_words(options)}{', RECOVERY YES' if options.recovery else ''}{', archived' if archived else ''}: {behind}")
                before = script.folder.commits
                script.add("@ann create /p one", "A: INSERT INTO m VALUES (1, L(/p))", *archived, "A: DELETE FROM m", *lines)
                script.add(f"! restore commit {before + 1}", "A: SELECT id, f FROM m", "A: SELECT id, f FROM n", "@bob list", "@ann write /p three")
                script.add(f"! restore commit {before}", "A: SELECT COUNT(*) FROM m", "@bob list", "! archive")
                script.add("A: DELETE FROM m", "A: DELETE FROM n")
                script.add(*(f"@{file.owner} delete {path}" for path, file in list(script.folder.files.items()) if path == "/p"))
        script.add("A: DROP TABLE m")
    script.add("A: DROP TABLE n")


# ---- more tables than one transaction can make

def many_tables(script, sessions, each):
    script.note("Sessions beside each other make more tables than the bound lets one make; they are backed up, and taken away.")
    before = script.folder.commits
    script.add(*(f"{name}: BEGIN" for name in sessions))
    for name in sessions:
        script.add(*(f"{name}: CREATE TABLE {name.lower()}{i} (x INTEGER)" for i in range(1, each + 1)))
    last = sessions[-1]
    script.add(f"{last}: INSERT INTO {last.lower()}{each} VALUES (7)", *(f"{name}: COMMIT" for name in sessions))
    script.add("! backup", f"! restore commit {before}", f"{last}: SELECT x FROM {last.lower()}{each}")


def many_restored(script, sessions, each):
    script.note("A restore brings them back as one commit, and again from a backup of what it brought; only CREATE TABLE is refused.")
    first, last = f"{sessions[0].lower()}1", f"{sessions[-1].lower()}{each}"
    backups, commits = len(script.folder.backups), script.folder.commits
    script.add(f"! restore backup {backups}", f"A: SELECT x FROM {last}", "! backup", "A: CREATE TABLE d (x INTEGER)", f"A: INSERT INTO {first} VALUES (1)")
    script.add(f"! restore backup {backups + 1}", f"A: SELECT x FROM {first}", f"A: SELECT x FROM {last}", f"A: DROP TABLE {first}", f"A: SELECT x FROM {first}")
    script.add(f"! restore commit {commits - 2}", f"A: SELECT x FROM {first}", f"A: SELECT x FROM {last}", f"! restore commit {commits}", f"A: SELECT x FROM {first}")


# ---- all of them

TABLES = {
    "each_step_in_each_phase": (session_steps, "run"),
    "another_on_a_held_file": (held_files, "run"),
    "each_option_by_each_command": (files_under_options, "run --now 100 --life 60"),
    "copies_and_backups": (copies, "run"),
    "each_restore": (restores, "run"),
}


# ---- the stored run of the program, which the gate runs

MARK = "-- What stands behind this line, but for the last one, is made by bench/tables.py."


def answered(told):
    """The lines of the answer to each line of a script."""
    answers = {}
    for line in told.split("\n")[:-1]:
        found = re.fullmatch(r"([0-9]+)[:|] (.*)", line, re.DOTALL)
        answers.setdefault(int(found[1]), []).append(found[2])
    return answers


def done(run, line, answer):
    """Has the model do a line that was answered so. Of one that it does not know it is enough that it changed nothing that lasts."""
    drawn = run.drawn
    try:
        if run.line(line) != answer:
            sys.exit(f"the model has another answer than {answer} to {line[:80]}")
    except Unknown:
        if answer[0].startswith("ok"):
            sys.exit(f"the model does not know {line[:80]}")
        if not re.match("refused (bad line|syntax|limit actors)", answer[0]):
            name = line.split(":")[0]
            if run.drawn == drawn:
                run.begin(name)
            run.sessions[name] = None


def stored_run():
    """The stored script of the program, with tables before its last line, which has no newline; and its answers. What stands before
    the tables stays as it is."""
    words = (PROGRAM / "args").read_text().split()
    words.remove("run")
    lines = (PROGRAM / "stdin").read_bytes().decode("latin-1").split("\n")
    answers = answered((PROGRAM / "stdout").read_bytes().decode("latin-1"))
    script = Script(" ".join(["run"] + words))
    head, last = lines[: lines.index(MARK) if MARK in lines else -1], lines[-1]
    for number, line in enumerate(head, 1):
        done(script.run, line.removesuffix("\r"), answers.get(number))
    script.lines = list(head)
    script.told = [told_text(number, answers[number]) for number in range(1, len(head) + 1) if number in answers]
    script.add(MARK)
    files = dict(script.folder.files)
    script.add(*(f"@{file.owner} delete {path}" for path, file in sorted(files.items())))
    script.add(*(f"A: DROP TABLE {held.name}" for held in list(script.folder.tables)))
    session_steps(script)
    script.add("A: DROP TABLE m", "A: DROP TABLE t", "@ann delete /a", "@ann delete /b", "@ann delete /c")
    files_under_options(script, has_tokens=False)
    script.add(*(f"A: DROP TABLE {held.name}" for held in list(script.folder.tables)))
    copies(script)
    restores(script, (UNARCHIVED[1], ARCHIVED[2]))
    many_tables(script, "AB", 129)
    many_restored(script, "AB", 129)
    script.add("@ann create /film/2.mpg x")
    script.add(last)
    return "\n".join(script.lines), script.answers()


def told_text(number, answer):
    return f"{number}: {answer[0]}\n" + "".join(f"{number}| {more}\n" for more in answer[1:])


def put(path, text, is_check):
    """Whether the file had another text. It gets this one, where that is not only asked."""
    raw = text.encode("latin-1")
    if path.exists() and path.read_bytes() == raw:
        return False
    if not is_check:
        path.write_bytes(raw)
    print(f"changed: {path.name}")
    return True


def main():
    is_check = sys.argv[1:] == ["--check"]
    changed = False
    for name, (make, words) in TABLES.items():
        script = Script(words)
        make(script)
        changed |= put(SCRIPTS / f"{name}.txt", script.text(), is_check)
        changed |= put(SCRIPTS / f"{name}.told", script.answers(), is_check)
        if script.words != "run":
            changed |= put(SCRIPTS / f"{name}.words", script.words + "\n", is_check)
    folder = Folder()
    for number, (make, sessions) in enumerate(((many_tables, "ABC"), (many_restored, "ABC")), 1):
        script = Script(folder=folder)
        make(script, sessions, 200)
        changed |= put(SCRIPTS / f"restore/more_tables_than_256.{number}.txt", script.text(), is_check)
        changed |= put(SCRIPTS / f"restore/more_tables_than_256.{number}.told", script.answers(), is_check)
    stdin, stdout = stored_run()
    changed |= put(PROGRAM / "stdin", stdin, is_check)
    changed |= put(PROGRAM / "stdout", stdout, is_check)
    if not changed:
        print("current")
    return 1 if changed and is_check else 0


if __name__ == "__main__":
    sys.exit(main())
