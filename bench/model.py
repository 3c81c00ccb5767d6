"""What a script tells, how its run ends, and which bytes the five areas then have: said a second time, for tests.

It is written from docs/FORMATS.md and docs/MEANING.md and knows nothing of the code. It keeps whole lists, copies whole
databases and searches through them. It knows all commands on files and all session lines, and of SQL what tests of links and
of sessions want: statements on one table, without joins and groups, of well-typed expressions. A line that it does not know
raises Unknown, so that no answer is guessed.

    folder = Folder()                                  # an empty folder
    status, told = run(folder, "run --now 100", text)  # folder.areas then has the bytes of each area

A folder outlives a run as the areas do: `run` on it again is the next run in that folder. With `folder.left = k` a run is
stopped (Stop) at its record k + 1, before that record counts; the folder then stands as a crash at that moment leaves it.
"""
import hashlib
import re
import struct
from collections import namedtuple

from model_sql import GREATEST, Change, Options, Reader, Refused, Unknown
from model_sql import copied, link_text, links_of, mac, read_path, same, tx_text, without

AREAS = ("rows", "links", "files", "archive", "backups")

File = namedtuple("File", "owner writable content saved")


class Full(Exception):
    """A record that has no room in its area."""


class Stop(Exception):
    """The record that is not written, with its area, where a run is stopped."""

    def __init__(self, area, body):
        super().__init__(area)
        self.area, self.body = area, body


# ---- bytes of records


def u32(n):
    return struct.pack(">I", n)


def u64(n):
    return struct.pack(">Q", n)


def sized(text):
    return u32(len(text)) + text.encode("latin-1")


def listed(items):
    return u32(len(items)) + b"".join(items)


def value_bytes(value):
    if value is None:
        return b"\0"
    if isinstance(value, int):
        return b"\1" + struct.pack(">q", value)
    if isinstance(value, str):
        return b"\2" + sized(value)
    link = b"\0" if value.link is None else b"\1" + u64(value.link[0]) + u32(value.link[1])
    return b"\3" + sized(value.location) + sized(value.path) + sized(value.comment) + link


def options_bytes(options):
    return bytes([
        ("FS", "DB").index(options.read),
        ("FS", "BLOCKED").index(options.write),
        int(options.recovery),
        ("NONE", "RESTORE", "DELETE").index(options.unlink),
    ])


def column_bytes(column):
    kind = column.kind
    if isinstance(kind, Options):
        of = b"\4" + options_bytes(kind)
    elif isinstance(kind, int):
        of = b"\2" + u32(kind)
    else:
        of = {"integer": b"\1", "free": b"\3"}[kind]
    return sized(column.name) + of + bytes([("", "not null", "key").index(column.rule)])


def row_bytes(number, values):
    if values is None:
        return u64(number) + b"\0"
    return u64(number) + b"\1" + listed([value_bytes(value) for value in values])


def link_bytes(link):
    return u64(link.number[0]) + u32(link.number[1]) + sized(link.path) + options_bytes(link.options)


def owner_bytes(owner):
    return sized(owner[0]) + bytes([owner[1]])


def saved_bytes(saved):
    return b"\0" if saved is None else b"\1" + owner_bytes(saved)


def put_bytes(path, file):
    return b"\1" + sized(path) + owner_bytes(file) + saved_bytes(file.saved) + sized(file.content)


def kept_bytes(path, file):
    return b"\2" + sized(path) + owner_bytes(file) + saved_bytes(file.saved)


def removed_bytes(path):
    return b"\0" + sized(path)


def changed_bytes(path, before, after):
    if after is None:
        return removed_bytes(path)
    return kept_bytes(path, after) if before and before.content == after.content else put_bytes(path, after)


def batch_bytes(tx, changes):
    return b"\1" + u64(tx) + listed(changes)


def copy_bytes(number, copy):
    content = copy.content.encode("latin-1")
    return b"\1" + u64(number[0]) + u32(number[1]) + owner_bytes(copy) + hashlib.sha256(content).digest() + sized(copy.content)


def image_bytes(table):
    rows = [u64(number) + listed([value_bytes(value) for value in values]) for number, values in sorted(table.rows.items())]
    return sized(table.name) + u64(table.version) + listed([column_bytes(column) for column in table.columns]) + u64(table.next) + listed(rows)


# ---- files behind a transaction


def copy_of(file):
    """What is archived of a file: its bytes, and the owner and flag that it had before it was linked."""
    owner, writable = file.saved or file[:2]
    return File(owner, writable, file.content, None)


def settled(files, gives, takes, copies):
    """The files behind a transaction: what it gives and does not take is restored or deleted; what it takes has the bytes of its copy,
    where `copies` has one by the number of its link, and is taken over."""
    files = dict(files)
    for link in gives:
        file = files.get(link.path)
        if file is None or any(take.path == link.path for take in takes):
            continue
        if link.options.unlink == "DELETE":
            del files[link.path]
        elif link.options.unlink == "RESTORE":
            owner, writable = file.saved or file[:2]
            files[link.path] = File(owner, writable, file.content, None)
    for link in takes:
        if link.number in copies:
            copy = copies[link.number]
            files[link.path] = files.get(link.path, copy)._replace(content=copy.content)
    for link in takes:
        file = files.get(link.path)
        if file is None:
            continue
        owner, writable = file.saved or file[:2]
        if link.options.write == "BLOCKED":
            user = "dlfm" if link.options.read == "DB" else owner
            files[link.path] = File(user, False, file.content, (owner, writable))
        else:
            files[link.path] = File(owner, writable, file.content, None)
    return files


# ---- what outlives a run


class Folder:
    """The areas, and what their lists stand for. `undone` are the transactions whose branch the area Links has without its end,
    `copies` the archived files by the numbers of their links, `past` the tables before the first commit and after each."""

    def __init__(self):
        self.areas = {area: b"" for area in AREAS}
        self.openings = {"rows": 0, "links": 0}
        self.tables, self.commits, self.files, self.undone = [], 0, {}, []
        self.copies, self.backups, self.past = {}, [], [[]]
        self.left, self.written = None, []

    def copy(self):
        other = Folder()
        other.areas, other.openings = dict(self.areas), dict(self.openings)
        other.tables, other.commits, other.files = copied(self.tables), self.commits, dict(self.files)
        other.undone = [txn.copy() for txn in self.undone]
        other.copies, other.backups, other.past = dict(self.copies), list(self.backups), list(self.past)
        return other


class Txn:
    """The transaction of a session."""

    def __init__(self, tx, tables):
        self.tx, self.base, self.tables = tx, copied(tables), copied(tables)
        self.named, self.k, self.phase = [], 0, "active"
        self.gives, self.takes, self.commit, self.is_told = [], [], None, False
        # of a restore: it fills the files of takes with RECOVERY YES from their copies
        self.fills = False

    def copy(self):
        other = Txn(self.tx, [])
        other.base, other.tables, other.named, other.k, other.phase = self.base, self.tables, list(self.named), self.k, self.phase
        other.gives, other.takes, other.commit, other.is_told, other.fills = self.gives, self.takes, self.commit, self.is_told, self.fills
        return other

    def has_branch(self):
        return bool(self.gives or self.takes)

    def holds(self, path):
        return any(link.path == path for link in self.gives + self.takes)

    def is_filled(self, link):
        return self.fills and link.options.recovery


# ---- one run


class Run:
    def __init__(self, folder, words):
        self.folder = folder
        self.moment, self.life, self.server, self.key, self.limit = 0, 60, "fs1", bytes(32), 2**40
        self.sessions, self.grids, self.actors, self.drawn = {}, {}, [], 0
        self.read_words(words.split())

    def read_words(self, words):
        if not words or words[0] != "run":
            raise Unknown(words)
        rest = [part for word in words[1:] for part in word.split("=", 1)]
        for name, given in zip(rest[::2], rest[1::2]):
            if name == "--now":
                self.moment = int(given)
            elif name == "--life":
                self.life = int(given)
            elif name == "--server":
                self.server = given
            elif name == "--key":
                self.key = bytes.fromhex(given)
            elif name == "--area":
                self.limit = int(given)
            else:
                raise Unknown(name)

    # records

    def append(self, area, body):
        folder = self.folder
        held = folder.areas[area]
        if len(held) + 9 + len(body) > self.limit:
            raise Full(area)
        if folder.left is not None:
            if folder.left == 0:
                raise Stop(area, body)
            folder.left -= 1
        folder.areas[area] = held[:-1] + b"\1" + u64(len(body)) + body + b"\0"
        folder.written.append((area, body))

    def open(self):
        folder = self.folder
        for area in AREAS:
            if len(folder.areas[area]) < 2:
                folder.areas[area] = b"\0"
        for area in ("rows", "links"):
            self.append(area, b"\1" + u32(folder.openings[area] + 1))
            folder.openings[area] += 1
        decided = [txn for txn in folder.undone if txn.commit is not None]
        for txn in sorted(decided, key=lambda txn: txn.commit):
            self.settle(txn)
        for txn in sorted(folder.undone, key=lambda txn: txn.tx):
            self.abort(txn)

    def abort(self, txn):
        self.append("links", b"\5" + u64(txn.tx))
        self.folder.undone.remove(txn)

    def settle(self, txn):
        """The records of a Finish that are not there yet."""
        folder = self.folder
        if not txn.is_told:
            self.append("links", b"\3" + u64(txn.tx))
            txn.is_told = True
        for give in txn.gives:
            if give.options.recovery and give.number not in folder.copies:
                self.store(give)
        copies = {take.number: folder.copies[take.number] for take in txn.takes if txn.is_filled(take) and take.number in folder.copies}
        files = settled(folder.files, txn.gives, txn.takes, copies)
        changes = [
            changed_bytes(path, folder.files.get(path), files.get(path))
            for path in sorted({**folder.files, **files})
            if files.get(path) != folder.files.get(path)
        ]
        if changes:
            self.append("files", batch_bytes(txn.tx, changes))
            folder.files = files
        self.append("links", b"\4" + u64(txn.tx))
        folder.undone.remove(txn)
        self.append("rows", b"\3" + u64(txn.tx))

    # copies and backups

    def store(self, link):
        """Archives the file of a link."""
        copy = copy_of(self.folder.files[link.path])
        self.append("archive", copy_bytes(link.number, copy))
        self.folder.copies[link.number] = copy

    def pending(self):
        """The committed links that wait for a copy: not those that a decided transaction has yet to take over."""
        taken = [take.number for txn in self.sessions.values() if txn and txn.phase == "decided" for take in txn.takes]
        links = links_of(self.folder.tables)
        return [link for link in links if link.options.recovery and link.number not in self.folder.copies and link.number not in taken]

    def archive(self):
        links = self.pending()
        for link in links:
            self.store(link)
        return [f"ok archived {len(links)}"]

    def backup(self):
        self.archive()
        unfinished = [txn.tx for txn in self.sessions.values() if txn and txn.phase in ("prepared", "decided")]
        if unfinished:
            raise Refused(f"unfinished {tx_text(min(unfinished))}")
        folder, number = self.folder, len(self.folder.backups) + 1
        self.append("backups", b"\1" + u64(number) + u64(folder.commits) + listed([image_bytes(table) for table in folder.tables]))
        folder.backups.append((folder.commits, copied(folder.tables)))
        return [f"ok backup {number}"]

    # a restore

    def target(self, kind, number):
        kept = [tables for _, tables in self.folder.backups] if kind == "backup" else self.folder.past
        at = number - 1 if kind == "backup" else number
        if not 0 <= at < len(kept):
            raise Refused(f"no target {number}")
        return copied(kept[at])

    def restore(self, kind, number):
        for name in self.actors:
            if self.sessions.get(name):
                raise Refused(f"session busy {name}")
        folder, later = self.folder, self.target(kind, number)
        now = links_of(folder.tables)
        gives, takes = without(now, links_of(later)), without(links_of(later), now)
        gone = [take.number for take in takes if not take.options.recovery and take.path not in folder.files]
        spared = [give.path for give in gives if give.options.recovery]
        for take in takes:
            file, copy = folder.files.get(take.path), folder.copies.get(take.number)
            if take.options.recovery and file and copy and file.content != copy.content and take.path not in spared:
                raise Refused(f"in the way {take.path}")
        self.drawn += 1
        txn = Txn((folder.openings["rows"] << 32) + self.drawn, [])
        lost = [line for table in later for line in lose(table, gone)]
        target = {table.name: table for table in later}
        kept = [(table, target[table.name]) for table in folder.tables if is_kept(table, target.get(table.name))]
        names = [was.name for was, _ in kept]
        new = [table for table in later if table.name not in names]
        restored = [table for _, table in kept] + new
        txn.gives, txn.takes, txn.fills = gives, without(links_of(restored), now), True
        self.vote(txn)
        self.write_commit(txn, [table.name for table in folder.tables if table.name not in names], kept, new)
        for table in restored:
            table.version = folder.commits + 1
        folder.tables = restored
        self.committed(txn)
        if txn.has_branch():
            self.settle(txn)
        return [f"ok commit {txn.commit}"] + lost

    # links

    def forbidding(self, path):
        """The links that forbid something of a path, in order: the committed one, the take of a transaction that is voted for, the
        give of one that is decided."""
        live = [txn for txn in self.sessions.values() if txn]
        links = links_of(self.folder.tables)
        links += [link for txn in live if txn.phase == "prepared" for link in txn.takes]
        links += [link for txn in live if txn.phase == "decided" for link in txn.gives]
        return [link for link in links if link.path == path]

    def need_token(self, path, token):
        for link in self.forbidding(path):
            if link.options.read == "DB":
                why = None
                if token is None:
                    why = "no token"
                elif token[1] != mac(self.key, path, link.number, token[0]):
                    why = "wrong token"
                elif self.moment > token[0]:
                    why = f"expired {token[0]}"
                if why:
                    raise Refused(f"linked {path} {link_text(link.number)} {why}")

    def need_versions(self, txn):
        """Refused at the first table that was named whose version is another by now; a table that is absent has version 0."""
        for name in txn.named:
            seen, now = (
                next((table.version for table in tables if table.name == name), 0) for tables in (txn.base, self.folder.tables)
            )
            if seen != now:
                raise Refused(f"conflict {name} {seen} {now}")

    def need_free(self, txn, path):
        for other in self.sessions.values():
            if other and other is not txn and other.holds(path):
                raise Refused(f"busy {path} {tx_text(other.tx)}")

    def claim(self, txn, gives, takes):
        self.need_versions(txn)
        held = without(links_of(self.folder.tables), gives)
        for i, take in enumerate(takes):
            if take.path not in self.folder.files:
                raise Refused(f"no file {take.path}")
            for other in takes[:i] + held:
                if other.path == take.path:
                    raise Refused(f"already linked {take.path} {link_text(other.number)}")
            self.need_free(txn, take.path)
        for give in gives:
            self.need_free(txn, give.path)

    # steps of a session

    def in_phase(self, name, phase):
        txn = self.sessions.get(name)
        if not txn:
            raise Refused("no transaction")
        if txn.phase != phase:
            raise Refused(f"phase {txn.phase}")
        return txn

    def begin(self, name):
        txn = self.sessions.get(name)
        if txn:
            raise Refused(f"in transaction {tx_text(txn.tx)}")
        self.drawn += 1
        self.sessions[name] = Txn((self.folder.openings["rows"] << 32) + self.drawn, self.folder.tables)
        return [f"ok {tx_text(self.sessions[name].tx)}"]

    def statement(self, name, tree):
        txn = self.in_phase(name, "active")
        if tree[1] not in txn.named:
            txn.named.append(tree[1])
        change = Change(copied(txn.tables), txn.tx, txn.k, self)
        lines, first = change.do(tree)
        before, after = links_of(txn.base), links_of(change.tables)
        gives, takes = without(before, after), without(after, before)
        if (gives, takes) != (txn.gives, txn.takes):
            self.claim(txn, gives, takes)
        txn.tables, txn.k, txn.gives, txn.takes = change.tables, change.k, gives, takes
        if first is not None:
            self.grids[name] = first
        return lines

    def prepare(self, name):
        txn = self.in_phase(name, "active")
        for take in txn.takes:
            if take.path not in self.folder.files:
                raise Refused(f"no file {take.path}")
        self.vote(txn)
        txn.phase = "prepared"
        return ["ok"]

    def vote(self, txn):
        """The branch of a transaction, where it gives or takes a link."""
        if txn.has_branch():
            takes = [link_bytes(link) + bytes([txn.is_filled(link)]) for link in txn.takes]
            self.append("links", b"\2" + u64(txn.tx) + listed([link_bytes(link) for link in txn.gives]) + listed(takes))
            self.folder.undone.append(txn)

    def decide(self, name):
        txn = self.in_phase(name, "prepared")
        if same(txn.base, txn.tables):
            self.sessions[name] = None
            return ["ok"]
        try:
            self.need_versions(txn)
        except Refused:
            self.drop(name)
            raise
        folder, number = self.folder, self.folder.commits + 1
        base = {table.name: table for table in txn.base}
        kept = {table.name: table for table in txn.tables if table.version != 0}
        dropped = [name for name in base if name not in kept]
        differing = [table for table in kept.values() if table.as_list() != base[table.name].as_list()]
        new = [table for table in txn.tables if table.version == 0]
        self.write_commit(txn, dropped, [(base[table.name], table) for table in differing], new)
        changed = {table.name: table.copy() for table in differing}
        made = [table.copy() for table in new]
        for table in list(changed.values()) + made:
            table.version = number
        folder.tables = [changed.get(table.name, table) for table in folder.tables if table.name not in dropped] + made
        self.committed(txn)
        txn.phase = "decided"
        return [f"ok commit {number}"]

    def committed(self, txn):
        folder = self.folder
        folder.commits += 1
        txn.commit = folder.commits
        folder.past.append(copied(folder.tables))

    def write_commit(self, txn, dropped, kept, new):
        """The record of the next commit: names of dropped tables, kept ones as they were and are, and new ones."""
        changes = [sized(name) + b"\0" for name in dropped]
        changes += [sized(table.name) + b"\2" + u64(table.next) + rows_changed(was, table) for was, table in kept]
        changes += [
            sized(table.name) + b"\1" + listed([column_bytes(column) for column in table.columns]) + u64(table.next)
            + rows_changed(None, table)
            for table in new
        ]
        self.append("rows", b"\2" + u64(txn.tx) + u64(self.folder.commits + 1) + bytes([txn.has_branch()]) + listed(changes))

    def finish(self, name):
        txn = self.in_phase(name, "decided")
        if txn.has_branch():
            self.settle(txn)
        self.sessions[name] = None
        return ["ok"]

    def drop(self, name):
        txn = self.sessions[name]
        if txn.phase == "prepared" and txn.has_branch():
            self.abort(txn)
        self.sessions[name] = None

    def roll_back(self, name):
        txn = self.sessions.get(name)
        if not txn:
            raise Refused("no transaction")
        if txn.phase == "decided":
            raise Refused("phase decided")
        self.drop(name)
        return ["ok"]

    # lines

    def session_line(self, name, text):
        steps = {"!prepare": self.prepare, "!decide": self.decide, "!finish": self.finish}
        if text.rstrip(" ") in steps:
            return steps[text.rstrip(" ")](name)
        tree = Reader(text).statement()
        if tree == ("begin",):
            return self.begin(name)
        if tree == ("commit",):
            return self.commit(name)
        if tree == ("rollback",):
            return self.roll_back(name)
        return self.statement(name, tree) if self.sessions.get(name) else self.alone(name, tree)

    def commit(self, name):
        txn, answer = self.sessions.get(name), ["ok"]
        if not txn:
            raise Refused("no transaction")
        if txn.phase == "active":
            self.prepare(name)
        if txn.phase == "prepared":
            answer = self.decide(name)
        if self.sessions.get(name):
            self.finish(name)
        return answer

    def alone(self, name, tree):
        """A statement outside a transaction is one of its own."""
        self.begin(name)
        try:
            answer = self.statement(name, tree)
            self.prepare(name)
        except Refused:
            self.drop(name)
            raise
        self.decide(name)
        if self.sessions.get(name):
            self.finish(name)
        return answer

    def system_line(self, text):
        words = [word for word in text.split(" ") if word]
        if len(words) == 2 and words[0] == "tick" and re.fullmatch("[0-9]{1,10}", words[1]) and int(words[1]) <= 1_000_000_000:
            self.moment = min(self.moment + int(words[1]), GREATEST)
            return ["ok"]
        if words in (["archive"], ["backup"]):
            return self.archive() if words == ["archive"] else self.backup()
        if len(words) == 3 and words[0] == "restore" and words[1] in ("backup", "commit") and re.fullmatch("[0-9]{1,10}", words[2]):
            return self.restore(words[1], int(words[2]))
        if not re.fullmatch("resolve|crash (manager|database|both)", " ".join(words)):
            raise Unknown(text)
        raise Refused("not built")

    def file_line(self, user, text):
        text = text.lstrip(" ")
        found = re.fullmatch(r"(create|write) +([^ ]+)(?: (.*))?", text, re.DOTALL)
        if found:
            path, content = found[2], found[3] or ""
            return self.create(user, path, content) if found[1] == "create" else self.write(user, path, content)
        words = [word for word in text.split(" ") if word]
        if words == ["list"]:
            return self.listing()
        if len(words) == 2 and words[0] == "read":
            return self.read(words[1])
        if len(words) == 2 and words[0] == "delete":
            return self.delete(user, words[1])
        if len(words) == 3 and words[0] == "rename":
            return self.rename(user, words[1], words[2])
        if len(words) == 3 and words[0] == "chmod" and words[2] in ("on", "off"):
            return self.chmod(user, words[1], words[2] == "on")
        raise Unknown(text)

    # commands on files

    def file(self, path):
        if path not in self.folder.files:
            raise Refused(f"no file {path}")
        return self.folder.files[path]

    def need_owner(self, user, path):
        owner = self.folder.files[path].owner
        if owner != user:
            raise Refused(f"not owner {path} {owner}")

    def plain(self, path):
        if read_path(path) != (path, None):
            raise Unknown(path)

    def put(self, changes, files):
        self.append("files", batch_bytes(0, changes))
        self.folder.files = files
        return ["ok"]

    def create(self, user, path, content):
        self.plain(path)
        if path in self.folder.files:
            raise Refused(f"exists {path}")
        if len(self.folder.files) >= 65536:
            raise Refused("limit files")
        file = File(user, True, content, None)
        return self.put([put_bytes(path, file)], {**self.folder.files, path: file})

    def write(self, user, path, content):
        self.plain(path)
        old = self.file(path)
        self.need_leave_to_change(path, "write")
        self.need_owner(user, path)
        if not old.writable:
            raise Refused(f"read only {path}")
        file = old._replace(content=content)
        return self.put([put_bytes(path, file)], {**self.folder.files, path: file})

    def need_leave_to_change(self, path, kind):
        for link in self.forbidding(path):
            if link.options.write == "BLOCKED":
                raise Refused(f"linked {path} {link_text(link.number)} {kind}")

    def need_leave_to_move(self, path, kind):
        for link in self.forbidding(path):
            raise Refused(f"linked {path} {link_text(link.number)} {kind}")

    def delete(self, user, path):
        self.plain(path)
        self.file(path)
        self.need_leave_to_move(path, "delete")
        self.need_owner(user, path)
        return self.put([removed_bytes(path)], {other: file for other, file in self.folder.files.items() if other != path})

    def rename(self, user, path, to):
        self.plain(path)
        self.plain(to)
        file = self.file(path)
        self.need_leave_to_move(path, "rename")
        self.need_owner(user, path)
        if to in self.folder.files:
            raise Refused(f"exists {to}")
        files = {other: held for other, held in self.folder.files.items() if other != path}
        return self.put([removed_bytes(path), put_bytes(to, file)], {**files, to: file})

    def chmod(self, user, path, writable):
        self.plain(path)
        old = self.file(path)
        self.need_leave_to_change(path, "chmod")
        self.need_owner(user, path)
        file = old._replace(writable=writable)
        return self.put([kept_bytes(path, file)], {**self.folder.files, path: file})

    def read(self, text):
        if text.startswith("$"):
            if not re.fullmatch("[A-Za-z][A-Za-z0-9_]{0,15}", text[1:]):
                raise Unknown(text)
            text = self.last_text(text[1:])
        found = read_path(text)
        if found is None:
            raise Unknown(text)
        path, token = found
        file = self.file(path)
        self.need_token(path, token)
        return [f"bytes {len(file.content)}", file.content]

    def last_text(self, name):
        cells = self.grids.get(name) or []
        if not cells or not isinstance(cells[0], str) or read_path(cells[0]) is None:
            raise Refused(f"no value {name}")
        return cells[0]

    def listing(self):
        files = self.folder.files
        lines = [
            f"{path} {files[path].owner} {'on' if files[path].writable else 'off'} {len(files[path].content)}" for path in sorted(files)
        ]
        return [f"ok files {len(files)}"] + lines

    # the script

    def is_met(self, actor):
        """Whether there is room for the actor of a line."""
        if actor not in self.actors and len(self.actors) == 64:
            return False
        if actor not in self.actors:
            self.actors.append(actor)
        return True

    def line(self, text):
        """The lines of the answer; None where the line is answered nothing."""
        if not text.strip(" \t") or text.startswith("--"):
            return None
        if len(text) > 65536:
            return ["refused bad line 65537"]
        try:
            if text.startswith("!"):
                return self.system_line(text[1:])
            found = re.fullmatch(r"@([A-Za-z][A-Za-z0-9_]{0,15})( .*)|([A-Za-z][A-Za-z0-9_]{0,15}):(.*)", text, re.DOTALL)
            if not found or found[1] == "dlfm":
                raise Unknown(text)
            if not self.is_met("@" + found[1] if found[1] else found[3]):
                raise Refused("limit actors")
            return self.file_line(found[1], found[2]) if found[1] else self.session_line(found[3], found[4].lstrip(" "))
        except Refused as why:
            return [f"refused {why}"]

    def told(self, number, text):
        """What is told of a line."""
        answer = self.line(text)
        if answer is None:
            return ""
        return f"{number}: {answer[0]}\n" + "".join(f"{number}| {more}\n" for more in answer[1:])

    def script(self, text):
        """What is told of each line, one after the other."""
        lines = text.split("\n")
        for number, line in enumerate(lines, 1):
            yield self.told(number, line[:-1] if line.endswith("\r") and number < len(lines) else line)


def is_kept(table, later):
    """Whether a restore keeps a table: the later one has the same columns."""
    return later is not None and later.columns == table.columns


def lose(table, gone):
    """Makes the cells with these links NULL, and tells of each."""
    lines = []
    for number, values in sorted(table.rows.items()):
        cells = list(zip(table.columns, values))
        lost = [isinstance(column.kind, Options) and cell is not None and cell.link in gone for column, cell in cells]
        lines += [f"lost {table.name} {number} {column.name} {cell.path}" for (column, cell), is_lost in zip(cells, lost) if is_lost]
        table.rows[number] = tuple(None if is_lost else cell for (_, cell), is_lost in zip(cells, lost))
    return lines


def rows_changed(base, table):
    """The rows of a table that differ from those of its base, all where there is none, as bytes."""
    old = base.rows if base else {}
    numbers = sorted(number for number in {**old, **table.rows} if old.get(number) != table.rows.get(number))
    return listed([row_bytes(number, table.rows.get(number)) for number in numbers])


def run(folder, words, text):
    """The exit status and what is told. Where the run is stopped, the Stop that comes out has what was told by then as `told`."""
    told, this = [], Run(folder, words)
    try:
        this.open()
        for answer in this.script(text):
            told.append(answer)
    except Full:
        return 6, "".join(told)
    except Stop as stop:
        stop.told = "".join(told)
        raise
    return 0, "".join(told)
