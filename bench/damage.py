#!/usr/bin/env python3
"""Damages the areas of the built program: each of them is cut to each length, and each byte of it is inverted. The
program ends with status 0 exactly where the five areas still stand for something, else with 5, and leaves the areas as they were then.
Ends with `N passed, M failed`, and with status 1 where one failed.

    bench/damage.py [PROGRAM]

What areas stand for is said here a second time, from the bytes of records, what the folds refuse, and what the areas are compared for.
"""
import hashlib
import os
import re
import struct
import sys

import model
import scripts
from model import AREAS, File, Folder, copy_of, settled
from model_sql import ARCHIVED, UNARCHIVED, Column, Dl, Link, Options, Table, copied, is_path, links_of, without
from scripts import EVERY_RECORD, areas_in, check, counts, room, run


class Bad(Exception):
    """Areas that stand for nothing, with why."""


# ---- records from bytes


class Body:
    def __init__(self, data):
        self.data, self.at = data, 0

    def take(self, count):
        if self.at + count > len(self.data):
            raise Bad("a body is too short")
        self.at += count
        return self.data[self.at - count : self.at]

    def ended(self, record):
        if self.at != len(self.data):
            raise Bad("bytes are left over")
        return record

    def u8(self, most=255):
        byte = self.take(1)[0]
        if byte > most:
            raise Bad("a tag that is none")
        return byte

    def u32(self):
        return struct.unpack(">I", self.take(4))[0]

    def u64(self):
        return struct.unpack(">Q", self.take(8))[0]

    def text(self):
        return self.take(self.u32()).decode("latin-1")

    def name(self):
        text = self.text()
        if not re.fullmatch(r"[A-Za-z][A-Za-z0-9_]{0,63}", text):
            raise Bad("no name")
        return text

    def path(self):
        text = self.text()
        if not is_path(text):
            raise Bad("no path")
        return text

    def listed(self, one):
        return [one() for _ in range(self.u32())]

    def optional(self, one):
        return one() if self.u8(1) else None

    def number(self):
        return self.u64(), self.u32()

    def options(self):
        found = Options(("FS", "DB")[self.u8(1)], ("FS", "BLOCKED")[self.u8(1)], bool(self.u8(1)), ("NONE", "RESTORE", "DELETE")[self.u8(2)])
        if found not in UNARCHIVED + ARCHIVED:
            raise Bad("no option row")
        return found

    def value(self):
        kind = self.u8(3)
        if kind == 0:
            return None
        if kind == 1:
            return struct.unpack(">q", self.take(8))[0]
        if kind == 2:
            return self.text()
        return Dl(self.text(), self.path(), self.text(), self.optional(self.number), None)

    def column(self):
        name, kind = self.name(), self.u8(4)
        of = {0: None, 1: "integer", 3: "free"}.get(kind) or {2: self.u32, 4: self.options}.get(kind, self.bad)()
        return Column(name, of, ("", "not null", "key")[self.u8(2)])

    def bad(self):
        raise Bad("a tag that is none")

    def row(self):
        return self.u64(), self.optional(lambda: tuple(self.listed(self.value)))

    def change(self):
        name, kind = self.name(), self.u8(2)
        if kind == 0:
            return "drop", name
        if kind == 1:
            return "new", name, self.listed(self.column), self.u64(), self.listed(self.row)
        return "keep", name, self.u64(), self.listed(self.row)

    def link(self):
        return Link(self.number(), self.path(), self.options())

    def filled(self):
        return self.link(), bool(self.u8(1))

    def owner(self):
        return self.name(), bool(self.u8(1))

    def file(self):
        kind, path = self.u8(2), self.path()
        if kind == 0:
            return "remove", path
        owner, saved = self.owner(), self.optional(self.owner)
        return ("put", path, File(*owner, self.text(), saved)) if kind == 1 else ("keep", path, owner, saved)

    def rows_record(self):
        kind = self.u8()
        if kind == 1:
            return "opening", self.u32()
        if kind == 2:
            return "commit", self.u64(), self.u64(), bool(self.u8(1)), self.listed(self.change)
        return ("ended", self.u64()) if kind == 3 else self.bad()

    def links_record(self):
        kind = self.u8()
        if kind == 1:
            return "opening", self.u32()
        if kind == 2:
            return "prepared", self.u64(), self.listed(self.link), self.listed(self.filled)
        return (("committed", "done", "aborted")[kind - 3], self.u64()) if kind in (3, 4, 5) else self.bad()

    def files_record(self):
        return ("batch", self.u64(), self.listed(self.file)) if self.u8() == 1 else self.bad()

    def archive_record(self):
        return (self.number(), self.owner(), self.take(32), self.text()) if self.u8() == 1 else self.bad()

    def held_row(self):
        return self.u64(), tuple(self.listed(self.value))

    def image(self):
        return self.name(), self.u64(), self.listed(self.column), self.u64(), self.listed(self.held_row)

    def backups_record(self):
        return (self.u64(), self.u64(), self.listed(self.image)) if self.u8() == 1 else self.bad()


def bodies(area):
    """The list of an area's bodies."""
    if len(area) < 2:
        return []
    at, found = 0, []
    while area[at] == 1:
        length = int.from_bytes(area[at + 1 : at + 9], "big")
        if at + 9 + length >= len(area):
            raise Bad("a record passes the area's end")
        found.append(area[at + 9 : at + 9 + length])
        at += 9 + length
    return found


def records(area, read):
    found = []
    for data in bodies(area):
        body = Body(data)
        found.append(body.ended(read(body)))
    return found


# ---- the folds


def need(holds, why):
    if not holds:
        raise Bad(why)


def rises(numbers):
    return all(one < other for one, other in zip(numbers, numbers[1:]))


def need_columns(columns):
    need(len(columns) <= 64, "too many columns")
    names = [column.name for column in columns]
    need(len(set(names)) == len(names), "two columns of a name")
    need([column.rule for column in columns].count("key") <= 1, "two keys")
    for column in columns:
        need(not isinstance(column.kind, int) or 1 <= column.kind <= 4000, "a length")
        need(not column.rule or column.kind == "integer" or isinstance(column.kind, int), "a rule on a datalink")


def fits(column, cell):
    if cell is None:
        return column.rule == ""
    if column.kind == "integer":
        return isinstance(cell, int)
    if isinstance(column.kind, int):
        return isinstance(cell, str) and len(cell) <= column.kind
    return isinstance(cell, Dl) and (cell.link is not None) == isinstance(column.kind, Options)


def need_fit(tables):
    numbers = [link.number for link in links_of(tables)]
    need(len(set(numbers)) == len(numbers), "two cells of one link number")
    for table in tables:
        need(all(number < table.next for number in table.rows), "a row number that is not below the next")
        for values in table.rows.values():
            need(len(values) == len(table.columns) and all(map(fits, table.columns, values)), "a row that does not fit")
        for i, column in enumerate(table.columns):
            keys = [values[i] for values in table.rows.values()]
            need(column.rule != "key" or len(set(keys)) == len(keys), "two rows of one key")


def changed(tables, changes, commit):
    """The tables behind the changes of the commit of a number."""
    tables = copied(tables)
    for kind, name, *rest in changes:
        held = [table for table in tables if table.name == name]
        need(bool(held) == (kind != "new"), "a table that is there, or not")
        if kind == "drop":
            tables.remove(held[0])
            continue
        if kind == "new":
            need_columns(rest[0])
            held = [Table(name, rest[0])]
            tables += held
        held[0].version, (held[0].next, rows) = commit, rest[-2:]
        need(rises([number for number, _ in rows]), "row numbers that do not rise")
        for number, values in rows:
            if values is None:
                held[0].rows.pop(number, None)
            else:
                need(len(values) == len(held[0].columns), "a row that does not fit")
                kinds = [column.kind if isinstance(column.kind, Options) else None for column in held[0].columns]
                held[0].rows[number] = tuple(
                    cell._replace(options=kind) if isinstance(cell, Dl) else cell for cell, kind in zip(values, kinds)
                )
    return tables


def rows_of(area):
    """The last opening, the commits as (transaction, with a branch, tables), and the transactions whose branch has ended."""
    opening, commits, ended = 0, [], []
    for kind, *of in records(area, Body.rows_record):
        if kind == "opening":
            opening += 1
            need(of[0] == opening, "an opening out of order")
        elif kind == "commit":
            tx, number, branch, changes = of
            need(number == len(commits) + 1, "a commit out of order")
            need(tx not in [commit[0] for commit in commits], "a transaction that commits twice")
            need(tx >> 32 == opening, "a transaction of another opening")
            tables = changed(commits[-1][2] if commits else [], changes, number)
            need_fit(tables)
            commits.append((tx, branch, tables))
        else:
            need(of[0] not in ended and any(tx == of[0] and branch for tx, branch, _ in commits), "an end of no branch")
            ended.append(of[0])
    return opening, commits, ended


def links_of_area(area):
    """The branches by their transactions, as [phase, gives, takes, numbers of takes that are filled], and the links that are held."""
    opening, branches, held = 0, {}, []
    for kind, *of in records(area, Body.links_record):
        if kind == "opening":
            opening += 1
            need(of[0] == opening, "an opening out of order")
        elif kind == "prepared":
            tx, gives, filled = of
            takes = [link for link, _ in filled]
            need(tx not in branches, "a branch that is prepared twice")
            need(all(give in held for give in gives), "a give that is not held")
            paths = [link.path for link in held if link.path not in [give.path for give in gives]]
            need(not any(take.path in paths for take in takes), "a take of a held path")
            need(not any(fill and not link.options.recovery for link, fill in filled), "a fill without recovery")
            need(len({fill for link, fill in filled if link.options.recovery}) <= 1, "some takes are filled")
            branches[tx] = ["prepared", gives, takes, [link.number for link, fill in filled if fill]]
        else:
            branch = branches.get(of[0])
            need(branch and branch[0] == ("committed" if kind == "done" else "prepared"), "a branch in another phase")
            branch[0] = kind
            if kind == "done":
                held = [link for link in held if link not in branch[1]] + branch[2]
    return branches, held


def files_of(area):
    files = {}
    for _, _, changes in records(area, Body.files_record):
        for kind, path, *of in changes:
            if kind == "put":
                files[path] = of[0]
                continue
            need(path in files, "a file that is not there")
            if kind == "remove":
                del files[path]
            else:
                files[path] = File(*of[0], files[path].content, of[1])
    return files


def copies_of(area):
    copies = {}
    for number, owner, digest, content in records(area, Body.archive_record):
        need(number not in copies, "a link with two copies")
        need(digest == hashlib.sha256(content.encode("latin-1")).digest(), "a digest of other bytes")
        copies[number] = File(*owner, content, None)
    return copies


def backups_of(area):
    """The backups as (number of the commit, images)."""
    backups = []
    for number, commit, images in records(area, Body.backups_record):
        need(number == len(backups) + 1, "a backup out of order")
        need(len({image[0] for image in images}) == len(images), "two tables of a name")
        for _, _, _, after, rows in images:
            need(rises([held for held, _ in rows]), "row numbers that do not rise")
            need(all(held < after for held, _ in rows), "a row number that is not below the next")
        backups.append((commit, images))
    return backups


# ---- what they stand for together


def image_of(table):
    """A table as a backup has it: link numbers without their options."""
    rows = [(number, tuple(cell._replace(options=None) if isinstance(cell, Dl) else cell for cell in values)) for number, values in sorted(table.rows.items())]
    return table.name, table.version, list(table.columns), table.next, rows


def need_together(areas):
    (opening, commits, ended), (branches, held), files = rows_of(areas["rows"]), links_of_area(areas["links"]), files_of(areas["files"])
    copies, backups = copies_of(areas["archive"]), backups_of(areas["backups"])
    before, options = [], {}
    for tx, branch, tables in commits:
        after = links_of(tables)
        need(len({link.path for link in after}) == len(after), "two links of a path")
        gives, takes = without(before, after), without(after, before)
        if branch:
            need(tx in branches and branches[tx][0] != "aborted" and branches[tx][1:3] == [gives, takes], "a commit without its branch")
        else:
            need(not gives and not takes and tx not in branches, "a commit with a branch")
        for link in after:
            need(options.setdefault(link.number, link) == link, "a link of two paths or options")
        before = after
    order = {tx: i for i, (tx, _, _) in enumerate(commits)}
    need(all(tx in order for tx, (phase, *_) in branches.items() if phase in ("committed", "done")), "a branch without its commit")
    need(all(branches.get(tx, [""])[0] == "done" for tx in ended), "an end of a branch that is not done")
    numbers = list(branches) + list(order)
    numbers += [link.number[0] for _, gives, takes, _ in branches.values() for link in gives + takes]
    numbers += [link.number[0] for _, _, tables in commits for link in links_of(tables)]
    need(all(number >> 32 <= opening for number in numbers), "a transaction of a later opening")
    doubt = {tx: branch for tx, branch in branches.items() if branch[0] in ("prepared", "committed")}
    paths = [path for _, gives, takes, _ in doubt.values() for path in {link.path for link in gives + takes}]
    need(len(set(paths)) == len(paths), "branches in doubt of one path")
    for tx in sorted((tx for tx in doubt if tx in order), key=order.get):
        held = [link for link in held if link not in doubt[tx][1]] + doubt[tx][2]
        for give in doubt[tx][1]:
            if give.options.recovery and give.path in files:
                copies.setdefault(give.number, copy_of(files[give.path]))
        filled = {number: copies[number] for number in doubt[tx][3] if number in copies}
        files = settled(files, doubt[tx][1], doubt[tx][2], filled)
    need(sorted(held) == sorted(before), "what is held is not what is linked")
    need(all(link.path in files for link in before), "a link without its file")
    archived = {number for number, link in options.items() if link.options.recovery}
    linked = {link.number: link for link in before}
    need(all(number in archived for number in copies), "a copy of no link that wants one")
    need(all(number in copies for number in archived if number not in linked), "a link that was let go without its copy")
    need(all(files[linked[number].path].content == copy.content for number, copy in copies.items() if number in linked), "a copy of other bytes")
    for commit, images in backups:
        need(commit <= len(commits), "a backup of a commit that is none")
        tables = commits[commit - 1][2] if commit else []
        need(images == [image_of(table) for table in tables], "a backup of other tables")


def stands(areas):
    try:
        need_together(areas)
    except Bad:
        return False
    return True


# ---- damage


def with_gate(area):
    """An area as an opening has it before it looks at records: one of fewer than two bytes has a closed gate."""
    return area if len(area) > 1 else b"\0"


def opened(areas):
    """The exit status of a run over these areas, and whether they stay as they are where it is no 0."""
    with room() as folder:
        for area in AREAS:
            with open(os.path.join(folder, f"datalinks.{area}"), "wb") as file:
                file.write(areas[area])
        status, _ = run(folder, "run", "")
        return status, status == 0 or areas_in(folder) == {area: with_gate(held) for area, held in areas.items()}


def damaged(name, areas):
    assert stands(areas), name
    for area in AREAS:
        whole = areas[area]
        ways = [(f"cut to {length} bytes", whole[:length]) for length in range(len(whole))]
        ways += [(f"byte {at} inverted", whole[:at] + bytes([whole[at] ^ 255]) + whole[at + 1 :]) for at in range(len(whole))]
        ways += [(f"byte {at} one more", whole[:at] + bytes([(whole[at] + 1) % 256]) + whole[at + 1 :]) for at in range(len(whole))]
        for how, held in ways:
            there = {**areas, area: held}
            check(f"{name}: {area} {how}", opened(there), (0 if stands(there) else 5, True))


def main():
    scripts.program = os.path.abspath(sys.argv[1]) if len(sys.argv) > 1 else str(scripts.BUILT_PROGRAM)
    lines = EVERY_RECORD.splitlines(keepends=True)
    for end, name in ((len(lines), "the whole script"), (7, "a vote"), (8, "a decision"), (15, "a second vote")):
        folder = Folder()
        model.run(folder, "run", "".join(lines[:end]))
        damaged(name, folder.areas)
    print(f"{counts['passed']} passed, {counts['failed']} failed")
    return 1 if counts["failed"] else 0


if __name__ == "__main__":
    sys.exit(main())
