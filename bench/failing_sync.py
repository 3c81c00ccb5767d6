#!/usr/bin/env python3
"""Has the write of a gate fail on a real file system, goes on in the next run, takes the power away, and looks at what is left: all that
was acknowledged has to be there. Ends with `N passed, M failed`, and with status 1 where one failed; with 77 where it is left out.

    bench/failing_sync.py [PROGRAM]

The file system is ext4, with a journal and without one, over a loop device whose disk is in the memory of this script (by FUSE), so that one write
of it can fail. Behind a sync that failed Linux reads the byte that was to be written, and counts it as written; the disk has the old one. The same is done
with a run whose renewals of gates are left out, by strace: there the acknowledged file has to be gone, or else nothing is shown. It asks for root,
/dev/fuse, mkfs.ext4, mount and strace, and says so where one can't be had.
"""
import ctypes
import errno
import mmap
import os
import shutil
import signal
import struct
import subprocess
import sys
import tempfile

import scripts
from scripts import check, counts

BYTES = 64 << 20
NONE = -1
NEW_MOUNTS, PRIVATE, DETACHED = 0x20000, 0x44000, 2
LOOKUP, FORGET, GETATTR, SETATTR, OPEN, READ, WRITE, STATFS, RELEASE, FSYNC, FLUSH, INIT, OPENDIR, RELEASEDIR, FORGETS = 1, 2, 3, 4, 14, 15, 16, 17, 18, 20, 25, 26, 27, 29, 42
LIBC = ctypes.CDLL(None, use_errno=True)


class Disk:
    """The bytes of the disk, and how many more writes that turn one byte from 0 to 1, as that of a gate does, are made before one fails."""

    def __init__(self):
        self.bytes = mmap.mmap(-1, BYTES)
        self.state = mmap.mmap(-1, 16)
        self.fail(NONE)

    def fail(self, passed):
        self.state[:16] = struct.pack("<qq", passed, NONE)

    def failed(self):
        """The place of the byte whose write failed."""
        return struct.unpack("<qq", self.state[:16])[1]

    def takes(self, at, new):
        """Writes, or answers that it fails."""
        left, failed = struct.unpack("<qq", self.state[:16])
        old = self.bytes[at : at + len(new)]
        if left != NONE:
            turned = [i for i in range(len(new)) if old[i] != new[i]]
            if len(turned) == 1 and (old[turned[0]], new[turned[0]]) == (0, 1):
                self.state[:16] = struct.pack("<qq", left - 1, failed if left else at + turned[0])
                if left == 0:
                    return False
        self.bytes[at : at + len(new)] = new
        return True

    def serve(self, fuse):
        """Answers the kernel: a folder with one file, `disk`, which is this one."""

        def attributes(node):
            is_folder = node == 1
            return struct.pack("<6Q10I", node, 0 if is_folder else BYTES, BYTES // 512, 0, 0, 0, 0, 0, 0, 0o40755 if is_folder else 0o100600, 1, 0, 0, 0, 4096, 0)

        def answer(call, node, rest):
            if call == INIT:
                return struct.pack("<IIIIHHIIHHI7I", 7, 31, 65536, 0, 12, 9, 131072, 1, 0, 0, 0, *[0] * 7)
            if call == LOOKUP and rest.split(b"\0")[0] == b"disk":
                return struct.pack("<4Q2I", 2, 0, 100, 100, 0, 0) + attributes(2)
            if call in (GETATTR, SETATTR):
                return struct.pack("<QII", 100, 0, 0) + attributes(node)
            if call in (OPEN, OPENDIR):
                return struct.pack("<QII", 1, 1 if call == OPEN else 0, 0)
            if call == STATFS:
                return struct.pack("<5Q10I", BYTES // 4096, 0, 0, 1, 1, 4096, 255, 4096, *[0] * 7)
            if call in (RELEASE, RELEASEDIR, FLUSH, FSYNC):
                return b""
            at, count = struct.unpack("<QI", rest[8:20]) if call in (READ, WRITE) else (0, 0)
            if call == READ:
                return self.bytes[at : at + count]
            if call == WRITE:
                return struct.pack("<II", count, 0) if self.takes(at, rest[40 : 40 + count]) else errno.EIO
            return errno.ENOENT if call == LOOKUP else errno.ENOSYS

        while True:
            try:
                asked = os.read(fuse, 1 << 20)
            except OSError as error:
                if error.errno == errno.ENODEV:
                    return
                continue
            _, call, number, node = struct.unpack("<IIQQ", asked[:24])
            if call not in (FORGET, FORGETS):
                said = answer(call, node, asked[40:])
                error, said = (said, b"") if isinstance(said, int) else (0, said)
                os.write(fuse, struct.pack("<IiQ", 16 + len(said), -error, number) + said)


def called(*words):
    return subprocess.run(words, check=True, capture_output=True, text=True).stdout.strip()


def mounted(image, at):
    """Mounts the file system that a file has. The loop device goes away with the mount."""
    os.makedirs(at)
    called("mount", "-o", "loop,noatime", image, at)


def run(folder, text, before=()):
    ended = subprocess.run([*before, scripts.program, "run"], cwd=folder, input=text.encode(), capture_output=True, timeout=60)
    return ended.returncode, ended.stdout.decode()


def tried(name, room, made, before, acknowledged):
    """Makes the disk, and takes it away however the trial ends."""
    os.mkdir(room)
    disk = Disk()
    fuse = os.open("/dev/fuse", os.O_RDWR)
    os.makedirs(f"{room}/fuse")
    if LIBC.mount(b"disk", f"{room}/fuse".encode(), b"fuse", 0, f"fd={fuse},rootmode=40000,user_id=0,group_id=0".encode()):
        sys.exit(f"no FUSE: {os.strerror(ctypes.get_errno())}")
    server = os.fork()
    if server == 0:
        disk.serve(fuse)
        os._exit(0)
    os.close(fuse)
    try:
        cut(name, room, disk, made, before, acknowledged)
    finally:
        for at in ("later", "disk", "fuse"):
            LIBC.umount2(f"{room}/{at}".encode(), DETACHED)
        os.kill(server, signal.SIGKILL)
        os.waitpid(server, 0)


def cut(name, room, disk, made, before, acknowledged):
    """A run whose last gate is not written, one behind it, and what is there when the power is gone."""
    called("mkfs.ext4", "-q", "-F", *made, f"{room}/fuse/disk")
    mounted(f"{room}/fuse/disk", f"{room}/disk")
    folder = f"{room}/disk/store"
    os.mkdir(folder)
    check(f"{name}: a first file", run(folder, "@ann create /first x\n"), (0, "1: ok\n"))
    os.sync()
    # The opening's two records come first.
    disk.fail(2)
    check(f"{name}: its gate is not written", run(folder, f"@ann create /big {'z' * 5000}\n"), (3, ""))
    check(f"{name}: what the disk has of that gate", (disk.failed() != NONE, disk.bytes[disk.failed()]), (True, 0))
    check(f"{name}: the next run acknowledges", run(folder, "@ann create /ack y\n", before), (0, "1: ok\n"))
    with open(f"{room}/cut", "wb") as image:
        image.write(disk.bytes)
    mounted(f"{room}/cut", f"{room}/later")
    check(f"{name}: behind the cut", run(f"{room}/later/store", "@ann read /ack\n"), (0, acknowledged))


def main():
    scripts.program = os.path.abspath(sys.argv[1]) if len(sys.argv) > 1 else str(scripts.BUILT_PROGRAM)
    lacking = [word for word in ("mkfs.ext4", "mount", "strace") if shutil.which(word) is None]
    if os.geteuid() or not os.path.exists("/dev/fuse") or lacking:
        print("left out: it asks for root, /dev/fuse, mkfs.ext4, mount and strace")
        return 77
    if LIBC.unshare(NEW_MOUNTS) or LIBC.mount(None, b"/", None, PRIVATE, None):
        sys.exit("no mounts of its own")
    left_out = ("strace", "-f", "-qq", "-o", "/dev/null", "-e", "trace=pwrite64", "-e", "inject=pwrite64:retval=1:when=1..3")
    with tempfile.TemporaryDirectory() as room:
        for kind, made in (("a journal", ()), ("no journal", ("-O", "^has_journal"))):
            tried(f"{kind}, as it is", f"{room}/{kind[0]}1", made, (), "1: bytes 1\n1| y\n")
            tried(f"{kind}, gates not given again", f"{room}/{kind[0]}2", made, left_out, "1: refused no file /ack\n")
    print(f"{counts['passed']} passed, {counts['failed']} failed")
    return 1 if counts["failed"] else 0


if __name__ == "__main__":
    sys.exit(main())
