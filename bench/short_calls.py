#!/usr/bin/env python3
"""Has the system do less than it is asked: at each call that writes or reads, one byte or half of what was asked is done, and the call
says so. What the program prints, its exit status and the bytes of the areas are then as if each call had been done whole. Ends with
`N passed, M failed`: with status 1 where one failed, and with 77 where nothing was tried, for want of `ptrace` or of an x86-64.

    bench/short_calls.py [PROGRAM]

The count of bytes that is asked for is made smaller on its way to the system, so that a call is really cut short: its other bytes are
neither written nor read. Each kind of call is cut alone, and all are cut at once; standard output is a pipe, or a file.
"""
import ctypes
import os
import platform
import signal
import subprocess
import sys

import scripts
from scripts import EVERY_RECORD, areas_in, check, counts, room, script_of
from stops import MOVED, RESTORED

# Records and answers of many bytes.
LONG = script_of(
    ["@ann create /long " + "words " * 500, "A: CREATE TABLE t (id INTEGER PRIMARY KEY, name VARCHAR(1000))"]
    + [f"A: INSERT INTO t VALUES ({i}, '{'name ' * i}')" for i in range(1, 100)]
    + ["@ann read /long", "A: SELECT id, name FROM t", "! backup"]
)
# Numbers of x86-64's calls; each takes its count of bytes in the register rdx.
READ, WRITE, READ_AT, WRITE_AT = 0, 1, 17, 18
KINDS = {
    "writes to areas": (WRITE_AT,),
    "reads of areas": (READ_AT,),
    "what is printed": (WRITE,),
    "reads of the script": (READ,),
    "all calls": (READ, WRITE, READ_AT, WRITE_AT),
}
CUTS = {"one byte": lambda count: 1, "half": lambda count: (count + 1) // 2}
TRACEME, GETREGS, SETREGS, SYSCALL, SETOPTIONS = 0, 12, 13, 24, 0x4200
TRACESYSGOOD, EXITKILL = 1, 0x100000
SYSCALL_STOP = signal.SIGTRAP | 0x80
REGISTERS = (
    "r15 r14 r13 r12 rbp rbx r11 r10 r9 r8 rax rcx rdx rsi rdi orig_rax rip cs eflags rsp ss fs_base gs_base ds es fs gs".split()
)


class Registers(ctypes.Structure):
    _fields_ = [(name, ctypes.c_ulonglong) for name in REGISTERS]


libc = ctypes.CDLL(None, use_errno=True)
libc.ptrace.argtypes = [ctypes.c_long, ctypes.c_long, ctypes.c_void_p, ctypes.c_void_p]
libc.ptrace.restype = ctypes.c_long


def ptrace(request, pid, data=None):
    if libc.ptrace(request, pid, None, data) == -1:
        raise OSError(ctypes.get_errno(), "ptrace")


def cut_run(folder, text, kinds, cut, to_file):
    """The exit status, what is printed, and how many calls were cut short, of a run whose calls of these kinds are each cut."""
    with open(os.path.join(folder, "script"), "w+b") as script, open(os.path.join(folder, "printed"), "w+b") as printed:
        script.write(text.encode("latin-1"))
        script.seek(0)
        into, out = (printed.fileno(), None) if to_file else pipe_to(printed)
        pid = os.fork()
        if pid == 0:
            os.dup2(script.fileno(), 0)
            os.dup2(into, 1)
            os.chdir(os.path.join(folder, "areas"))
            ptrace(TRACEME, 0)
            os.execv(scripts.program, [scripts.program, "run"])
        status, shortened = traced(pid, kinds, cut)
        if out is not None:
            os.close(into)
            out.wait()
        printed.seek(0)
        return status, printed.read().decode("latin-1"), shortened


def pipe_to(file):
    """The end of a pipe to write to, and the process that brings what comes through it into a file."""
    read_end, write_end = os.pipe()
    reader = subprocess.Popen(["cat"], stdin=read_end, stdout=file)
    os.close(read_end)
    return write_end, reader


def traced(pid, kinds, cut):
    """The exit status of a process, whose calls are cut until it ends, and how many were. A call that goes on with the rest is cut again."""
    os.waitpid(pid, 0)
    ptrace(SETOPTIONS, pid, TRACESYSGOOD | EXITKILL)
    shortened, entering, given = 0, True, 0
    while True:
        ptrace(SYSCALL, pid, given)
        _, status = os.waitpid(pid, 0)
        if not os.WIFSTOPPED(status):
            return os.waitstatus_to_exitcode(status), shortened
        given = 0 if os.WSTOPSIG(status) == SYSCALL_STOP else os.WSTOPSIG(status)
        if given:
            continue
        if entering:
            shortened += shorten(pid, kinds, cut)
        entering = not entering


def shorten(pid, kinds, cut):
    """Makes the count of the call that a process enters smaller, where it is of one of the kinds: whether it did."""
    registers = Registers()
    ptrace(GETREGS, pid, ctypes.addressof(registers))
    if registers.orig_rax not in kinds or not is_own(pid, registers) or cut(registers.rdx) >= registers.rdx:
        return False
    registers.rdx = cut(registers.rdx)
    ptrace(SETREGS, pid, ctypes.addressof(registers))
    return True


def is_own(pid, registers):
    """Whether a call is of an area, the script or standard output: the loader's calls, which read libraries, are left whole."""
    if registers.orig_rax in (READ, WRITE):
        return registers.rdi == registers.orig_rax
    return "/areas/datalinks." in os.readlink(f"/proc/{pid}/fd/{registers.rdi}")


def whole_run(folder, text):
    ended = subprocess.run(
        [scripts.program, "run"], cwd=os.path.join(folder, "areas"), input=text.encode("latin-1"), capture_output=True, timeout=600
    )
    return ended.returncode, ended.stdout.decode("latin-1")


def after_cuts(name, script, kind, cut):
    """Two runs of a script in one folder, the second over what the first left, with each call cut and with none."""
    for to_file in (False, True):
        with room() as whole, room() as short:
            for folder in (whole, short):
                os.mkdir(os.path.join(folder, "areas"))
            cuts = 0
            for run in ("first run", "second run"):
                wanted = whole_run(whole, script)
                status, printed, shortened = cut_run(short, script, KINDS[kind], CUTS[cut], to_file)
                cuts += shortened
                where = f"{name}, {run}, {kind}, {cut}, to a {'file' if to_file else 'pipe'}"
                check(f"{where}: status and what is printed", (status, printed), wanted)
                check(f"{where}: areas that differ", differing(areas_of(short), areas_of(whole)), [])
            check(f"{where}: a call was cut", cuts > 0, True)


def areas_of(folder):
    return areas_in(os.path.join(folder, "areas"))


def differing(areas, wanted):
    return [f"{name}: {len(areas[name])} bytes, for {len(wanted[name])}" for name in wanted if areas[name] != wanted[name]]


def can_trace():
    return platform.machine() == "x86_64" and cut_works()


def cut_works():
    pid = os.fork()
    if pid == 0:
        os._exit(0 if libc.ptrace(TRACEME, 0, None, None) == 0 else 1)
    return os.waitstatus_to_exitcode(os.waitpid(pid, 0)[1]) == 0


def main():
    scripts.program = os.path.abspath(sys.argv[1]) if len(sys.argv) > 1 else str(scripts.BUILT_PROGRAM)
    if not can_trace():
        print("left out: the system does not let a process trace another, or is no x86-64")
        sys.exit(77)
    for name, script in (("moves", MOVED), ("a restore", RESTORED), ("every record", EVERY_RECORD), ("long answers", LONG)):
        for kind in KINDS:
            for cut in CUTS:
                after_cuts(name, script, kind, cut)
    print(f"{counts['passed']} passed, {counts['failed']} failed")
    sys.exit(1 if counts["failed"] else 0)


if __name__ == "__main__":
    main()
