"""Traces a run of a program call by call, and has its calls to the system fail. Linux on x86-64.

tests/real_edge is run by it. `traced` gives what the run writes and how it ends, `calls_of` the calls that it makes.
"""

import ctypes
import os
import signal
import tempfile

REGISTERS = "r15 r14 r13 r12 rbp rbx r11 r10 r9 r8 rax rcx rdx rsi rdi orig_rax rip cs eflags rsp ss fs_base gs_base ds es fs gs"
TRACEME, GETREGS, SETREGS, SYSCALL, SETOPTIONS, SYSCALL_INFO = 0, 12, 13, 24, 0x4200, 0x420E
SYSGOOD_AND_EXITKILL = 0x100001
CALLS = {
    0: "read", 1: "write", 2: "open", 3: "close", 4: "stat", 5: "fstat", 6: "lstat", 8: "lseek", 9: "mmap", 12: "brk", 25: "mremap",
    72: "fcntl", 74: "fsync", 75: "fdatasync", 82: "rename", 87: "unlink", 90: "chmod", 91: "fchmod", 257: "openat",
    262: "newfstatat", 263: "unlinkat", 264: "renameat", 316: "renameat2", 332: "statx",
}
OF_MEMORY = {"mmap", "brk", "mremap"}
OF_FILES = set(CALLS.values()) - OF_MEMORY
LIBC = ctypes.CDLL(None, use_errno=True)
LIBC.ptrace.argtypes = [ctypes.c_long, ctypes.c_long, ctypes.c_void_p, ctypes.c_void_p]
LIBC.ptrace.restype = ctypes.c_long


class NotTraced(Exception):
    """Why nothing can be traced here."""


class Registers(ctypes.Structure):
    _fields_ = [(name, ctypes.c_ulonglong) for name in REGISTERS.split()]


class Kill(Exception):
    """Asks that the run be killed before the call that it is about to make."""


def ptrace(what, pid, where=0, data=None):
    if LIBC.ptrace(what, pid, where, data) < 0 and what != SYSCALL:
        raise NotTraced(f"tracing is refused: {os.strerror(ctypes.get_errno())}")


def begun(program, room, given, out):
    """A child that is stopped where the program begins."""
    pid = os.fork()
    if pid == 0:
        try:
            os.chdir(room)
            os.dup2(os.open(given, os.O_RDONLY), 0)
            os.dup2(os.open(out, os.O_WRONLY | os.O_TRUNC), 1)
            os.closerange(3, 64)
            LIBC.ptrace(TRACEME, 0, None, None)
            os.execv(program, [program])
        finally:
            os._exit(127)
    os.waitpid(pid, 0)
    ptrace(SETOPTIONS, pid, 0, SYSGOOD_AND_EXITKILL)
    return pid


def call_at(pid):
    """The call that begins at this stop, by its name, and its first argument; None where one ends."""
    told = (ctypes.c_ubyte * 88)()
    ptrace(SYSCALL_INFO, pid, 88, ctypes.addressof(told))
    if told[0] != 1:
        return None
    number, first = (int.from_bytes(bytes(told[at:at + 8]), "little") for at in (24, 32))
    return CALLS.get(number, str(number)), first


def change(pid, **values):
    """Gives registers other values, and what they had."""
    registers = Registers()
    ptrace(GETREGS, pid, 0, ctypes.addressof(registers))
    before = {name: getattr(registers, name) for name in values}
    for name, value in values.items():
        setattr(registers, name, value % 2**64)
    ptrace(SETREGS, pid, 0, ctypes.addressof(registers))
    return before


def turned(pid, name, asked):
    """Has the call that begins do what the hook asked, and gives the registers as they have to be when it ends."""
    if asked == 0:
        return change(pid, rdx=1)
    if name == "brk":
        # It tells no error: what it can't do it leaves, and says where the memory ends.
        return change(pid, rdi=0)
    change(pid, orig_rax=-1)
    return {"rax": -asked}


def traced(program, room, script, hook):
    """The replies of a traced run and its status. From the first read of the input on the hook is asked at each call, with the
    call's number from 0, its name and its first argument: an error's number makes the call fail, 0 has it move one byte alone,
    None leaves it, and `Kill` ends the run."""
    with tempfile.TemporaryDirectory() as beside:
        for name, data in [("in", script.encode()), ("out", b"")]:
            with open(f"{beside}/{name}", "wb") as file:
                file.write(data)
        pid = begun(program, room, f"{beside}/in", f"{beside}/out")
        status = followed(pid, hook)
        with open(f"{beside}/out", encoding="utf-8", errors="replace") as file:
            return file.read().splitlines(), status


def followed(pid, hook):
    """Lets the run go from call to call to its end."""
    number, sent, after = None, 0, {}
    while True:
        ptrace(SYSCALL, pid, 0, sent)
        _, status = os.waitpid(pid, 0)
        if not os.WIFSTOPPED(status):
            return os.waitstatus_to_exitcode(status)
        found, sent = os.WSTOPSIG(status), 0
        if found != signal.SIGTRAP | 0x80:
            sent = found if found != signal.SIGTRAP else 0
            continue
        call = call_at(pid)
        if call is None:
            change(pid, **after)
            after = {}
            continue
        if number is None and call != ("read", 0):
            continue
        number = 0 if number is None else number + 1
        try:
            asked = hook(number, *call)
        except Kill:
            os.kill(pid, signal.SIGKILL)
            continue
        if asked is not None:
            after = turned(pid, call[0], asked)


def calls_of(program, room, script):
    """The calls of a run behind its first read of the input."""
    found = []
    traced(program, room, script, lambda number, name, first: found.append((name, first)))
    return found
