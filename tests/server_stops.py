"""A program that is killed at the beginning of one of its calls that change files: Linux on x86-64.

A filter of the kernel hands these calls, and no others, to the tracer (seccomp(2), ptrace(2))."""
import ctypes
import os
import platform
import signal
import struct

# include/uapi/linux: ptrace.h, prctl.h, seccomp.h, bpf_common.h; arch/x86/entry/syscalls/syscall_64.tbl
TRACEME, CONTINUE, SETOPTIONS, GET_SYSCALL_INFO = 0, 7, 0x4200, 0x420E
TELL_SECCOMP, KILL_WITH_US = 0x80, 0x100000
NO_NEW_PRIVILEGES, SET_SECCOMP, FILTER = 38, 22, 2
LOAD, IF_EQUAL, IF_ANY, RETURN, TRACE, ALLOW = 0x20, 0x15, 0x45, 0x06, 0x7FF00000, 0x7FFF0000
OPENAT, CREATE_OR_TRUNCATE = 257, 0o1100
KINDS = {"write": (1, 18, 20, 296, 326), "sync": (74, 75, 162, 306), "cut": (76, 77), "move": (82, 264, 316),
         "remove": (84, 87, 263), "make": (83, 258)}


class Info(ctypes.Structure):
    """struct ptrace_syscall_info, at a call that the filter handed over."""
    _fields_ = [("op", ctypes.c_uint8), ("arch", ctypes.c_uint32), ("places", ctypes.c_uint64 * 2),
                ("number", ctypes.c_uint64), ("words", ctypes.c_uint64 * 6)]


def kind_of(info):
    """Standard output and standard error are no files."""
    if info.number in KINDS["write"] and info.words[0] <= 2:
        return None
    return next((kind for kind, numbers in KINDS.items() if info.number in numbers), "make")


def hand_over_changes(libc):
    """Installs the filter: all changing calls, and openat where it may make a file or empty it."""
    numbers = [number for kind in KINDS.values() for number in kind]
    steps = [(LOAD, 0, 0, 0), (IF_EQUAL, len(numbers) + 1, 0, OPENAT)]
    steps += [(IF_EQUAL, len(numbers) + 3 - at, 0, number) for at, number in enumerate(numbers)]
    steps += [(RETURN, 0, 0, ALLOW), (LOAD, 0, 0, 32), (IF_ANY, 1, 0, CREATE_OR_TRUNCATE), (RETURN, 0, 0, ALLOW),
              (RETURN, 0, 0, TRACE)]
    program = ctypes.create_string_buffer(b"".join(struct.pack("HBBI", *step) for step in steps))
    header = ctypes.create_string_buffer(struct.pack("H6xQ", len(steps), ctypes.addressof(program)))
    return libc.prctl(NO_NEW_PRIVILEGES, 1, 0, 0, 0) == 0 == libc.prctl(SET_SECCOMP, FILTER, header, 0, 0)


def start(libc, words, env):
    """The program's process, stopped where it begins."""
    child = os.fork()
    if child == 0:
        try:
            os.dup2(os.open(os.devnull, os.O_RDWR), 2)
            if libc.ptrace(TRACEME, 0, None, None) == 0 and hand_over_changes(libc):
                os.execve(words[0], words, env)
        finally:
            os._exit(127)
    return child


def run_until(kind, number, words, env):
    """Runs the program, and kills it at the beginning of that change of a kind, the first being 1. Whether it came to
    that; None where calls can't be traced here."""
    if platform.system() != "Linux" or platform.machine() != "x86_64":
        return None
    libc = ctypes.CDLL(None)
    libc.ptrace.argtypes = [ctypes.c_long, ctypes.c_long, ctypes.c_void_p, ctypes.c_void_p]
    libc.prctl.argtypes = [ctypes.c_int, ctypes.c_ulong, ctypes.c_void_p, ctypes.c_ulong, ctypes.c_ulong]
    child = start(libc, words, env)
    seen, info, told = 0, Info(), False
    _, status = os.waitpid(child, 0)
    if os.WIFSTOPPED(status):
        libc.ptrace(SETOPTIONS, child, None, TELL_SECCOMP | KILL_WITH_US)
    while os.WIFSTOPPED(status):
        if libc.ptrace(GET_SYSCALL_INFO, child, ctypes.sizeof(info), ctypes.addressof(info)) > 0 and info.op == 3:
            told = True
            seen += kind_of(info) == kind
            if seen == number:
                os.kill(child, signal.SIGKILL)
        libc.ptrace(CONTINUE, child, None, None)
        _, status = os.waitpid(child, 0)
    return seen == number if told else None
