"""Threads of another process by ptrace(2), on x86-64: they stand still, end a system call as they are told, or go on by single
instructions. Each has to be let go by the thread that seized it."""

import contextlib
import ctypes
import errno
import os
import subprocess
import time

SEIZE, INTERRUPT, DETACH, CONT, STEP, SYSCALL, GETREGS, SETREGS = 0x4206, 0x4207, 17, 7, 9, 24, 12, 13  # ptrace(2)
MARKS_CALLS = 1  # PTRACE_O_TRACESYSGOOD
AT_CALL = 0x85  # SIGTRAP, so marked
WALL = 0x40000000  # waitpid(2)
R10, RAX, RSI, ORIG_RAX, RIP = 7, 10, 13, 15, 16  # places of registers in user_regs_struct (sys/user.h)
SYSCALL_CODE, LOCK, XCHG = b"\x0f\x05", 0xF0, (0x86, 0x87)
CLOSE, SENDTO, RECVFROM, ACCEPT4 = 3, 44, 45, 288  # the numbers of system calls
FUTEX, RESTARTED, EPOLL_WAIT, NANOSLEEP, CLOCK_NANOSLEEP = 202, 219, 232, 35, 230  # and of those that sleep
SLEEPS = {FUTEX, RESTARTED, EPOLL_WAIT, NANOSLEEP, CLOCK_NANOSLEEP}
SLEEP = "sleep"
WAKES = {1, 10}  # FUTEX_WAKE, FUTEX_WAKE_BITSET of futex(2)
TRACE = ctypes.CDLL(None, use_errno=True).ptrace
TRACE.argtypes = [ctypes.c_long, ctypes.c_long, ctypes.c_void_p, ctypes.c_void_p]


def ptrace(request, task, data=None):
    if TRACE(request, task, None, data) != 0:
        raise OSError(ctypes.get_errno(), "ptrace")


def call_of(registers):
    """The number of the call that a thread is about to begin, or SLEEP."""
    number = registers[RAX]
    return SLEEP if number in SLEEPS and not (number == FUTEX and registers[RSI] & 127 in WAKES) else number


def is_atomic(code):
    """Whether an instruction has the prefix LOCK, or is XCHG with memory, as its code begins."""
    if code[0] != LOCK and 0x40 <= code[0] < 0x50:
        code = code[1:]
    return code[0] == LOCK or (code[0] in XCHG and code[1] < 0xC0)


class Traced:
    """A seized thread. It stands still, but while it is let run."""

    def __init__(self, task):
        self.task, self.runs = task, True
        self.memory = os.open(f"/proc/{task}/mem", os.O_RDONLY)
        ptrace(SEIZE, task, MARKS_CALLS)
        self.halt()

    def go(self, request=CONT):
        ptrace(request, self.task)
        self.runs = True

    def stops(self, seconds):
        """Whether it stands still within so many seconds, and where: as the status of waitpid(2) has it."""
        ends = time.monotonic() + seconds
        while self.runs:
            found, status = os.waitpid(self.task, WALL | os.WNOHANG)
            self.runs = not found
            if not self.runs:
                return status >> 8
            if time.monotonic() > ends:
                return None
            time.sleep(0.0001)
        return 0

    def halt(self):
        if self.runs:
            ptrace(INTERRUPT, self.task)
            assert self.stops(10) is not None, "a thread does not stop"

    def registers(self):
        registers = (ctypes.c_ulonglong * 27)()
        ptrace(GETREGS, self.task, registers)
        return registers

    def end_call(self, error=errno.EBADF):
        """Has the call in which it waits answer this error."""
        registers = self.registers()
        registers[RAX] = 2**64 - error
        ptrace(SETREGS, self.task, registers)

    def goes_to_call(self, late):
        """Lets it run until a call begins or ends. Answers whether it does that. If a while passes before, `late` may let others
        run, for which it may wait."""
        self.go(SYSCALL)
        at = self.stops(0.1)
        if at is None:
            late()
            at = self.stops(10)
        assert at is not None, "a thread goes on waiting"
        # It may also stand still since it was halted, or since a signal is about to reach it.
        return at == AT_CALL

    def begins(self, number, late=lambda: None):
        """Lets it run until it begins this call. Answers whether it does, and does not end before."""
        is_begun = False
        with contextlib.suppress(ProcessLookupError):
            while True:
                is_begun = self.goes_to_call(late) and not is_begun
                if is_begun and number == self.number():
                    return True
        return False

    def ends(self, late=lambda: None):
        """Lets it run until the call that it began has ended: the answer."""
        self.goes_to_call(late)
        return ctypes.c_longlong(self.registers()[RAX]).value

    def longest(self):
        """For how many milliseconds the call of epoll_wait(2) that it has begun may wait."""
        return ctypes.c_int(self.registers()[R10]).value

    def number(self):
        """The number of the call that it has begun."""
        number = self.registers()[ORIG_RAX]
        return FUTEX if number == RESTARTED else number

    def run_to(self, number, is_answer):
        """Lets it run until this call has ended with such an answer."""
        while self.begins(number) and not is_answer(self.ends()):
            pass

    def step(self, most, to=SLEEP, before=None):
        """Lets it make so many instructions, or fewer if the next is a call in which it sleeps, or this one, or the atomic
        instruction with this number. Answers how many atomic ones it made."""
        atomic = 0
        for _ in range(most):
            registers = self.registers()
            code = os.pread(self.memory, 8, registers[RIP])
            if code.startswith(SYSCALL_CODE) and call_of(registers) in (SLEEP, to):
                break
            if is_atomic(code):
                if atomic == before:
                    break
                atomic += 1
            self.go(STEP)
            os.waitpid(self.task, WALL)
            self.runs = False
        return atomic

    def let_go(self):
        """It is no longer traced. A second call changes nothing."""
        if self.memory is None:
            return
        # It may have been killed.
        with contextlib.suppress(ProcessLookupError):
            self.halt()
            ptrace(DETACH, self.task)
        os.close(self.memory)
        self.memory = None


@contextlib.contextmanager
def halted(*tasks):
    """These threads stand still meanwhile, and all others go on. Answers them."""
    found = []
    try:
        for task in tasks:
            found.append(Traced(int(task)))
        yield found
    finally:
        for thread in found:
            thread.let_go()


def is_allowed():
    """Whether a process may trace another that it has started."""
    process = subprocess.Popen(["sleep", "9"])
    try:
        with halted(process.pid):
            return True
    except PermissionError:
        return False
    finally:
        process.kill()
        process.wait()
