"""Runs a program whose calls of the system are counted and changed on their way, by ptrace(2) of Linux on x86-64, with nothing installed.

Calls count from where the program begins: what every program of the kit begins with asks that SIGPIPE be ignored (rt_sigaction), and what
loads it makes no such call.
"""
import contextlib
import ctypes
import dataclasses
import errno
import os
import signal
import tempfile

# Numbers of calls (asm/unistd_64.h), of requests and options (linux/ptrace.h).
READ, WRITE, OPEN, MMAP, BRK, RT_SIGACTION, MREMAP, OPENAT = 0, 1, 2, 9, 12, 13, 25, 257
FILES, MEMORY = {READ, WRITE, OPEN, OPENAT}, {MMAP, BRK, MREMAP}
TRACEME, CONT, GETREGS, SETREGS, SYSCALL, SETOPTIONS = 0, 7, 12, 13, 24, 0x4200
TRACESYSGOOD, TRACEEXIT, EXITKILL = 1, 0x40, 0x100000
STREAMS = {0: "stdin", 1: "stdout", 2: "stderr"}
# A number that no call has.
NO_CALL = 2**64 - 1

LIBC = ctypes.CDLL(None, use_errno=True)
LIBC.ptrace.argtypes = [ctypes.c_long, ctypes.c_long, ctypes.c_void_p, ctypes.c_void_p]
LIBC.ptrace.restype = ctypes.c_long
REGISTERS = "r15 r14 r13 r12 rbp rbx r11 r10 r9 r8 rax rcx rdx rsi rdi orig_rax rip cs eflags rsp ss fs_base gs_base ds es fs gs"


class Registers(ctypes.Structure):
    """The registers of a stopped process: `orig_rax` is the number of its call, `rdi`, `rsi` and `rdx` its arguments, `rax` its answer."""

    _fields_ = [(name, ctypes.c_ulong) for name in REGISTERS.split()]


@dataclasses.dataclass
class Fault:
    """What happens to calls: those of `kinds` with the numbers `first` to `last`, counted from 1, are not made and answer `answer`, an
    error where it is negative; or they are made for one byte, where it is None."""

    kinds: set
    first: int
    last: int
    answer: int | None

    def meets(self, kind, number):
        return kind in self.kinds and self.first <= number <= self.last


@dataclasses.dataclass
class Call:
    """A call that was made: its kind, the file that it names or is of, whether it makes that file, and what it answered."""

    kind: int
    file: str
    makes: bool = False
    answer: int = 0


@dataclasses.dataclass
class Done:
    """The status of a run, minus the number of a signal that ended it, what it wrote, and its calls of the kinds that were asked for."""

    status: int
    out: bytes
    err: bytes
    calls: list


def ptrace(request, pid, data=None):
    if LIBC.ptrace(request, pid, None, data) < 0:
        raise OSError(ctypes.get_errno(), "ptrace: " + os.strerror(ctypes.get_errno()))


def registers_of(pid):
    registers = Registers()
    ptrace(GETREGS, pid, ctypes.addressof(registers))
    return registers


def set_registers(pid, registers):
    ptrace(SETREGS, pid, ctypes.addressof(registers))


def text_at(pid, address):
    """The text before the first byte 0 from an address of a process on."""
    with open(f"/proc/{pid}/mem", "rb", 0) as memory:
        memory.seek(address)
        return os.fsdecode(memory.read(4096).split(b"\0")[0])


def call_of(pid, kind, registers):
    """The call that a process is about to make."""
    if kind in MEMORY:
        return Call(kind, "")
    if kind in (OPEN, OPENAT):
        path, flags = (registers.rdi, registers.rsi) if kind == OPEN else (registers.rsi, registers.rdx)
        return Call(OPENAT, text_at(pid, path), flags & os.O_CREAT != 0)
    return Call(kind, STREAMS.get(registers.rdi) or os.path.basename(os.readlink(f"/proc/{pid}/fd/{registers.rdi}")))


def changed(registers, kind, fault):
    """The registers of a call that a fault meets, so that it is not made, or made otherwise."""
    registers = Registers.from_buffer_copy(registers)
    if fault.answer is None:
        registers.rdx = min(registers.rdx, 1)
    elif kind == BRK:
        # A call of brk that fails answers the end that stays, as one for the end 0 does.
        registers.rdi = 0
    else:
        registers.orig_rax = NO_CALL
    return registers


class Tracer:
    """A process, whether it has begun, its calls so far, and what is to happen to some."""

    def __init__(self, pid, kinds, fault):
        self.pid, self.kinds, self.fault = pid, kinds, fault
        self.begun, self.calls, self.is_counted, self.met = False, [], False, None

    def enter(self):
        """Counts the call that the process is about to make, and changes it."""
        registers = registers_of(self.pid)
        kind = registers.orig_rax
        self.begun = self.begun or (kind == RT_SIGACTION and registers.rdi == signal.SIGPIPE)
        self.is_counted = self.begun and kind in self.kinds
        if not self.is_counted:
            return
        self.calls.append(call_of(self.pid, kind, registers))
        if self.fault and self.fault.meets(kind, len(self.calls)):
            self.met = registers
            set_registers(self.pid, changed(registers, kind, self.fault))

    def leave(self):
        """Sees the answer of the call, or gives it; but for it a call leaves its registers as they were."""
        registers = registers_of(self.pid)
        answer = ctypes.c_long(registers.rax).value
        if self.met:
            answer = self.fault.answer if registers.orig_rax == NO_CALL else answer
            self.met.rax = answer % 2**64
            set_registers(self.pid, self.met)
        self.calls[-1].answer, self.met = answer, None

    def follow(self):
        """Lets the process run to its end, and answers its status."""
        inside, passed_on = False, None
        while True:
            ptrace(SYSCALL, self.pid, passed_on)
            _, status = os.waitpid(self.pid, 0)
            if not os.WIFSTOPPED(status):
                return os.waitstatus_to_exitcode(status)
            passed_on = None
            if os.WSTOPSIG(status) != signal.SIGTRAP | 0x80:
                passed_on = os.WSTOPSIG(status)
                continue
            inside = not inside
            if inside:
                self.enter()
            elif self.is_counted:
                self.leave()


def begin(command, folder, streams, limit=lambda: None):
    """Becomes the command in a folder, under limits, and stops at its first instruction; a child process calls this."""
    try:
        os.chdir(folder)
        limit()
        for number, stream in enumerate(streams):
            os.dup2(stream, number)
        ptrace(TRACEME, 0)
        os.execv(command[0], command)
    finally:
        os._exit(errno.ENOEXEC)


@contextlib.contextmanager
def stopped(command, folder, options, limit=lambda: None, given=os.devnull):
    """The number of a process that is stopped at the first instruction of a command with an input, and what it will have written."""
    with open(given, "rb") as read, tempfile.TemporaryFile() as out, tempfile.TemporaryFile() as err:
        pid = os.fork()
        if pid == 0:
            begin(command, folder, [read.fileno(), out.fileno(), err.fileno()], limit)
        _, status = os.waitpid(pid, 0)
        if not os.WIFSTOPPED(status):
            raise OSError(f"{command[0]} cannot be run, or a process may not trace another one here (ptrace)")
        ptrace(SETOPTIONS, pid, options | EXITKILL)
        yield pid, lambda: [os.pread(stream.fileno(), 1 << 30, 0) for stream in (out, err)]


def traced(command, folder, kinds, fault=None):
    """Runs a command in a folder with no input, of whose calls of some kinds a fault meets those that it says."""
    with stopped(command, folder, TRACESYSGOOD) as (pid, written):
        tracer = Tracer(pid, kinds, fault)
        status = tracer.follow()
        if not tracer.begun:
            raise OSError(f"no call of {command[0]} shows where it begins")
        return Done(status, *written(), tracer.calls)


@dataclasses.dataclass
class Measured:
    """The status of a run, minus the number of a signal that ended it, what it wrote, its processor seconds, and the most kB of memory and
    of stack that it had."""

    status: int
    out: bytes
    err: bytes
    seconds: float
    peak: int
    stack: int


def kilobytes(pid, name):
    """A number of /proc/PID/status."""
    with open(f"/proc/{pid}/status") as lines:
        return next(int(line.split()[1]) for line in lines if line.startswith(name + ":"))


def measured(command, folder, limit, given):
    """Runs a command in a folder with the file `given` as its input, under limits that `limit` sets, and measures it where it ends."""
    with stopped(command, folder, TRACEEXIT, limit, given) as (pid, written):
        passed_on, peak, stack = None, 0, 0
        while True:
            ptrace(CONT, pid, passed_on)
            _, status, used = os.wait4(pid, 0)
            if not os.WIFSTOPPED(status):
                return Measured(os.waitstatus_to_exitcode(status), *written(), used.ru_utime + used.ru_stime, peak, stack)
            passed_on = os.WSTOPSIG(status)
            if passed_on == signal.SIGTRAP:
                # The memory of the process is still there.
                passed_on, peak, stack = None, kilobytes(pid, "VmHWM"), kilobytes(pid, "VmStk")
