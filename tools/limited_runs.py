"""Runs the program with limits, for `attack.py` and `refuse_memory.py`."""
import os
import pathlib
import resource
import select
import shutil
import signal
import struct
import subprocess
from collections import namedtuple

from building import TOP

# Of the processor. (A program with checks of its memory makes the 1,000,000 turns of a scan in more than ten.)
SECONDS, SECONDS_WITH_CHECKS = 10, 60
MEGABYTES, STACK = 512, 64 << 20

# How a run ended: its status, negative for a signal and None for a hang, its standard output and standard error.
Ended = namedtuple("Ended", "status out err")


# A request of `limited_runs.c`, before the words, and its answer.
REQUEST, ANSWER = struct.Struct("=5I"), struct.Struct("=3q")
# Where it says why a program cannot be started; standard error, unless it is a file.
TOLD = None


class Program:
    """Runs a program with limits, its outputs in memory."""

    # Whether a run can have less memory than this process.
    has_less = False

    def __init__(self, file):
        self.file = os.path.abspath(file)
        self.checks_memory = b"__asan_init" in pathlib.Path(file).read_bytes()
        self.seconds = SECONDS_WITH_CHECKS if self.checks_memory else SECONDS
        self.environment = dict(os.environ)
        self.outlets = [os.memfd_create(name) for name in ("out", "err")]
        if self.checks_memory:
            # (it has terabytes of addresses for its own use, so its limit is one of what is used)
            self.environment["ASAN_OPTIONS"] = f"max_allocation_size_mb={MEGABYTES}:malloc_context_size=0"
        limit(resource.RLIMIT_STACK, STACK)
        limit(resource.RLIMIT_CORE, 0)

    def run(self, words, broken=None, how="full"):
        """The end of a run; the outlet `broken` (1 or 2) takes nothing."""
        actions = [(os.POSIX_SPAWN_OPEN, 0, "/dev/null", os.O_RDONLY, 0)]
        for number, outlet in enumerate(self.outlets, 1):
            os.ftruncate(outlet, 0)
            os.lseek(outlet, 0, os.SEEK_SET)
            if number != broken:
                actions.append((os.POSIX_SPAWN_DUP2, outlet, number))
            elif how == "closed":
                actions.append((os.POSIX_SPAWN_CLOSE, number))
            else:
                actions.append((os.POSIX_SPAWN_OPEN, number, "/dev/full", os.O_WRONLY, 0))
        if not self.checks_memory:
            limit(resource.RLIMIT_AS, MEGABYTES << 20)
        process = os.posix_spawn(self.file, [os.fsencode(it) for it in (self.file, *words)], self.environment, file_actions=actions)
        resource.setrlimit(resource.RLIMIT_AS, (resource.RLIM_INFINITY, resource.getrlimit(resource.RLIMIT_AS)[1]))
        return Ended(self.end(process), *map(whole, self.outlets))

    def close(self):
        for outlet in self.outlets:
            os.close(outlet)

    def end(self, process):
        """The status of a process; it is ended where it does not end, be it that it runs or that it waits."""
        try:
            resource.prlimit(process, resource.RLIMIT_CPU, (self.seconds, self.seconds + 5))
        except ProcessLookupError:
            pass
        try:
            self.wait(process)
        except BaseException:
            os.kill(process, signal.SIGKILL)
            os.waitpid(process, 0)
            raise
        status = os.waitstatus_to_exitcode(os.waitpid(process, 0)[1])
        # (the limit of the processor, or ended above)
        return None if status in (-signal.SIGXCPU, -signal.SIGKILL) else status

    def wait(self, process):
        """Waits until a process ends; one that waits itself is ended."""
        ends, before = select.poll(), None
        handle = os.pidfd_open(process)
        ends.register(handle, select.POLLIN)
        while not ends.poll(min(self.seconds, SECONDS) * 1000):
            state = state_of(process)
            if state == before and state[0] != "R":
                os.kill(process, signal.SIGKILL)
            before = state
        os.close(handle)


class Quick(Program):
    """Runs a program by `limited_runs.c`, which starts processes in less time."""

    def __init__(self, file, runner):
        super().__init__(file)
        self.runner, self.started, self.has_less = runner, None, not self.checks_memory

    def start(self):
        words = [self.runner, self.file, self.seconds, *self.outlets]
        pipes = {"stdin": subprocess.PIPE, "stdout": subprocess.PIPE, "stderr": TOLD}
        return subprocess.Popen([str(it) for it in words], env=self.environment, pass_fds=self.outlets, **pipes)

    def run(self, words, broken=None, how="full", megabytes=MEGABYTES):
        self.started = self.started or self.start()
        given = b"".join(os.fsencode(it) + b"\0" for it in words)
        most = 0 if self.checks_memory else megabytes
        self.started.stdin.write(REQUEST.pack(len(words), broken or 0, how == "closed", most, len(given)) + given)
        self.started.stdin.flush()
        answer = self.started.stdout.read(ANSWER.size)
        if len(answer) < ANSWER.size:
            raise OSError(f"{self.file} cannot be run")
        status, *sizes = ANSWER.unpack(answer)
        out, err = (os.pread(outlet, size, 0) if size else b"" for outlet, size in zip(self.outlets, sizes))
        return Ended(None if status < 0 else os.waitstatus_to_exitcode(status), out, err)

    def close(self):
        """Ends what starts processes, and with it what it started."""
        if self.started:
            self.started.kill()
            self.started.wait()
            for pipe in (self.started.stdin, self.started.stdout):
                try:
                    pipe.close()
                except BrokenPipeError:
                    pass
        super().close()


def compiler():
    return shutil.which("cc") or shutil.which("gcc")


def compiled(room):
    """Compiles `limited_runs.c` into a folder; none where there is no compiler."""
    if not compiler():
        return None
    runner = os.path.join(room, "limited_runs")
    subprocess.run([compiler(), "-O2", "-o", runner, TOP / "tools/limited_runs.c"], check=True)
    return runner


def program_of(file, runner):
    """Runs a program by the compiled runner, or without one."""
    return Quick(file, runner) if runner else Program(file)


def state_of(process):
    """Whether a process runs or waits, and how long it ran."""
    fields = pathlib.Path(f"/proc/{process}/stat").read_text().rpartition(")")[2].split()
    return fields[0], fields[11], fields[12]


def limit(kind, most):
    _, hard = resource.getrlimit(kind)
    resource.setrlimit(kind, (most if hard == resource.RLIM_INFINITY else min(most, hard), hard))


def whole(file):
    return os.pread(file, os.fstat(file).st_size, 0)
