"""What all builds in a checkout share: its programs, locks, the ends of their processes, and what a program is made of."""
import ctypes
import fcntl
import os
import pathlib
import shutil
import signal
import subprocess
import sys
import time

import crates
from crates import TOP

NEEDS_RT = "the Rattle kit is missing: rt is not on the path (README.md says where it comes from)"
SUBREAPER = 36
GIGABYTES = 4


class Stopped(Exception):
    """A build that cannot go on, with the line that says why."""


def say(line):
    print(f"cif: {line}", file=sys.stderr, flush=True)


def is_program(name, top=TOP):
    return (top / "crates" / name / "src/main.rt").is_file()


def case_programs(top=TOP):
    """The programs that read cases."""
    return [name for name, names in crates.uses(top).items() if "case_text" in names and is_program(name, top)]


def cores():
    return len(os.sched_getaffinity(0))


def gigabytes():
    return os.sysconf("SC_PAGE_SIZE") * os.sysconf("SC_PHYS_PAGES") / 2**30


def side_by_side(most=None):
    """How many heavy processes run at once: one for each core, and for each 4 GB of memory."""
    return max(1, min(cores(), most or cores(), round(gigabytes() / GIGABYTES)))


def need_toolchain():
    if not shutil.which("rt"):
        raise Stopped(NEEDS_RT)


# ---- locks

def lock(folder, waiting):
    """A lock on a folder, as `rt` takes one, until this process ends. Where another process has it, the line is said and it is waited for;
    without a line, `None` comes at once."""
    held = os.open(folder, os.O_RDONLY)
    try:
        fcntl.flock(held, fcntl.LOCK_EX | fcntl.LOCK_NB)
    except BlockingIOError:
        if not waiting:
            os.close(held)
            return None
        say(waiting)
        fcntl.flock(held, fcntl.LOCK_EX)
    except OSError:
        pass  # (some file systems have no locks)
    return held


# ---- the ends of processes

def end_at_signals():
    """From now on Ctrl-C and SIGTERM raise `SystemExit`, and processes whose parent ends become children of this one."""
    def stop(number, _):
        for it in (signal.SIGINT, signal.SIGTERM, signal.SIGHUP):
            signal.signal(it, signal.SIG_IGN)
        sys.exit(128 + number)

    for number in (signal.SIGINT, signal.SIGTERM, signal.SIGHUP):
        signal.signal(number, stop)
    ctypes.CDLL(None).prctl(SUBREAPER, 1, 0, 0, 0)


def processes():
    """Each process: its number, whether it has ended, and its parent."""
    for process in filter(str.isdigit, os.listdir("/proc")):
        try:
            text = pathlib.Path(f"/proc/{process}/stat").read_text(errors="replace")
        except OSError:
            continue
        state, parent = text.rpartition(")")[2].split()[:2]
        yield int(process), state == "Z", int(parent)


def descendants(process):
    """The processes that a process started, and those that they started."""
    up = {child: parent for child, has_ended, parent in processes() if not has_ended}
    found = [process]
    for it in found:
        found += [child for child, parent in up.items() if parent == it]
    return found[1:]


def forget_orphans(own):
    """Lets the processes go that have ended and became children of this one when their parents ended; `own` are its other children."""
    for process, has_ended, parent in processes():
        if has_ended and parent == os.getpid() and process not in own:
            os.waitpid(process, os.WNOHANG)


def end_descendants(process=None):
    """Ends all that a process started, in whatever group or session; without one, all that this one started."""
    for _ in range(100):
        found = descendants(process or os.getpid())
        if not found:
            return
        for it in found:
            try:
                os.kill(it, signal.SIGKILL)
            except ProcessLookupError:
                pass
        time.sleep(0.02)


# ---- what a program is made of

def by_script(function, *words):
    """What a function of the script `cif` writes."""
    command = ["bash", "-c", '. "$0/cif" && "$@"', TOP, function, *words]
    return subprocess.run(command, stdout=subprocess.PIPE, text=True, check=True).stdout.strip()


def sources_sum(name, is_proved=False):
    """A sum of the sources of a program: with contracts, definitions and proofs where it is to be proved."""
    return by_script("sources_sum", name, *(["src", "specs", "proofs"] if is_proved else ["src"]))


def is_fresh(program, made_of):
    """Whether a program is made of the sources with this sum by the toolchain on the path."""
    return not by_script("staleness", str(program), made_of, by_script("toolchain"))
