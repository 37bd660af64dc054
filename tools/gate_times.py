#!/usr/bin/env python3
"""Runs a command, mostly the gate, and writes what processor time each crate took in it.

    tools/gate_times.py bash .ci/run

Every half second it reads from /proc what the prover's processes have used, by the crate that they work on: for its proof (and its tests),
and for its edits that must fail. A process that starts and ends within half a second is missed. At the end it writes a table in processor
seconds, and the processor minutes of the whole command, its other programs among them; the status is that of the command.
"""
import collections
import os
import pathlib
import re
import resource
import subprocess
import sys
import time

TICKS = os.sysconf("SC_CLK_TCK")


def fields_of(process):
    """What /proc tells of a process: behind its name its state, its parent, and so on."""
    return (process / "stat").read_text().rpartition(")")[2].split()


def is_below(process, top):
    """Whether a process was started by the process `top`, or by one that it started."""
    while process.name not in ("0", "1", str(top)):
        process = process.parent / fields_of(process)[1]
    return process.name == str(top)


def work_of(process, top):
    """The crate that a process of the prover works on, and at what, with the processor seconds that it has used; or None."""
    try:
        words = (process / "cmdline").read_bytes().split(b"\0")
        if not words[0].endswith(b"/rattle") or b"--crate-name" not in words or not is_below(process, top):
            return None
        crate = words[words.index(b"--crate-name") + 1].decode()
        used = fields_of(process)
        is_edit = "/rt-edit-" in os.readlink(process / "cwd")
    except (OSError, ValueError, IndexError):
        return None
    return (crate, "edits" if is_edit else "proof"), (int(used[11]) + int(used[12])) / TICKS


def sample(taken, top):
    """Notes what each of the prover's processes below `top` has used so far."""
    for process in pathlib.Path("/proc").iterdir():
        if process.name.isdigit() and (found := work_of(process, top)):
            work, seconds = found
            key = (process.name, work)
            taken[key] = max(seconds, taken.get(key, 0))


def report(taken, minutes):
    """Writes the table, the crates that took longest first."""
    crates = collections.defaultdict(collections.Counter)
    for (_, (crate, what)), seconds in taken.items():
        crates[crate][what] += seconds
    print(f"{'crate':20s} {'proof':>7s} {'edits':>7s}")
    for crate, used in sorted(crates.items(), key=lambda it: -sum(it[1].values())):
        print(f"{crate:20s} {used['proof']:7.0f} {used['edits']:7.0f}")
    for what in ("proof", "edits"):
        print(f"{what}: {sum(it[what] for it in crates.values()) / 60:.0f} processor minutes")
    print(f"all: {minutes:.0f} processor minutes")


def main(words):
    if not words:
        print(re.sub(r"\n\n.*", "", __doc__, flags=re.DOTALL))
        return 2
    taken, started = {}, time.monotonic()
    command = subprocess.Popen(words)
    while command.poll() is None:
        sample(taken, command.pid)
        time.sleep(0.5)
    used = resource.getrusage(resource.RUSAGE_CHILDREN)
    report(taken, (used.ru_utime + used.ru_stime) / 60)
    print(f"elapsed: {(time.monotonic() - started) / 60:.0f} minutes")
    return command.returncode


if __name__ == "__main__":
    sys.exit(main(sys.argv[1:]))
