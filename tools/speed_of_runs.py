#!/usr/bin/env python3
"""Measures runs of `simulate` as ratios, alternately.

    tools/speed_of_runs.py PROGRAM [--turns N] [--instructions]

- lines: 1,000,000 steps of a plant with two classes, with a loop in Rust that writes the same lines one by one
- cell: a script of 4 MiB over examples/cell.cif, with an interpreter in Rust of the same choices
- sets: a script of 4 MiB of `set` lines over 10,000 inputs, with one over 10
- steps: 1,000,000 steps in a net of 100,000 objects, with those in one of 100; the time without a step is taken off
- waiting: 1,000,000 steps behind 10,000 events that have none, with those behind 10; the same

Rust is `speed_of_runs.rs`, which rustc compiles; where there is none, the first two are left out. A time is that of the processor, the best
of N turns (5), in which the two run one after the other. With --instructions callgrind counts the instructions of each instead, without
those of the system.
"""
import argparse
import os
import pathlib
import re
import shutil
import subprocess
import sys
import tempfile

from building import TOP

PLANT = "plant A: uncontrollable u; controllable c; location x: initial; edge u goto y; location y: edge c goto x; end\n"
MOST_BYTES = 4194304
CYCLE = """set i_start true
fire start.u_on
fire motor.c_on
set i_part true
fire part.u_on
fire motor.c_off
set i_part false
fire part.u_off
set i_stop true
fire stop.u_on
set i_start false
fire start.u_off
set i_stop false
fire stop.u_off
"""


def repeated(piece):
    """As many copies of a piece as a script has room for."""
    return piece * (MOST_BYTES // len(piece))


def inputs(count):
    return "".join(f"input int[0..9] i{number:05};\n" for number in range(count))


def sets(count):
    """Lines that set inputs, now this one and now that one."""
    lines = MOST_BYTES // len("set i00000 0\n")
    return "".join(f"set i{number * 7919 % count:05} {number % 10}\n" for number in range(lines))


def wide(objects):
    """A plant that goes on for ever beside others without events: each is a component, a variable and a location."""
    return PLANT + "".join(f"plant p{number}: disc int[0..9] n; location: initial; end\n" for number in range(objects // 3 - 3))


def waiting(count):
    """The same behind others whose events have no step."""
    return "".join(f"plant p{number}: controllable e; disc bool b; location: initial; edge e when b; end\n" for number in range(count)) + PLANT


class Run:
    """A command, and one whose cost is taken off."""

    def __init__(self, words, off=None):
        self.words, self.off = [str(it) for it in words], off and [str(it) for it in off]


def seconds(words):
    """The processor seconds of a command."""
    with open(os.devnull, "wb") as out:
        started = subprocess.Popen(words, stdin=subprocess.DEVNULL, stdout=out)
        _, status, used = os.wait4(started.pid, 0)
    if status:
        raise SystemExit(f"{' '.join(words)[:200]}: status {status}")
    return used.ru_utime + used.ru_stime


def instructions(words):
    """The instructions of a command, in thousand millions."""
    tool = ["valgrind", "--tool=callgrind", "--callgrind-out-file=/dev/null"]
    ran = subprocess.run(tool + words, stdin=subprocess.DEVNULL, stdout=subprocess.DEVNULL, stderr=subprocess.PIPE, text=True, check=True)
    return int(re.search(r"Collected : (\d+)", ran.stderr)[1]) / 1e9


def best(runs, turns, measure):
    """The best of some turns of runs, which are made one after the other."""
    found = [[measure(it.words) - (measure(it.off) if it.off else 0) for it in runs] for _ in range(turns)]
    return [min(times) for times in zip(*found)]


def made(name, text):
    pathlib.Path(name).write_text(text)
    return name


def steps_of(program, name, text, count=1000000):
    file = made(name, text)
    return Run([program, "simulate", file, "--first", count], [program, "simulate", file, "--first", 0])


def comparisons(program, plain):
    """The name of each comparison, its goal and its two runs, the second one of which is divided by."""
    if plain:
        source, script = made("plant.cif", PLANT), made("cell.txt", repeated(CYCLE))
        yield "lines", 2, Run([program, "simulate", source, "--first", 1000000]), Run([plain, "lines", 1000000])
        yield "cell", 1.5, Run([program, "simulate", TOP / "examples/cell.cif", script]), Run([plain, "cell", script])
    many, few = (Run([program, "simulate", made(f"inputs-{it}.cif", inputs(it)), made(f"sets-{it}.txt", sets(it))]) for it in (10000, 10))
    yield "sets", 2, many, few
    yield "steps", 2, steps_of(program, "wide.cif", wide(100000)), steps_of(program, "narrow.cif", wide(100))
    yield "waiting", None, steps_of(program, "waiting.cif", waiting(10000)), steps_of(program, "ready.cif", waiting(10))


def compiled():
    """The program of Rust, or none."""
    if not shutil.which("rustc"):
        return None
    subprocess.run(["rustc", "-O", "-o", "plain", TOP / "tools/speed_of_runs.rs"], check=True)
    return os.path.abspath("plain")


def main():
    parser = argparse.ArgumentParser(usage="tools/speed_of_runs.py PROGRAM [--turns N] [--instructions]")
    parser.add_argument("program")
    parser.add_argument("--turns", type=int, default=5)
    parser.add_argument("--instructions", action="store_true")
    asked = parser.parse_args()
    program = os.path.abspath(asked.program)
    with tempfile.TemporaryDirectory(prefix="cif-") as room:
        os.chdir(room)
        for name, goal, one, other in comparisons(program, compiled()):
            found, base = best([one, other], 1, instructions) if asked.instructions else best([one, other], asked.turns, seconds)
            unit = "billion instructions" if asked.instructions else "s"
            print(f"{name}: {found:.3f} {unit} over {base:.3f}: {found / max(base, 1e-6):.2f}" + (f" (goal {goal})" if goal else ""), flush=True)
        os.chdir("/")


if __name__ == "__main__":
    sys.exit(main())
