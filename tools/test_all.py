#!/usr/bin/env python3
"""Tests the sources without proving anything.

    tools/test_all.py [all|proved]

Compiles the program and the programs of cases without their proofs, and runs the cases against their stored answers, the tests of the
script and of the tools, the comparisons and some hostile inputs in short; `all` also runs the groups of cases and the sources at the
limits, and refuses memory. With `proved` the programs are those that the gate proved and built, and all but hostile inputs and refused
memory is run whole. The last line is `N passed, M failed`.
"""
import os
import re
import resource
import subprocess
import sys
import tempfile

import building
from building import TOP
from case_groups import part_of, parts_of, read_groups
from side_by_side import Task, Tasks

PROGRAM = "cif_cli"
# The comparisons: the call of the program of cases that each runs, none where it runs the program; its words in short; its seconds then.
COMPARISONS = [
    ("compare_grammar", None, ["200"], 10),
    ("compare_programs", None, ["50"], 5),
    ("compare_scans", None, ["20"], 60),
    ("compare_runs", None, ["20"], 30),
    ("compare_refusals", None, ["40", "--short"], 60),
    ("compare_c", None, ["5"], 20),
    ("compare_names", "find", ["100"], 20),
    ("compare_data", "value", ["300"], 20),
    ("compare_components", "components", ["50"], 20),
]
# The tools that make it hard for the program: their words in short, none where that is left out, and whole; their seconds then.
HOSTILE = [("attack", ["--count", "25"], ["--count", "250"], 20), ("refuse_memory", None, ["--most", "30"], 120)]
SELF_TESTS = [("compare_scans", [], 5), ("compare_runs", ["10"], 15), ("compare_refusals", ["--short"], 60), ("compare_c", [], 10)]
# What the usage of a test has that runs the program.
ASKS = " [PROGRAM]\n"
COMPILING, CASES, TESTING = 150, 100, 60
SHOWN_LINES = 30


class Command(Task):
    """A command, what it is given, and what it is to write, where that is stored."""

    def __init__(self, name, words, needs=(), cost=1, given=b"", wanted=None):
        super().__init__(name, needs, cost)
        self.words = [str(it) for it in words]
        self.given, self.wanted = given, wanted
        self.fault = ""

    def begin(self, slot):
        print(f"begins  {self.name}", flush=True)
        self.files = [tempfile.TemporaryFile() for _ in range(3)]
        stdin, out, err = self.files
        stdin.write(self.given)
        stdin.seek(0)
        return subprocess.Popen(self.words, cwd=TOP, stdin=stdin, stdout=out, stderr=err)

    def end(self, status):
        texts = []
        for file in self.files[1:]:
            file.seek(0)
            texts.append(file.read())
            file.close()
        out, err = texts
        if status != 0:
            self.fault = f"status {status}\n{shown(out)}{shown(err)}"
        elif self.wanted is not None and out != self.wanted:
            self.fault = first_difference(out, self.wanted)
        return not self.fault


def shown(text):
    return "".join(text.decode(errors="replace").splitlines(keepends=True)[-SHOWN_LINES:])


def first_difference(given, wanted):
    """The first lines that differ, with the line of a case or a group above them."""
    given, wanted = given.decode(errors="replace").splitlines(), wanted.decode(errors="replace").splitlines()
    at = next((at for at, pair in enumerate(zip(given, wanted)) if pair[0] != pair[1]), min(len(given), len(wanted)))
    above = next((line for line in reversed(wanted[:at]) if not line.startswith("  ")), "")
    lines = [it[at] if at < len(it) else "(the end)" for it in (wanted, given)]
    return f"{above}\nwanted {lines[0]}\nfound  {lines[1]}\n"


# ---- what there is to run

def place_of(name, is_proved):
    return TOP / "crates" / name / "out" / ("" if is_proved else "unproved") / name


def compilation(name):
    return Command(f"compiling {name}", [sys.executable, TOP / "tools/compile_unproved.py", name], cost=COMPILING)


def cases_of(name, is_proved, is_whole):
    """The cases of a program, in parts that run side by side."""
    folder = TOP / "crates" / name
    groups = read_groups((folder / "stdin").read_text(), (folder / "stdout").read_text())
    chosen = [it for it in groups if is_whole or not it.is_at_limits]
    parts = parts_of(chosen, 1 if is_proved else 4 * building.cores())
    for number, part in enumerate(parts, 1):
        given, wanted = part_of(groups, part)
        named = f"cases of {name}" + (f", part {number} of {len(parts)}" if len(parts) > 1 else "")
        needs = [] if is_proved else [f"compiling {name}"]
        yield Command(named, [place_of(name, is_proved)], needs, CASES, given.encode(), wanted.encode())


def tests_of_tools(is_proved):
    """The unit tests in tools/."""
    for file in sorted((TOP / "tools").glob("test_*.py")):
        if file.name == "test_all.py":
            continue
        asks = ASKS in file.read_text()
        needs = [f"compiling {PROGRAM}"] if asks and not is_proved else []
        yield Command(file.stem, [sys.executable, file] + asks * [place_of(PROGRAM, is_proved)], needs, TESTING)


def program_with(call):
    """The program of cases that has this call."""
    for name in building.case_programs():
        if any(f'"{call}" => ' in it.read_text() for it in (TOP / "crates" / name / "src").glob("*.rt")):
            return name
    raise ValueError(f"no program of cases has the call {call}")


def comparisons(is_proved):
    for tool, call, short, cost in COMPARISONS:
        name = program_with(call) if call else PROGRAM
        words = [sys.executable, TOP / "tools" / f"{tool}.py", place_of(name, is_proved)]
        yield Command(tool, words + ([] if is_proved else short), [] if is_proved else [f"compiling {name}"], cost)


def self_tests(is_whole):
    for tool, short, cost in SELF_TESTS:
        words = [sys.executable, TOP / "tools" / f"{tool}.py", "--self-test"]
        yield Command(f"{tool} --self-test", words + ([] if is_whole else short), cost=cost)


def hostile(is_whole):
    for tool, short, whole, cost in HOSTILE:
        words = whole if is_whole else short
        if words is not None:
            program = place_of(PROGRAM, False)
            yield Command(tool, [sys.executable, TOP / "tools" / f"{tool}.py", program] + words, [f"compiling {PROGRAM}"], cost)


def tests(is_proved, is_whole):
    found = [it for name in building.case_programs() for it in cases_of(name, is_proved, is_whole)]
    found += [] if is_proved else hostile(is_whole)
    return [*found, *tests_of_tools(is_proved), *comparisons(is_proved), *self_tests(is_whole)]


# ---- running

def report(task, is_well):
    print(f"{'passed' if is_well else 'FAILED'}  {task.name}, {task.seconds:.0f} s", flush=True)
    if not is_well:
        print(re.sub("^", "  ", task.fault.rstrip(), flags=re.M), flush=True)


def widen_stack():
    """Programs without proofs check each step, and so take more stack than is common."""
    _, hard = resource.getrlimit(resource.RLIMIT_STACK)
    resource.setrlimit(resource.RLIMIT_STACK, (hard, hard))


def main(*words):
    is_proved, is_whole = "proved" in words, words != ()
    building.end_at_signals()
    if is_proved:
        print("cif: testing the programs that the gate proved", flush=True)
        missing = [it for it in [PROGRAM, *building.case_programs()] if not place_of(it, is_proved).is_file()]
        if missing:
            raise building.Stopped(f"rt ci left no program of {', '.join(missing)}: nothing was tested")
    else:
        print("cif: testing the sources without their proofs; nothing is proved by it (bash .ci/run proves)", flush=True)
        building.need_toolchain()
        widen_stack()
    with tempfile.TemporaryDirectory(prefix="cif-") as room:
        # (so nothing is left of a tool that is ended)
        os.environ["TMPDIR"] = room
        return run_tests(tests(is_proved, is_whole))


def run_tests(wanted):
    """Runs the tests and what compiles their programs. The status is 1 where one fails."""
    needed = sorted({need for test in wanted for need in test.needs})
    tasks = Tasks([compilation(it.removeprefix("compiling ")) for it in needed] + wanted, building.side_by_side())
    tasks.run(report, goes_on=True)
    for test in wanted:
        if test in tasks.waiting:
            print(f"FAILED  {test.name}: it needs {', '.join(test.needs)}")
    passed = sum(test in tasks.done for test in wanted)
    print(f"{passed} passed, {len(wanted) - passed} failed")
    return 0 if passed == len(wanted) else 1


if __name__ == "__main__":
    try:
        sys.exit(main(*sys.argv[1:]))
    except building.Stopped as why:
        building.say(str(why))
        sys.exit(1)
