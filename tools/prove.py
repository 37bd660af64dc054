#!/usr/bin/env python3
"""Proves the crates that the program stands on, and builds it, several crates side by side.

    tools/prove.py

`rt lib` keeps every other `rt` out of all crates below its own. So each worker has a clone of the tree, beside it, in which the proved
libraries are hard links to those of the tree. The crate that it proves has its folder `out` there meanwhile, so that a build that was
interrupted is taken up where it stopped. What `rt` wrote of a crate is in `crates/NAME/out/prove.log`.
"""
import os
import re
import shutil
import subprocess
import sys
import time

import building
import crates
from building import TOP, Stopped, say
from side_by_side import Task, Tasks

PROGRAM = "cif_cli"


def room_beside(top):
    """The folder of the clones: beside the tree, or in it where nothing can be moved and linked from there."""
    beside = top.with_name(top.name + ".proving")
    is_one_disk = top.stat().st_dev == top.parent.stat().st_dev
    return beside if is_one_disk and os.access(top.parent, os.W_OK) else top / "out/proving"


ROOM = room_beside(TOP)
# What a worker's clone lacks of a crate.
NOT_CLONED = ("out", "must-fail")
# Where the name of the crate stands whose `out` a clone has.
BORROWED = "borrowed"
# Seconds for a crate that the table of CONTRIBUTING does not list.
SECONDS = 40
MOST_SIDE_BY_SIDE = 4


# ---- times

def table_of_seconds(text):
    """The seconds of crates by a table whose heads are `Crate` and `Seconds`: a row has names, and a number for each or one for all."""
    found = {}
    for table in re.findall(r"^\| *Crate.*?\| *Seconds.*?\|\n\|[-| :]+\|\n((?:\|.*\|\n)*)", text, re.M):
        for row in table.splitlines():
            names, numbers = row.strip("|").split("|")[:2]
            names = re.findall(r"`(\w+)`", names)
            numbers = [int(it.replace(",", "")) for it in re.findall(r"\d+(?:,\d{3})*(?!\d)", numbers)]
            if not numbers:
                continue
            if len(numbers) != len(names):
                numbers = [sum(numbers) / len(numbers)] * len(names)
            found.update(zip(names, numbers))
    return found


def minutes(seconds):
    return f"{seconds / 60:.0f} min"


# ---- clones

def clone(to):
    """Copies the sources of the tree."""
    to.mkdir(parents=True)
    for name in ("crates.txt", "HANDLES"):
        if (TOP / name).exists():
            shutil.copy(TOP / name, to)
    shutil.copytree(TOP / "crates", to / "crates", ignore=shutil.ignore_patterns(*NOT_CLONED))


def move_out(name, here, there):
    """Moves what is kept of a crate from one tree to another, but for the program without proofs."""
    source, target = (tree / "crates" / name / "out" for tree in (here, there))
    if source.is_dir():
        target.mkdir(exist_ok=True)
        for part in source.iterdir():
            if part.name != "unproved" and not (target / part.name).is_dir():
                part.rename(target / part.name)


def link_library(name, to):
    """Gives a clone the proved library of a crate, unless it has this one."""
    have, want = (tree / "crates" / name / "out/rlib" for tree in (to, TOP))
    stamp = (want / "stamp").read_bytes()
    if (have / "stamp").exists() and (have / "stamp").read_bytes() == stamp:
        return
    shutil.rmtree(have, ignore_errors=True)
    shutil.copytree(want, have, copy_function=os.link)


def recover():
    """Takes back what a build left in clones that ended without a chance to tidy up."""
    for left in sorted(ROOM.glob("*/" + BORROWED)):
        move_out(left.read_text(), left.parent, TOP)
    shutil.rmtree(ROOM, ignore_errors=True)


# ---- crates

class Proof(Task):
    """The proof of a crate; that of the program also makes it, and has it read an example."""

    def __init__(self, name, uses, seconds):
        self.libraries = crates.below(name, uses)
        super().__init__(name, uses[name], seconds)

    def begin(self, slot):
        folder = TOP / "crates" / self.name
        self.held = building.lock(folder, waiting=None)
        if self.held is None:
            raise Stopped(f"another rt works in {folder}: start it again when that has ended")
        self.clone = ROOM / str(slot)
        if not self.clone.exists():
            clone(self.clone)
        for name in self.libraries:
            link_library(name, self.clone)
        here = self.clone / "crates" / self.name
        shutil.rmtree(here / "out", ignore_errors=True)
        (self.clone / BORROWED).write_text(self.name)
        (folder / "out").mkdir(exist_ok=True)
        move_out(self.name, TOP, self.clone)
        (here / "out").mkdir(exist_ok=True)
        words = ["lib", "--jobs", "1"]
        if self.name == PROGRAM:
            words = ["run", "--jobs", "1", "--", "check", str(TOP / "examples/lamp.cif")]
        with open(here / "out/prove.log", "wb") as log:
            return subprocess.Popen(["nice", "rt", *words], cwd=here, stdin=subprocess.DEVNULL, stdout=log, stderr=log)

    def end(self, status):
        move_out(self.name, self.clone, TOP)
        (self.clone / BORROWED).unlink()
        os.close(self.held)
        return status == 0


class Report:
    """The line of each crate that ends."""

    def __init__(self, tasks):
        self.tasks = tasks
        self.count = len(tasks.waiting)
        self.begun = time.monotonic()

    def passed(self):
        return time.monotonic() - self.begun

    def __call__(self, task, is_well):
        if is_well:
            at = f"{len(self.tasks.done)} of {self.count} crates proved"
            say(f"{at}, {minutes(self.passed())} so far, some {minutes(self.tasks.seconds_left())} left: {task.name}")


def prove_crates():
    """Proves all crates of the program and makes it."""
    uses, seconds = crates.uses(), table_of_seconds((TOP / "docs/CONTRIBUTING.md").read_text())
    proofs = [Proof(name, uses, seconds.get(name, SECONDS)) for name in [*crates.below(PROGRAM, uses), PROGRAM]]
    tasks = Tasks(proofs, building.side_by_side(MOST_SIDE_BY_SIDE))
    say(f"proving {len(proofs)} crates, {tasks.most} side by side, some {minutes(tasks.seconds_left())}; an interrupted run goes on where it stopped")
    report = Report(tasks)
    try:
        tasks.run(report, goes_on=False)
    finally:
        recover()
    if tasks.failed:
        log = TOP / "crates" / tasks.failed[0].name / "out/prove.log"
        print("".join(log.read_text(errors="replace").splitlines(keepends=True)[-20:]), end="", file=sys.stderr)
        raise Stopped(f"{tasks.failed[0].name} was not proved; all that rt wrote is in {log}")
    return report.passed()


def prove():
    program, made_of = TOP / "crates" / PROGRAM / "out" / PROGRAM, building.sources_sum(PROGRAM, is_proved=True)
    if building.is_fresh(program, made_of):
        say("the proved program of these sources stands already")
        return
    building.need_toolchain()
    if building.lock(TOP, waiting=None) is None:
        raise Stopped("another ./cif --prove works in this checkout")
    recover()
    took = prove_crates()
    if made_of != building.sources_sum(PROGRAM, is_proved=True):
        raise Stopped("the sources changed while they were proved: start it again")
    building.by_script("note_program", str(program), made_of)
    say(f"proved and built in {minutes(took)}: {program}")


def main():
    building.end_at_signals()
    try:
        prove()
    except SystemExit:
        say("stopped; what is proved so far is kept")
        raise
    except Stopped as why:
        say(str(why))
        return 1
    except OSError as error:
        say(f"{error.filename}: {error.strerror}")
        return 1
    return 0


if __name__ == "__main__":
    sys.exit(main())
