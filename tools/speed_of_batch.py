#!/usr/bin/env python3
"""Measures `batch` over equal cases as ratios, alternately.

    tools/speed_of_batch.py PROGRAM [--source FILE] [--cases N] [--scans N] [--turns N]

PROGRAM replays N equal cases (400) of N random rows each (250) for the program of a source (examples/cell.cif). In each turn of N (5) this is
measured:

- `batch` of all cases, which has four workers
- the same with one worker: each thread is refused to the program by a small preloaded library, which gcc compiles, and where no thread can be
  made the program does the work of all in turn
- the same on one processor, where the four workers take turns
- `replay` of one case, which has one; so many times as there are cases it is what the cases take one after the other, each by a process
- `replay` of the rows of all cases as one case: as many scans in one process

A time is that of the clock, beside that of the processor; each is the best of all turns. Four workers are compared with one, and one with `replay`
of all rows; and it is told how much of the work one thread did alone, if the rest was done by four. Then four runs of `replay` at once are
compared with one: where two processors are one core, as they may be on rented machines, four are not four times as fast as one. The last lines, by GNU time, have the most memory of
`batch` for a quarter, a half and all of the cases, with the sizes of the cases and of their tables, and that of the last `replay`.
"""
import argparse
import os
import pathlib
import random
import shutil
import subprocess
import sys
import tempfile
import time
from collections import namedtuple

from building import TOP
from random_rows import inputs_of, rows

GNU_TIME = "/usr/bin/time"
Cost = namedtuple("Cost", "clock processor")
# A run of a command, perhaps with a preloaded library or on one processor.
Run = namedtuple("Run", "words preloaded alone", defaults=(None, False))
NO_THREADS = "#include <errno.h>\nint pthread_create(void *a, void *b, void *c, void *d) { return EAGAIN; }\n"


def memory(words):
    """The most memory of a command, in KB. (What is known of a child of this process counts the memory of this one.)"""
    ran = subprocess.run([GNU_TIME, "-f", "%M", *words], stdout=subprocess.DEVNULL, stderr=subprocess.PIPE, text=True, check=True)
    return int(ran.stderr.split()[-1])


def cost(run):
    """What a run costs: the seconds of the clock and of the processor."""
    room = {**os.environ, "LD_PRELOAD": run.preloaded} if run.preloaded else None
    cores = os.sched_getaffinity(0)
    with open(os.devnull, "wb") as out:
        if run.alone:
            os.sched_setaffinity(0, {min(cores)})
        try:
            begun = time.monotonic()
            started = subprocess.Popen(run.words, stdin=subprocess.DEVNULL, stdout=out, env=room)
            _, status, used = os.wait4(started.pid, 0)
            ended = time.monotonic()
        finally:
            os.sched_setaffinity(0, cores)
    if status:
        raise SystemExit(f"{' '.join(run.words)}: status {status}")
    return Cost(ended - begun, used.ru_utime + used.ru_stime)


def at_once(words, count, turns):
    """The least time of the clock, of all turns, for some runs at the same time."""
    found = []
    for _ in range(turns):
        begun = time.monotonic()
        for it in [subprocess.Popen(words, stdin=subprocess.DEVNULL, stdout=subprocess.DEVNULL) for _ in range(count)]:
            it.wait()
        found.append(time.monotonic() - begun)
    return min(found)


def without_threads():
    """A library that refuses each thread; nothing where there is no gcc."""
    if not shutil.which("gcc"):
        return None
    pathlib.Path("no_threads.c").write_text(NO_THREADS)
    subprocess.run(["gcc", "-O2", "-shared", "-fPIC", "-o", "no_threads.so", "no_threads.c"], check=True)
    return os.path.abspath("no_threads.so")


def best(runs, turns):
    """The least cost of each run in some turns, in which they are made one after the other."""
    found = [[cost(it) for it in runs] for _ in range(turns)]
    return [Cost(*map(min, zip(*costs))) for costs in zip(*found)]


def made(name, lines):
    pathlib.Path(name).write_text("".join(f"{it}\n" for it in lines))
    return name


def numbered(cells, count):
    """Rows of these cells over and over, numbered from 1 on."""
    return [f"{number + 1},{cells[number % len(cells)]}" for number in range(count)]


def compare(costs, count):
    """Writes the ratios of the costs of runs."""
    four, whole, one = (costs[it].clock for it in ("four workers", "replay of all rows as one case", "replay of one case, times the cases"))
    processor = costs["four workers"].processor
    for name in "one worker", "four workers on one processor":
        if name in costs:
            print(f"four workers have {costs[name].clock / four:.2f} times the speed of {name}, which has {whole / costs[name].clock:.2f} of that of replay of all rows")
    print(f"four workers have {one * count / four:.2f} times the speed of replay of one case after the other, and {whole / four:.2f} times that of all rows as one case")
    # (clock = alone + rest / 4, processor = alone + rest)
    alone = min(processor, max(0, (4 * four - processor) / 3))
    print(f"four workers keep {processor / four:.2f} processors busy: of {processor:.3f} s one thread alone has {alone:.3f} s")


def main():
    parser = argparse.ArgumentParser(usage="tools/speed_of_batch.py PROGRAM [--source FILE] [--cases N] [--scans N] [--turns N]")
    parser.add_argument("program")
    parser.add_argument("--source", default=TOP / "examples/cell.cif", type=pathlib.Path)
    for name, number in (("--cases", 400), ("--scans", 250), ("--turns", 5)):
        parser.add_argument(name, type=int, default=number)
    asked = parser.parse_args()
    program, source, count = os.path.abspath(asked.program), asked.source.resolve(), asked.cases
    with tempfile.TemporaryDirectory(prefix="cif-") as room:
        os.chdir(room)
        text = subprocess.run([program, "generate", source], capture_output=True, text=True, check=True).stdout
        pathlib.Path("made.st").write_text(text)
        head, *case = rows(inputs_of(text), asked.scans, random.Random(1))
        cells = [it.split(",", 1)[1] for it in case]
        all_cases = {it: made(f"cases-{it}.csv", [head, *case * it]) for it in (count // 4, count // 2, count)}
        table = subprocess.run([program, "replay", "made.st", made("one.csv", [head, *case])], capture_output=True, check=True).stdout
        batch = [program, "batch", "made.st", all_cases[count]]
        one, whole = [program, "replay", "made.st", "one.csv"], [program, "replay", "made.st", made("long.csv", [head, *numbered(cells, count * asked.scans)])]
        refused = without_threads()
        runs = {"four workers": Run(batch), "one worker": Run(batch, refused), "four workers on one processor": Run(batch, None, True),
                "replay of all rows as one case": Run(whole), "replay of one case, times the cases": Run(one)}
        if not refused:
            print("without one worker, since there is no gcc")
            del runs["one worker"]
        costs = dict(zip(runs, best(runs.values(), asked.turns)))
        for name, it in costs.items():
            times = count if runs[name].words is one else 1
            print(f"{name}: {it.clock * times:.3f} s of the clock, {it.processor * times:.3f} s of the processor")
        compare(costs, count)
        shared = 4 * costs["replay of all rows as one case"].clock / at_once(whole, 4, asked.turns)
        print(f"four runs of replay at once, which share nothing, have {shared:.2f} times the speed of one: so much four processors give here")
        for it, file in all_cases.items() if os.path.exists(GNU_TIME) else ():
            sizes = f"{os.path.getsize(file) >> 10} KB of cases and {len(table) * it >> 10} KB of tables"
            print(f"{it} cases: {memory([program, 'batch', 'made.st', file])} KB of memory for {sizes}")
        if os.path.exists(GNU_TIME):
            print(f"all rows as one case: {memory(whole)} KB of memory")
        os.chdir("/")


if __name__ == "__main__":
    sys.exit(main())
