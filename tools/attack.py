#!/usr/bin/env python3
"""Runs the commands of the program on hostile files and words: mutated, spliced, nested, extreme and random ones.

    tools/attack.py PROGRAM [--count N] [--seed S] [--first K] [--minutes M] [-j N] [--keep FOLDER] [check|generate|replay|batch|simulate|why|words ..]

For each of the commands there are N attacks (1,000), from number K (1) on, or as many as M minutes allow; `words` are command lines. They
are made and run by as many processes as -j has (1). An attack is made of the seed and its number alone. Each run has 10 seconds of the
processor (60 where the program checks its memory) and 512 MB of memory, and is judged:

- it ends, and by no signal; a status of the table in docs/REFUSALS.md, and one line on standard error of the form that is shown there for
  it; no line and an output with status 0, and no output with the others but 4, 5 and 13 of `simulate`
- `check`, `generate`, `simulate` and `why` refuse the same sources with the same line; what `generate` writes is replayed; an event is
  enabled for `why` exactly where `simulate` fires it after the same script; a file that is one case is for `batch` what it is for `replay`
- a second run writes the same bytes; a full or closed output gives status 4, and a closed standard error changes no status; with less memory
  it is the same run, or has status 5 with a beginning of the output

A finding is kept in out/attack/, or in another folder, with the words that run it again. At the end stands how many attacks of each command
ended with which status, refusal or fault, by their first run, and how many runs of each command with which status. The last line is the
number of findings, and the status 1 where there is one. What is found is of the program that is run; the one compiled without proofs checks
each access to memory too, and takes some thirty times as long to start. Where there is a C compiler, `limited_runs.c` starts the processes;
without one Python does, and no run has less memory.
"""
import argparse
import concurrent.futures
import itertools
import os
import pathlib
import random
import re
import shlex
import signal
import sys
import tempfile
import time
from collections import Counter

import building
import words as command_lines
from attack_texts import Texts, cases, plain_rows, rows, script
from building import TOP
from limited_runs import Ended, compiled, program_of
from refuse_memory import fault_of

KEPT = TOP / "out/attack"
FILES = {"check": ["a.cif"], "generate": ["a.cif"], "replay": ["a.st", "rows.csv"],
         "batch": ["a.st", "cases.csv"], "simulate": ["a.cif", "script.txt"], "why": ["a.cif", "script.txt"]}
ATTACKS = [*FILES, "words"]
MOST_PROGRAM, MOST_LOOKED_AT = 16777216, 2000000

# ---- what the documents say

def forms():
    """The form of each refusal and fault, as docs/REFUSALS.md shows it: by number, a pattern of its line behind the file and the row or line."""
    found = {}
    page = (TOP / "docs/REFUSALS.md").read_text()
    for number, name, part in re.findall(r"^## (\d+) (\w+)\n(.*?)(?=^## |\Z)", page, re.S | re.M):
        shown = re.search(rf"^cif: (?:[^ ]+: )?(?:(?:row|line) \d+: )?{number} {name}(.*)$", part, re.M)[1].split()
        fields = "".join(f" {field} {form_of(field, value)}" for field, value in zip(shown[::2], shown[1::2]))
        found[int(number)] = re.compile(f"{number} {name}{fields}".encode())
    return found


def form_of(field, value):
    """What stands in the place of a value that is shown."""
    number = "(?:0|[1-9][0-9]*)"
    return f"-?{number}" if field == "value" else number if value.isdigit() else "[^ ]+"


FORMS = forms()
STATUSES = {7: range(1, 25), 8: (25, 28), 9: range(31, 40), 10: range(44, 49), 11: (40, 41, 42), 12: (43,), 13: (26, 27, 29)}
# The statuses of each command, and which of its files a status is about.
MAY = {"check": (0, 2, 3, 4, 5, 6, 7, 8), "generate": (0, 2, 3, 4, 5, 6, 7, 8), "replay": (0, 2, 3, 4, 5, 6, 9, 10, 11, 12),
       "batch": (0, 2, 3, 4, 5, 6, 9, 10, 11, 12),
       "simulate": (0, 2, 3, 4, 5, 6, 7, 8, 13), "why": (0, 2, 3, 4, 5, 6, 7, 8, 13, 16)}
ABOUT = {7: 0, 8: 0, 9: 0, 10: 1, 11: 0, 12: 0, 13: 1}
# How often a file is as long as it may be.
OFTEN = {"a.cif": 0.002, "a.st": 0.001, "rows.csv": 0.0003, "cases.csv": 0.0003, "script.txt": 0.002}
LIMITS = {"a.cif": 4194304, "a.st": 16777216, "rows.csv": 67108864, "cases.csv": 67108864, "script.txt": 4194304}
MEMORY = b"cif: out of memory\n"
# The megabytes of a run that has less memory.
LESS = [8, 8, 9, 10, 12, 16, 24, 32, 64, 150, 300]


def refused(status, files, line):
    """What is wrong with the line of a refusal or fault."""
    if ABOUT[status] >= len(files):
        return f"status {status} of a file that was not given"
    file = os.fsencode(files[ABOUT[status]])
    part = rb"row ([1-9]\d*): " if status in (11, 12) else rb"line ([1-9]\d*): " if status == 13 else rb""
    head = rb"cif: " + re.escape(file) + rb": " + part
    number = re.match(head + rb"(\d+) ", line, re.S)
    number = int(number[number.lastindex]) if number else None
    if number not in STATUSES[status] or not re.fullmatch(head + FORMS[number].pattern + rb"\n", line, re.S):
        return f"no line of status {status}"
    return None


def told(status, files, line):
    """What is wrong with the line on standard error."""
    names = [os.fsencode(it) for it in files]
    if status == 5:
        return None if MEMORY.startswith(line) or line.startswith(b"cif: ") and line.count(b"\n") < 2 else "no beginning of a line"
    wanted = {0: [b""], 2: [b"cif: not a command line\n"], 3: [b"cif: cannot read %s\n" % it for it in names], 4: [b"cif: cannot write\n"],
              6: [b"cif: %s is longer than %d bytes\n" % (it, most) for it in names for most in LIMITS.values()],
              16: [b"cif: 54 NoEvent\n"]}
    if status in wanted:
        return None if line in wanted[status] else f"no line of status {status}"
    return refused(status, files, line)


def judged(command, files, ended):
    """What is wrong with the end of a run, or None."""
    status, out, err = ended
    if status is None:
        return "no end"
    if status < 0:
        return f"signal {-status}"
    if command not in MAY:
        return None if ended == Ended(2, b"", b"cif: not a command line\n") else f"status {status} without a command"
    if status not in MAY[command]:
        return f"status {status}"
    if command in ("check", "simulate", "why") and re.match(rb"cif: [^ ]+: 28 ", err):
        return f"28 of {command}"
    if command == "replay" and re.match(rb"cif: [^ ]+: 48 ", err):
        return "48 of replay"
    if status in (4, 5):
        pass
    elif command == "simulate" and status in (0, 13):
        if not re.match(rb"start[ \n]", out) or not out.endswith(b"\n"):
            return "no lines of a run"
    elif status == 0 and (out != b"ok\n" if command == "check" else not out and command != "batch"):
        return "status 0 without its output"
    elif status and out:
        return f"an output with status {status}"
    return told(status, files, err)


def placed(ended, size):
    """Whether the place in a line lies in a text of that size."""
    found = re.search(rb" at (\d+)(?: first (\d+))?", ended.err)
    return not found or int(found[2] or -1) < int(found[1]) <= size


def reason(ended):
    """The status of a run, and the number and name of its refusal or fault."""
    found = re.search(rb": (\d+ [A-Z]\w+)", ended.err)
    return found[1].decode() if found and ended.status not in (2, 3, 5, 6) else f"status {ended.status}"


# ---- attacks

class Attack:
    """One attack: the files and the words of its runs, and what is wrong, if anything is."""

    def __init__(self, program, texts, seed, command, number):
        self.program, self.texts, self.command, self.number = program, texts, command, number
        self.choose = random.Random(f"{seed} {command} {number}")
        self.files, self.runs, self.fault, self.last = {}, Counter(), None, None

    def begin(self):
        getattr(self, self.command)()

    def write(self, name, text):
        self.files[name] = text
        with open(name, "wb") as file:
            file.write(text)

    def blame(self, fault, words):
        self.fault = self.fault or (fault, words)

    def write_long(self, name, text):
        """Writes a file, now and then as long as one that is read may be, or longer by one byte."""
        if self.choose.random() < OFTEN[name]:
            text = text.ljust(LIMITS[name] + self.choose.choice([0, 1]), self.choose.choice([b" ", b"\n", b"\n", b"x"]))
        self.write(name, text)

    def run(self, *words, **how):
        ended = self.program.run(words, **how)
        self.runs[words[0] if words and words[0] in MAY else "", ended.status] += 1
        return ended

    def asked(self, *words):
        """The end of a run of a command with its files, and what is wrong with it."""
        files = FILES[words[0]]
        ended = self.run(*words)
        fault = judged(words[0], files, ended)
        if not fault and ended.status in (7, 9) and not placed(ended, len(self.files[files[0]])):
            fault = "a place outside the text"
        if fault:
            self.blame(fault, words)
        return ended

    def again(self, words, first):
        """Some of the runs are made once more, some with outlets that take nothing, and some with less memory."""
        if self.choose.random() < 0.2 and first.status != 5 and self.run(*words) != first:
            self.blame("another answer in a second run", words)
        if self.choose.random() < 0.05:
            how = self.choose.choice(["full", "closed"])
            ended = self.run(*words, broken=1, how=how)
            if ended.status not in (5, 4 if first.out else first.status):
                self.blame(f"status {ended.status} with standard output {how}, else {first.status}", words)
        if self.choose.random() < 0.05:
            how = self.choose.choice(["full", "closed"])
            ended = self.run(*words, broken=2, how=how)
            if ended.status != 5 and first.status != 5 and (ended.status, ended.out) != (first.status, first.out):
                self.blame(f"status {ended.status} with standard error {how}, else {first.status}", words)
        megabytes = self.choose.choice(LESS) if self.choose.random() < 0.05 else None
        if megabytes and self.program.has_less and first.status not in (5, None):
            fault = fault_of(self.run(*words, megabytes=megabytes), first)
            if fault:
                self.blame(f"{fault} with {megabytes} MB", words)

    def agree(self, check, generate):
        """`check` and `generate` refuse the same sources with the same line, but for 28."""
        if 5 in (check.status, generate.status) or None in (check.status, generate.status):
            return
        lacks_class = re.match(rb"cif: [^ ]+: 28 ", generate.err)
        wanted = Ended(0, b"", b"") if generate.status == 0 or lacks_class else generate._replace(out=b"")
        if check._replace(out=b"") != wanted:
            self.blame("check and generate disagree", ("generate", "a.cif"))

    # ---- by command

    def check(self):
        self.write_long("a.cif", self.texts.source(self.choose, self.number))
        self.last = self.asked("check", "a.cif")
        self.again(("check", "a.cif"), self.last)
        if self.choose.random() < 0.3:
            self.agree(self.last, self.asked("generate", "a.cif"))

    def generate(self):
        self.write_long("a.cif", self.texts.source(self.choose, self.number))
        words = ("generate", "a.cif", *self.options())
        self.last = self.asked(*words)
        self.again(words, self.last)
        self.agree(self.asked("check", "a.cif"), self.last)
        if self.last.status == 0:
            self.write("a.st", self.last.out)
            self.write("rows.csv", plain_rows(self.last.out, self.choose.choice([0, 1, 2])))
            ended = self.asked("replay", "a.st", "rows.csv")
            if ended.status not in (0, 5, 6 if len(self.last.out) > MOST_PROGRAM else 0):
                self.blame(f"a generated program is not replayed: {ended.err[:200]!r}", ("replay", "a.st", "rows.csv"))

    def options(self):
        """Options that are taken."""
        number = lambda: str(self.choose.choice([1, 1, 2, 3, 100]))
        found = [("--unc", number()), ("--con", number())]
        self.choose.shuffle(found)
        return [word for pair in found[:self.choose.choice([0, 1, 2, 2])] for word in pair]

    def replay(self):
        self.write_long("a.st", self.texts.program(self.choose, self.number))
        self.write_long("rows.csv", rows(self.choose, self.files["a.st"][:MOST_LOOKED_AT]))
        self.last = self.asked("replay", "a.st", "rows.csv")
        self.again(("replay", "a.st", "rows.csv"), self.last)

    def batch(self):
        """Cases, which `replay` takes where they are one case; without a row `batch` writes nothing."""
        self.write_long("a.st", self.texts.program(self.choose, self.number))
        self.write_long("cases.csv", cases(self.choose, self.files["a.st"][:MOST_LOOKED_AT]))
        self.last = self.asked("batch", "a.st", "cases.csv")
        self.again(("batch", "a.st", "cases.csv"), self.last)
        self.write("rows.csv", self.files["cases.csv"])
        replayed = self.asked("replay", "a.st", "rows.csv")
        if replayed.status == 0 and replayed.out.count(b"\n") == 1:
            replayed = replayed._replace(out=b"")
        if replayed.status in (0, 9, 11, 12) and self.last.status != 5 and self.last != replayed:
            self.blame(f"replay has status {replayed.status} and {replayed.err[:200]!r}", ("batch", "a.st", "cases.csv"))

    def write_script(self):
        """Writes a source and a script for it; the paths of what it may declare."""
        text, paths = self.texts.source_to_run(self.choose, self.number)
        self.write_long("a.cif", text)
        self.write_long("script.txt", script(self.choose, paths))
        return paths

    def refuses_as_check(self, ended):
        checked = self.asked("check", "a.cif") if ended.status in (7, 8) else ended
        if checked.status != 5 and (checked.status, checked.err) != (ended.status, ended.err):
            self.blame("check refuses the source in another way", ("check", "a.cif"))

    def simulate(self):
        self.write_script()
        words = ("simulate", "a.cif", "script.txt") if self.choose.random() < 0.6 else ("simulate", "a.cif", "--first", self.choose.choice(["0", "1", "3", "30"]))
        self.last = self.asked(*words)
        self.again(words, self.last)
        self.refuses_as_check(self.last)

    def why(self):
        event = os.fsdecode(self.choose.choice(self.write_script()))
        self.last = self.asked("why", "a.cif", "script.txt", event)
        self.again(("why", "a.cif", "script.txt", event), self.last)
        self.refuses_as_check(self.last)
        if self.last.status in (0, 13):
            self.fires_as_told(event)

    def fires_as_told(self, event):
        """Whether `simulate` fires the event behind the script where `why` has no reason, and stops where the script does."""
        self.write("script.txt", self.files["script.txt"] + b"\nfire " + os.fsencode(event))
        ended = self.asked("simulate", "a.cif", "script.txt")
        wanted = (13, self.last.err) if self.last.status == 13 else (0, b"") if self.last.out == b"enabled\n" else (13, None)
        is_stop = wanted[1] is not None or re.fullmatch(rb"cif: script.txt: line \d+: 27 NotEnabled\n", ended.err)
        if ended.status != 5 and (ended.status != wanted[0] or wanted[1] not in (None, ended.err) or not is_stop):
            self.blame(f"why has {self.last.out[:200]!r} and status {self.last.status}, and simulate {ended.err[:200]!r}", ("simulate", "a.cif", "script.txt"))

    def words(self):
        """A command line; of its files some are there."""
        self.write("a.cif", b"event e;")
        self.write("a.st", b"PROGRAM p END_PROGRAM")
        self.write("rows.csv", b"scan\n1\n")
        self.write("cases.csv", b"scan\n1\n1\n")
        self.write("script.txt", b"fire e")
        given = some_words(self.choose)
        self.last = ended = self.run(*given)
        fault = judged(given[0] if given else "", given[1:3], ended)
        wanted = command_lines.fault(given)
        if wanted and wanted[0] == 2 and (ended.status, ended.err) != (2, b"cif: not a command line\n") or not wanted and ended.status == 2:
            fault = fault or "words.py has another answer"
        if fault:
            self.blame(fault, given)


COMMON = ["check", "generate", "replay", "batch", "simulate", "why"]
NAMES = ["a.cif", "a.cif", "a.cif", "a.st", "a.st", "rows.csv", "rows.csv", "cases.csv", "cases.csv", "script.txt", "script.txt", "none", ".", "..", "/", "/dev/null", "/dev/full", "a.cif/", "a.cif/x", "./a.cif", "n" * 255, "n" * 256,
         "d/" * 2000, "x" * 100000, "\n", "a\nb", "\x1b[2J", "\udcff", "a\udcc3(", "\u00e4", "\u202e", "", " ", "-", "--", "--unc", "-o", "/proc/self/mem", "/proc/self/cmdline"]
WORDS = ["--unc", "--con", "--unc", "--con", "--first", "--first", "1", "5", "100", "10000", "0", "10001", "1000001", "-1", "+1", "01", " 1", "1 ", "1.0", "1e3", "0x10", "", "\u0661", "9" * 100000,
         "--unc=1", "--Unc", "--", "-", "--help", "--version", "-h", "-o", "--places", "check", "\udcff", "\n"]


def some_words(choose):
    """A list of words that is a command line, nearly one, or none."""
    command = choose.choice(COMMON if choose.random() < 0.9 else NAMES + WORDS + ["Check", "checks", "batches", "make", "trace"])
    if choose.random() < 0.02:
        return []
    files = [choose.choice(NAMES) for _ in range(choose.choice([0, 1, 1, 1, 2, 2, 2]))]
    if command in FILES and choose.random() < 0.4:
        files = list(FILES[command])
    return [command] + files + [choose.choice(WORDS) for _ in range(choose.choice([0, 0, 0, 1, 2, 2, 3, 4, 4, 5]))]


# ---- running

def keep(attack, program, seed, place):
    """Keeps the files of a finding; the lines that say how to run it again."""
    folder = pathlib.Path(place, f"{attack.command}-{seed}-{attack.number}")
    folder.mkdir(parents=True, exist_ok=True)
    for file, text in attack.files.items():
        (folder / file).write_bytes(text)
    fault, given = attack.fault
    shown = shlex.join(given)
    yield f"FOUND  {attack.command}, seed {seed}, number {attack.number}: {fault}"
    yield f"       (cd {folder} && {program.file} {shown[:2000]})".encode("utf-8", "backslashreplace").decode()
    yield f"       tools/attack.py {program.file} --seed {seed} --first {attack.number} --count 1 {attack.command}"


class Attacks:
    """Makes and runs attacks in a folder of its own."""

    def __init__(self, asked, runner, room):
        self.asked, self.program, self.folder = asked, program_of(asked.program, runner), tempfile.mkdtemp(dir=room)
        self.texts = Texts(asked.seed, self.generated)
        os.chdir(self.folder)

    def generated(self, text):
        """The program of a source, or nothing."""
        pathlib.Path("a.cif").write_bytes(text)
        return self.program.run(["generate", "a.cif", "--unc", "2", "--con", "2"]).out

    def all_of(self, command, numbers):
        """The attacks of a command with these numbers: their ends, the runs, and the lines of what was found."""
        ends, runs, lines = Counter(), Counter(), []
        for number in numbers:
            attack = Attack(self.program, self.texts, self.asked.seed, command, number)
            attack.begin()
            ends[reason(attack.last)] += 1
            runs.update(attack.runs)
            if attack.fault:
                lines.append("\n".join(keep(attack, self.program, self.asked.seed, self.asked.keep)))
        return command, ends, runs, lines


# What makes attacks in this process.
OWN = []


def begin_process(*given):
    """Begins a process that makes attacks; a signal to end ends it at once."""
    signal.signal(signal.SIGINT, signal.SIG_IGN)
    signal.signal(signal.SIGTERM, signal.SIG_DFL)
    OWN[:] = [Attacks(*given)]


def all_of(command, numbers):
    return OWN[0].all_of(command, numbers)


# (as many as share a random source)
TOGETHER = 250


def parts_of(asked):
    """The attacks in parts: the commands in turn, each with some numbers, which share what they are made of."""
    size, first, end = min(TOGETHER, 1 + asked.count // (4 * asked.jobs)), asked.first, asked.first + asked.count
    while first < end:
        last = min(end, (first // size + 1) * size)
        yield from ((command, range(first, last)) for command in asked.commands)
        first = last


def in_one_process(asked, runner, room):
    attacks = Attacks(asked, runner, room)
    try:
        yield from (attacks.all_of(*part) for part in parts_of(asked))
    finally:
        attacks.program.close()


def in_processes(asked, runner, room):
    """The parts by several processes, as they end; a few are given out ahead."""
    processes = concurrent.futures.ProcessPoolExecutor(asked.jobs, initializer=begin_process, initargs=(asked, runner, room))
    try:
        parts, given = parts_of(asked), set()
        while True:
            given |= {processes.submit(all_of, *part) for part in itertools.islice(parts, 2 * asked.jobs - len(given))}
            if not given:
                break
            ended, given = concurrent.futures.wait(given, return_when=concurrent.futures.FIRST_COMPLETED)
            yield from (it.result() for it in ended)
    finally:
        building.end_descendants()
        processes.shutdown(wait=False, cancel_futures=True)


def attack_all(asked, runner, room, told):
    """All attacks, or as many as the time allows."""
    end = time.monotonic() + asked.minutes * 60
    results = in_processes(asked, runner, room) if asked.jobs > 1 else in_one_process(asked, runner, room)
    try:
        for command, ends, runs, lines in results:
            told[command].update(ends)
            told["runs"][command] += runs.total()
            told["statuses"].update(runs)
            told["found"][command] += len(lines)
            if lines:
                print(*lines, sep="\n", flush=True)
            if asked.minutes and time.monotonic() > end:
                break
    finally:
        results.close()


def statuses_of(command, counted):
    """How many runs of a command ended with each status, in all attacks, and which of the table none had."""
    found = {status: count for (name, status), count in counted.items() if name == command}
    shown = ", ".join(f"{status}: {found[status]}" for status in sorted(found, key=lambda it: (it is None, it)))
    lacking = ", ".join(str(it) for it in MAY[command] if it not in found)
    return f"runs of {command} by status: {shown}" + (f"; none with {lacking}" if lacking else "")


def report(asked, told, seconds):
    for command in asked.commands:
        parts = sorted(told[command].items(), key=lambda it: (it[0][:6] != "status", int(re.search(r"-?\d+|$", it[0])[0] or 0)))
        shown = ", ".join(f"{name}: {count}" for name, count in parts)
        print(f"{command}: {told[command].total()} attacks in {told['runs'][command]} runs; {shown}")
    for command in MAY:
        if any(name == command for name, _ in told["statuses"]):
            print(statuses_of(command, told["statuses"]))
    total = told["runs"].total()
    print(f"seed {asked.seed}, from number {asked.first} on; {total} runs in {seconds:.0f} s, {total / max(seconds, 0.001):.0f} a second")
    print(f"{told['found'].total()} findings")


def parsed(given):
    parser = argparse.ArgumentParser(usage=__doc__.split("\n\n")[1].strip())
    parser.add_argument("program")
    for name, first in (("count", 1000), ("seed", 1), ("first", 1)):
        parser.add_argument(f"--{name}", type=int, default=first)
    parser.add_argument("--minutes", type=float, default=0)
    parser.add_argument("-j", "--jobs", type=int, default=1)
    parser.add_argument("--keep", default=KEPT, type=os.path.abspath)
    parser.add_argument("commands", nargs="*")
    asked = parser.parse_intermixed_args(given)
    asked.commands = asked.commands or ATTACKS
    if not set(asked.commands) <= set(ATTACKS):
        parser.error("no command of these: " + " ".join(asked.commands))
    if asked.jobs < 1:
        parser.error("-j takes a number from 1 on")
    asked.program = os.path.abspath(asked.program)
    return asked


def ask_for_interrupt(*_):
    raise KeyboardInterrupt


def room():
    """A folder in memory, where there is one."""
    memory = "/dev/shm"
    return tempfile.TemporaryDirectory(prefix="cif-", dir=memory if os.access(memory, os.W_OK | os.X_OK) else None)


def main(*given):
    asked, began = parsed(given), time.monotonic()
    told = {name: Counter() for name in [*ATTACKS, "runs", "statuses", "found"]}
    signal.signal(signal.SIGTERM, ask_for_interrupt)
    with room() as folder:
        try:
            attack_all(asked, compiled(folder), folder, told)
        except KeyboardInterrupt:
            print("ended early", flush=True)
        signal.signal(signal.SIGTERM, signal.SIG_IGN)
        os.chdir("/")
    report(asked, told, time.monotonic() - began)
    return 1 if told["found"].total() else 0


if __name__ == "__main__":
    sys.exit(main(*sys.argv[1:]))
