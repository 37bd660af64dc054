#!/usr/bin/env python3
"""Refuses memory to the program at each of its requests.

    tools/refuse_memory.py PROGRAM [--most M]

Each command is run with files of its own, with and without a fault. Its requests for memory are counted; then it is run once for each of
them, in which that one is refused, and once in which it and all behind it are. Such a run ends as the untouched one does, or with status 5:
standard output then has the beginning of the untouched one, and standard error the beginning of the line of want of memory, or of that
of the untouched run. A run has 10 seconds of the processor, with checks 60. With --most only M requests of each command are taken: the
first ones, and others at equal distances.

PROGRAM is the proved one or the one compiled without proofs, of which the second one has an allocator of its own and checks its accesses to
memory. gcc compiles what refuses, `refuse_memory.c`; without gcc nothing is tried. The last line counts what was found, and the status
is 1 where something is.
"""
import argparse
import os
import pathlib
import shutil
import subprocess
import sys
import tempfile
from collections import Counter

from building import TOP
from limited_runs import Program

EXAMPLES = TOP / "examples"
REFUSES = "refuse_memory.so"
MEMORY = b"cif: out of memory\n"
# What the library ends a program with whose allocator it does not know.
UNKNOWN = 99
# A source with each form of declaration, expression, update, channel and invariant, a definition and an instance.
FORMS = """\
enum Mode = idle, busy;
const int most = 3, twice = 2 * most - 1;
type Count = int[0..most];
input bool go;
input int[-2..5] level;
input Mode asked;
controllable Count give;
uncontrollable void tick;
controllable bool flag;
alg int room = most - feeder.n;
alg Mode shown;
equation shown = if go: asked elif level > 0: busy else idle end;

plant feeder:
  disc Count n = min(twice, most);
  disc bool done;
  alg bool last;
  location more: initial; marked;
    equation last = (n = 1);
    edge give!n when n > 0 and go do n := n - 1;
    edge flag!done when not last or level mod 2 = 0 do if n = 0: done := true elif go: n := max(n - 1, 0) else done := false end goto rest;
  location rest:
    equation last = false;
    edge tick! goto more;
end

group line:
  plant def Station(controllable Count take; alg bool may; location free):
    disc Count part;
    disc Mode mode = busy;
    location: initial;
      edge take? when may and (part <= 2 or free => part != 0 + 0 * 1) do part := abs(-?) div (1 + min(?, 1)), mode := if ? = 0: idle else busy end;
  end
  one: Station(.give, go <=> level >= 0, feeder.more);
end

supervisor watch:
  controllable skip, stop;
  alphabet skip, stop;
  monitor stop;
  location a: initial;
    edge tick? goto b;
    edge skip, stop, flag?;
  location b:
    edge skip when asked = idle and room + level * 2 - 1 < 9 goto a;
    edge tick?;
end

requirement watch.skip needs not feeder.done;
requirement invariant line.one.part <= most;
requirement invariant small: feeder.rest disables {give, watch.skip};
"""
# A source for each phase of the checks, and one without a class.
WRONG = {
    "bad_byte.cif": "event e; @",
    "not_read.cif": FORMS[:-20],
    "unknown.cif": FORMS.replace("not feeder.done", "not feeder.gone"),
    "mismatch.cif": FORMS.replace("abs(-?)", "not ?"),
    "cycle.cif": FORMS.replace("room = most", "room = room"),
    "false.cif": FORMS.replace("part <= most", "part > most"),
    "choices.cif": "event e; automaton def D(): location: initial; edge e, e, e, e, e, e, e; end v: D(); w: D(); x: D(); y: D(); z: D();",
    "unclassed.cif": FORMS.replace("controllable flag", "event flag").replace("controllable bool flag", "event bool flag"),
}
FAULT = "PROGRAM p VAR_INPUT a: LINT (0 .. 9); END_VAR VAR x: LINT; END_VAR VAR_OUTPUT y: LINT; END_VAR x := x + 1; y := 6 / a; END_PROGRAM\n"
# An event that is forbidden, whose choices leave a range or break an invariant.
REASONS = "controllable e; automaton a: disc int[0..3] x; location: initial; edge e do x := 9; edge e do x := 1; end invariant e needs a.x > 0; invariant a.x != 1;"
SCRIPT = "set go true\nset level 2\n\nset asked busy\nfire flag\nfire watch.stop\n"
ROWS = "scan,I0_go,I1_level,I2_asked\n1,TRUE,5,1\n2,FALSE,-2,0\n3,1,0,1\n"
# Six cases, more than there are workers, of which one has two rows.
CASES = ROWS.replace("\n3,", "\n1,") + "1,0,1,0\n1,1,2,1\n1,0,3,1\n1,1,4,0\n"
FILES = {
    **WRONG, "forms.cif": FORMS, "fault.st": FAULT, "fault-rows.csv": "scan,a\n1,2\n2,0\n", "rows.csv": ROWS, "wrong-rows.csv": ROWS + "4,1,6,0\n",
    "cases.csv": CASES, "wrong-cases.csv": CASES + "3,1,4,0\n", "fault-cases.csv": "scan,a\n1,2\n1,3\n2,0\n1,0\n1,1\n1,0\n",
    "wrong.st": FAULT.replace("6 / a", "6 / b"), "open.st": FAULT.replace("x :=", "x := ("),
    "reasons.cif": REASONS, "script.txt": SCRIPT, "empty.txt": "", "stop.txt": SCRIPT + "set level 6\n", "bad.txt": SCRIPT + "set level\n",
}
# The words of each run, and the status of the untouched one.
RUNS = [
    ("check lamp.cif", 0), ("check forms.cif", 0), ("generate lamp.cif", 0), ("generate forms.cif --unc 3 --con 2", 0), ("replay lamp.st lamp-rows.csv", 0),
    ("replay forms.st rows.csv", 0), ("replay fault.st fault-rows.csv", 11), ("replay wrong.st rows.csv", 9), ("replay open.st rows.csv", 9),
    ("replay forms.st wrong-rows.csv", 10), ("replay forms.st fault-rows.csv", 10), *((f"check {name}", 8 if name == "choices.cif" else 7) for name in WRONG if name != "unclassed.cif"),
    ("simulate forms.cif script.txt", 0), ("simulate forms.cif stop.txt", 13), ("simulate forms.cif bad.txt", 13), ("simulate forms.cif --first 9", 0),
    ("simulate cycle.cif script.txt", 7), ("simulate forms.cif none.txt", 3), ("why forms.cif script.txt give", 0), ("why reasons.cif empty.txt e", 0),
    ("why forms.cif stop.txt tick", 13), ("why forms.cif script.txt go", 16),
    ("batch lamp.st lamp-rows.csv", 0), ("batch forms.st cases.csv", 0), ("batch fault.st fault-cases.csv", 11), ("batch wrong.st cases.csv", 9),
    ("batch forms.st wrong-cases.csv", 10), ("batch forms.st none.csv", 3),
    ("generate unclassed.cif", 8), ("check none.cif", 3), ("replay lamp.st none.csv", 3), ("look lamp.cif", 2),
]


class Refusing:
    """Runs a program, of whose requests for memory some are refused."""

    def __init__(self, file):
        self.program = Program(file)
        self.count = pathlib.Path("count")
        self.count.write_bytes(bytes(8))
        self.program.environment.update(LD_PRELOAD=os.path.abspath(REFUSES), REFUSE_COUNT=os.path.abspath("count"))

    def run(self, words, number, all_behind=False):
        """The end of a run in which a request is refused, none where it is 0, and how many requests there were."""
        self.program.environment["REFUSE"] = str(number)
        self.program.environment.pop("REFUSE_ALL", None)
        if all_behind:
            self.program.environment["REFUSE_ALL"] = "1"
        ended = self.program.run(words)
        return ended, int.from_bytes(self.count.read_bytes(), sys.byteorder)


def chosen(count, most):
    """The numbers of the requests that are refused."""
    if not most or count <= most:
        return range(1, count + 1)
    first = most // 2
    return sorted({*range(1, first + 1), *(first + (count - first) * part // (most - first) for part in range(1, most - first + 1))})


def fault_of(ended, untouched):
    """What is wrong with the end of a run in which memory was refused."""
    if ended == untouched:
        return None
    if ended.status is None:
        return "no end"
    if ended.status != 5:
        return f"signal {-ended.status}" if ended.status < 0 else f"status {ended.status}"
    if not untouched.out.startswith(ended.out):
        return "another output"
    if not any(line.startswith(ended.err) for line in (MEMORY, untouched.err)):
        return f"the line {ended.err!r}"
    return None


def told(ended, untouched):
    """The end of a run, in words."""
    if ended == untouched:
        return "as the untouched one"
    line = "the line" if ended.err == MEMORY else "no line" if not ended.err else "a part of a line"
    return f"5 with {line}" + (" and a part of the output" if ended.out else "")


def tried(refusing, words, status, most):
    """How the runs of a command ended, how many requests it makes, and what is wrong."""
    untouched, count = refusing.run(words, 0)
    if untouched.status != status:
        return Counter(), count, [f"{' '.join(words)}: status {untouched.status} without a refusal, wanted {status}: {untouched.err[:100]!r}"]
    ends, found = Counter(), []
    for number in chosen(count, most):
        for all_behind in (False, True):
            ended, asked = refusing.run(words, number, all_behind)
            fault = fault_of(ended, untouched) or (f"only {asked} requests" if asked < number else None)
            ends[told(ended, untouched)] += 1
            if fault:
                found.append(f"FOUND  {' '.join(words)}, request {number}{' and all behind it' if all_behind else ''} refused: {fault}")
    return ends, count, found


def make_files(program):
    """The files of the runs, and the programs that they replay."""
    for name, text in FILES.items():
        pathlib.Path(name).write_text(text)
    for name in ("lamp.cif", "lamp-rows.csv"):
        shutil.copy(EXAMPLES / name, name)
    for name in ("lamp", "forms"):
        pathlib.Path(f"{name}.st").write_bytes(program.run(["generate", f"{name}.cif", "--unc", "3", "--con", "2"]).out)


def compiled():
    """Whether the library that refuses was compiled; says why not."""
    if not shutil.which("gcc"):
        print("skipped: there is no gcc, which compiles what refuses memory")
        return False
    subprocess.run(["gcc", "-O2", "-shared", "-fPIC", "-o", REFUSES, TOP / "tools/refuse_memory.c", "-ldl"], check=True)
    return True


def try_all(file, most):
    make_files(Program(file))
    refusing = Refusing(file)
    if refusing.run(["check", "lamp.cif"], 0)[0].status == UNKNOWN:
        print("skipped: the allocator of this program is unknown")
        return 0
    runs, found = 0, []
    for words, status in RUNS:
        ends, count, faults = tried(refusing, words.split(), status, most)
        print(f"{words}: {count} requests; " + ", ".join(f"{end}: {times}" for end, times in ends.most_common()), *faults, sep="\n", flush=True)
        runs, found = runs + ends.total(), found + faults
    print(f"{runs} runs with memory refused, {len(found)} findings")
    return 1 if found else 0


def main():
    parser = argparse.ArgumentParser(usage="tools/refuse_memory.py PROGRAM [--most M]")
    parser.add_argument("program")
    parser.add_argument("--most", type=int, default=0)
    asked = parser.parse_args()
    file = os.path.abspath(asked.program)
    with tempfile.TemporaryDirectory(prefix="cif-") as folder:
        os.chdir(folder)
        try:
            return try_all(file, asked.most) if compiled() else 0
        finally:
            os.chdir("/")


if __name__ == "__main__":
    sys.exit(main())
