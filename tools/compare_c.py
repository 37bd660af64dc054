#!/usr/bin/env python3
"""Compares the tables of `replay` with those of generated programs translated to C and compiled with gcc, over random rows.

    tools/compare_c.py PROGRAM [SOURCES [SEED]]
    tools/compare_c.py --self-test

PROGRAM generates and replays each source of examples/, and SOURCES random ones (200), which are made as in compare_scans.py. The program that
it writes is read by plain_programs.py and translated here: a variable is an `int64_t`, an operator a call that stops at a result outside 64
bits or a divisor 0, an assignment a call that stops outside a subrange. Compared is the whole table. With `--self-test` the translation is
compared with the interpreter of compare_programs.py on random programs, of which some stop, and each of some wrong translations is to differ
from it. The status is 1 where something differs. Without gcc nothing is compared.
"""
import os
import random
import shutil
import subprocess
import sys
import tempfile

from compare_programs import Endless, Machine, Maker, RowMaker, Stopped, broken, broken_rows, cell_value, first_value
from compare_scans import MOST_SCANS, Trial, answers, made
from plain_programs import Program
from random_sources import judged, made_file, rows_of

TOP = os.path.dirname(os.path.dirname(os.path.abspath(__file__)))
SCANS = 200
STOPPED = 3

HEAD = r"""#include <inttypes.h>
#include <stdint.h>
#include <stdio.h>
#include <stdlib.h>
typedef int64_t I;
static void stop(void) { fflush(stdout); exit(3); }
static I add(I a, I b) { I r; if (__builtin_add_overflow(a, b, &r)) stop(); return r; }
static I sub(I a, I b) { I r; if (__builtin_sub_overflow(a, b, &r)) stop(); return r; }
static I mul(I a, I b) { I r; if (__builtin_mul_overflow(a, b, &r)) stop(); return r; }
static I quotient(I a, I b) { if (b == 0 || (b == -1 && a == INT64_MIN)) stop(); return a / b; }
static I rest(I a, I b) { return b == 0 || b == -1 ? 0 : a % b; }
static I least(I a, I b) { return a < b ? a : b; }
static I most(I a, I b) { return a > b ? a : b; }
static I chosen(I which, I a, I b) { return which ? b : a; }
static I within(I value, I low, I high) { if (value < low || value > high) stop(); return value; }
"""

# The call or the sign of each form. C evaluates the operands of calls in an order of its own, which no table shows.
CALLS = {"+": "add", "-": "sub", "*": "mul", "/": "quotient", "MOD": "rest", "MIN": "least", "MAX": "most", "SEL": "chosen"}
SIGNS = {"OR": "|", "XOR": "^", "AND": "&", "=": "==", "<>": "!=", "<": "<", ">": ">", "<=": "<=", ">=": ">="}


class Translator:
    """Writes a program in C. It reads the values of the inputs, a row for each scan, and writes those of the outputs."""

    def __init__(self, variables, body):
        self.variables, self.body = {it.name.lower(): it for it in variables}, body

    def number(self, value):
        return "INT64_MIN" if value == -2**63 else f"INT64_C({value})"

    def value(self, form):
        kind, parts = form[0], form[1:]
        if kind == "named":
            return "v_" + parts[0].lower()
        if kind in ("truth", "number"):
            return self.number(int(parts[0]))
        values = [self.value(part) for part in parts]
        if kind in SIGNS:
            return f"({values[0]} {SIGNS[kind]} {values[1]})"
        if kind == "ABS":
            return f"most({values[0]}, sub(0, {values[0]}))"
        unary = {"NOT": "(!%s)", "negative": "sub(0, %s)"}
        return unary[kind] % values[0] if kind in unary else f"{CALLS[kind]}({', '.join(values)})"

    def statements(self, body):
        for form in body:
            if form[0] == "assign":
                yield self.assignment(form[1].lower(), self.value(form[2]))
            elif form[0] == "while":
                yield f"while ({self.value(form[1])}) {{"
                yield from self.statements(form[2])
                yield "}"
            else:
                yield from self.choice(form[1], form[2])

    def assignment(self, name, value):
        it = self.variables[name]
        held = f"within({value}, {self.number(it.low)}, {self.number(it.high)})" if it.kind == "RANGE" else value
        return f"v_{name} = {held};"

    def choice(self, branches, other):
        word = "if"
        for condition, inner in branches:
            yield f"{word} ({self.value(condition)}) {{"
            yield from self.statements(inner)
            word = "} else if"
        yield "} else {"
        yield from self.statements(other)
        yield "}"

    def of_block(self, block):
        return [name for name, it in self.variables.items() if it.block == block]

    def lines(self):
        yield HEAD
        for name, it in self.variables.items():
            yield f"static I v_{name} = {self.number(int(first_value(it)))};"
        yield "int main(void) { long scan = 0; for (;;) {"
        for name in self.of_block("VAR_INPUT"):
            yield f'if (scanf("%" SCNd64, &v_{name}) != 1) return 0;'
        yield 'int c; while ((c = getchar()) == \' \') {} if (c != \'\\n\') return 0;'
        yield from self.statements(self.body)
        yield 'printf("%ld", ++scan);'
        for name in self.of_block("VAR_OUTPUT"):
            if self.variables[name].kind == "BOOL":
                yield f'fputs(v_{name} ? ",TRUE" : ",FALSE", stdout);'
            else:
                yield f'printf(",%" PRId64, v_{name});'
        yield 'putchar(\'\\n\'); } }'

    def text(self):
        return "\n".join(self.lines()) + "\n"


def table_of(translator, folder, rows):
    """The table over rows of numbers, and whether a scan stops."""
    code, program = os.path.join(folder, "program.c"), os.path.join(folder, "program.out")
    with open(code, "w") as file:
        file.write(translator.text())
    subprocess.run(["gcc", "-std=gnu11", "-O0", "-w", "-o", program, code], check=True)
    given = "".join(" ".join(map(str, row)) + "\n" for row in rows)
    ran = subprocess.run([program], input=given, stdout=subprocess.PIPE, text=True, timeout=60, check=False)
    outputs = [translator.variables[name].name for name in translator.of_block("VAR_OUTPUT")]
    return ",".join(["scan"] + outputs) + "\n" + ran.stdout, ran.returncode == STOPPED


# ---- the comparison


def example_trials(choose):
    """The examples over random rows."""
    for name in sorted(os.listdir(os.path.join(TOP, "examples"))):
        if name.endswith(".cif"):
            with open(os.path.join(TOP, "examples", name)) as file:
                text = file.read()
            yield name, Trial(text, ["--unc", "3", "--con", "3"], 3, 3, made_file(choose, judged(text)[1], SCANS))


def random_trials(choose, sources):
    for number in range(1, sources + 1):
        trial = made(choose)
        net = judged(trial.text)[1]
        yield f"random source {number}", trial._replace(file=made_file(choose, net, choose.randint(1, 5 * MOST_SCANS)))


def difference(program, folder, trial):
    """What differs of a trial, or None, and how many scans it has."""
    generated, given = answers(program, folder, trial)
    if generated.startswith("status ") or given.startswith("status "):
        return f"answered {generated[:200]!r} and {given[:200]!r}", 0
    rows = rows_of(judged(trial.text)[1], trial.file)
    read = Program(generated)
    table, _ = table_of(Translator(read.variables, read.body), folder, rows)
    return (None if table == given else f"replay writes {given!r}, and the program in C {table!r}"), len(rows)


def main(program, sources=200, seed=1):
    program, choose, differ, tried, scans = os.path.abspath(program), random.Random(seed), 0, 0, 0
    with tempfile.TemporaryDirectory() as folder:
        for trials in (example_trials(choose), random_trials(choose, sources)):
            for name, trial in trials:
                found, count = difference(program, folder, trial)
                tried, scans = tried + 1, scans + count
                if found:
                    differ += 1
                    print(f"{name}: {found}\n{trial.text!r} {' '.join(trial.options)}, rows {trial.file!r}")
    print(f"{tried} programs in C, {scans} scans: {differ} differences")
    return 1 if differ else 0


# ---- the self-test


class FloorDivision(Translator):
    def value(self, form):
        if form[0] == "/":
            a, b = map(self.value, form[1:])
            return f"(({a}) / ({b}) - (({a}) % ({b}) != 0 && (({a}) < 0) != (({b}) < 0)))"
        return super().value(form)


class NoElse(Translator):
    def choice(self, branches, other):
        return super().choice(branches, [])


class EachBranch(Translator):
    def choice(self, branches, other):
        for condition, inner in branches:
            yield from super().choice([(condition, inner)], [])
        yield from self.statements(other)


class LooseRanges(Translator):
    def assignment(self, name, value):
        return f"v_{name} = {value};"


class OrIsXor(Translator):
    def value(self, form):
        return super().value(("XOR",) + form[1:] if form[0] == "OR" else form)


class SwappedSel(Translator):
    def value(self, form):
        return super().value((form[0], form[1], form[3], form[2]) if form[0] == "SEL" else form)


class ZeroStart(Translator):
    def lines(self):
        return (line.split(" = ")[0] + " = 0;" if line.startswith("static I v_") else line for line in super().lines())


WRONG = [FloorDivision, NoElse, EachBranch, LooseRanges, OrIsXor, SwappedSel, ZeroStart]


def random_program(choose):
    """A random program that breaks no check, with its text, rows, and what the interpreter says of these."""
    while True:
        maker = Maker(choose)
        text, body = maker.program()
        records = RowMaker(choose, maker.variables, maker.near).records(choose.randint(1, 4))
        if broken(maker.variables, body) or not records or broken_rows(maker.variables, records):
            continue
        inputs = [it for it in maker.variables if it.block == "VAR_INPUT"]
        rows = [[int(cell_value(it, row[records[0].index(it.name)])) for it in inputs] for row in records[1:]]
        try:
            return text, rows, interpreted(maker.variables, body, records)
        except Endless:
            continue


def interpreted(variables, body, records):
    machine, stopped = Machine(variables), False
    lines = [["scan"] + [it.name for it in variables if it.block == "VAR_OUTPUT"]]
    try:
        for scan, row in enumerate(records[1:], 1):
            lines.append([str(scan)] + machine.scan(body, dict(zip(records[0], row))))
    except Stopped as why:
        stopped = True
        if str(why).startswith("43"):
            # (an empty loop has no end in C)
            raise Endless from None
    return "".join(",".join(line) + "\n" for line in lines), stopped


# Programs on which a wrong translation shows.
WORKED = """PROGRAM p VAR i: LINT := -7; b: BOOL := TRUE; END_VAR VAR_OUTPUT q: LINT; r: LINT; s: LINT; t: LINT := 4; o: BOOL; n: LINT; END_VAR
q := i / 2; r := i MOD 2; s := SEL(b, 1, 2); o := b OR TRUE; IF b THEN n := 1; ELSIF o THEN n := 2; ELSE n := 3; END_IF;
IF NOT b THEN t := 5; ELSE t := t + ABS(i) * MIN(2, MAX(1, 7)); END_IF; END_PROGRAM""", \
    "PROGRAM p VAR_OUTPUT x: LINT (0 .. 2) := 1; END_VAR x := x + 1; END_PROGRAM"
TABLES = [("scan,q,r,s,t,o,n\n1,-3,-1,2,18,TRUE,1\n2,-3,-1,2,32,TRUE,1\n", False), ("scan,x\n1,2\n", True)]


def self_test(programs=60, seed=3):
    choose, stops = random.Random(seed), 0
    with tempfile.TemporaryDirectory() as folder:
        def translated(make, text, rows):
            read = Program(text)
            return table_of(make(read.variables, read.body), folder, rows)
        for text, wanted in zip(WORKED, TABLES):
            assert translated(Translator, text, [[], []]) == wanted, (text, translated(Translator, text, [[], []]))
        for wrong in WRONG:
            assert any(translated(wrong, text, [[], []]) != wanted for text, wanted in zip(WORKED, TABLES)), wrong.__name__
        for _ in range(programs):
            text, rows, wanted = random_program(choose)
            given = translated(Translator, text, rows)
            assert given == wanted, (text, rows, wanted, given)
            stops += wanted[1]
    print(f"the translation agrees with the interpreter on {programs} programs, of which {stops} stop, and {len(WRONG)} wrong ones differ")
    return 0


if __name__ == "__main__":
    if not shutil.which("gcc"):
        print("nothing is compared: gcc is missing")
        sys.exit(0)
    if sys.argv[1:] == ["--self-test"]:
        sys.exit(self_test())
    if not 2 <= len(sys.argv) <= 4:
        sys.exit(__doc__)
    sys.exit(main(sys.argv[1], *map(int, sys.argv[2:])))
