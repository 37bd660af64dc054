#!/usr/bin/env python3
"""Compares `replay` and `batch` with an independent interpreter of Structured Text (IEC 61131-3), on random programs, rows and cases.

    tools/compare_programs.py PROGRAM [PROGRAMS [SEED]]

Some programs break a check, some rows and cases the rules of their files, and some scans divide by 0, leave a subrange, pass 64
bits or loop without end; most do not. Each program has rows and cases. Compared are the table, or those of the cases in order, or else
the line that is told, of the first case that stops, and the status. The status is 1 where the two differ.
"""
import os
import random
import re
import subprocess
import sys
import tempfile
from collections import Counter, namedtuple

LEAST, GREATEST = -2 ** 63, 2 ** 63 - 1
MOST_ROWS = 100000
# A program whose scan takes more turns is not tried, but for a loop that is empty and has no end: it runs out of the 1,000,000
# turns of a scan. So how many these are is not compared.
MOST_TURNS = 2000
NAMES = ["a", "B", "c1", "_d", "Ee", "VALUE", "Mode"]
BLOCKS = ["VAR", "VAR", "VAR", "VAR_OUTPUT", "VAR_OUTPUT", "VAR_OUTPUT", "VAR_INPUT", "VAR_INPUT", "VAR CONSTANT"]
TRUTHS = {"TRUE": True, "true": True, "1": True, "FALSE": False, "false": False, "0": False}
# cells that are wrong in most columns
ODD_CELLS = ["", "-", "+1", "-0", "01", "--1", "1.0", " 1", "1 ", "1_0", "1e1", "0x1", "True", "T", "x", "2", "-1", "99",
             "TRUE", "1,2", "1\n", '"1"', str(LEAST - 1), str(LEAST), str(GREATEST), str(GREATEST + 1)]

# The levels of operators, from the one that binds least on: their signs, and how many of them stand in a row at the most.
LEVELS = [(["OR"], 3), (["XOR"], 3), (["AND", "&"], 3), (["=", "<>"], 1), (["<", ">", "<=", ">="], 1), (["+", "-"], 3),
          (["*", "/", "MOD"], 3)]
# Whether the operands of a form are BOOL ("b") or integers ("i"), and at the end what they come to; "?" is one of the two, the
# same everywhere.
SORTS = {
    "OR": "bbb", "XOR": "bbb", "AND": "bbb", "=": "??b", "<>": "??b", "<": "iib", ">": "iib", "<=": "iib", ">=": "iib",
    "+": "iii", "-": "iii", "*": "iii", "/": "iii", "MOD": "iii", "negative": "ii", "NOT": "bb", "ABS": "ii", "MIN": "iii",
    "MAX": "iii", "SEL": "b???"}

# A variable: its kind is BOOL, LINT or RANGE, which is LINT with bounds, and its first value is None where none is declared.
Variable = namedtuple("Variable", "name block kind low high first")


class Stopped(Exception):
    """How a scan ends that does not reach its end."""


class Endless(Exception):
    """A program whose loops take too long to simulate."""


# ---- random programs: expressions are (text, form), where a form is a tuple headed by its kind. An operator has two operands,
# and several of one level stand for the first two, then those and the third, and so on.


class Maker:
    """Makes random programs, whose operands have the kinds that are wanted but for some that are wrong on purpose."""

    def __init__(self, choose):
        self.choose = choose
        self.variables = []
        # how often something wrong is made on purpose, an operand without a value, and a number or a subrange near the end of
        # 64 bits; where several operands and partial results have no value, the first of them is told
        self.wrong = choose.choice([0, 0, 0, 0.005])
        self.faulty = choose.choice([0, 0, 0, 0, 0, 0.2])
        self.near = 0.3 if self.faulty else choose.choice([0, 0, 0.1])

    def maybe(self, chance):
        return self.choose.random() < chance

    def cased(self, name):
        return self.choose.choice([name, name.upper(), name.lower()])

    def number(self, value):
        """The number as a primary where it is none below 0, and else as a sum in parentheses, or a unary minus."""
        if value == LEAST:
            return "(-%d - 1)" % GREATEST, ("-", ("negative", ("number", GREATEST)), ("number", 1))
        if value < 0:
            text, form = self.number(-value)
            return "-" + text, ("negative", form)
        return self.choose.choice(["%d", "%d", "%d", "00%d"]) % value, ("number", value)

    def literal(self, is_bool):
        if is_bool:
            value = self.maybe(0.5)
            return ("TRUE" if value else "FALSE"), ("truth", value)
        if self.maybe(self.near):
            return self.number(self.choose.choice([GREATEST, GREATEST - 1, LEAST, 3037000500]))
        return self.number(self.choose.choice([0, 1, 2, 3, 7, 40]))

    def fault(self):
        """An operand that divides by 0 or passes 64 bits."""
        text, form = self.number(LEAST)
        return self.choose.choice([
            ("(1 / 0)", ("/", ("number", 1), ("number", 0))), ("(-%s)" % text, ("negative", form)),
            ("ABS(%s)" % text, ("ABS", form)), ("(%s / -1)" % text, ("/", form, ("negative", ("number", 1)))),
            ("(7 / (2 - 2))", ("/", ("number", 7), ("-", ("number", 2), ("number", 2))))])

    def name(self, is_bool):
        """A variable of that kind, or a literal where there is none."""
        names = [variable.name for variable in self.variables if (variable.kind == "BOOL") == is_bool]
        if self.maybe(self.wrong):
            names = NAMES
        if not names:
            return self.literal(is_bool)
        name = self.cased(self.choose.choice(names))
        return name, ("named", name)

    def call(self, is_bool, depth):
        function = self.choose.choice(["SEL"] if is_bool else ["ABS", "MIN", "MAX", "SEL"])
        parts = [self.level({"b": True, "i": False, "?": is_bool}[sort], depth) for sort in SORTS[function][:-1]]
        return "%s(%s)" % (function, ", ".join(text for text, _ in parts)), (function,) + tuple(form for _, form in parts)

    def primary(self, is_bool, depth):
        if self.maybe(self.wrong):
            is_bool = not is_bool
        if not is_bool and self.maybe(self.faulty):
            return self.fault()
        way = self.choose.randint(0, 6 if depth else 3)
        if way < 1:
            return self.literal(is_bool)
        if way < 4:
            return self.name(is_bool)
        if way < 5:
            return self.call(is_bool, depth - 1)
        text, form = self.level(is_bool, depth - 1)
        return "(" + text + ")", form

    def unary(self, is_bool, depth):
        if not self.maybe(0.15):
            return self.primary(is_bool, depth)
        text, form = self.unary(is_bool, depth)
        return ("NOT " + text, ("NOT", form)) if is_bool else ("-" + text, ("negative", form))

    def level(self, is_bool, depth, place=0):
        """Operands with operators of the level at that place, or most often what stands in the levels below it."""
        if place == len(LEVELS):
            return self.unary(is_bool, depth)
        signs, most = LEVELS[place]
        operands, _, result = SORTS[signs[0]]
        if (result == "b") != is_bool or not self.maybe(0.15 + self.faulty * (result == "i")):
            return self.level(is_bool, depth, place + 1)
        is_inner_bool = operands == "b" or operands == "?" and self.maybe(0.5)
        text, form = self.level(is_inner_bool, depth, place + 1)
        for _ in range(self.choose.randint(1, most)):
            sign = self.choose.choice(signs)
            is_plain = sign == "/" and self.maybe(0.8)
            divisor = self.number(0 if self.maybe(self.faulty) else self.choose.choice([1, 2, 3, 7, -1, -2]))
            right, operand = divisor if is_plain else self.level(is_inner_bool, depth, place + 1)
            text, form = "%s %s %s" % (text, sign, right), ("AND" if sign == "&" else sign, form, operand)
        return text, form

    # ---- statements: (text, form), where a form is ("assign", name, value), ("if", pairs of a condition and a body, the
    # body after ELSE) or ("while", condition, body)

    def targets(self):
        """What may be assigned; or on purpose what may not, or is not there."""
        if self.maybe(self.wrong * 6):
            fixed = [variable for variable in self.variables if not is_assignable(variable)]
            return fixed or [Variable(self.choose.choice(NAMES), "VAR", "LINT", 0, 0, None)]
        return [variable for variable in self.variables if is_assignable(variable)]

    def held(self, variable, part):
        """The value within the bounds of the variable."""
        (low, a), (high, b), (text, form) = self.number(variable.low), self.number(variable.high), part
        return "MAX(%s, MIN(%s, %s))" % (low, high, text), ("MAX", a, ("MIN", b, form))

    def assignment(self, targets):
        variable = self.choose.choice(targets)
        target, is_bool = self.cased(variable.name), variable.kind == "BOOL"
        text, form = self.level(is_bool != self.maybe(self.wrong), 2)
        if variable.kind == "RANGE" and self.maybe(0.9):
            text, form = self.held(variable, (text, form))
        return "%s := %s;" % (target, text), ("assign", target, form)

    def choice(self, depth):
        texts, branches, word = [], [], "IF"
        for _ in range(self.choose.randint(1, 3)):
            text, condition = self.level(True, 1)
            body_text, body = self.body(depth - 1)
            texts += [word, text, "THEN", body_text]
            branches.append((condition, body))
            word = "ELSIF"
        other = []
        if self.maybe(0.5):
            other_text, other = self.body(depth - 1)
            texts += ["ELSE", other_text]
        return " ".join(texts + ["END_IF;"]), ("if", branches, other)

    def loop(self, depth, variable):
        """A loop that counts, or one that never ends."""
        if self.maybe(0.03):
            return "WHILE TRUE DO END_WHILE;", ("while", ("truth", True), [])
        name, (limit, end) = self.cased(variable.name), self.literal(False)
        text, condition = "%s < %s" % (name, limit), ("<", ("named", name), end)
        if self.maybe(0.3):
            also, other = self.level(True, 1, 3)
            text, condition = "%s AND %s" % (text, also), ("AND", condition, other)
        body_text, body = self.body(depth - 1)
        step = ("assign", name, ("+", ("named", name), ("number", 1)))
        text = "WHILE %s DO %s %s := %s + 1; END_WHILE;" % (text, body_text, name, name)
        return text, ("while", condition, body + [step])

    def statement(self, depth):
        targets = self.targets()
        counters = [variable for variable in targets if variable.kind != "BOOL"]
        way = self.choose.randint(0, 5) if depth else 0
        if way == 5 and counters:
            return self.loop(depth, self.choose.choice(counters))
        return self.assignment(targets) if way < 4 else self.choice(depth)

    def body(self, depth, least=0):
        parts = [self.statement(depth) for _ in range(self.choose.randint(least, 3 + least))]
        return " ".join(text for text, _ in parts), [form for _, form in parts]

    # ---- declarations

    def bounds(self):
        """The bounds of a subrange: around 0, or now and then at one end of 64 bits or at both; the least number has no literal."""
        low, size = self.choose.randint(-30, 2), self.choose.randint(0, 60)
        high = low + size
        if self.maybe(self.near):
            least, greatest = self.choose.choice([0, 0, 30]) - GREATEST, GREATEST - self.choose.choice([0, 0, 30])
            low, high = self.choose.choice([(least, least + size), (greatest - size, greatest), (least, greatest)])
        return low, max(high - 70 * self.maybe(self.wrong * 4), -GREATEST)

    def variable(self, name):
        block, kind = self.choose.choice(BLOCKS), self.choose.choice(["BOOL", "LINT", "LINT", "RANGE"])
        low, high = self.bounds()
        first = None
        if self.maybe(0.6):
            first = self.maybe(0.5) if kind == "BOOL" else self.choose.randint(low, max(low, high))
            if kind == "LINT" and self.maybe(self.near):
                first = self.choose.choice([GREATEST, -GREATEST])
            if self.maybe(self.wrong * 4):
                first = self.choose.choice([True, 99])
        return Variable(name, block, kind, low, high, first)

    def declarations(self):
        """The blocks, of one or more variables each, and some of none."""
        texts, open_block = [], None
        for variable in self.variables:
            if open_block != variable.block or self.maybe(0.5):
                texts += ["END_VAR"] * (open_block is not None) + ["VAR_INPUT END_VAR"] * self.maybe(0.05) + [variable.block]
                open_block = variable.block
            texts.append(declaration(variable))
        return " ".join(texts + ["END_VAR"])

    def program(self):
        names = self.choose.sample(NAMES, self.choose.randint(2, len(NAMES)))
        if self.maybe(0.03):
            names[0] = self.choose.choice(["scan", "Scan"])
        if self.maybe(self.wrong * 10):
            names.append(names[0].swapcase())
        self.variables = [self.variable(name) for name in names]
        if not any(variable.block == "VAR_OUTPUT" for variable in self.variables):
            self.variables[-1] = self.variables[-1]._replace(block="VAR_OUTPUT")
        text, body = self.body(3, 1)
        return "PROGRAM p %s %s END_PROGRAM" % (self.declarations(), text), body


def declaration(variable):
    kind = "LINT (%d .. %d)" % (variable.low, variable.high) if variable.kind == "RANGE" else variable.kind
    if variable.first is None:
        return "%s : %s;" % (variable.name, kind)
    return "%s : %s := %s;" % (variable.name, kind, str(variable.first).upper())


def is_assignable(variable):
    return variable.block in ("VAR", "VAR_OUTPUT")


# ---- random rows: records, each a list of fields, the header first


class RowMaker:
    """Makes random rows for variables, most of them as they should be."""

    def __init__(self, choose, variables, near):
        self.choose = choose
        self.inputs = {variable.name: variable for variable in variables if variable.block == "VAR_INPUT"}
        self.near = near

    def maybe(self, chance):
        return self.choose.random() < chance

    def cell(self, variable):
        if variable.kind == "BOOL":
            return self.choose.choice(sorted(TRUTHS))
        if variable.kind == "RANGE":
            return str(self.choose.randint(variable.low, max(variable.low, variable.high)))
        is_near = self.maybe(self.near)
        return str(self.choose.choice([LEAST, LEAST + 1, GREATEST - 1, GREATEST]) if is_near else self.choose.randint(-40, 40))

    def spoiled(self, fields, others):
        """The fields with one dropped, doubled, put in or put in another's place."""
        place, way, other = self.choose.randrange(len(fields)), self.choose.randint(0, 7), self.choose.choice(others)
        if way == 0 and len(fields) > 1:
            return fields[:place] + fields[place + 1:]
        if way == 1:
            return fields[:place] + [fields[place]] + fields[place:]
        if way == 2:
            return fields[:place] + [other] + fields[place:]
        return fields[:place] + [other] + fields[place + 1:]

    def records(self, scans):
        return self.records_of(range(1, scans + 1), ODD_CELLS)

    def case_records(self, sizes):
        """Cases of these sizes, of which some rows have another number."""
        numbers = [scan for size in sizes for scan in range(1, size + 1)]
        if numbers and self.maybe(0.1):
            numbers[self.choose.randrange(len(numbers))] = self.choose.choice([0, 1, 1, 2, 3, 4, MOST_ROWS, MOST_ROWS + 1])
        return self.records_of(numbers, ODD_CELLS + ["1", "3"])

    def records_of(self, numbers, odd_cells):
        names = ["scan"] + list(self.inputs)
        self.choose.shuffle(names)
        rows = [[str(scan) if name == "scan" else self.cell(self.inputs[name]) for name in names] for scan in numbers]
        for _ in range(self.choose.choice([0] * 14 + [1, 1, 2]) if rows else 0):
            place = self.choose.randrange(len(rows))
            rows[place] = self.spoiled(rows[place], odd_cells)
        if self.maybe(0.02) and rows:
            rows.pop(self.choose.randrange(len(rows)))
        if self.maybe(0.07):
            others = [name.swapcase() for name in names] + [name + "1" for name in names] + ["", " scan"] + NAMES
            names = self.spoiled(names, others)
        return [] if self.maybe(0.01) else [names] + rows

    def text(self, records):
        end, lines = self.choose.choice(["\n", "\n", "\n", "\r\n"]), []
        for record in records:
            lines.append(",".join(self.field(field, record == [""]) for field in record))
            lines += [""] * self.maybe(0.05)
        return "\ufeff" * self.maybe(0.05) + end.join(lines) + end * (not lines or self.maybe(0.8))

    def field(self, field, is_alone):
        """A field, in quotes where it has to be or now and then."""
        is_quoted = is_alone or re.search('[",\r\n]', field) or self.maybe(0.05)
        return '"%s"' % field.replace('"', '""') if is_quoted else field


# ---- checks


def statements(body):
    """The statements in the order of their first words, each with its own expressions."""
    for form in body:
        if form[0] == "assign":
            yield form, [form[2]]
        elif form[0] == "if":
            yield form, [condition for condition, _ in form[1]]
            for _, inner in form[1]:
                yield from statements(inner)
            yield from statements(form[2])
        else:
            yield form, [form[1]]
            yield from statements(form[2])


def names_in(form):
    if form[0] == "named":
        return [form[1]]
    return [name for part in form[1:] if isinstance(part, tuple) for name in names_in(part)]


def kind_of(kinds, form):
    """"b" for BOOL, "i" for an integer, and None where an operand is of the wrong one."""
    if form[0] in ("truth", "number"):
        return "b" if form[0] == "truth" else "i"
    if form[0] == "named":
        return kinds[form[1].lower()]
    parts = [kind_of(kinds, part) for part in form[1:]]
    if None in parts:
        return None
    sorts = SORTS[form[0]].replace("?", parts[-1])
    return sorts[-1] if "".join(parts) == sorts[:-1] else None


def broken_variable(variables):
    seen = set()
    for name, _, kind, low, high, first in variables:
        if name.lower() in seen:
            return "36 StDuplicate variable " + name
        seen.add(name.lower())
        fits = first is None or isinstance(first, bool) == (kind == "BOOL")
        if not fits or kind == "RANGE" and (low > high or first is not None and not low <= first <= high):
            return "39 StInitRange variable " + name
    return None


def broken(variables, body):
    """The first check that is broken, as it is told."""
    why = broken_variable(variables)
    if why:
        return why
    kinds = {variable.name.lower(): "b" if variable.kind == "BOOL" else "i" for variable in variables}
    fixed = [variable.name.lower() for variable in variables if variable.block in ("VAR_INPUT", "VAR CONSTANT")]
    for number, (form, own) in enumerate(statements(body)):
        names = [name for expression in own for name in names_in(expression)] + ([form[1]] if form[0] == "assign" else [])
        if any(name.lower() not in kinds for name in names):
            return "35 StUnknown statement %d" % number
        wanted = kinds[form[1].lower()] if form[0] == "assign" else "b"
        if any(kind_of(kinds, expression) != wanted for expression in own):
            return "37 StMismatch statement %d" % number
        if form[0] == "assign" and form[1].lower() in fixed:
            return "38 StNotAssignable statement %d" % number
    return None


# ---- rows


def cell_value(variable, cell):
    """The value of a cell, or None where it is none of the variable's."""
    if variable.kind == "BOOL":
        return TRUTHS.get(cell)
    if not re.fullmatch("0|-?[1-9][0-9]*", cell):
        return None
    low, high = (variable.low, variable.high) if variable.kind == "RANGE" else (LEAST, GREATEST)
    return int(cell) if low <= int(cell) <= high else None


def is_case_number(cell):
    return re.fullmatch("[1-9][0-9]{0,5}", cell) and int(cell) <= MOST_ROWS


def broken_rows(variables, records, of_cases=False):
    """The first rule that the records of rows, or of cases, break, as it is told."""
    inputs = [variable for variable in variables if variable.block == "VAR_INPUT"]
    names, header = ["scan"] + [variable.name for variable in inputs], records[0] if records else []
    for place, field in enumerate(header):
        if field not in names or field in header[:place]:
            return "44 Header column %d" % (place + 1)
    if len(header) < len(names):
        return "44 Header column %d" % (len(header) + 1)
    of_name, before = {variable.name: variable for variable in inputs}, 0
    for number, row in enumerate(records[1:], 1):
        if len(row) != len(header):
            return "46 RowLength row %d" % number
        for column, (name, cell) in enumerate(zip(header, row), 1):
            fits = cell_value(of_name[name], cell) is not None if name != "scan" else is_case_number(cell) if of_cases else cell == str(number)
            if not fits:
                return "45 Cell row %d column %d" % (number, column)
        scan = int(row[header.index("scan")])
        if scan not in (1, before + 1):
            return "48 CaseBoundary row %d" % number
        before = scan
    return None


def cases_of(records):
    """The rows of each case."""
    cases = []
    for row in records[1:]:
        if row[records[0].index("scan")] == "1":
            cases.append([])
        cases[-1].append(row)
    return cases


# ---- scans


def divided(a, b):
    """Rounded towards zero."""
    if b == 0:
        raise Stopped("41 ZeroDivide")
    return abs(a) // abs(b) if (a < 0) == (b < 0) else -(abs(a) // abs(b))


def remainder(a, b):
    """With the sign of the dividend, and 0 for the divisor 0."""
    if b == 0:
        return 0
    return abs(a) % abs(b) if a >= 0 else -(abs(a) % abs(b))


# What forms come to, of the values of all their parts.
RESULTS = {
    "OR": lambda a, b: a or b, "XOR": lambda a, b: a != b, "AND": lambda a, b: a and b, "NOT": lambda a: not a,
    "=": lambda a, b: a == b, "<>": lambda a, b: a != b, "<": lambda a, b: a < b, ">": lambda a, b: a > b,
    "<=": lambda a, b: a <= b, ">=": lambda a, b: a >= b, "+": lambda a, b: a + b, "-": lambda a, b: a - b,
    "*": lambda a, b: a * b, "/": divided, "MOD": remainder, "negative": lambda a: -a, "ABS": abs, "MIN": min, "MAX": max,
    "SEL": lambda which, a, b: b if which else a}


class Machine:
    """The variables of a program with their values, by their names in small letters."""

    def __init__(self, variables):
        self.variables = {variable.name.lower(): variable for variable in variables}
        self.memory = {name: first_value(variable) for name, variable in self.variables.items()}
        self.turns = 0

    def value(self, form):
        kind = form[0]
        if kind in ("truth", "number"):
            return form[1]
        if kind == "named":
            return self.memory[form[1].lower()]
        parts = [self.value(part) for part in form[1:]]
        result = RESULTS[kind](*parts)
        if not LEAST <= result <= GREATEST:
            raise Stopped("40 Overflow")
        return result

    def assign(self, name, value):
        variable = self.variables[name.lower()]
        if variable.kind == "RANGE" and not variable.low <= value <= variable.high:
            raise Stopped("42 SubrangeLeft variable %s value %d" % (variable.name, value))
        self.memory[name.lower()] = value

    def loop(self, condition, body):
        while self.value(condition):
            if condition == ("truth", True) and not body:
                raise Stopped("43 Budget")
            self.turns += 1
            if self.turns > MOST_TURNS:
                raise Endless()
            self.run(body)

    def run(self, body):
        for form in body:
            if form[0] == "assign":
                self.assign(form[1], self.value(form[2]))
            elif form[0] == "while":
                self.loop(form[1], form[2])
            else:
                self.run(next((inner for condition, inner in form[1] if self.value(condition)), form[2]))

    def scan(self, body, cells):
        """The values of the outputs after a scan over the cells, which stand by the names of the inputs."""
        for name, variable in self.variables.items():
            if variable.block == "VAR_INPUT":
                self.memory[name] = cell_value(variable, cells[variable.name])
        self.turns = 0
        self.run(body)
        outputs = [self.memory[name] for name, variable in self.variables.items() if variable.block == "VAR_OUTPUT"]
        return [str(value).upper() for value in outputs]


def first_value(variable):
    if variable.first is not None:
        return variable.first
    return {"BOOL": False, "LINT": 0, "RANGE": variable.low}[variable.kind]


def wanted(variables, body, records):
    """The status, the table and nothing told, or the status, nothing and the line that is told."""
    why = broken(variables, body)
    if why:
        return 9, "", "cif: program: %s\n" % why
    why = broken_rows(variables, records)
    if why:
        return 10, "", "cif: rows: %s\n" % why
    return wanted_tables(variables, body, records[0], [records[1:]])


def wanted_of_cases(variables, body, records):
    """The same of `batch`."""
    why = broken(variables, body)
    if why:
        return 9, "", "cif: program: %s\n" % why
    why = broken_rows(variables, records, of_cases=True)
    if why:
        return 10, "", "cif: cases: %s\n" % why
    return wanted_tables(variables, body, records[0], cases_of(records))


def wanted_tables(variables, body, names, cases):
    """The tables of the cases, each from the first values, one after the other, or how the first of them stops that does."""
    lines, number = [], 0
    for case in cases:
        machine = Machine(variables)
        lines.append(["scan"] + [variable.name for variable in variables if variable.block == "VAR_OUTPUT"])
        for scan, row in enumerate(case, 1):
            number += 1
            try:
                lines.append([str(scan)] + machine.scan(body, dict(zip(names, row))))
            except Stopped as stopped:
                return 12 if str(stopped) == "43 Budget" else 11, "", "cif: program: row %d: %s\n" % (number, stopped)
    return 0, "".join(",".join(line) + "\n" for line in lines), ""


def write(folder, name, content):
    with open(os.path.join(folder, name), "wb") as file:
        file.write(content.encode())


def answer(program, folder, *words):
    run = subprocess.run([program, *words], cwd=folder, capture_output=True, text=True)
    return run.returncode, run.stdout, run.stderr


def main(program, programs=1000, seed=1):
    choose, differ, skipped, told, program = random.Random(seed), 0, 0, Counter(), os.path.abspath(program)
    with tempfile.TemporaryDirectory() as folder:
        for _ in range(programs):
            maker = Maker(choose)
            text, body = maker.program()
            write(folder, "program", text)
            row_maker = RowMaker(choose, maker.variables, maker.near)
            sizes = [choose.choice([1, 1, 2, 2, 3, 5]) for _ in range(choose.choice([0, 1, 2, 2, 3, 3, 4, 5, 6, 9]))]
            for command, file, records, expects in (("replay", "rows", row_maker.records(choose.choice([0, 1, 2, 2, 3, 3, 4, 6])), wanted),
                                                    ("batch", "cases", row_maker.case_records(sizes), wanted_of_cases)):
                rows = row_maker.text(records)
                try:
                    expected = expects(maker.variables, body, records)
                except Endless:
                    skipped += 1
                    continue
                write(folder, file, rows)
                given = answer(program, folder, command, "program", file)
                told.update(command + " " + why for why in re.findall(r"\d+ [A-Z]\w+", expected[2]) or ["nothing"])
                if given != expected:
                    differ += 1
                    print("%s of %s over %r: wanted %r, given %r" % (command, text, rows, expected, given))
    print("told: " + ", ".join("%s %d times" % (why, times) for why, times in sorted(told.items())))
    print("%d programs over rows and cases, %d of these not tried: %d differences" % (programs, skipped, differ))
    return 1 if differ else 0


if __name__ == "__main__":
    sys.exit(main(sys.argv[1], *map(int, sys.argv[2:])))
