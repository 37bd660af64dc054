#!/usr/bin/env python3
"""Compares the intervals, sizes and depths of expressions, and the values of constant ones, with plain ones, on random expressions.

    tools/compare_data.py CASES [EXPRESSIONS [SEED]]

CASES is the program of `crates/lib_cases`, which is asked `interval` and `value`. An interval is told from the bounds of the operands; where
a divisor may be 0 or a part leaves 64 bits, the place that is told has to be one of these. Where the interval is told, each value that the
expression has over small ranges has to lie in it. A constant expression has a value where no operand, also one that is not chosen,
leaves 64 bits or divides by 0. The status is 1 where the two differ.
"""
import itertools
import random
import sys

from plain_expressions import GREATEST, LEAST, divided, joined, remainder
from run_programs import case_answers


class Node:
    """An expression: its form, its operands, what else it is made of, and the byte where it begins, once it is written."""

    def __init__(self, form, parts=(), more=None):
        self.form, self.parts, self.more, self.at = form, list(parts), more, 0

    def write(self, out, inside=False):
        """Adds the text to a list of pieces; what is an operand stands in parentheses where it is more than a name or a number."""
        self.at = sum(map(len, out))
        leaf = self.form in ("truth", "number", "name", "received", "abs", "min", "max", "if")
        if inside and not leaf:
            out.append("(")
        getattr(self, f"write_{'simple' if self.form in ('truth', 'number', 'name', 'received') else self.form}")(out)
        if inside and not leaf:
            out.append(")")

    def write_simple(self, out):
        out.append(str(self.more))

    def write_minus(self, out):
        out.append("-")
        self.parts[0].write(out, True)

    def write_plus(self, out):
        out.append("+")
        self.parts[0].write(out, True)

    def write_not(self, out):
        out.append("not ")
        self.parts[0].write(out, True)

    def write_call(self, out):
        out.append(self.form + "(")
        for at, part in enumerate(self.parts):
            out.append(", " if at else "")
            part.write(out)
        out.append(")")

    write_abs = write_min = write_max = write_call

    def write_chain(self, out):
        for at, part in enumerate(self.parts):
            out.append(f" {self.more[at - 1]} " if at else "")
            part.write(out, True)

    write_sum = write_product = write_chain

    def write_compare(self, out):
        self.parts[0].write(out, True)
        out.append(f" {self.more} ")
        self.parts[1].write(out, True)

    write_implies = write_iff = write_compare

    def write_and(self, out):
        for at, part in enumerate(self.parts):
            out.append(f" {self.form} " if at else "")
            part.write(out, True)

    write_or = write_and

    def write_if(self, out):
        for at in range(0, len(self.parts) - 1, 2):
            out.append("elif " if at else "if ")
            self.parts[at].write(out)
            out.append(": ")
            self.parts[at + 1].write(out)
            out.append(" ")
        out.append("else ")
        self.parts[-1].write(out)
        out.append(" end")

    # ---- sizes

    def size(self):
        return 1 + sum(part.size() for part in self.parts)

    def depth(self):
        return 1 + max(part.depth() for part in self.parts) if self.parts else 0


class Broken(Exception):
    """A value leaves 64 bits, or a divisor is 0."""


def fitting(value):
    if not LEAST <= value <= GREATEST:
        raise Broken
    return value


def evaluated(node, values):
    """The value, every operand evaluated."""
    if node.form == "name":
        return values[ord(node.more) - ord("a")]
    if node.form == "received":
        return values[-1]
    if node.form == "number":
        return node.more
    if node.form == "truth":
        return int(node.more == "true")
    parts = [evaluated(part, values) for part in node.parts]
    if node.form in ("sum", "product"):
        found = parts[0]
        for sign, part in zip(node.more, parts[1:]):
            if sign in ("div", "mod") and part == 0:
                raise Broken
            found = fitting({"+": lambda x, y: x + y, "-": lambda x, y: x - y, "*": lambda x, y: x * y, "div": divided, "mod": remainder}[sign](found, part))
        return found
    if node.form == "if":
        return next((parts[at + 1] for at in range(0, len(parts) - 1, 2) if parts[at]), parts[-1])
    return fitting({
        "minus": lambda: -parts[0], "plus": lambda: parts[0], "not": lambda: 1 - parts[0], "abs": lambda: abs(parts[0]),
        "min": lambda: min(parts), "max": lambda: max(parts), "and": lambda: int(all(parts)), "or": lambda: int(any(parts)),
        "implies": lambda: int(not parts[0] or parts[1]), "iff": lambda: int(parts[0] == parts[1]),
        "compare": lambda: int({"=": parts[0] == parts[-1], "!=": parts[0] != parts[-1], "<": parts[0] < parts[-1], "<=": parts[0] <= parts[-1],
                                ">": parts[0] > parts[-1], ">=": parts[0] >= parts[-1]}[node.more]),
    }[node.form]())


def ranged(node, ranges, due):
    """The interval of an expression; notes in `due` the divisors that may be 0 and the parts that leave 64 bits."""
    if node.form in ("truth", "not", "and", "or", "implies", "iff", "compare"):
        for part in node.parts:
            ranged(part, ranges, due)
        return 0, 1
    if node.form in ("number", "name", "received"):
        found = {"number": lambda: (node.more, node.more), "name": lambda: ranges[ord(node.more) - ord("a")], "received": lambda: ranges[-1]}[node.form]()
        return noted(found, node, due)
    parts = [ranged(part, ranges, due) for part in node.parts]
    if node.form in ("sum", "product"):
        found = parts[0]
        for sign, part, operand in zip(node.more, parts[1:], node.parts[1:]):
            if sign in ("div", "mod") and part[0] <= 0 <= part[1]:
                due.add(f"ZeroDivisor {{ at: {operand.at} }}")
                return found
            found = noted(joined(sign, found, part), node, due)
        return found
    if node.form == "if":
        values = parts[1:-1:2] + parts[-1:]
        return noted((min(lo for lo, _ in values), max(hi for _, hi in values)), node, due)
    (lo, hi), (low, high) = parts[0], parts[-1]
    return noted({
        "minus": (-hi, -lo), "plus": (lo, hi), "min": (min(lo, low), min(hi, high)), "max": (max(lo, low), max(hi, high)),
        "abs": (0 if lo <= 0 <= hi else min(abs(lo), abs(hi)), max(abs(lo), abs(hi))),
    }[node.form], node, due)


def noted(found, node, due):
    if found[0] < LEAST or found[1] > GREATEST:
        due.add(f"TooWide {{ at: {node.at} }}")
    return found


class Maker:
    """Makes random expressions of a kind."""

    def __init__(self, choose, names, wide):
        self.choose, self.names, self.wide = choose, names, wide

    def integer(self, depth):
        form = self.choose.choice(["number", "name", "received"] + 4 * ["minus", "plus", "abs", "min", "max", "sum", "sum", "product", "product", "if"])
        if depth == 0 or form == "number":
            form = self.choose.choice(["number", "name", "received"])
        if form in ("name", "received") and not self.names:
            form = "number"
        if form == "number":
            return Node(form, more=self.choose.choice([0, 1, 2, 3, 7, 100, 2147483647] if self.wide else [0, 1, 2, 3, 4, 5]))
        if form == "received":
            return Node(form, more="?")
        if form == "name":
            return Node(form, more=self.choose.choice(self.names))
        if form in ("sum", "product"):
            count = self.choose.randint(2, 4)
            signs = [self.choose.choice("+-" if form == "sum" else ["*", "*", "div", "mod"]) for _ in range(count - 1)]
            return Node(form, [self.integer(depth - 1) for _ in range(count)], signs)
        if form == "if":
            pairs = [part for _ in range(self.choose.randint(1, 2)) for part in (self.boolean(depth - 1), self.integer(depth - 1))]
            return Node(form, [*pairs, self.integer(depth - 1)])
        return Node(form, [self.integer(depth - 1) for _ in range(2 if form in ("min", "max") else 1)])

    def boolean(self, depth):
        form = self.choose.choice(["truth", "not", "and", "or", "implies", "iff", "compare", "compare"]) if depth else "truth"
        if form == "truth":
            return Node(form, more=self.choose.choice(["true", "false"]))
        if form == "compare":
            return Node(form, [self.integer(depth - 1), self.integer(depth - 1)], self.choose.choice(["=", "!=", "<", "<=", ">", ">="]))
        count = self.choose.randint(2, 3) if form in ("and", "or") else 1 if form == "not" else 2
        return Node(form, [self.boolean(depth - 1) for _ in range(count)], {"implies": "=>", "iff": "<=>"}.get(form))


def text_of(node):
    out = []
    node.write(out)
    return "".join(out)


def interval_case(choose):
    """A line of `interval`, and what tells whether an answer is right."""
    wide = choose.random() < 0.3
    ranges = []
    for _ in range(choose.randint(2, 4)):
        lo = choose.choice([-2147483648, 0, -7]) if wide else choose.randint(-4, 3)
        ranges.append((lo, max(lo, choose.choice([2147483647, 1, 9]) if wide else lo + choose.randint(0, 3))))
    names = "abc"[: len(ranges) - 1]
    node = Maker(choose, names, wide).integer(3) if choose.random() < 0.8 else Maker(choose, names, wide).boolean(3)
    text, due = text_of(node), set()
    found = ranged(node, ranges, due)
    measure = f", Measure {{ size: {node.size()}, depth: {node.depth()} }}"
    line = "interval " + " ".join(f"{lo} {hi}" for lo, hi in [ranges[-1], *ranges[:-1]]) + " | " + text

    def is_right(answer):
        if due:
            return answer in {f"{fault}{measure}" for fault in due}
        if answer != f"{found[0]} to {found[1]}{measure}":
            return False
        return wide or all(found[0] <= evaluated(node, values) <= found[1] for values in itertools.product(*(range(lo, hi + 1) for lo, hi in ranges)))

    return line, is_right


def value_case(choose):
    is_truth = choose.random() < 0.3
    maker = Maker(choose, "", choose.random() < 0.5)
    node = maker.boolean(3) if is_truth else maker.integer(3)
    try:
        wanted = f"Some({evaluated(node, [])})"
    except Broken:
        wanted = "None"
    return f"value const {'bool' if is_truth else 'int'} k = {text_of(node)};", lambda answer: answer == wanted


def main(program, count=2000, seed=1):
    choose = random.Random(int(seed))
    cases = [interval_case(choose) if choose.random() < 0.6 else value_case(choose) for _ in range(int(count))]
    answers, wrong = ["\n".join(it) for it in case_answers(program, [line for line, _ in cases])], False
    for (line, is_right), answer in zip(cases, answers):
        if not is_right(answer):
            wrong = True
            print(f"differs: {line}\n{answer}")
    none = sum(answer == "None" or " at: " in answer for answer in answers)
    print(f"{len(cases)} expressions, {none} of which have no value or no interval: {'some differ' if wrong else 'no difference'}")
    return int(wrong)


if __name__ == "__main__":
    sys.exit(main(*sys.argv[1:]))
