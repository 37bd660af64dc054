#!/usr/bin/env python3
"""Finds the stack that the program needs for the deepest texts that it reads, and for texts that nest ten times deeper.

    tools/stack_need.py crates/cif_cli/out/cif_cli

A line for each text has the least `ulimit -s`, in KB and rounded up to 16, with which the program ends as it does with much more.
"""
import os
import resource
import subprocess
import sys
import tempfile

MOST, STEP = 1 << 20, 16

CELL = "PROGRAM Deep VAR b: BOOL := TRUE; x: LINT; END_VAR %s END_PROGRAM\n"
PLANT = "plant A: controllable c; disc bool b; location x: initial; edge c %s; end\n"


def nested(opens, inside, closes, depth):
    return opens * depth + inside + closes * depth


def sources(depth):
    """Sources with one form nested so deep; the limit is 100. The outermost component has depth 0."""
    return {
        "expressions of a source": PLANT % f"when {nested('(', 'b', ')', depth)}",
        "conditions in a source": PLANT % f"when {nested('if b: ', 'b', ' else b end', depth)}",
        "updates of a source": PLANT % f"do {nested('if b: ', 'b := true', ' end', depth)}",
        "components of a source": nested("group g: ", "", "end ", depth + 1),
    }


def in_levels(opens, closes, levels, depth):
    """Conditions so deep, of a form that is so many levels deep itself; complements make up the rest."""
    return nested(opens, "NOT " * (depth % levels) + "b", closes, depth // levels)


def conditions(depth):
    """BOOL expressions so deep; an operator, a function and the parentheses around an operand are a level each."""
    return {
        "parentheses": nested("(", "b", ")", depth),
        "complements": "NOT " * depth + "b",
        "selections": nested("SEL(b, b, ", "b", ")", depth),
        "exclusive operators": in_levels("b XOR (", ")", 2, depth),
        "equalities": in_levels("b = (", ")", 2, depth),
        "orders": in_levels("x < (SEL(", ", x, x))", 3, depth),
        "complements of conjunctions": in_levels("NOT (b AND ", ")", 3, depth),
    }


def numbers(depth):
    """Integer expressions so deep."""
    return {
        "negations": "- " * depth + "x",
        "least and greatest": nested("MIN(x, MAX(x, ", "- " * (depth % 2) + "x", "))", depth // 2),
    }


def in_statements(inside, depth):
    """Conditions that hold, one inside the other."""
    return nested("IF b THEN ", inside, " END_IF;", depth)


def statements(depth):
    """Statements that nest so deep. What is innermost is executed."""
    return {
        "IF": in_statements("b := b;", depth),
        "ELSIF": nested("IF NOT b THEN b := b; ELSIF b THEN ", "b := b;", " END_IF;", depth),
        "ELSE": nested("IF NOT b THEN b := b; ELSE ", "b := b;", " END_IF;", depth),
        "WHILE": nested("WHILE b DO ", "b := FALSE;", " END_WHILE;", depth),
    }


def programs(depth):
    """Programs with one form nested so deep, alone and in statements that nest as deep; the limit of both is 400."""
    bodies = {f"{name} of a program": body for name, body in statements(depth).items()}
    assigned = [(name, f"b := {text};") for name, text in conditions(depth).items()]
    assigned += [(name, f"x := {text};") for name, text in numbers(depth).items()]
    for name, assignment in assigned:
        bodies[f"{name} of a program"] = assignment
        bodies[f"{name} in statements"] = in_statements(assignment, depth)
    for name, text in conditions(depth).items():
        condition = f"IF {text} THEN b := b; END_IF;"
        bodies[f"{name} as a condition"] = condition
        bodies[f"{name} as the innermost condition"] = in_statements(condition, depth - 1)
    return {name: CELL % body for name, body in bodies.items()}


def texts(of_source, of_program):
    """The commands with the texts that they read, which nest so deep."""
    asked = {name: ("check", text) for name, text in sources(of_source).items()}
    asked.update({name: ("replay", text) for name, text in programs(of_program).items()})
    return asked


def end_of(program, words, folder, stack):
    """The status and the lines of a run with so much stack, in KB."""
    limit = lambda: resource.setrlimit(resource.RLIMIT_STACK, (stack * 1024, stack * 1024))
    ran = subprocess.run([program, *words], cwd=folder, capture_output=True, preexec_fn=limit)
    return ran.returncode, ran.stdout, ran.stderr


def least(program, words, folder):
    wanted = end_of(program, words, folder, MOST)
    low, high = 0, MOST // STEP
    while high - low > 1:
        middle = (low + high) // 2
        if end_of(program, words, folder, middle * STEP) == wanted:
            high = middle
        else:
            low = middle
    return high * STEP, wanted


def main(program):
    with tempfile.TemporaryDirectory() as folder:
        with open(f"{folder}/rows", "w") as it:
            it.write("scan\n1\n")
        for depth, what in ((1, "at the limit"), (10, "ten times deeper")):
            for name, (command, text) in texts(100 * depth, 400 * depth).items():
                with open(f"{folder}/text", "w") as it:
                    it.write(text)
                words = ["check", "text"] if command == "check" else ["replay", "text", "rows"]
                stack, (status, _, told) = least(program, words, folder)
                print(f"{stack:8} KB  {name}, {what}: status {status} {told.decode().strip()}", flush=True)


if __name__ == "__main__":
    main(os.path.abspath(sys.argv[1]))
