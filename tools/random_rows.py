#!/usr/bin/env python3
"""Writes random rows for the inputs of a program that `generate` wrote, each value one of its range.

    python3 tools/random_rows.py PROGRAM ROWS [SEED] > rows.csv
"""
import random
import re
import sys

BLOCK = re.compile(r"^VAR_INPUT\n(.*?)^END_VAR$", re.M | re.S)
INPUT = re.compile(r"^ +(\w+): (BOOL|LINT \((-?\d+) \.\. (-?\d+)\))[ ;]", re.M)


def inputs_of(program):
    """The name of each input, in the order of declaration, with the least and the greatest number of its type."""
    declared = "".join(BLOCK.findall(program))
    found = INPUT.findall(declared)
    if len(found) != declared.count("\n"):
        sys.exit("an input is declared in another way than `generate` declares it")
    return [(name, int(low or 0), int(high or 1)) for name, _, low, high in found]


def rows(inputs, count, choose):
    yield ",".join(["scan"] + [name for name, _, _ in inputs])
    for scan in range(1, count + 1):
        yield ",".join([str(scan)] + [str(choose.randint(low, high)) for _, low, high in inputs])


def main():
    if not 3 <= len(sys.argv) <= 4:
        sys.exit(__doc__)
    with open(sys.argv[1], encoding="ascii") as program:
        inputs = inputs_of(program.read())
    choose = random.Random(int(sys.argv[3]) if len(sys.argv) > 3 else 1)
    for line in rows(inputs, int(sys.argv[2]), choose):
        print(line)


if __name__ == "__main__":
    main()
