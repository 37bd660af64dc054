"""Writes a source of up to 4 MiB.

    python3 tools/large_source.py [cells [COPIES]] > source.cif

Without a word it has automata with variables, guards and updates, and invariants, and more objects than a source may have: it is read whole and
then refused (17). With `cells` it has commented copies of examples/cell.cif, in groups of their own, and more comments up to the size:
1,000 copies, which the limit on choices allows, and without their state invariants, of which each choice of each copy would ask all. With
fewer copies, from 1 on, it is so much smaller.
"""

import os
import sys

PART = """
plant Machine{n}: // one of many
  uncontrollable started, stopped;
  controllable start, stop;
  disc int[0..9] count = 0;
  location idle: initial; marked;
    edge start when count < 9 and not busy do count := count + 1 goto working;
  location working:
    edge started, stopped when count >= 3 or busy do if busy: count := 0 else count := (count * 2 + {n}) mod 10 end goto idle;
end
requirement invariant Machine{n}.stop needs Machine{n}.count > 4;
"""
CELL = os.path.join(os.path.dirname(os.path.dirname(os.path.abspath(__file__))), "examples", "cell.cif")
LIMIT = 4 * 1024 * 1024
CELLS = 1000


def machines():
    """The parts that fit, and blanks up to the limit."""
    parts = ["input bool busy;"]
    size = len(parts[0])
    number = 0
    while True:
        part = PART.format(n=number)
        if size + len(part) > LIMIT:
            return "".join(parts) + " " * (LIMIT - size)
        parts.append(part)
        size += len(part)
        number += 1


def cells(copies):
    """Each cell in a thousandth of the limit, behind a comment that fills that."""
    with open(CELL, encoding="utf-8") as file:
        text = "".join(line for line in file if not line.startswith("requirement invariant"))
    share = LIMIT // CELLS
    parts = []
    for number in range(copies):
        cell = f"group cell{number}:\n{text}end\n"
        comment = f"// Cell {number}" + " of the line" * (share // 12)
        parts.append(comment[: share - len(cell) - 1] + "\n" + cell)
    return "".join(parts)


def main(words):
    copies = words[1] if len(words) == 2 else str(CELLS)
    if not words:
        print(machines(), end="")
    elif words[0] == "cells" and len(words) <= 2 and copies.isdecimal() and 1 <= int(copies) <= CELLS:
        print(cells(int(copies)), end="")
    else:
        sys.exit(__doc__)


if __name__ == "__main__":
    main(sys.argv[1:])
