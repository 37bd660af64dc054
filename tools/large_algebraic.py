"""Writes large sources with inputs and algebraic variables, and rows for the last of them.

    python3 tools/large_algebraic.py WHAT [N] > source.cif
    python3 tools/large_algebraic.py rows N SCANS > rows.csv

WHAT is one of
    doubling     N algebraic variables (30) of which each names the one before twice: with 18 they are taken, and with more refused (24)
    chain        N algebraic variables (99,000) of which each is a bare name of the one before, from an input on
    by-location  an algebraic variable with an equation in each of N locations (10,000), between which an event leads on
    pairs        N pairs (100) of a feeder and a belt with two inputs each, and algebraic variables over both
    cells        N cells (10) as in examples/cell.cif

`rows` writes so many rows for the program of `pairs N`.
"""
import os
import sys

CELL = os.path.join(os.path.dirname(os.path.dirname(os.path.abspath(__file__))), "examples", "cell.cif")
PAIR = """// A feeder puts parts on a belt that stands still, and the belt takes them away.
group def Pair():
  input bool part, stop;
  alg bool ready = part and not stop and belt.Still;
  plant feeder:
    controllable feed;
    uncontrollable fed;
    disc int[0..999] count = 0;
    location Resting: initial; marked;
      edge feed when ready do count := (count + 1) mod 1000 goto Feeding;
    location Feeding:
      edge fed when belt.speed > 0 goto Resting;
  end
  plant belt:
    controllable move, halt;
    alg int[0..3] speed;
    location Still: initial; marked;
      equation speed = 0;
      edge move when feeder.Feeding goto Moving;
    location Moving:
      equation speed = 1 + feeder.count mod 3;
      edge halt when stop or not part goto Still;
  end
end
"""


def doubling(count=30):
    lines = ["alg int v%d = v%d + v%d;\n" % (k, k - 1, k - 1) for k in range(1, count)]
    return "input int[0..1] i;\nalg int v0 = i;\n" + "".join(lines)


def chain(count=99000):
    return "input int i;\nalg int v0 = i;\n" + "".join("alg int v%d = v%d;\n" % (k, k - 1) for k in range(1, count))


def by_location(count=10000):
    place = "  location p%d:%s equation v = %d; edge step goto p%d;\n"
    places = [place % (k, " initial;" * (k == 0), k, (k + 1) % count) for k in range(count)]
    return "plant Wheel:\n  controllable step;\n  alg int v;\n%send\n" % "".join(places)


def pairs(count=100):
    return PAIR + "".join("pair%d: Pair();\n" % k for k in range(count))


def cells(count=10):
    """The definitions of the example stand once, and all else of it in a group with `count` instances."""
    with open(CELL, encoding="utf-8") as file:
        text = file.read()
    begin, end = text.index("// A button or a sensor"), text.index("start: Sensor")
    cell = "group def Cell():\n%send\n" % (text[:begin] + text[end:])
    return text[begin:end] + cell + "".join("cell%d: Cell();\n" % k for k in range(count))


def rows(count, scans):
    """Each pair has its parts and stops at other scans than the one before."""
    header = ["scan"] + ["I%d_pair%d_%s" % (2 * k + last, k, name) for k in range(count) for last, name in enumerate(("part", "stop"))]
    lines = [",".join(header)]
    for scan in range(1, scans + 1):
        cells = ["%d,%d" % ((scan + k) % 3 > 0, (scan + 2 * k) % 5 == 0) for k in range(count)]
        lines.append(",".join([str(scan)] + cells))
    return "\n".join(lines + [""])


SOURCES = {"doubling": doubling, "chain": chain, "by-location": by_location, "pairs": pairs, "cells": cells, "rows": rows}

if __name__ == "__main__":
    print(SOURCES[sys.argv[1]](*map(int, sys.argv[2:])), end="")
