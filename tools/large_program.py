"""Writes large programs of Structured Text, whose scans have no fault.

    python3 tools/large_program.py WHAT [KIB] > program.st

WHAT is one of
    dense         one-letter names and hardly a blank, nearly 16 MiB (the most that is read) or so many KiB
    ordinary      stations with long names, comments and indented conditions, as large
    sums          300 assignments with sums, products, quotients, remainders and comparisons

What is measured is the executable that the gate makes. Reading and checking alone is a replay of no scans, of which GNU time tells
the seconds and the most memory:

    python3 tools/large_program.py dense > dense.st && echo scan > no-rows.csv
    /usr/bin/time -f '%U s, %M KB' crates/cif_cli/out/cif_cli replay dense.st no-rows.csv

What scans take is a replay of many:

    python3 tools/large_program.py sums > sums.st && (echo scan; seq 20000) > rows.csv
    time crates/cif_cli/out/cif_cli replay sums.st rows.csv > table.csv

Programs as `generate` writes them, in each of whose scans 100 or 1,000 edges are tested and taken, are those of
`large_plant.py 100` and `large_plant.py 1000`:

    python3 tools/large_plant.py 100 > plant.cif && crates/cif_cli/out/cif_cli generate plant.cif --unc 1 --con 1 > plant.st
    time crates/cif_cli/out/cif_cli replay plant.st rows.csv > table.csv
"""
import sys

MOST_KIB = 16 * 1024
INTEGERS, TRUTHS = "abcdefghijklm", "nopqrstuvwxyz"

DENSE = "{x}:=({x}*5+{y})MOD 9;{y}:={x}-{y}*2/3;{p}:={x}<{y}&{q};{q}:={p}=({x}>=2)OR NOT {p};IF {p} THEN {y}:=1;END_IF;"

VARIABLES = """
  (* Station {n} *)
  Station{n}_state : LINT (0 .. 3) := 0;
  Station{n}_timer : LINT := 0;
  Station{n}_parts : LINT (0 .. 999);
  Station{n}_is_busy : BOOL := FALSE;
"""

STATEMENTS = """
(* Station {n}: a part arrives, is clamped, is worked on and leaves. *)
IF Station{n}_state = 0 AND NOT Station{n}_is_busy THEN
  Station{n}_state := 1;
  Station{n}_is_busy := TRUE;
ELSIF Station{n}_state = 1 THEN
  Station{n}_timer := Station{n}_timer + 1;
  IF Station{n}_timer >= 5 OR Parts_made > 1000 * (Station{n}_timer - 1) THEN
    Station{n}_state := 2; (* it is clamped *)
    Station{n}_timer := 0;
  END_IF;
ELSIF Station{n}_state = 2 THEN
  Station{n}_parts := (Station{n}_parts + 1) MOD 1000;
  Station{n}_state := 3;
ELSE
  Station{n}_state := 0;
  Station{n}_is_busy := FALSE;
  Parts_made := MIN(Parts_made + 1, 1000000);
END_IF;
"""

# Each stays within a few thousand.
SUMS = """v{k} := (v{k} * 3 + v{next} + {k}) MOD 1000;
w{k} := v{k} - v{other} * 2 + w{next} / 3;
b{k} := v{k} + w{k} <= w{other} * 2 AND v{k} <> {k} OR b{next};
"""


def declared(names, kind):
    return "".join(f"{name} : {kind};" for name in names)


def dense_part(number):
    """Five assignments and a condition over four of the variables."""
    x, y = INTEGERS[number % 13], INTEGERS[(number * 5 + 1) % 13]
    p, q = TRUTHS[number % 13], TRUTHS[(number * 3 + 1) % 13]
    return DENSE.format(x=x, y=y, p=p, q=q)


def dense(size):
    """As many parts as fit."""
    head = "PROGRAM Dense VAR " + declared(INTEGERS, "LINT") + declared(TRUTHS, "BOOL") + "END_VAR "
    end = "END_PROGRAM\n"
    count = (size - len(head) - len(end)) // len(dense_part(0))
    return head + "".join(map(dense_part, range(count))) + end


def ordinary(size):
    """As many stations as fit, each as long as the last one may be."""
    head, between, end = "PROGRAM Ordinary\nVAR\n", "END_VAR\nVAR_OUTPUT\n  Parts_made : LINT := 0;\nEND_VAR\n", "END_PROGRAM\n"
    count = (size - len(head + between + end)) // len((VARIABLES + STATEMENTS).format(n=10000))
    variables = "".join(VARIABLES.format(n=number) for number in range(count))
    return head + variables + between + "".join(STATEMENTS.format(n=number) for number in range(count)) + end


def sums():
    """A hundred times three assignments, each over variables of others."""
    inner = [f"{letter}{k}" for letter in "vw" for k in range(100) if k or letter == "v"]
    head = "PROGRAM Sums VAR " + declared(inner, "LINT") + declared([f"b{k}" for k in range(1, 100)], "BOOL")
    head += "END_VAR VAR_OUTPUT w0 : LINT; b0 : BOOL; END_VAR\n"
    body = "".join(SUMS.format(k=k, next=(k + 1) % 100, other=(k + 7) % 100) for k in range(100))
    return head + body + "END_PROGRAM\n"


PROGRAMS = {"dense": dense, "ordinary": ordinary, "sums": lambda size: sums()}


def main(what=None, kib=MOST_KIB):
    if what not in PROGRAMS:
        sys.exit(__doc__)
    print(PROGRAMS[what](int(kib) * 1024), end="")


if __name__ == "__main__":
    main(*sys.argv[1:])
