#!/usr/bin/env python3
"""The first answer of the script `cif` in a checkout: looks at the words, compiles the program without its proofs, and runs the script
again, which then has a program.

    tools/first_answer.py COUNT WORD..

The first COUNT words are the script's own, and the others a command.
"""
import os
import subprocess
import sys

import building
import compile_unproved
import words
from building import TOP, Stopped, say


def refuse(status, line, why):
    """Ends as the program does; a terminal gets the reason too."""
    if sys.stderr.isatty():
        text = f"{line}\n{why}" if why else line
        line = "\n".join("".join(it if it.isprintable() else "?" for it in part) for part in text.split("\n"))
    print(line, file=sys.stderr)
    if sys.stderr.isatty() and status == 2 and not why:
        subprocess.run([TOP / "cif", "--help"], stdout=sys.stderr)
    sys.exit(status)


def main(count, *given):
    sys.stderr.reconfigure(errors="surrogateescape")
    found = words.fault(given[int(count) :])
    if found:
        refuse(*found)
    building.end_at_signals()
    try:
        compile_unproved.compile_program("cif_cli")
    except Stopped as why:
        say(str(why))
        return 1
    os.execve(TOP / "cif", [str(TOP / "cif"), *given], {**os.environ, "CIF_COMPILED": "1"})


if __name__ == "__main__":
    sys.exit(main(*sys.argv[1:]))
