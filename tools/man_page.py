#!/usr/bin/env python3
"""Writes the manual page of `cif`, made of what `cif --help` writes.

    tools/man_page.py > cif.1
"""
import pathlib
import re
import subprocess
import sys

TOP = pathlib.Path(__file__).resolve().parent.parent
# Two words and more that stand in columns: what is written, and what it does.
COLUMNS = re.compile(r"^( +)(\S.*?)(?: {2,}(\S.*))?$")


def usage():
    ran = subprocess.run(["bash", TOP / "cif", "--help"], stdin=subprocess.DEVNULL, capture_output=True, text=True, timeout=60, check=True)
    return ran.stdout


def escaped(text):
    """A text of a line, as roff reads it."""
    text = text.replace("\\", "\\e").replace("-", "\\-")
    return "\\&" + text if text[:1] in (".", "'") else text


def item(words, what):
    """An entry: `cif` and options in bold, names of what is given in italics."""
    parts = [f"\\fI{escaped(it)}\\fR" if re.fullmatch(r"[A-Z]+\W?", it) else f"\\fB{escaped(it)}\\fR" for it in words.split()]
    return [".TP", " ".join(parts), escaped(what or "")]


def body_of(lines):
    """The lines of the usage behind the first one."""
    for before, line in zip([""] + lines, lines):
        found = COLUMNS.match(line)
        if not found:
            yield from [".PP"] * (not before) + [escaped(line)] if line else []
        elif found[3] is None and line.endswith(":"):
            yield from [".PP", escaped(found[2].capitalize())]
        else:
            yield from [".RS"] * (len(found[1]) > 4) + item(found[2], found[3]) + [".RE"] * (len(found[1]) > 4)


def page(text):
    first, *lines = text.splitlines()
    head = ['.TH CIF 1 "" "cif" "User Commands"', ".SH NAME", "cif \\- " + escaped(first.removeprefix("cif ").rstrip("."))]
    head += [".SH SYNOPSIS", ".B cif", "\\fIWORDS\\fR", ".SH DESCRIPTION"]
    foot = [".SH SEE ALSO", escaped(f"README.md and docs/ in {TOP}")]
    return "\n".join([*head, *body_of(lines), *foot, ""])


if __name__ == "__main__":
    sys.stdout.write(page(usage()))
