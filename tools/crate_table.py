#!/usr/bin/env python3
"""Makes the table of crates of docs/PROVED.md, from crates.txt and the head of each crate.

    tools/crate_table.py            writes the table into docs/PROVED.md, between its two marker comments
    tools/crate_table.py --check    status 1 where the table there is another

The crates come in the order of crates.txt, under the headings of their families. The line of a crate has its name, the first sentence of the
`//!` head of its src/lib.rt or src/main.rt, and the crates that it uses without those that another one of them uses already.
"""
import pathlib
import re
import sys

TOP = pathlib.Path(__file__).resolve().parent.parent
PAGE = TOP / "docs/PROVED.md"
FIRST = "<!-- crates: made by tools/crate_table.py, not by hand -->"
LAST = "<!-- end of crates -->"


def listed_crates(text):
    """The crates of crates.txt, each with the crates and libraries on its line."""
    found = {}
    for line in text.splitlines():
        name, colon, uses = line.split("#")[0].partition(":")
        if colon and name.split():
            found[name.split()[0]] = uses.split()
    return found


def families(text):
    """The headings of crates.txt, each with its crates. The first comment is the head of the file."""
    found = []
    for line in text.splitlines()[1:]:
        if line.startswith("# "):
            found.append((line[2:].strip(), []))
        elif listed_crates(line):
            found[-1][1].extend(listed_crates(line))
    return found


def below(crates, name):
    """All crates and libraries that a crate stands on, at any distance."""
    found = set()
    for used in crates.get(name, []):
        found |= {used} | below(crates, used)
    return found


def direct(crates, name):
    """What a crate uses, without what another of these uses."""
    uses = crates[name]
    return [it for it in uses if not any(it in below(crates, other) for other in uses if other != it)]


def purpose(name):
    """The first sentence of a crate's head, without the sections of the language reference."""
    folder = TOP / "crates" / name / "src"
    root = next(folder / it for it in ("lib.rt", "main.rt") if (folder / it).exists())
    lines = []
    for line in root.read_text().splitlines():
        if not line.startswith("//!"):
            break
        lines.append(line[3:].strip())
    head = " ".join(lines).strip()
    head = re.sub(r" \(CIF 3 language reference[^)]*\)", "", head)
    sentence = re.match(r".*?\.(?=\s|$)", head)
    return (sentence.group() if sentence else head).rstrip(".").replace("|", "\\|")


def table():
    text = (TOP / "crates.txt").read_text()
    crates = listed_crates(text)
    lines = ["| Crate | What it is for | Uses |", "|---|---|---|"]
    for family, names in families(text):
        lines.append(f"| **{family}** | | |")
        for name in names:
            uses = ", ".join(f"`{it}`" for it in direct(crates, name))
            lines.append(f"| `{name}` | {purpose(name)} | {uses} |")
    return "\n".join(lines) + "\n"


def with_table(page):
    """The page with the table of now between its markers."""
    before, first, rest = page.partition(FIRST)
    _, last, after = rest.partition(LAST)
    if not first or not last:
        sys.exit(f"crate_table: {PAGE} has no markers")
    return f"{before}{first}\n\n{table()}\n{last}{after}"


def main():
    page = PAGE.read_text()
    made = with_table(page)
    if sys.argv[1:] == ["--check"]:
        if made != page:
            sys.exit("crate_table: the table of docs/PROVED.md is out of date: run tools/crate_table.py")
    elif sys.argv[1:]:
        sys.exit(__doc__)
    else:
        PAGE.write_text(made)


if __name__ == "__main__":
    main()
