"""The cases of a program, group by group: the lines of its `stdin`, and what its `stdout` has for them.

A group stands under a line `# ..`, with the cases before the next such line. A line `# At the limits: ..` marks one that takes long.
Each line of `stdin` stands in `stdout` as it is, and the answer to a case below it, behind two blanks. Both begin with the groups' `let`
lines, which name texts for all that follow; the last line of `stdout` is the number of cases.
"""
import re

AT_LIMITS = "# At the limits: "
COUNT = re.compile(r"(\d+) cases\n")


class Group:
    """A group: its lines, and what is written for them."""

    def __init__(self):
        self.lines = []
        self.written = []

    @property
    def is_at_limits(self):
        return bool(self.lines) and self.lines[0].startswith(AT_LIMITS)

    @property
    def names(self):
        """Its `let` lines."""
        return [line for line in self.lines if line.startswith("let ")]


def read_groups(stdin, stdout):
    """The groups of both texts. `ValueError` where `stdout` is not of these lines."""
    groups = [Group()]
    for line in stdin.splitlines(keepends=True):
        if line.startswith("# ") and groups[-1].lines:
            groups.append(Group())
        groups[-1].lines.append(line)
    written = iter(stdout.splitlines(keepends=True))
    line = next(written, "")
    for group in groups:
        for given in group.lines:
            if line != given:
                raise ValueError(f"stdout has {line[:60]!r} in the place of {given[:60]!r}")
            group.written.append(line)
            line = next(written, "")
            while line.startswith("  "):
                group.written.append(line)
                line = next(written, "")
    if not COUNT.fullmatch(line) or next(written, None) is not None:
        raise ValueError("stdout does not end with the number of cases")
    return groups


def is_case(line):
    return bool(line.strip()) and not line.startswith(("#", "let "))


def counted(groups):
    """How many cases the groups have: a line `each ..` has 256."""
    cases = [line for group in groups for line in group.lines if is_case(line)]
    return sum(256 if line.startswith("each ") else 1 for line in cases)


def part_of(groups, chosen):
    """The standard input of the chosen groups, with the names that groups before them give, and what is to be written."""
    given, written = [], []
    for group in groups:
        if group in chosen:
            given += group.lines
            written += group.written
        else:
            given += group.names
            written += group.names
    return "".join(given), "".join(written) + f"{counted(chosen)} cases\n"


def parts_of(groups, most):
    """The groups in at most `most` lists with about as much text each."""
    whole = sum(len(line) for group in groups for line in group.written)
    parts, size = [[]], 0
    for group in groups:
        if size * most >= whole * len(parts) and len(parts) < most:
            parts.append([])
        parts[-1].append(group)
        size += sum(map(len, group.written))
    return [part for part in parts if part]
