"""The faults of a command, each with its line on standard error and its status, and the files that a command reads.

The lines and statuses are those of `cif` where it has the same fault.
"""
WORDS, UNREAD, UNWRITTEN, TOO_LONG, SOURCE, PROFILE, PROGRAM, ROWS = 2, 3, 4, 6, 7, 8, 9, 10
# The most bytes of a source, a program, and a table.
MOST_SOURCE, MOST_PROGRAM, MOST_ROWS = 4194304, 16777216, 67108864


class Fault(Exception):
    """Why a command ends without an answer."""

    def __init__(self, status, line):
        super().__init__(line)
        self.status, self.line = status, f"cif: {line}"


def wrong_words():
    return Fault(WORDS, "not a command line")


def of_file(status, file, why):
    return Fault(status, f"{file}: {why}")


def content(file, most):
    """The text of a file, a character for each byte, so that places count bytes."""
    try:
        with open(file, "rb") as opened:
            found = opened.read(most + 1)
    except (OSError, ValueError):
        raise Fault(UNREAD, f"cannot read {file}") from None
    if len(found) > most:
        raise Fault(TOO_LONG, f"{file} is longer than {most} bytes")
    return found.decode("latin-1")
