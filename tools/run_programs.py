"""Runs a program in a folder, over files that are written there, and a program of cases over cases."""
import os
import subprocess
import sys
from collections import namedtuple

# How a program ended: its status, and the bytes of standard output and standard error.
Ran = namedtuple("Ran", "status out err")


class Folder:
    """A program and the folder in which it runs."""

    def __init__(self, program, folder):
        self.program, self.folder = os.path.abspath(program), folder

    def path(self, name):
        return os.path.join(self.folder, name)

    def write(self, name, content):
        """Writes a file: bytes, or a text of one byte for each character."""
        with open(self.path(name), "wb") as file:
            file.write(content.encode("latin-1") if isinstance(content, str) else content)

    def clear(self):
        """Removes all files."""
        for name in os.listdir(self.folder):
            os.remove(self.path(name))

    def run(self, *words):
        ran = subprocess.run([self.program, *words], cwd=self.folder, stdin=subprocess.DEVNULL, capture_output=True, check=False)
        return Ran(ran.returncode, ran.stdout, ran.stderr)


def case_answers(program, cases):
    """What a program of cases writes below each case, as lines without their margin. Where it stops at one, this process ends."""
    ran = subprocess.run([program], input="".join(f"{it}\n" for it in cases).encode(), stdout=subprocess.PIPE, check=False)
    lines, at, found = [*ran.stdout.decode().split("\n"), ""], 0, []
    for case in cases:
        if lines[at] != case:
            sys.exit(f"{program} stopped before: {case}")
        end = at + 1
        while lines[end].startswith("  "):
            end += 1
        found.append([it.strip() for it in lines[at + 1 : end]])
        at = end
    if lines[at] != f"{len(cases)} cases":
        sys.exit(f"{program} stopped behind: {cases[-1]}")
    return found
