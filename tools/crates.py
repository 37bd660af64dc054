"""The crates of this repository: what each uses, and copies of them in which `rt` works over what is proved here."""
import os
import pathlib
import shutil

TOP = pathlib.Path(__file__).resolve().parent.parent
PARTS = ("src", "specs", "proofs")


def uses(top=TOP):
    """The crates of the repository that each crate names, in the order of crates.txt."""
    lines = [line.split("#")[0].partition(":") for line in (top / "crates.txt").read_text().splitlines()]
    named = {head.split()[0]: libraries.split() for head, colon, libraries in lines if colon}
    return {name: [it for it in libraries if it in named] for name, libraries in named.items()}


def below(name, used):
    """The crates that a crate stands on, lowest first."""
    found = []

    def visit(crate):
        for it in used[crate]:
            if it not in found:
                visit(it)
                found.append(it)

    visit(name)
    return found


def is_proved(name, top=TOP):
    """Whether a library of the crate stands in its `out`; `rt` itself sees whether it is up to date."""
    return (top / "crates" / name / "out/rlib/stamp").is_file()


def copy_crate(name, room, top=TOP):
    """Copies a crate's text into a tree of its own."""
    for part in PARTS:
        if (top / "crates" / name / part).is_dir():
            shutil.copytree(top / "crates" / name / part, room / "crates" / name / part)


def lend_library(name, room, top=TOP):
    """Puts a crate with its proved library into a tree of its own. `rt` writes through no symbolic link, so it gets hard ones."""
    copy_crate(name, room, top)
    shutil.copytree(top / "crates" / name / "out/rlib", room / "crates" / name / "out/rlib", copy_function=os.link)


def copy_top(room, top=TOP):
    """Copies the files that make a folder the top of a repository for `rt`."""
    for name in ("crates.txt", "HANDLES"):
        shutil.copy(top / name, room)
