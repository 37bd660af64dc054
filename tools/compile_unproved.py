#!/usr/bin/env python3
"""Compiles programs of this checkout without their proofs.

    tools/compile_unproved.py CRATE

`rt try` compiles a program without its proofs and runs it, but keeps no program. So it is given a run that takes long, and the program is
taken meanwhile. It stands as `crates/CRATE/out/unproved/CRATE` from then on, with a file that says what it is made of.
"""
import errno
import os
import pathlib
import shutil
import subprocess
import sys
import tempfile
import time

import building
from building import TOP, Stopped, say

# A program of Structured Text that takes long, and how many rows it is run for.
LONG = """PROGRAM Long VAR turns: LINT := 0; END_VAR turns := 0;
WHILE turns < 900000 DO turns := turns + 1; END_WHILE; END_PROGRAM
"""
ROWS = 1000
# What a whole program writes without words and input.
BEGINNINGS = ("cif: not a command line\n", "0 cases\n")


def place_of(name):
    return TOP / "crates" / name / "out/unproved" / name


def long_run(name, room):
    """The words of a run that takes long, and its standard input."""
    if name in building.case_programs():
        return ["try", "--steps", "1"], TOP / "crates" / name / "stdin"
    (room / "long.st").write_text(LONG)
    (room / "rows.csv").write_text("scan\n" + "".join(f"{row}\n" for row in range(1, ROWS + 1)))
    data = ["--data", f"long.st={room / 'long.st'}", "--data", f"rows.csv={room / 'rows.csv'}"]
    return ["try", *data, "--", "replay", "long.st", "rows.csv"], os.devnull


def is_whole(program):
    """Whether a program is all written: it then says what it says without words and input."""
    try:
        ran = subprocess.run([program], stdin=subprocess.DEVNULL, capture_output=True, text=True, timeout=20)
    except (OSError, subprocess.TimeoutExpired):
        return False
    return (ran.stdout + ran.stderr) in BEGINNINGS


def taken(room):
    """The program that is being run below a folder, once it is whole."""
    for found in room.glob("*/*/program"):
        if os.access(found, os.X_OK):
            try:
                shutil.copy(found, room / "taken")
            except OSError:
                continue
            if is_whole(room / "taken"):
                return room / "taken"
    return None


def compiled(name, room):
    """A program that `rt try` compiles in this room."""
    words, given = long_run(name, room)
    (room / "tmp").mkdir()
    with open(given, "rb") as stdin, open(room / "log", "wb") as log:
        how = {"stdin": stdin, "stdout": log, "stderr": log, "env": {**os.environ, "TMPDIR": str(room / "tmp")}}
        started = subprocess.Popen(["rt", *words], cwd=TOP / "crates" / name, **how)
    while True:
        has_ended = started.poll() is not None
        found = taken(room / "tmp")
        if found:
            building.end_descendants(started.pid)
            started.kill()
            started.wait()
            return found
        if has_ended:
            said = "\n".join((room / "log").read_text(errors="replace").splitlines()[-20:])
            raise Stopped(f"{name} could not be compiled; rt wrote\n{said}")
        time.sleep(0.2)


def install(program, name, made_of):
    """Puts a program in its place, for all users, with what it is made of."""
    place = place_of(name)
    new = place.with_name(name + ".new")
    shutil.copyfile(program, new)
    new.chmod(0o755)
    new.replace(place)
    building.by_script("note_program", str(place), made_of)


def compile_and_install(name, made_of):
    with tempfile.TemporaryDirectory(prefix="cif-") as room:
        try:
            install(compiled(name, pathlib.Path(room)), name, made_of)
        finally:
            # (before the folder goes, in which they write)
            building.end_descendants()


def make_folder(folder):
    """Makes the folder of a compiled program, before the minutes that the compiler takes."""
    try:
        folder.mkdir(parents=True, exist_ok=True)
        if not os.access(folder, os.W_OK):
            raise PermissionError(errno.EACCES, os.strerror(errno.EACCES))
    except OSError as error:
        raise Stopped(f"the compiled program cannot be kept: {folder}: {error.strerror}") from error


def compile_program(name):
    """Compiles a program, unless one of these sources stands already. One process compiles at a time; others wait, and take what it made."""
    place, made_of = place_of(name), building.sources_sum(name)
    if building.is_fresh(place, made_of):
        return
    building.need_toolchain()
    make_folder(place.parent)
    held = building.lock(place.parent, f"another process compiles {name} without its proofs: waiting for it")
    if not building.is_fresh(place, made_of):
        say(f"compiling {name} without its proofs, once: some two minutes")
        try:
            compile_and_install(name, made_of)
        except OSError as error:
            raise Stopped(f"the compiled program could not be kept: {error.filename}: {error.strerror}") from error
    os.close(held)


def main(name):
    building.end_at_signals()
    try:
        compile_program(name)
    except Stopped as why:
        say(str(why))
        return 1
    return 0


if __name__ == "__main__":
    sys.exit(main(*sys.argv[1:]))
