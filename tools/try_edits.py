#!/usr/bin/env python3
"""Tries the edits that the prover has to refuse.

    tools/try_edits.py CRATE ..           tries all edits of these crates, over what is proved here
    tools/try_edits.py --kept CRATE ..    the same over what `rt ci` keeps on this machine; what it lacks of these crates is proved first, and kept
    tools/try_edits.py --applies          sees that each edit of the repository still applies, and tries none

An edit is a file of `tools/edits/CRATE` or, where the gate tries it too, of `crates/CRATE/must-fail`. The edits of a crate are tried in
a copy of it, one after the other, by `rt must-fail`, which writes a line for each. The crates below have to be proved (`rt check` in the
crate's folder, or `./cif --prove`). With --kept it is `rt ci CRATE` in the copy, which toolchains have that keep what their gate passed; it
takes the crates below from there, whichever checkout they were proved in. The status is 1 where one is not refused, or does not apply.
"""
import pathlib
import shutil
import subprocess
import sys
import tempfile

import building
import crates


def edits_of(name):
    """The files of a crate's edits."""
    folders = (crates.TOP / "crates" / name / "must-fail", crates.TOP / "tools/edits" / name)
    return [file for folder in folders for file in sorted(folder.glob("*.edit"))]


def fault_of(edit, crate):
    """Why an edit does not apply to the crate in the folder, or None."""
    path, old, texts, pairs = None, None, {}, 0
    for line in edit.read_text().split("\n"):
        if line.startswith("file: "):
            path = line[len("file: ") :].strip()
        elif line.startswith("old: "):
            old = line[len("old: ") :]
        elif line.startswith("new:"):
            if not path or not old:
                return "a line `new:` has no line `old:`, or no line `file:`, before it"
            if not (crate / path).is_file():
                return f"there is no file {path}"
            text = texts.get(path) or (crate / path).read_text()
            if text.count(old) != 1:
                return f"the text of `old:` is {text.count(old)} times in {path}: {old}"
            texts[path] = text.replace(old, line[len("new:") :].removeprefix(" "))
            old, pairs = None, pairs + 1
    return None if pairs else "it changes nothing"


def applies():
    """Whether each edit of the repository applies."""
    edits = [(name, edit) for name in crates.uses() for edit in edits_of(name)]
    known = {edit for _, edit in edits}
    found = {*crates.TOP.glob("crates/*/must-fail/*"), *crates.TOP.glob("tools/edits/*/*")}
    faults = [f"{edit.relative_to(crates.TOP)}: {why}" for name, edit in edits if (why := fault_of(edit, crates.TOP / "crates" / name))]
    faults += [f"{it.relative_to(crates.TOP)}: no edit of a crate" for it in sorted(found - known)]
    print("\n".join(faults + [f"{len(found) - len(faults)} of {len(found)} edits apply"]))
    return not faults


def try_crate(name):
    """Tries the edits of a crate over what is proved here, and returns whether each is refused."""
    used = crates.uses()
    missing = [it for it in crates.below(name, used) if not crates.is_proved(it)]
    if missing:
        print(f"{name}: its edits were not tried: {missing[0]} is not proved here (`rt check` in the crate's folder proves what is below)")
        return False
    return in_copy(name, crates.lend_library, lambda room: subprocess.run(["rt", "must-fail", name], cwd=room).returncode == 0)


def try_over_kept(name):
    """Tries the edits of a crate over what `rt ci` keeps on this machine, and returns whether each is refused."""
    return in_copy(name, crates.copy_crate, lambda room: gate_refuses(name, room))


def gate_refuses(name, room):
    """Whether the gate refuses each edit in the copy. It passes one that does not compile, which shows nothing, so its lines are read."""
    gate = subprocess.Popen(["rt", "ci", name], cwd=room, stdout=subprocess.PIPE, stderr=subprocess.STDOUT, text=True, errors="replace")
    is_bad = False
    for line in gate.stdout:
        print(line, end="", flush=True)
        is_bad = is_bad or "BAD EDIT" in line
    return gate.wait() == 0 and not is_bad


def in_copy(name, copy_below, are_refused):
    """Has the edits of a crate tried in a copy of the repository in which the crates below are copied in this way."""
    used = crates.uses()
    out = crates.TOP / "crates" / name / "out"
    out.mkdir(exist_ok=True)
    with tempfile.TemporaryDirectory(prefix="edits-", dir=out) as room:
        room = pathlib.Path(room)
        crates.copy_top(room)
        for it in used:
            (copy_below if it in crates.below(name, used) else crates.copy_crate)(it, room)
        (room / "crates" / name / "must-fail").mkdir()
        for edit in edits_of(name):
            shutil.copy(edit, room / "crates" / name / "must-fail")
        try:
            return are_refused(room)
        finally:
            # (before the folder goes, in which they write)
            building.end_descendants()


def keeps():
    """Whether the toolchain keeps what its gate passed, by crates."""
    said = subprocess.run(["rt", "help"], stdout=subprocess.PIPE, stderr=subprocess.STDOUT, text=True, errors="replace").stdout
    return "rt ci NAME" in said


def main(words):
    if words == ["--applies"]:
        return 0 if applies() else 1
    is_kept, names = words[:1] == ["--kept"], words[words[:1] == ["--kept"]:]
    unknown = [it for it in names if it not in crates.uses() or not edits_of(it)]
    if not names or unknown:
        print(f"no edits: {' '.join(unknown)}" if unknown else __doc__)
        return 2
    if is_kept and not keeps():
        print("the edits were not tried: `rt ci` of this toolchain keeps nothing that they could be tried over; without --kept they are tried over what is proved here")
        return 2
    building.end_at_signals()
    return 0 if all([(try_over_kept if is_kept else try_crate)(it) for it in names]) else 1


if __name__ == "__main__":
    sys.exit(main(sys.argv[1:]))
