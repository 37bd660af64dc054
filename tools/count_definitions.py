#!/usr/bin/env python3
"""Counts the definitions on which the clauses of the top call rest.

    python3 tools/count_definitions.py [CLAUSE ..]

It follows the names in the clauses of `tool` (all of them, or those named) through the imports of the files in `specs/`, and prints how many
definitions of this repository are met on the way, how many lines they have without comments, and how many of each crate. A type that the code
declares counts as one definition. Words of the standard library are not counted, nor is anything in `proofs/`: a clause means what its
definitions say. The names are read by their layout, so the numbers are for a reader and no part of the gate.
"""

import os
import re
import sys

ROOT = os.path.dirname(os.path.dirname(os.path.abspath(__file__)))
TOP = "crates/cif_tool/src/running.rt"
IMPORT = re.compile(r"(?:pub )?use Rattle\.([\w.\-]+?)(?:\.\{([^}]*)\})?(?: as ([\w\-]+))?;?\s*$")
HEAD = re.compile(r"^(?:abbrev |unfoldable )?(?:pub )?(data |record )?([^\s:(){}]+)(?: [^:]*)? : ")
WORDS = re.compile(r"[^\s(){}\[\],;]+")


class Module:
    """The definitions of a file, each with its lines and whether it is a type, and what its imports name."""

    def __init__(self, name, lines):
        self.name, self.names, self.modules, self.found = name, {}, {}, {}
        current, block = None, False
        for line in lines:
            line = line.removeprefix("ghost ")
            if line.lstrip().startswith(("--", "//")) or not line.strip():
                continue
            given = IMPORT.match(line.strip())
            if given:
                self.imports(*given.groups())
                continue
            indent = len(line) - len(line.lstrip())
            if indent == 0:
                current, block = None, re.match(r"(abbrev )?(mutual|module)\b", line) is not None
            head = HEAD.match(line.lstrip()) if indent == (2 if block else 0) else None
            if head and (head[2] not in self.found):
                current = head[2]
                self.found[current] = ([], bool(head[1]))
            if current is None and not block:
                # Further lines of a definition.
                current = next((it for it in self.found if line.startswith(f"{it} ")), list(self.found)[-1] if self.found else None)
            elif indent == 2 and block and not head:
                current = next((it for it in self.found if line.lstrip().startswith(f"{it} ")), current)
            if current is not None:
                self.found[current][0].append(line)

    def imports(self, path, names, alias):
        if names is None:
            self.modules[alias or path.rsplit(".", 1)[-1]] = path
            return
        for each in names.split(","):
            name, _, other = each.strip().partition(" as ")
            if name:
                for piece in (other or name).split("◌"):
                    self.names[piece] = (path, name)


def modules():
    """Returns the modules of all definitions, by name."""
    found = {}
    for folder, _, files in os.walk(f"{ROOT}/crates"):
        parts = os.path.relpath(folder, f"{ROOT}/crates").split(os.sep)
        if len(parts) < 2 or parts[1] != "specs":
            continue
        for file in files:
            name = ".".join([*parts, file.removesuffix(".antt")])
            with open(f"{folder}/{file}", encoding="utf-8") as it:
                found[name] = Module(name, it.read().splitlines())
    return found


def target(every, path, name, seen=()):
    """Returns the definition that a name of a module stands for, through what the module hands on, or None."""
    if ".specs.declared." in path:
        kind = path.removesuffix(".TheVariants")
        return (kind, kind.rsplit(".", 1)[-1])
    module = every.get(path)
    if module is None or (path, name) in seen:
        return None
    if name in module.found:
        return (path, name)
    if name in module.names:
        return target(every, *module.names[name], (*seen, (path, name)))
    for other, (lines, is_type) in module.found.items():
        # A constructor stands on a line of its own or beside others.
        if is_type and any(re.match(rf"\s+(pub )?.*(?<![\w\-]){re.escape(name)}(?![\w\-]).* : ", it) for it in lines[1:]):
            return (path, other)
    return None


def met(every, module, lines):
    """Returns the definitions that these lines of a module name."""
    found = set()
    for line in lines:
        for word in WORDS.findall(line):
            first, _, rest = word.strip(".").partition(".")
            if first in module.modules:
                found.add(target(every, module.modules[first], rest.split(".")[0]))
            elif first in module.found or first in module.names:
                found.add(target(every, module.name, first) or target(every, *module.names.get(first, (module.name, first))))
    return found - {None}


def clauses(wanted):
    """Returns the lines of the wanted clauses of the top call, and the module of its file."""
    with open(f"{ROOT}/{TOP}", encoding="utf-8") as it:
        lines = it.read().splitlines()
    module = Module("top", [it for it in lines if it.startswith("ghost use")])
    body = lines[next(at for at, it in enumerate(lines) if it.startswith("pub fn tool")) :]
    found, name = {}, None
    for line in body:
        begun = re.match(r"    ensures (\w+) \{", line)
        if begun:
            name = begun[1]
        if line == "{":
            break
        if name:
            found.setdefault(name, []).append(line)
    lacking = [it for it in wanted if it not in found]
    if lacking:
        sys.exit(f"`tool` has no clause {lacking[0]}; it has {', '.join(found)}")
    return [it for name in wanted or found for it in found[name]], module


def main():
    every = modules()
    lines, top = clauses(sys.argv[1:])
    left, seen = list(met(every, top, lines)), set()
    while left:
        it = left.pop()
        if it in seen or it[0].startswith("std."):
            continue
        seen.add(it)
        module = every.get(it[0])
        if module:
            left += met(every, module, module.found[it[1]][0])
    crates, length = {}, 0
    for path, name in seen:
        crates[path.split(".")[0]] = crates.get(path.split(".")[0], 0) + 1
        length += len(every[path].found[name][0]) if path in every else 0
    declared = sum(".specs.declared." in path for path, _ in seen)
    print(f"{len(seen)} definitions, {declared} of them types that the code declares; the others have {length} lines")
    for crate in sorted(crates, key=lambda it: -crates[it]):
        print(f"{crates[crate]:5} {crate}")


main()
