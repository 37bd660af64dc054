#!/usr/bin/env python3
"""Tests the documents: what they show is what the program writes, and what they name exists.

    tools/test_documents.py [PROGRAM]

PROGRAM is by default the one that the environment variable CIF_PROGRAM names, else the proved program of this checkout, else the one
compiled without proofs; without any, nothing that is shown is run. Each page has a folder of its own with the examples, in which its
blocks are taken in their order:

    ```console      commands after `$ `, run by one bash, each with all that it writes below it; a line `..` is any lines. Below the
                    line of a refusal may follow what the script adds on a terminal (tools/explain.py)
    ```cif          a source: behind a line that ends with `NAME`: it is the file NAME, which is compared where it is in examples/,
                    and else written, or put behind what it has where the line begins with "Append". Without a name it is a part of
                    a source before it, or of one in examples/
    ```csv          a file of rows, likewise
    ```st           a program, likewise; without a name a part of one that a command before it wrote, or of one in examples/
    ```sh           commands that are not run, but those of `./cif check`, `generate` and `replay` in README.md, which have to succeed
    ```antt         (docs/THEOREM.md) definitions, line by line as in the specs of the crates; comments are left out
    ```rust         (docs/THEOREM.md) clauses, line by line as in the code

In docs/CONSTRUCTS.md a block without a word is a source, or a part of the program of a source before it.
"""
import fnmatch
import os
import pathlib
import re
import shlex
import shutil
import subprocess
import sys
import tempfile
import unittest

import crate_table

TOP = pathlib.Path(__file__).resolve().parent.parent
BUILT = [TOP / "crates/cif_cli/out/cif_cli", TOP / "crates/cif_cli/out/unproved/cif_cli"]
# (the environment names it where all tests are run)
GIVEN = os.environ.get("CIF_PROGRAM")
PROGRAM = pathlib.Path(GIVEN).resolve() if GIVEN else next((it for it in BUILT if it.exists()), None)
# The pages whose commands are run.
SHOWN = ["README.md", "docs/TUTORIAL.md", "docs/EXAMPLES.md", "docs/CONTROLLER.md", "docs/BENCH.md", "docs/LANGUAGE.md", "docs/CONSTRUCTS.md", "docs/REFUSALS.md"]
# The commands of a page: those of tools/bench, and all others of the program.
FRONT = """#!/bin/bash
case $1 in legend | wave | draw | wrap) exec python3 {bench} "$@" ;; esac
ulimit -S -s 65536 2>/dev/null
exec {program} "$@"
"""
# The most lines of a page.
LINES = {"README.md": 180, "docs/THEOREM.md": 150}


def pages():
    """All pages of the repository."""
    found = [it for it in TOP.rglob("*.md") if not {"out", ".git", "target"} & set(it.relative_to(TOP).parts)]
    return sorted(found)


class Block:
    """A fenced block: its word, its text, and the last line before it."""

    def __init__(self, word, text, before, line):
        self.word, self.text, self.before, self.line = word, text, before, line

    def file(self):
        """The name of the file that the line before the block ends with, if it does."""
        found = re.search(r"`([\w./-]+\.\w+)`[^`]*:$", self.before)
        return found[1] if found else None


def blocks_of(text):
    """The fenced blocks of a page, in their order."""
    found, before, block = [], "", None
    for number, line in enumerate(text.splitlines(), 1):
        if block is None and line.startswith("```"):
            block = Block(line[3:].strip(), "", before, number)
        elif block is not None and line == "```":
            found.append(block)
            block, before = None, ""
        elif block is not None:
            block.text += line + "\n"
        elif line.strip():
            before = line.strip()
    return found


def without_blocks(text):
    return re.sub(r"^```.*?^```$", "", text, flags=re.S | re.M)


def commands_of(text):
    """The commands of a console block, each with what is shown below it."""
    found = []
    for line in text.splitlines():
        if line.startswith("$ "):
            found.append([line[2:], []])
        else:
            found[-1][1].append(line)
    return found


def matches(shown, written):
    """Whether lines are the written ones, where a line `..` is any lines."""
    if ".." not in shown:
        return shown == written
    at = shown.index("..")
    if shown[:at] != written[:at]:
        return False
    return any(matches(shown[at + 1 :], written[it:]) for it in range(at, len(written) + 1))


def on_terminal(folder, command, written):
    """The lines that a command writes, with what the script adds on a terminal: below the line of a refusal, and below the reasons of `why`."""
    words = shlex.split(command)
    if words[:1] != ["./cif"] or not written:
        return written
    if written[-1].startswith("cif: "):
        return written + explained(folder, "", "shown", written[-1], *words[1:])
    return explained(folder, "\n".join(written), "reasons", words[2]) if words[1] == "why" else written


def explained(folder, given, *words):
    """The lines that explain.py writes."""
    ran = subprocess.run([sys.executable, TOP / "tools/explain.py", *words], cwd=folder, input=given, capture_output=True, text=True, timeout=60, check=False)
    return ran.stdout.splitlines()


class Page:
    """A page, whose blocks are run in a folder of their own."""

    def __init__(self, test, name, folder):
        self.test, self.name, self.folder = test, name, folder
        self.programs, self.sources = [], []
        shutil.copytree(TOP / "examples", folder / "examples")
        (folder / "cif").write_text(FRONT.format(bench=shlex.quote(str(TOP / "tools/bench")), program=shlex.quote(str(PROGRAM))))
        (folder / "cif").chmod(0o755)
        for file in sorted((TOP / "examples").iterdir()):
            (self.sources if file.suffix == ".cif" else self.programs).append(file.read_text())

    def run(self, commands):
        """What each of the commands writes, one after the other in one shell, and the last status. Programs that they write are kept."""
        mark = "----- end of a command"
        script = "".join(f"{it}\nstatus=$?; printf '\\n%s\\n' '{mark}'\n" for it in commands) + "exit $status\n"
        ran = subprocess.run(["bash", "-c", script], cwd=self.folder, stdin=subprocess.DEVNULL, stdout=subprocess.PIPE,
                             stderr=subprocess.STDOUT, timeout=300, check=False)
        written = ran.stdout.decode().split(f"\n{mark}\n")[:-1]
        for command, text in zip(commands, written):
            files = re.findall(r"> ([\w./-]+\.st)\b", command)
            self.programs += [(self.folder / it).read_text() for it in files] + ([text] if "./cif generate" in command else [])
        return written, ran.returncode

    def console(self, block):
        commands = commands_of(block.text)
        written = self.run([it for it, _ in commands])[0]
        for (command, shown), text in zip(commands, written):
            lines = text.splitlines()
            if not matches(shown, lines):
                lines = on_terminal(self.folder, command, lines)
                self.test.assertTrue(matches(shown, lines), f"{self.name}:{block.line}: {command}\n" + "\n".join(lines))
        self.test.assertEqual(len(commands), len(written), f"{self.name}:{block.line}")

    def file(self, block, kept):
        """A source or rows: a file, or a part of one."""
        name = block.file()
        if name and name.startswith("examples/"):
            self.test.assertEqual(block.text, (self.folder / name).read_text(), f"{self.name}:{block.line}: {name}")
        elif name:
            with (self.folder / name).open("a" if re.search(r"\bAppend this to `[^`]*`:$", block.before) else "w") as kept_file:
                kept_file.write(block.text)
        else:
            self.part(block, kept)
        kept.append(block.text)

    def part(self, block, kept):
        self.test.assertTrue(any("\n" + block.text in "\n" + it for it in kept), f"{self.name}:{block.line}: no part of what is before it")

    def shell(self, block):
        for command in block.text.splitlines():
            if self.name == "README.md" and re.match(r"\./cif (check|generate|replay) ", command):
                self.test.assertEqual(self.run([command])[1], 0, f"{self.name}:{block.line}: {command}")

    def all(self):
        for block in blocks_of((TOP / self.name).read_text()):
            if block.word == "console":
                self.console(block)
            elif block.word == "cif":
                self.file(block, self.sources)
            elif block.word in ("csv", "st", "txt"):
                self.file(block, self.programs)
            elif block.word == "sh":
                self.shell(block)


class WithRoom(unittest.TestCase):
    def setUp(self):
        room = tempfile.TemporaryDirectory()
        self.addCleanup(room.cleanup)
        self.room = pathlib.Path(room.name)

    def page(self, name):
        return Page(self, name, self.room)

    def run_program(self, *words):
        ran = subprocess.run(["./cif", *words], cwd=self.room, stdin=subprocess.DEVNULL, capture_output=True, text=True, timeout=120, check=False)
        return ran.returncode, ran.stdout, ran.stderr


class Shown(WithRoom):
    """What the pages show is what the program writes."""

    def setUp(self):
        if not PROGRAM:
            self.skipTest("no program was built: what the pages show is not run")
        super().setUp()

    def test_pages(self):
        for name in SHOWN:
            if (TOP / name).exists():
                with self.subTest(name), tempfile.TemporaryDirectory() as room:
                    Page(self, name, pathlib.Path(room)).all()

    def test_each_page_has_commands(self):
        for name in SHOWN[:5]:
            self.assertIn("console", {it.word for it in blocks_of((TOP / name).read_text())}, name)

    def test_constructs(self):
        """What is shown for each construct is a source, or a part of the program of a source before it."""
        page, programs, sources = self.page("docs/CONSTRUCTS.md"), [], 0
        for block in blocks_of((TOP / page.name).read_text()):
            if block.word:
                continue
            (self.room / "shown.cif").write_text(block.text)
            if self.run_program("check", "shown.cif")[0] == 0:
                source, sources = block.text, sources + 1
                programs.append(self.program_of("shown.cif", "1", "1"))
                continue
            bounds = re.fullmatch(r"`--unc (\d+) --con (\d+)` writes", block.before)
            if bounds:
                (self.room / "shown.cif").write_text(source)
                programs.append(self.program_of("shown.cif", *bounds.groups()))
            page.part(block, programs)
        self.assertGreater(sources, 10)

    def program_of(self, file, unc, con):
        status, program, told = self.run_program("generate", file, "--unc", unc, "--con", con)
        self.assertEqual((status, told), (0, ""))
        return program

    def test_every_example(self):
        """Each source of examples/ is accepted, and its program takes the rows beside it."""
        self.page("docs/EXAMPLES.md")
        for source in sorted((TOP / "examples").glob("*.cif")):
            (self.room / "made.st").write_text(self.program_of(f"examples/{source.name}", "1", "1"))
            rows = f"examples/{source.stem}-rows.csv"
            rows = rows if (TOP / rows).exists() else "examples/rows.csv"
            status, table, told = self.run_program("replay", "made.st", rows)
            self.assertEqual((status, told), (0, ""), source.name)
            self.assertEqual(table.count("\n"), (TOP / rows).read_text().count("\n"), source.name)

    def test_names_of_a_lock(self):
        """The names that EXAMPLES lists are the program's."""
        self.page("docs/EXAMPLES.md")
        program = self.program_of("examples/lock.cif", "1", "1")
        named = re.search(r"with `_` for each dot: (.*?), each with its output", (TOP / "docs/EXAMPLES.md").read_text(), re.S)
        for number, name in enumerate(re.findall(r"`(\w+)`", named[1])):
            self.assertTrue(name.startswith(f"L{number}_"))
            self.assertIn(f"  {name}: LINT ", program)
            self.assertIn(f"P{name[1:]} := {name};\n", program)

    def test_words_that_are_no_command_line(self):
        self.page("README.md")
        for words in ([], [""], ["Check"], ["--help"], ["--prove"], ["--unproved", "check", "a"]):
            self.assertEqual(self.run_program(*words), (2, "", "cif: not a command line\n"))


def slugs(text):
    """The anchors of a page's headings, as GitHub makes them."""
    found = {}
    for title in re.findall(r"^#+ +(.*?) *$", without_blocks(text), re.M):
        title = re.sub(r"\[([^\]]*)\]\([^)]*\)", r"\1", title)
        slug = re.sub(r"[^\w\- ]", "", title.lower()).replace(" ", "-")
        found[slug] = found.get(slug, -1) + 1
        if found[slug]:
            found[f"{slug}-{found[slug]}"] = 0
    return set(found)


class Links(unittest.TestCase):
    def test_links(self):
        """Each relative link leads to a file, and each anchor to a heading."""
        broken = []
        for page in pages():
            text = re.sub(r"`[^`\n]*`", "", without_blocks(page.read_text()))
            for target in re.findall(r"\]\(([^)\s]+)\)", text):
                if re.match(r"[a-z]+:", target):
                    continue
                path, _, anchor = target.partition("#")
                file = page.parent / path if path else page
                if not file.exists() or (anchor and anchor not in slugs(file.read_text())):
                    broken.append(f"{page.relative_to(TOP)}: {target}")
        self.assertEqual(broken, [])

    def test_files_that_are_named(self):
        """Files of this repository that README and the pages of docs/ name exist."""
        missing = []
        for page in pages():
            named = set(re.findall(r"(?<![\w/.])(?:examples|tools|docs|crates)/[\w./-]*\w(?![\w*])", page.read_text()))
            # (a part in capitals stands for a name)
            named = {it for it in named if "out" not in it.split("/") and not re.search(r"/[A-Z]+\b(?!\.md)", it)}
            missing += [f"{page.relative_to(TOP)}: {it}" for it in sorted(named) if not (TOP / it).exists()]
        self.assertEqual(missing, [])

    def test_every_page_is_linked(self):
        """README leads to each page of docs/."""
        readme = (TOP / "README.md").read_text()
        self.assertEqual([it.name for it in sorted((TOP / "docs").glob("*.md")) if f"(docs/{it.name}" not in readme], [])

    def test_files_that_a_reader_writes_are_ignored(self):
        text = "".join((TOP / it).read_text() for it in [*SHOWN[:5], "docs/SPEED.md"])
        written = set(re.findall(r"> ([\w-]+\.(?:cif|st|csv|txt))\b", text))
        self.assertLessEqual({"lamp.st", "cell.st", "again.txt"}, written)
        ignored = [it.removeprefix("/") for it in (TOP / ".gitignore").read_text().splitlines()]
        self.assertEqual([it for it in sorted(written) if not any(fnmatch.fnmatch(it, one) for one in ignored)], [])


class Shape(unittest.TestCase):
    def test_lengths(self):
        for name, most in LINES.items():
            self.assertLessEqual((TOP / name).read_text().count("\n"), most, name)

    def test_crate_table(self):
        page = crate_table.PAGE.read_text()
        self.assertTrue(page == crate_table.with_table(page), "docs/PROVED.md: run tools/crate_table.py")

    def test_libraries_of_crates(self):
        """crates.txt lists a library only for crates whose text or edits name it."""
        found = []
        for name, libraries in crate_table.listed_crates((TOP / "crates.txt").read_text()).items():
            folders = [TOP / "crates" / name / it for it in ("src", "specs", "proofs", "must-fail")] + [TOP / "tools/edits" / name]
            files = [it for folder in folders for it in folder.rglob("*.*") if it.suffix in (".rt", ".antt", ".edit")]
            words = set(re.findall(r"\w+", "\n".join(it.read_text() for it in files)))
            found += [f"{name}: {it}" for it in libraries if it not in words]
        self.assertEqual(found, [])

    def test_families(self):
        """ARCHITECTURE has the families with their crates, and PROVED says of each crate what it proves, both in the order of crates.txt."""
        families = crate_table.families((TOP / "crates.txt").read_text())
        part = re.search(r"^## The families of crates\n(.*?)^## ", (TOP / "docs/ARCHITECTURE.md").read_text(), re.S | re.M)[1]
        lines = re.findall(r"^\| (\w[^|]*) \| (`[^|]*) \|", part, re.M)
        self.assertEqual([(family, re.findall(r"`(\w+)`", crates)) for family, crates in lines], families)
        part = re.search(r"^## Crate by crate\n(.*?)^## ", (TOP / "docs/PROVED.md").read_text(), re.S | re.M)[1]
        claims = re.findall(r"^### (.*?)\n(.*?)(?=^### |\Z)", part, re.S | re.M)
        self.assertEqual([(family, re.findall(r"^\| `(\w+)` \|", lines, re.M)) for family, lines in claims], families)

    def test_usage(self):
        """README has each command and option of `cif --help`, and no other."""
        ran = subprocess.run(["bash", TOP / "cif", "--help"], stdin=subprocess.DEVNULL, capture_output=True, text=True, timeout=60, check=False)
        self.assertEqual(ran.returncode, 0)
        part = re.search(r"^## Commands\n(.*?)^## ", (TOP / "README.md").read_text(), re.S | re.M)[1]
        shown = set(re.findall(r"\./cif (\w[\w ]*|--\w+)", part)) | set(re.findall(r"`(-[\w-]+(?: [A-Z]+)?)`", part))
        heads = {re.split(r" {2,}", it.strip())[0] for it in ran.stdout.splitlines() if it.startswith("  ") and not it.endswith(":")}
        self.assertEqual(sorted(shown), sorted(re.split(r",| \[", it)[0].removeprefix("cif ") for it in heads))

    def test_definitions(self):
        """What THEOREM shows of definitions and clauses is, line for line, in the specs and in the code of the crates."""
        def lines_of(files, comment):
            found = []
            for file in sorted(files):
                found += [it.strip() for it in file.read_text().splitlines() if it.strip() and not it.strip().startswith(comment)] + [""]
            return "\n" + "\n".join(found)

        where = {"antt": lines_of(TOP.glob("crates/*/specs/*.antt"), "--"), "rust": lines_of(TOP.glob("crates/*/src/*.rt"), "//")}
        blocks = [it for it in blocks_of((TOP / "docs/THEOREM.md").read_text()) if it.word in where]
        self.assertGreater(len(blocks), 5)
        for block in blocks:
            for chunk in re.split(r"\n\n+", block.text.strip()):
                lines = "\n".join(it.strip() for it in chunk.splitlines())
                self.assertTrue(f"\n{lines}\n" in where[block.word], f"docs/THEOREM.md:{block.line}: not so in the crates:\n{chunk}")

    def test_clauses(self):
        """The clauses that PROVED names are those of `tool`, and all of them."""
        code = (TOP / "crates/cif_tool/src/running.rt").read_text()
        clauses = set(re.findall(r"^    ensures (\w+) \{", code[code.index("pub fn tool<") :], re.M))
        part = re.search(r"^## Clause by clause\n(.*?)^## ", (TOP / "docs/PROVED.md").read_text(), re.S | re.M)[1]
        named = set(re.findall(r"`(\w+)`", " ".join(re.findall(r"\| ([^|]*) \|$", part, re.M))))
        self.assertEqual(sorted(clauses - named), [])


class Rows(WithRoom):
    def test_random_rows(self):
        program = self.room / "a.st"
        text = "PROGRAM p\nVAR_INPUT\n  I0_go: BOOL := FALSE;\n  I1_level: LINT (-2 .. 1);\nEND_VAR\nVAR\n  x: BOOL;\nEND_VAR\n"
        program.write_text(text)
        make = [sys.executable, TOP / "tools/random_rows.py", program]
        ran = subprocess.run([*make, "50"], capture_output=True, text=True, check=True)
        head, *rows = [it.split(",") for it in ran.stdout.splitlines()]
        self.assertEqual((head, ran.stderr), (["scan", "I0_go", "I1_level"], ""))
        self.assertEqual([it[0] for it in rows], [str(it) for it in range(1, 51)])
        self.assertEqual([{it[1] for it in rows}, {it[2] for it in rows}], [{"0", "1"}, {"-2", "-1", "0", "1"}])
        program.write_text(text + "VAR_INPUT\n  I2_free: LINT;\nEND_VAR\n")
        self.assertEqual(subprocess.run([*make, "1"], capture_output=True, check=False).returncode, 1)


def main():
    global PROGRAM
    if len(sys.argv) > 1 and not sys.argv[1].startswith("-"):
        PROGRAM = pathlib.Path(sys.argv.pop(1)).resolve()
        if not os.access(PROGRAM, os.X_OK):
            sys.exit(f"{PROGRAM} is no program")
    unittest.main()


if __name__ == "__main__":
    main()
