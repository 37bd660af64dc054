#!/usr/bin/env python3
"""Runs what docs/REFUSALS.md and docs/LANGUAGE.md show, and tools/wrong_sources.txt with the sentences of tools/explain.py.

    tools/test_refusals.py [PROGRAM]

Without a word the program is run that the environment variable CIF_PROGRAM names, or that of this checkout, or the one without proofs.
"""
import os
import pathlib
import re
import resource
import shlex
import subprocess
import sys
import tempfile
import unittest

TOP = pathlib.Path(__file__).resolve().parent.parent
BUILT = [TOP / "crates/cif_cli/out" / it for it in ("cif_cli", "unproved/cif_cli")]
EXPLAIN = TOP / "tools/explain.py"
# (a word before those of unittest, or the environment where all tests are run)
GIVEN = sys.argv.pop(1) if sys.argv[1:] and os.path.isfile(sys.argv[1]) else os.environ.get("CIF_PROGRAM")
PROGRAM = pathlib.Path(GIVEN).resolve() if GIVEN else next(filter(pathlib.Path.exists, BUILT), None)
STACK = 64 << 20
# The exit code of each refusal.
CODES = {**dict.fromkeys(range(1, 25), 7), 25: 8, 28: 8, **dict.fromkeys(range(31, 40), 9)}
CODES.update({26: 13, 27: 13, 29: 13, 40: 11, 41: 11, 42: 11, 43: 12, **dict.fromkeys(range(44, 49), 10), 54: 16})

sys.path.insert(0, str(TOP / "tools"))
import explain  # noqa: E402
import explain_script  # noqa: E402


def with_stack():
    """The program without proofs takes more stack than is common."""
    most = resource.getrlimit(resource.RLIMIT_STACK)[1]
    if most == resource.RLIM_INFINITY or most >= STACK:
        resource.setrlimit(resource.RLIMIT_STACK, (STACK, most))


def run(words, folder, output=None):
    """The status of a command, its standard output and standard error."""
    with open(output, "wb") if output else tempfile.TemporaryFile() as written:
        ran = subprocess.run([str(it) for it in words], cwd=folder, stdout=written, stderr=subprocess.PIPE, preexec_fn=with_stack, timeout=120)
        error = ran.stderr.decode(errors="surrogateescape")
        if output:
            return ran.returncode, "", error
        written.seek(0)
        return ran.returncode, written.read().decode(), error


def explained(verb, *words, folder=TOP):
    """The status and output of `explain.py`, on a wide terminal."""
    environment = {**os.environ, "COLUMNS": "200"}
    ran = subprocess.run([sys.executable, EXPLAIN, verb, *words], cwd=folder, capture_output=True, text=True, env=environment, timeout=60)
    return ran.returncode, ran.stdout


def sections_of(page):
    """The headings of a page and what is below each."""
    return re.findall(r"^## ([^\n]*)\n(.*?)(?=^## |\Z)", page, re.S | re.M)


def blocks_of(section):
    """The blocks of a section, each with the last line before it that is in no block."""
    found, label, block = [], "", None
    for line in section.splitlines(keepends=True):
        if line.startswith("```") and block is None:
            block = ""
        elif line.startswith("```"):
            found.append((label, block))
            label, block = "", None
        elif block is not None:
            block += line
        elif line.strip():
            label = line.strip()
    return found


class Shown(unittest.TestCase):
    """Files and commands in a folder of their own."""

    def setUp(self):
        room = tempfile.TemporaryDirectory()
        self.addCleanup(room.cleanup)
        self.work = pathlib.Path(room.name)

    def write(self, name, text, is_made=False):
        if is_made:
            text = subprocess.run([sys.executable, "-c", text], capture_output=True, text=True, check=True).stdout
        (self.work / name).write_bytes(text.encode())


    def transcript(self, heading, block):
        """Runs the command of a block, which has its answer; the words of the command."""
        command, answer = block.split("\n", 1)
        self.assertTrue(command.startswith("$ ./cif "), block)
        command, _, output = command.removeprefix("$ ./cif ").partition(" > ")
        words = shlex.split(command)
        status, written, error = run([PROGRAM, *words], self.work, self.work / output if output else None)
        self.assertEqual(written + error, answer)
        if heading[0].isdigit():
            number, name = heading.split()
            self.assertEqual(status, CODES[int(number)])
            self.assertRegex(error, rf"^cif: ([^ ]+: )?((row|line) [12]: )?{number} {name}\b")
        return words


class Page(Shown):
    """docs/REFUSALS.md."""

    def setUp(self):
        super().setUp()
        self.sections = sections_of((TOP / "docs/REFUSALS.md").read_text())
        self.numbered = [(int(it[0].split()[0]), it[0].split()[1], it[1]) for it in self.sections if it[0][0].isdigit()]

    def test_numbers(self):
        """Each refusal has a part, in order, that begins with its rule in words."""
        self.assertEqual([it[0] for it in self.numbered], sorted(explain.RULES))
        self.assertEqual(sorted(CODES), sorted(explain.RULES))
        for number, _, text in self.numbered:
            self.assertEqual(" ".join(text.strip().split("\n\n")[0].split("\n")), explain.RULES[number])

    def test_explained_by_number(self):
        for number, name, text in self.numbered:
            self.assertEqual(explain_number(number), f"## {number} {name}\n{text.rstrip()}\n")
        for word in ("0", "30", "49", "x", "", "1 "):
            self.assertEqual(explained("number", word), (2, ""))

    @unittest.skipUnless(PROGRAM, "there is no program")
    def test_examples(self):
        for heading, text in self.sections:
            with self.subTest(heading):
                self.assertTrue(self.show(heading, text))

    def show(self, heading, text):
        """Runs the example of a part; whether something was refused and something mended."""
        words, has_run, is_mended = [], False, False
        for label, block in blocks_of(text):
            named = re.fullmatch(r"`([\w.]+)`(, mended)?(, as Python writes it)?:", label)
            if named:
                self.write(named[1], block, is_made=bool(named[3]))
            if named and named[2]:
                self.assertEqual(run([PROGRAM, *words], self.work)[0], 0)
                is_mended = True
            elif not named:
                words = self.transcript(heading, block)
                has_run = True
        return has_run and is_mended


def explain_number(number):
    status, written = explained("number", str(number))
    return written if status == 0 else None


class Language(Shown):
    """docs/LANGUAGE.md."""

    def setUp(self):
        super().setUp()
        self.page = (TOP / "docs/LANGUAGE.md").read_text()

    def tables(self):
        """The rows of the tables of constructs, each with the source round its examples."""
        part = dict(sections_of(self.page))["What is read, and what is refused"]
        for text in part.split("\n### ")[1:]:
            blocks = blocks_of(text)
            for row in re.findall(r"^\| (.*) \|$", text, re.M)[1:]:
                construct, example, answer, *instead = [it.strip() for it in re.split(r" \|(?: |$)", row)]
                yield blocks[0][1] if blocks else "...", construct, re.fullmatch("`(.*)`", example)[1], answer, "".join(instead)

    @unittest.skipUnless(PROGRAM, "there is no program")
    def test_constructs(self):
        answers = set()
        for frame, construct, example, answer, instead in self.tables():
            with self.subTest(construct):
                self.assertEqual(self.answer(frame.replace("...", example)), answer)
                answers.add(answer)
                piece = re.match("`([^`]*)`", instead)
                if piece:
                    self.assertEqual(self.answer(frame.replace("...", piece[1])), "read")
        self.assertLessEqual({"read", "1", "4", "7", "9", "12", "15", "20", "22"}, answers)

    def answer(self, source):
        self.write("a.cif", source)
        status, _, error = run([PROGRAM, "check", "a.cif"], self.work)
        return "read" if status == 0 else error.split()[2]

    def run_blocks(self, text):
        """Writes the files of a part and runs its commands; these with their answers."""
        found = []
        for label, block in blocks_of(text):
            named = re.fullmatch(r"`([\w.]+)`:", label)
            if named:
                self.write(named[1], block)
            else:
                self.transcript("an example", block)
                found.append(block)
        return "".join(found)

    @unittest.skipUnless(PROGRAM, "there is no program")
    def test_scripts(self):
        text = self.run_blocks(dict(sections_of(self.page))["Scripts"])
        self.assertEqual(re.findall(r"^\$ ./cif (\w+)", text, re.M), ["simulate", "why", "simulate"])


class WrongSources(Shown):
    """tools/wrong_sources.txt: the sentence for each, behind the rule in words."""

    def setUp(self):
        super().setUp()
        text = (TOP / "tools/wrong_sources.txt").read_text()
        self.sources = re.findall(r"^### ([^\n]*)\n(.*?)^>>> ([^\n]*)\n", text, re.S | re.M)

    def test_table(self):
        self.assertGreaterEqual(len(self.sources), 89)
        self.assertEqual(len({it[0] for it in self.sources}), len(self.sources))
        silent = [it for it in self.sources if it[2] == "-"]
        self.assertLessEqual(len(silent) * 89, 9 * len(self.sources))

    @unittest.skipUnless(PROGRAM, "there is no program")
    def test_sentences(self):
        met = set()
        for title, source, sentence in self.sources:
            with self.subTest(title):
                self.write("a.cif", re.sub(r"<U\+([0-9A-F]{4})>", lambda it: chr(int(it[1], 16)), source))
                status, _, error = run([PROGRAM, "check", "a.cif"], self.work)
                self.assertEqual(status, 7)
                met.add(int(error.split()[2]))
                line, words = error.rstrip("\n"), ["check", "a.cif"]
                found = explain.sentence_of(explain.refusal_in(line, words), (self.work / "a.cif").read_bytes(), words)
                self.assertEqual(found or "-", sentence)
        self.assertEqual(explained("shown", line, *words, folder=self.work)[1].splitlines()[-1], sentence)
        # (too many objects and nodes are no mistakes of a small source)
        self.assertEqual(met, set(range(1, 25)) - {17, 24})


class Places(Shown):
    """The place of a byte as a terminal and as an editor has it."""

    def shown(self, text, at, columns=200, name="a.cif"):
        """What is shown of a place, without the rule and the sentence."""
        (self.work / name).write_bytes(text)
        line = f"cif: {name}: 4 NotRead at {at}"
        words = [sys.executable, EXPLAIN, "shown", line, "check", name]
        found = subprocess.run(words, cwd=self.work, capture_output=True, env={**os.environ, "COLUMNS": str(columns)}, timeout=60)
        self.assertEqual((found.returncode, found.stderr), (0, b""))
        return found.stdout.decode().split(explain.RULES[4])[0]

    def test_lines_and_columns(self):
        cases = [
            (b"event e", 7, "1:8\nevent e\n       ^\n"),
            (b"event e\n", 8, "2:1\n\n^\n"),
            (b"", 0, "1:1\n\n^\n"),
            (b"one\n\ttwo\tthree four\nfive\n", 15, "2:12\n\ttwo\tthree four\n\t   \t      ^\n"),
            (b"one\r\ntwo three\r\n", 9, "2:5\ntwo three\n    ^\n"),
            ("// \u00e9\u20ac \u00a7\n".encode(), 9, "1:10\n// \u00e9\u20ac \u00a7\n      ^\n"),
            ("// \u4e2d\u6587 e\u0301 @\n".encode(), 14, "1:15\n// \u4e2d\u6587 e\u0301 @\n          ^\n"),
            (b"a\x1b[2J\x07 b", 7, "1:8\na?[2J? b\n       ^\n"),
            (b"// \xc2\x9b31m \x7f \xff\xfe @", 14, "1:15\n// ?31m ? ?? @\n             ^\n"),
            ("\u202e x\u2028y".encode(), 4, "1:5\n? x?y\n  ^\n"),
        ]
        for text, at, wanted in cases:
            with self.subTest(text):
                self.assertEqual(self.shown(text, at), f"a.cif:{wanted}")

    def test_long_lines(self):
        """A part of a long line is shown, with the caret below the byte that is meant."""
        for before in (b"x" * 500, "\u4e2d".encode() * 90, b"x\ty " * 90, b"\xff" * 300, b"x" * 9000):
            for columns in (20, 60, 80):
                line, caret = self.shown(before + b"Q" + b" y" * 9000, len(before), columns).splitlines()[1:3]
                self.assertLess(width(line), columns)
                self.assertEqual(at_column(line, width(caret) - 1), "Q")

    def test_odd_names(self):
        for name in ("-", "a b", "x: 4 NotRead at 0", "*"):
            self.assertEqual(self.shown(b"one\ntwo", 5, name=name), f"{name}:2:2\ntwo\n ^\n")
        self.assertEqual(self.shown(b"one", 0, name="a\x1b[2J\u009b.cif"), "a?[2J?.cif:1:1\none\n^\n")

    def test_place_for_editors(self):
        self.write("a.cif", "one\n\ttwo")
        for line, wanted in (
            ("cif: a.cif: 4 NotRead at 5", "a.cif:2:2: 4 NotRead\n"),
            ("cif: a.cif: 6 Duplicate at 4 first 1", "a.cif:2:1: 6 Duplicate\n"),
            ("cif: a.cif: 4 NotRead at 99", ""),
            ("cif: a.cif: 19 AlgCycle alg b", ""),
            ("cif: b.cif: 4 NotRead at 1", ""),
            ("cif: cannot read a.cif", ""),
        ):
            self.assertEqual(explained("place", line, "check", "a.cif", folder=self.work), (0, wanted))

    def test_nothing_fails(self):
        """Whatever the line and the words are, there is no fault and the status is 0."""
        self.addCleanup(os.chdir, os.getcwd())
        os.chdir(self.work)
        self.write("a.cif", "\0\xff if if end ] ) } : ; ..")
        self.write("r.csv", '"a,b\n\n"",,\r\n')
        lines = [f"cif: {file}: {row}{number} Name{field}" for file in ("a.cif", "r.csv") for row in ("", "row 3: ", "line 3: ", "line 99: ") for number in range(0, 60)
                 for field in ("", " at 3", " at 99999999999999999999", " statement 7 ", " row 9 column 9", " variable x value y")]
        lines += ["", "cif: ", "cif: a.cif: ", "cif: a.cif: 4", "\udcff"]
        for line in lines:
            for words in (["check", "a.cif"], ["replay", "a.cif", "r.csv"], ["batch", "a.cif", "r.csv"], ["simulate", "a.cif", "r.csv"]):
                error = explain.refusal_in(line, words)
                if error and error.number in explain.RULES:
                    explain.rule_of(error)
                    text = (self.work / error.file).read_bytes()
                    for call in (explain.places_of, explain.sentence_of):
                        call(error, text, words)
        for words in ([], ["check"], ["check", "none"]):
            self.assertEqual(explained("shown", "cif: a.cif: 4 NotRead at 3", *words, folder=self.work), (0, ""))


def width(line):
    """The columns of a line on a terminal."""
    column = 0
    for it in line:
        column += 8 - column % 8 if it == "\t" else explain.shown_character(it)[1]
    return column


def at_column(line, column):
    return next((it for at, it in enumerate(line) if width(line[:at]) == column), "")


class Replays(Shown):
    """What is shown of programs and rows."""

    def setUp(self):
        super().setUp()
        self.write("a.st", "PROGRAM p\nVAR_INPUT go: BOOL; level: LINT (-1 .. 3); END_VAR\nVAR y: LINT; END_VAR\n"
                   "IF go THEN\n  y := level;\nELSIF level > 1 THEN y := 1; END_IF;\nWHILE go DO y := 2; END_WHILE;\nEND_PROGRAM\n")
        self.write("r.csv", "scan,level,go\n\n1,2,TRUE\n2,\"4\",x\n3,1\n")

    def shown(self, line, command="replay"):
        return explained("shown", f"cif: {line}", command, "a.st", "r.csv", folder=self.work)[1].splitlines()

    def test_statements_and_variables(self):
        for number, place in enumerate(("4:1", "5:3", "6:22", "7:1", "7:13")):
            self.assertEqual(self.shown(f"a.st: 37 StMismatch statement {number}")[0], f"a.st:{place}")
        self.assertEqual(self.shown("a.st: 39 StInitRange variable y")[:3], ["a.st:3:5", "VAR y: LINT; END_VAR", "    ^"])
        found = self.shown("a.st: row 2: 42 SubrangeLeft variable y value 4")
        self.assertEqual([it for it in found if re.match(r"\w\.\w+:", it)], ["a.st:3:5", "r.csv:4:1"])

    def test_rows(self):
        self.assertEqual(self.shown("r.csv: 44 Header column 3")[-1], "The header has these fields, in any order: scan,go,level")
        cell = self.shown("r.csv: 45 Cell row 2 column 2")
        self.assertEqual(cell[:3], ["r.csv:4:3", '2,"4",x', "  ^"])
        self.assertEqual(cell[-1], "Under `level` a whole number from -1 to 3 is required, without blanks and zeros in front.")
        self.assertEqual(self.shown("r.csv: 45 Cell row 2 column 3")[-1], "Under `go` one of TRUE, FALSE, true, false, 1 and 0 is required.")
        self.assertEqual(self.shown("r.csv: 45 Cell row 2 column 1")[-1], "Under `scan` the number of the row is required: 2.")
        self.assertEqual(self.shown("r.csv: 46 RowLength row 3")[-1], "The header has 3 fields, and this row 2.")
        self.assertEqual(self.shown("r.csv: 47 TooManyRows count 100001")[-1], "Split the table. Each replay begins with the first values.")

    def test_cases(self):
        def shown(line):
            return self.shown(f"r.csv: {line}", "batch")
        self.write("r.csv", "level,scan,go\n\n2,1,TRUE\n0,2,TRUE\n0,\"4\",x\n0,1,1\n0,3,0\n")
        self.assertEqual(shown("48 CaseBoundary row 3"), ["r.csv:5:3", '0,"4",x', "  ^", explain.RULES[48], "Under `scan` 3 continues the case, and 1 begins the next one."])
        self.assertEqual(shown("48 CaseBoundary row 5")[0::4], ["r.csv:7:3", "Under `scan` 2 continues the case, and 1 begins the next one."])
        self.assertEqual(shown("48 CaseBoundary row 1")[0::4], ["r.csv:3:3", "The first row begins the first case: under `scan` it has 1."])
        self.assertEqual(shown("45 Cell row 2 column 2")[-1], "Under `scan` a whole number from 1 to 100000 is required, without blanks and zeros in front.")
        self.assertEqual(shown("45 Cell row 3 column 3")[-1], "Under `go` one of TRUE, FALSE, true, false, 1 and 0 is required.")
        self.assertEqual(shown("47 TooManyRows count 100001")[-1], "Split the file where a case begins.")
        found = self.shown("a.st: row 4: 42 SubrangeLeft variable y value 4", "batch")
        self.assertEqual([it for it in found if re.match(r"\w\.\w+:", it)], ["a.st:3:5", "r.csv:6:1"])

    @unittest.skipUnless(PROGRAM, "there is no program")
    def test_programs(self):
        """Mistakes of one who writes programs for other compilers."""
        declared = "PROGRAM p\nVAR x: LINT; END_VAR\n"
        for program, sentence in (
            ("PROGRAM p\nVAR x: INT; END_VAR\nEND_PROGRAM", "Types are `BOOL`, `LINT` and subranges such as `LINT (0 .. 9)`."),
            ("PROGRAM p\nVAR x, y: LINT; END_VAR\nEND_PROGRAM", "Each variable has a declaration of its own, such as `x: LINT; y: LINT;`."),
            ("PROGRAM p\nVAR RETAIN x: LINT; END_VAR\nEND_PROGRAM", "Blocks are `VAR`, `VAR CONSTANT`, `VAR_INPUT` and `VAR_OUTPUT`."),
            ("PROGRAM p\nVAR_IN_OUT x: LINT; END_VAR\nEND_PROGRAM", "Blocks are `VAR`, `VAR CONSTANT`, `VAR_INPUT` and `VAR_OUTPUT`."),
            ("PROGRAM p\nVAR x: LINT := 1 + 2; END_VAR\nEND_PROGRAM", "A first value is a literal."),
            ("PROGRAM p\nVAR x: LINT := 16#FF; END_VAR\nEND_PROGRAM", "Numbers with a base or a type are left out. Write the decimal."),
            ("PROGRAM p\nVAR x: LINT := 1_000; END_VAR\nEND_PROGRAM", "Numbers have no `_`."),
            (declared + "x = 3;\nEND_PROGRAM", "Write `:=` for an assignment."),
            (declared + "x := 3\nEND_PROGRAM", "Is `;` missing at the end of line 3?"),
            (declared + "x := 3;;\nEND_PROGRAM", "Empty statements are left out. Remove the `;`."),
            (declared + "// three\nx := 3;\nEND_PROGRAM", "Comments are written `(* .. *)`."),
            (declared + "x := SQRT(x);\nEND_PROGRAM", "`SQRT` is no function here. There are `ABS`, `MIN`, `MAX` and `SEL`."),
            (declared + "IF x > 3 x := 2; END_IF;\nEND_PROGRAM", "Is `THEN` missing before `x`?"),
            (declared + "EXIT;\nEND_PROGRAM", "`EXIT` is left out: there are BOOL, LINT and subranges of LINT, assignments, `IF` and `WHILE`."),
            (declared + "x := 3;", "The text ends here. Is `END_PROGRAM` missing, or an `END_IF`, `END_WHILE` or `END_VAR`?"),
        ):
            self.write("a.st", program)
            status, _, error = run([PROGRAM, "replay", "a.st", "r.csv"], self.work)
            words = ["replay", "a.st", "r.csv"]
            self.assertEqual(status, 9)
            self.assertEqual(explain.sentence_of(explain.refusal_in(error.rstrip("\n"), words), program.encode(), words), sentence)

    def test_files(self):
        self.assertEqual(self.shown("cannot read none"), [])
        (self.work / "a.st").unlink()
        self.assertEqual(self.shown("cannot read a.st"), ["There is no such file."])
        (self.work / "a.st").mkdir()
        self.assertEqual(self.shown("cannot read a.st"), ["It is a folder."])


class Scripts(Shown):
    """What is shown of a script that stops, and of reasons."""

    def setUp(self):
        super().setUp()
        self.write("a.cif", "input int[0..3] k;\nautomaton a:\n  event e;\n  location x: initial;\n    edge e goto y;\n  location y;\nend\ninvariant a.e needs k < 2;\n")

    def shown(self, script, line, verb="shown"):
        self.write("s.txt", script)
        return explained(verb, f"cif: s.txt: {line}", "simulate", "a.cif", "s.txt", folder=self.work)[1].splitlines()

    def test_places(self):
        for script, line, wanted in (
            ("set k 1\nset k 7\n", "line 2: 26 OutOfRange value 7", ["s.txt:2:7", "set k 7", "      ^", explain.RULES[26], "Set the input to a value of its range."]),
            ("\n\r\nfire a.e\r\nfire a.e\r\n", "line 4: 27 NotEnabled", ["s.txt:4:6", "fire a.e", "     ^", explain.RULES[27],
                                                                    "With the lines before this one alone, cif why a.cif s.txt a.e gives the reasons."]),
            ("fire", "line 1: 29 BadLine", ["s.txt:1:1", "fire", "^", explain.RULES[29], "`fire` has an event, such as `fire a.e`."]),
            ("fire", "line 2: 29 BadLine", [explain.RULES[29]]),
        ):
            self.assertEqual(self.shown(script, line), wanted)
        self.assertEqual(self.shown("\nset k 7", "line 2: 26 OutOfRange value 7", "place"), ["s.txt:2:7: 26 OutOfRange"])
        self.assertEqual(self.shown("fire e", "line 9: 29 BadLine", "place"), [])

    @unittest.skipUnless(PROGRAM, "there is no program")
    def test_bad_lines(self):
        """Mistakes in the form of a line; the program refuses each."""
        parts, number = "One blank stands between the parts of a line, and none elsewhere.", "A whole number is written without `+`, without `_` and without zeros in front."
        name, line_form = "A name is the full path, without a dot in front and without `$`.", "A line is `set INPUT VALUE`, `fire EVENT`, or empty. Comments are left out."
        set_form, fire_form = explain_script.FORMS[b"set"], explain_script.FORMS[b"fire"]
        for line, wanted in (
            ("set k=1", set_form), ("set k", set_form), ("set k 1 2", set_form), ("fire", fire_form), ("fire a.e 1", fire_form), ("fire(a.e)", fire_form),
            ("set  k 1", parts), ("set k\t1", parts), (" fire a.e", parts), ("fire a.e ", parts), ("set .k 1", name), ("fire $a.e", name),
            ("set k +1", number), ("set k 01", number), ("set k -0", number), ("set k 1_0", number), ("set k TRUE", "Write `true`."),
            ("Set k 1", "Write `set`."), ("k := 1", line_form), ("// a comment", line_form), ("# a comment", line_form),
            ("fire e", "The name is the full path of an event. That of a parameter is none: the event has its own."),
            ("set a 1", "The name is the full path of an input, and the value one of its kind: `true` or `false`, a whole number, or the name of a literal."),
        ):
            self.assertEqual(self.shown(line, "line 1: 29 BadLine")[-1], wanted, line)
            self.assertEqual(run([PROGRAM, "simulate", "a.cif", "s.txt"], self.work)[::2], (13, "cif: s.txt: line 1: 29 BadLine\n"), line)

    @unittest.skipUnless(PROGRAM, "there is no program")
    def test_no_event(self):
        self.write("s.txt", "")
        status, _, error = run([PROGRAM, "why", "a.cif", "s.txt", "e"], self.work)
        self.assertEqual((status, error), (16, f"{explain.NO_EVENT}\n"))
        shown = explained("shown", explain.NO_EVENT, "why", "a.cif", "s.txt", "e", folder=self.work)[1]
        self.assertEqual(shown, f"{explain.RULES[54]} {explain_script.ADVICE[54]}\n")

    def reasons(self, written, file="a.cif"):
        ran = subprocess.run([sys.executable, EXPLAIN, "reasons", file], cwd=self.work, input=written, capture_output=True, text=True, timeout=60)
        self.assertEqual((ran.returncode, ran.stderr), (0, ""))
        return ran.stdout

    @unittest.skipUnless(PROGRAM, "there is no program")
    def test_reasons(self):
        self.write("s.txt", "set k 2\n")
        written = run([PROGRAM, "why", "a.cif", "s.txt", "a.e"], self.work)[1]
        shown = "a.cif:8:21\ninvariant a.e needs k < 2;\n                    ^\n"
        self.assertEqual(self.reasons(written), f"{written}{shown}")
        self.assertEqual(self.reasons("blocks a\nno sender\nleaves 26 a.x\nbreaks 19\nenabled\n"),
                         "blocks a\nno sender\nleaves 26 a.x\na.cif:2:8\nautomaton a:\n       ^\nbreaks 19\na.cif:2:1\nautomaton a:\n^\nenabled\n")
        self.assertEqual(self.reasons("excluded 9999\n"), "excluded 9999\n")
        self.assertEqual(self.reasons("excluded 3\n", "none"), "excluded 3\n")


if __name__ == "__main__":
    if not PROGRAM:
        print("there is no program: nothing of the pages and of the wrong sources is run")
    unittest.main()
