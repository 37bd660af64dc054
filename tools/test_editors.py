#!/usr/bin/env python3
"""Tests the files for editors, the completion, the manual page and their installation.

    tools/test_editors.py

The grammars are read by a small matcher of their own form; those of Vim by Vim, and the manual page by groff, where these are installed.
"""
import json
import os
import pathlib
import re
import shutil
import subprocess
import sys
import tempfile
import unittest

import man_page
from plain_programs import WORDS
from plain_tokens import RESERVED

TOP = pathlib.Path(__file__).resolve().parent.parent
EDITORS = TOP / "editors"
# Words that Structured Text reserves, and `cif` reads nowhere.
LEFT_OUT = set("""DINT AT CASE OF END_CASE FOR TO BY END_FOR REPEAT UNTIL END_REPEAT EXIT RETURN FUNCTION FUNCTION_BLOCK ARRAY STRUCT STRING
    REAL LREAL TIME TYPE""".split())

CIF = """// plant in a comment
plant def Tank(controllable go; alg bool free):
  /* disc
     end */ disc int[0..12] level = 3;
  location Low: initial; marked;
    edge go when level < most and not $end do level := min(level + 1, 9) goto High;
  location High;
end
real time;
"""
# Pieces of lines of CIF, and the beginning of their scopes: the line, the piece, and the group of Vim.
CIF_COLOURS = [
    (0, "plant", "comment.line", "cifComment"), (1, "plant", "storage.type.component", "cifComponent"),
    (1, "def", "storage.modifier.definition", "cifComponent"), (1, "Tank", "entity.name.type", ""),
    (1, "controllable", "storage.modifier", "cifDeclaration"), (1, "go", "variable.other", ""), (1, "bool", "storage.type", "cifType"),
    (2, "disc", "comment.block", "cifComment"), (3, "end", "comment.block", "cifComment"), (3, "disc", "storage.modifier", "cifDeclaration"),
    (3, "12", "constant.numeric", "cifNumber"), (3, "level", "variable.other", ""), (4, "location", "keyword.other", "cifLabel"),
    (4, "Low", "entity.name.label", ""), (4, "marked", "keyword.other", "cifLabel"), (5, "edge", "keyword.control", "cifStatement"),
    (5, "and", "keyword.operator.word", "cifOperator"), (5, "$end", "variable.other.escaped", ""), (5, ":=", "keyword.operator", "cifSign"),
    (5, "min", "support.function", "cifFunction"), (5, "High", "entity.name.label", ""), (7, "end", "keyword.control", "cifStatement"),
    (8, "real", "invalid.illegal", "cifUnread"), (8, "time", "invalid.illegal", "cifUnread"),
]
TEXT = """PROGRAM CifScan
(* IF in a comment
   THEN *) VAR L0_Lamp: LINT (0 .. 1) := 0; END_VAR
T0_fired := true; Level := ABS(3) mod 2;
While L0_Lamp <> 1 DO END_WHILE;
FOR x : REAL;
"""
TEXT_COLOURS = [
    (0, "PROGRAM", "storage.type.program", "iecstProgram"), (0, "CifScan", "entity.name.function", ""), (1, "IF", "comment.block", "iecstComment"),
    (2, "THEN", "comment.block", "iecstComment"), (2, "VAR", "storage.modifier", "iecstBlock"), (2, "L0_Lamp", "variable.other", ""),
    (2, "LINT", "storage.type", "iecstType"), (3, "T0_fired", "variable.language.generated", "iecstOwn"),
    (3, "true", "constant.language", "iecstBoolean"), (3, "Level", "variable.other", ""), (3, "ABS", "support.function", "iecstFunction"),
    (3, "3", "constant.numeric", "iecstNumber"), (3, "mod", "keyword.operator.word", "iecstOperator"), (4, "While", "keyword.control", "iecstRepeat"),
    (4, "<>", "keyword.operator", "iecstSign"), (5, "FOR", "invalid.illegal", "iecstUnread"), (5, "REAL", "invalid.illegal", "iecstUnread"),
]


def grammar(name):
    return json.loads((EDITORS / "textmate" / f"{name}.tmLanguage.json").read_text())


class Matcher:
    """Colours lines by the patterns of a grammar: the first that begins earliest, and texts between a beginning and an end over lines."""

    def __init__(self, patterns):
        self.patterns = [(re.compile(it.get("match") or it["begin"]), it) for it in patterns]
        self.open = None

    def line(self, text):
        """The scope of each character."""
        scopes, at = [""] * len(text), 0
        while at < len(text):
            if self.open:
                end = re.compile(self.open["end"]).search(text, at)
                stop = end.end() if end else len(text)
                scopes[at:stop] = [self.open["name"]] * (stop - at)
                self.open, at = (None if end else self.open), stop
                continue
            found = [(match.start(), number, match) for number, (regex, _) in enumerate(self.patterns) for match in [regex.search(text, at)] if match]
            if not found:
                break
            _, number, match = min(found, key=lambda it: it[:2])
            at = self.colour(scopes, self.patterns[number][1], match)
        return scopes

    def colour(self, scopes, pattern, match):
        if "begin" in pattern:
            self.open = pattern
        spans = [(match.span(), pattern["name"])] if "name" in pattern else []
        spans += [(match.span(int(group)), it["name"]) for group, it in pattern.get("captures", {}).items()]
        for (begin, end), name in spans:
            scopes[begin:end] = [name] * (end - begin)
        return match.end()


def place_line():
    """A line of `--places`, as tools/explain.py writes it."""
    with tempfile.TemporaryDirectory() as room:
        (pathlib.Path(room) / "belt.cif").write_text("plant A:\n  location:\n")
        ran = subprocess.run([sys.executable, TOP / "tools/explain.py", "place", "cif: belt.cif: 4 NotRead at 11", "check", "belt.cif"], cwd=room,
                             capture_output=True, text=True, timeout=60, check=True)
    return ran.stdout


class TextMate(unittest.TestCase):
    def coloured(self, name, text, colours):
        matcher, lines = Matcher(grammar(name)["patterns"]), text.splitlines()
        scopes = [matcher.line(line) for line in lines]
        for line, piece, scope, _ in colours:
            at = re.search(rf"(?<![\w$]){re.escape(piece)}(?!\w)", lines[line]).start()
            found = set(scopes[line][at : at + len(piece)])
            self.assertEqual(len(found), 1, (piece, found))
            self.assertTrue(found.pop().startswith(scope), (piece, scope))

    def test_colours_of_cif(self):
        self.coloured("cif", CIF, CIF_COLOURS)

    def test_colours_of_structured_text(self):
        self.coloured("iecst", TEXT, TEXT_COLOURS)

    def test_reserved_words(self):
        """Each reserved word is coloured as one, and no other word is."""
        for name, words in (("cif", RESERVED), ("iecst", WORDS | LEFT_OUT)):
            matcher = Matcher(grammar(name)["patterns"])
            for word in sorted(words):
                self.assertNotIn("variable", matcher.line(word)[0], word)
            for word in ("ends", "Edge9", "_do", "iffy", "planted", "LINTS", "xIF"):
                self.assertIn("variable.other", matcher.line(word)[0], word)

    def test_small_letters(self):
        """Words of Structured Text are reserved in letters of both cases, those of CIF as they are."""
        self.assertIn("keyword.control", Matcher(grammar("iecst")["patterns"]).line("elsif")[0])
        self.assertIn("variable.other", Matcher(grammar("cif")["patterns"]).line("EDGE")[0])

    def test_files_of_the_package(self):
        found = json.loads((EDITORS / "textmate/package.json").read_text())["contributes"]
        for it in found["grammars"]:
            self.assertEqual(json.loads((EDITORS / "textmate" / it["path"]).read_text())["scopeName"], it["scopeName"])
        for it in found["languages"]:
            self.assertIn("comments", json.loads((EDITORS / "textmate" / it["configuration"]).read_text()))
        matcher = re.compile(found["problemMatchers"][0]["pattern"]["regexp"])
        self.assertEqual(matcher.match("a b/belt.cif:24:1: 4 NotRead").groups(), ("a b/belt.cif", "24", "1", "4", "NotRead"))
        self.assertEqual(matcher.match(place_line()).groups(), ("belt.cif", "2", "3", "4", "NotRead"))


@unittest.skipUnless(shutil.which("vim"), "vim is missing: its files are not tried")
class Vim(unittest.TestCase):
    def setUp(self):
        room = tempfile.TemporaryDirectory()
        self.addCleanup(room.cleanup)
        self.room = pathlib.Path(room.name)

    def vim(self, lines, *files):
        """What a script of Vim writes, line by line."""
        script = [f"set runtimepath^={EDITORS}/vim", "set nomore encoding=utf-8", "filetype on", "syntax on", *lines, "qall!"]
        (self.room / "try.vim").write_text("\n".join(script) + "\n")
        words = ["vim", "-es", "-u", "NONE", "-N", "-i", "NONE", "-S", "try.vim"]
        subprocess.run([*words, *files], cwd=self.room, stdin=subprocess.DEVNULL, capture_output=True, timeout=60, check=False)
        return (self.room / "told").read_text().splitlines()

    def groups(self, name, text, places):
        (self.room / name).write_text(text)
        lines = [f"edit {name}", "let told = [&filetype]"]
        lines += [f"call add(told, synIDattr(synID({line + 1}, {column + 1}, 1), 'name'))" for line, column in places]
        return self.vim([*lines, "call writefile(told, 'told')"])

    def test_colours(self):
        for name, kind, text, colours in (("a.cif", "cif", CIF, CIF_COLOURS), ("a.st", "iecst", TEXT, TEXT_COLOURS)):
            lines = text.splitlines()
            places = [(line, re.search(rf"(?<![\w$]){re.escape(piece)}(?!\w)", lines[line]).start()) for line, piece, _, _ in colours]
            self.assertEqual(self.groups(name, text, places), [kind] + [group for _, _, _, group in colours])

    def test_reserved_words(self):
        for name, words in (("a.cif", sorted(RESERVED)), ("a.st", ["PROGRAM"] + sorted(WORDS | LEFT_OUT))):
            told = self.groups(name, "\n".join(words) + "\n", [(line, 0) for line in range(len(words))])
            self.assertEqual([word for word, group in zip(words, told[1:]) if not group], [])

    def test_error_format(self):
        (self.room / "errors").write_text("cif: belt.cif: 4 NotRead at 11\n" + place_line())
        lines = ["compiler cif", "cgetfile errors", "let found = map(getqflist(), {_, it -> [bufname(it.bufnr), it.lnum, it.col, it.nr, it.text]})",
                 "call writefile([json_encode(found), &makeprg], 'told')"]
        told = self.vim(lines)
        self.assertEqual(json.loads(told[0]), [["belt.cif", 2, 3, 4, "NotRead"]])
        self.assertEqual(told[1], "cif --places check %:S")

    def test_page(self):
        """docs/EDITORS.md has the format, and the line as Vim lists it."""
        page = (TOP / "docs/EDITORS.md").read_text()
        (self.room / "errors").write_text("belt.cif:24:1: 4 NotRead\n")
        told = self.vim(["compiler cif", "let format = &errorformat", "cgetfile errors", "copen", "call writefile([getline(1), format], 'told')"])
        self.assertIn(f"\n{told[0]}\n", page)
        self.assertIn(f"`{told[1].partition(',')[0]}`", page)

    def test_smalltalk_is_left(self):
        self.assertEqual(self.groups("b.st", "Object subclass: #A\n", [])[0], "st")


class Completion(unittest.TestCase):
    def complete(self, *words):
        script = f"source {EDITORS}/cif.bash; COMP_WORDS=(\"$@\"); COMP_CWORD=$(($# - 1)); _cif; printf '%s\\n' \"${{COMPREPLY[@]}}\""
        ran = subprocess.run(["bash", "-c", script, "bash", *words], cwd=TOP, capture_output=True, text=True, timeout=60, check=True)
        self.assertEqual(ran.stderr, "")
        return set(ran.stdout.split())

    def test_commands(self):
        self.assertEqual(self.complete("cif", "w"), {"wave", "why", "wrap"})
        self.assertIn("generate", self.complete("cif", "--places", ""))
        self.assertEqual(self.complete("cif", "generate", "a.cif", "--u"), {"--unc"})
        self.assertEqual(self.complete("cif", "simulate", "a.cif", "--"), {"--first"})
        self.assertEqual(self.complete("cif", "simulate", "a.cif", "--first", ""), set())
        self.assertEqual(self.complete("cif", "wrap", "a.cif", "--"), {"--codesys", "--twincat", "--plcopen"})

    def test_files(self):
        self.assertEqual(self.complete("cif", "check", "examples/la"), {"examples/lamp.cif"})
        self.assertEqual(self.complete("cif", "-o", "out.st", "check", "examples/la"), {"examples/lamp.cif"})
        self.assertEqual(self.complete("cif", "simulate", "examples/la"), {"examples/lamp.cif"})
        self.assertEqual(self.complete("cif", "why", "examples/la"), {"examples/lamp.cif"})
        self.assertEqual(self.complete("cif", "simulate", "a.cif", "tools/wrong_s"), {"tools/wrong_sources.txt"})
        self.assertEqual(self.complete("cif", "replay", "examples/t"), {"examples/tank.st"})
        self.assertEqual(self.complete("cif", "replay", "a.st", "examples/la"), {"examples/lamp-rows.csv"})
        self.assertEqual(self.complete("cif", "batch", "examples/t"), {"examples/tank.st"})
        self.assertEqual(self.complete("cif", "batch", "a.st", "examples/la"), {"examples/lamp-rows.csv"})
        self.assertEqual(self.complete("cif", "wave", "a.cif", "examples/ro"), {"examples/rows.csv"})
        self.assertIn("examples", self.complete("cif", "check", "ex"))

    def test_each_word_of_the_usage(self):
        given = self.complete("cif", "")
        for command in sorted(given):
            given |= self.complete("cif", command, "a", "-")
        given |= self.complete("cif", "--test", "")
        lines = [it.strip() for it in man_page.usage().splitlines() if it.startswith("  ") and not it.endswith(":")]
        wanted = {re.sub(r"^cif ", "", it).split()[0].rstrip(",") for it in lines}
        self.assertEqual(wanted - given, set())


class Manual(unittest.TestCase):
    def test_page(self):
        text = man_page.page(man_page.usage())
        for word in ("cif", "check", "generate", "replay", "batch", "\\-\\-unc", "\\-\\-version"):
            self.assertIn(f"\\fB{word}", text)
        self.assertEqual(text.count(".RS"), text.count(".RE"))

    def test_parts(self):
        found = man_page.page("cif reads.\n\n  cif a FILE   does it\n        --b N  .more\n\n  before a command:\n  -o FILE    writes\n\nThe end.\n")
        for line in (".SH NAME", "\\fBcif\\fR \\fBa\\fR \\fIFILE\\fR", "\\&.more", "Before a command:",
                     "\\fB\\-o\\fR \\fIFILE\\fR", ".PP\nThe end."):
            self.assertIn(line + "\n", found)
        self.assertNotRegex(found, r"\.PP\n\.")

    @unittest.skipUnless(shutil.which("groff"), "groff is missing: the manual page is not set")
    def test_groff(self):
        ran = subprocess.run(["groff", "-man", "-Tascii", "-ww"], input=man_page.page(man_page.usage()), capture_output=True, text=True,
                             timeout=60, check=True)
        self.assertEqual(ran.stderr, "")
        self.assertIn("cif generate FILE", re.sub(".\x08", "", ran.stdout))


class Install(unittest.TestCase):
    def setUp(self):
        room = tempfile.TemporaryDirectory()
        self.addCleanup(room.cleanup)
        self.room = pathlib.Path(room.name)

    def install(self, *words):
        ran = subprocess.run([sys.executable, TOP / "tools/install", *words], cwd=self.room, capture_output=True, text=True, timeout=60, check=False)
        return ran.returncode, ran.stdout, ran.stderr

    def files(self):
        return sorted(str(it.relative_to(self.room)) for it in self.room.rglob("*") if it.is_symlink() or it.is_file())

    def test_links(self):
        for _ in range(2):
            self.assertEqual(self.install("--prefix", "here")[::2], (0, ""))
        wanted = ["here/bin/cif", "here/share/bash-completion/completions/cif", "here/share/cif/textmate", "here/share/cif/vim", "here/share/man/man1/cif.1"]
        self.assertEqual(self.files(), wanted)
        self.assertTrue(os.path.samefile(self.room / "here/bin/cif", TOP / "cif"))
        ran = subprocess.run([self.room / "here/bin/cif", "--help"], capture_output=True, text=True, timeout=60, check=True)
        self.assertEqual(ran.stdout, man_page.usage())
        self.assertEqual(self.install("--prefix", "here", "--remove")[::2], (0, ""))
        self.assertEqual(self.files(), [])

    def test_what_is_there_stays(self):
        (self.room / "bin").mkdir()
        (self.room / "bin/cif").write_text("mine")
        for words in ([], ["--remove"]):
            told = self.install("--prefix", str(self.room), *words)
            self.assertEqual(told, (1, "", f"cif: {self.room}/bin/cif is there, and is not of this checkout\n"))
        self.assertEqual((self.room / "bin/cif").read_text(), "mine")
        self.assertEqual(self.files(), ["bin/cif"])

    def test_page(self):
        """docs/EDITORS.md has all that is put in place."""
        page = (TOP / "docs/EDITORS.md").read_text()
        self.install("--prefix", "here")
        for file in self.files():
            self.assertIn(f"`{file.removeprefix('here/')}`", page)

    def test_wrong_words(self):
        self.assertEqual(self.install("--prefix")[0], 2)
        self.assertEqual(self.install("here")[0], 2)
        self.assertEqual(self.files(), [])

    def test_help(self):
        for word in ("--help", "-h"):
            status, written, told = self.install(word)
            self.assertEqual((status, told), (0, ""))
            self.assertIn("tools/install [--prefix DIR] [--remove]\n", written)
        self.assertEqual(self.files(), [])


if __name__ == "__main__":
    unittest.main()
