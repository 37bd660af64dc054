#!/usr/bin/env python3
"""Tests what `attack.py` and `refuse_memory.py` find: over programs that only play a part, each wrong in one way, and over ends of runs."""
import os
import pathlib
import random
import shutil
import subprocess
import sys
import tempfile
import time
import unittest
from unittest import mock

sys.path[:0] = [str(pathlib.Path(__file__).resolve().parent)]
import attack  # noqa: E402
import building  # noqa: E402
import limited_runs  # noqa: E402
import refuse_memory  # noqa: E402
from attack import Attack, Ended, judged, placed  # noqa: E402
from attack_texts import Texts, cases, inputs_of, plain_rows, script  # noqa: E402
from building import TOP  # noqa: E402
from limited_runs import Program, Quick  # noqa: E402
from refuse_memory import chosen, fault_of  # noqa: E402

OK = Ended(0, b"ok\n", b"")


def end(status, line, out=b""):
    return Ended(status, out, line.encode())


class Judged(unittest.TestCase):
    """The ends of runs that the documents have, and others."""

    def test_ends_of_the_documents(self):
        for command, ended in (("check", OK), ("check", end(7, "cif: a.cif: 4 NotRead at 7\n")), ("check", end(7, "cif: a.cif: 6 Duplicate at 36 first 13\n")),
                               ("check", end(8, "cif: a.cif: 25 TooManyChoices count 16385\n")), ("generate", end(8, "cif: a.cif: 28 Unclassed event A.e\n")),
                               ("check", end(6, "cif: a.cif is longer than 4194304 bytes\n")), ("check", end(3, "cif: cannot read a.cif\n")),
                               ("generate", end(5, "", b"PROG")), ("generate", end(5, "cif: out")), ("generate", end(4, "cif: cannot write\n")),
                               ("", end(2, "cif: not a command line\n"))):
            self.assertIsNone(judged(command, ["a.cif"], ended), ended)
        for command, ended in (("simulate", Ended(0, b"start\ndeadlock\n", b"")), ("simulate", end(13, "cif: script.txt: line 12: 26 OutOfRange value -4\n", b"start a=x\n")),
                               ("why", end(13, "cif: script.txt: line 1: 29 BadLine\n")), ("why", end(16, "cif: 54 NoEvent\n")), ("why", Ended(0, b"enabled\n", b"")),
                               ("why", end(7, "cif: a.cif: 4 NotRead at 7\n")), ("simulate", end(6, "cif: script.txt is longer than 4194304 bytes\n"))):
            self.assertIsNone(judged(command, ["a.cif", "script.txt"], ended), ended)
        for ended in (end(11, "cif: a.st: row 12: 42 SubrangeLeft variable x value -4\n"), end(12, "cif: a.st: row 1: 43 Budget\n"), end(10, "cif: rows.csv: 44 Header column 3\n"),
                      end(9, "cif: a.st: 36 StDuplicate variable X\n"), Ended(0, b"scan\n", b"")):
            self.assertIsNone(judged("replay", ["a.st", "rows.csv"], ended), ended)

    def test_other_ends(self):
        for command, ended in (("check", Ended(None, b"", b"")), ("check", Ended(-11, b"", b"")), ("check", end(1, "cif: told\n")), ("check", end(9, "cif: a.cif: 31 StBadByte at 1\n")),
                               ("check", Ended(0, b"", b"")), ("check", OK._replace(err=b"cif: told\n")), ("check", end(7, "cif: a.cif: 4 NotRead at 7\n", b"ok\n")),
                               ("check", end(7, "cif: a.cif: 4 NotRead at 7")), ("check", end(7, "cif: a.cif: 4 NotRead at 7\n\n")), ("check", end(7, "cif: b.cif: 4 NotRead at 7\n")),
                               ("check", end(7, "cif: a.cif: 4 NotRead at -7\n")), ("check", end(7, "cif: a.cif: 5 NotRead at 7\n")), ("check", end(7, "cif: a.cif: 4 NotRead\n")),
                               ("check", end(7, "cif: a.cif: 25 TooManyChoices count 16385\n")), ("check", end(8, "cif: a.cif: 28 Unclassed event A.e\n")), ("check", end(5, "killed\n")),
                               ("check", end(3, "cif: cannot read b.cif\n")), ("", OK)):
            self.assertIsNotNone(judged(command, ["a.cif"], ended), ended)
        for command, ended in (("simulate", Ended(0, b"", b"")), ("simulate", end(13, "cif: script.txt: line 1: 27 NotEnabled\n")),
                               ("simulate", end(13, "cif: a.cif: line 1: 27 NotEnabled\n", b"start\n")), ("simulate", end(13, "cif: script.txt: 27 NotEnabled\n", b"start\n")),
                               ("simulate", end(16, "cif: 54 NoEvent\n")), ("why", end(13, "cif: script.txt: line 0: 29 BadLine\n")), ("simulate", Ended(0, b"start", b"")),
                               ("why", end(13, "cif: script.txt: line 1: 29 BadLine\n", b"enabled\n")), ("why", end(16, "cif: a.cif: 54 NoEvent\n"))):
            self.assertIsNotNone(judged(command, ["a.cif", "script.txt"], ended), ended)
        for ended in (end(10, "cif: a.st: 44 Header column 3\n"), end(11, "cif: a.st: 40 Overflow\n"), end(11, "cif: a.st: row 0: 40 Overflow\n"), Ended(0, b"", b"")):
            self.assertIsNotNone(judged("replay", ["a.st", "rows.csv"], ended), ended)
        for ended in (end(11, "cif: a.st: row 12: 42 SubrangeLeft variable x value -4\n"), end(10, "cif: cases.csv: 48 CaseBoundary row 3\n"), OK._replace(out=b""),
                      Ended(0, b"scan,y\n1,0\nscan,y\n1,0\n", b"")):
            self.assertIsNone(judged("batch", ["a.st", "cases.csv"], ended), ended)
        for command, ended in (("replay", end(10, "cif: rows.csv: 48 CaseBoundary row 3\n")), ("batch", end(10, "cif: a.st: 48 CaseBoundary row 3\n")),
                               ("batch", end(10, "cif: cases.csv: 48 CaseBoundary\n")), ("batch", end(11, "cif: a.st: row 1: 40 Overflow\n", b"scan\n"))):
            self.assertIsNotNone(judged(command, ["a.st", "cases.csv" if command == "batch" else "rows.csv"], ended), ended)

    def test_places(self):
        line = "cif: a.cif: 6 Duplicate at 36 first 13\n"
        self.assertTrue(placed(end(7, line), 36))
        self.assertFalse(placed(end(7, line), 35))
        self.assertFalse(placed(end(7, line.replace("13", "36")), 36))

    def test_refused_memory(self):
        untouched = end(11, "cif: a.st: row 1: 40 Overflow\n")
        for ended in (untouched, end(5, "cif: out of memory\n"), end(5, ""), end(5, "cif: a.st: ro")):
            self.assertIsNone(fault_of(ended, untouched), ended)
        for ended in (OK, end(5, "cif: b"), end(5, "", b"PROGRAM"), Ended(-6, b"", b""), Ended(None, b"", b"")):
            self.assertIsNotNone(fault_of(ended, untouched), ended)
        self.assertIsNone(fault_of(end(5, "", b"PROGRAM"), Ended(0, b"PROGRAM p", b"")))
        self.assertEqual([list(chosen(*it)) for it in ((3, 0), (3, 5), (10, 4), (0, 4))], [[1, 2, 3], [1, 2, 3], [1, 2, 6, 10], []])


class Playing(unittest.TestCase):
    """Programs that play a part."""

    def setUp(self):
        room = tempfile.TemporaryDirectory()
        self.addCleanup(room.cleanup)
        self.addCleanup(os.chdir, os.getcwd())
        os.chdir(room.name)

    def program(self, body):
        file = pathlib.Path("program")
        file.write_text(f"#!/bin/sh\n{body}\n")
        file.chmod(0o755)
        found = self.runs_by(file)
        self.addCleanup(found.close)
        return found

    runs_by = Program

    def test_runs(self):
        for body, wanted in (("echo ok", OK), ('echo "$1" >&2; exit 3', Ended(3, b"", b"check\n")), ("kill -11 $$", Ended(-11, b"", b""))):
            self.assertEqual(self.program(body).run(["check", "a.cif"]), wanted)
        for body in ("sleep 60", "while :; do :; done"):
            program = self.program(body)
            program.seconds = 1
            self.assertEqual(program.run(["check", "a.cif"]), Ended(None, b"", b""))
            pathlib.Path("program").write_text("#!/bin/sh\necho ok\n")
            self.assertEqual(program.run(["check", "a.cif"]), OK)
        program = self.program("echo ok && exit 0; exit 4")
        self.assertEqual([program.run(["check"], 1, how).status for how in ("full", "closed")], [4, 4])
        self.assertEqual([program.run(["check"], 2, how)[:2] for how in ("full", "closed")], [OK[:2]] * 2)

    def test_words(self):
        """The words come as they are, whatever bytes they have."""
        words = ["check", "", "a\nb", "\udcff", "x" * 100000]
        program = self.program("printf '%s|' \"$@\"")
        self.assertEqual(program.run(words).out, b"".join(os.fsencode(it) + b"|" for it in words))
        self.assertEqual(program.run([]).out, b"|")
        with open(os.devnull, "w") as nothing, mock.patch.object(limited_runs, "TOLD", nothing), self.assertRaises(OSError):
            self.program("echo ok").run(["x" * 200000])

    def faults(self, body, command, count):
        return self.faults_of(self.program(body), command, count)

    def faults_of(self, program, command, count):
        texts, found = Texts(1, lambda text: b"PROGRAM p END_PROGRAM"), set()
        for number in range(1, count + 1):
            tried = Attack(program, texts, 1, command, number)
            tried.begin()
            found |= {tried.fault and tried.fault[0]}
        return found

    def test_what_is_found(self):
        """A crash, a hang, a status that is not in the table, an output with a refusal and a line of another form are each found."""
        for body, fault in (("kill -11 $$", "signal 11"), ("kill -6 $$", "signal 6"), ("exit 1", "status 1"), ("exit 9", "status 9"), ('echo ok; echo "cif: $2: 4 NotRead at 0" >&2; exit 7',
                            "an output with status 7"), ('echo "cif: $2: 4 NotRead" >&2; exit 7', "no line of status 7"), ("exit 0", "status 0 without its output")):
            self.assertEqual(self.faults(body, "check", 2), {fault}, body)
        program = self.program("sleep 60")
        program.seconds = 1
        self.assertEqual(self.faults_of(program, "check", 1), {"no end"})

    def test_attacks(self):
        refuses = 'echo "cif: $2: 4 NotRead at 0" >&2; exit 7'
        self.assertEqual(self.faults(refuses, "check", 8), {None})
        self.assertEqual(self.faults(refuses, "generate", 4), {None})
        self.assertIn("check and generate disagree", self.faults(f'[ "$1" = check ] && echo ok && exit 0; {refuses}', "generate", 2))
        self.assertIn("another answer in a second run", self.faults(f"[ -e again ] && rm again && echo ok && exit 0; : >again; {refuses}", "check", 8))
        self.assertIn("a generated program is not replayed: b'cif: a.st: row 1: 40 Overflow\\n'", self.faults(
            'case $1 in check) echo ok ;; generate) echo PROGRAM ;; *) echo "cif: a.st: row 1: 40 Overflow" >&2; exit 11 ;; esac', "generate", 1))
        self.assertIn("words.py has another answer", self.faults('echo "cif: not a command line" >&2; exit 2', "words", 40))

    def test_attacks_of_runs(self):
        self.assertEqual(self.faults('echo start', "simulate", 8), {None})
        self.assertEqual(self.faults('echo "cif: a.cif: 4 NotRead at 0" >&2; exit 7', "why", 4), {None})
        self.assertIn("check refuses the source in another way", self.faults('[ "$1" = check ] && echo ok && exit 0; echo "cif: a.cif: 4 NotRead at 0" >&2; exit 7', "why", 2))
        self.assertEqual(self.faults('[ "$1" = why ] && echo enabled || echo start || exit 4', "why", 4), {None})
        found = self.faults('[ "$1" = why ] && echo "blocks a" || echo start || exit 4', "why", 2)
        self.assertIn("why has b'blocks a\\n' and status 0, and simulate b''", found)

    def test_attacks_of_cases(self):
        self.assertEqual(self.faults('printf "scan\\n1\\n"', "batch", 4), {None})
        self.assertEqual(self.faults('[ "$1" = batch ] || echo scan', "batch", 4), {None})
        self.assertIn("replay has status 0 and b''", self.faults('[ "$1" = batch ] && printf "scan\\n2\\n" || printf "scan\\n1\\n"', "batch", 2))
        self.assertIn("replay has status 11 and b'cif: a.st: row 2: 40 Overflow\\n'",
                      self.faults('echo "cif: a.st: row $([ "$1" = batch ] && echo 1 || echo 2): 40 Overflow" >&2; exit 11', "batch", 2))

    def test_cases(self):
        choose, text = random.Random(1), b"PROGRAM p VAR_INPUT i: BOOL; END_VAR END_PROGRAM"
        made = [cases(choose, text) for _ in range(60)]
        self.assertTrue(any(b"\n1,FALSE\n2,FALSE\n1,FALSE\n" in it for it in made))

    def test_scripts(self):
        choose = random.Random(1)
        texts = Texts(1, lambda text: b"PROGRAM p END_PROGRAM")
        made = [(*texts.source_to_run(choose, number), number) for number in range(20)]
        self.assertTrue(any(b"." in path for _, paths, _ in made for path in paths))
        scripts = [script(choose, paths) for _, paths, _ in made]
        self.assertTrue(any(b"fire " in it for it in scripts) and any(b"set " in it for it in scripts))

    def test_texts(self):
        """An attack is made of its number alone, whatever was made before."""
        one, other = Texts(1, lambda text: b"PROGRAM p END_PROGRAM"), Texts(1, lambda text: b"PROGRAM p END_PROGRAM")
        for number in range(30):
            one.source(random.Random(number), number), one.program(random.Random(number), number)
        for number in (3, 77, 5000):
            for make in ("source", "program", "source_to_run"):
                made = [getattr(it, make)(random.Random(number), number) for it in (one, other)]
                self.assertEqual(made[0], made[1])

    def test_rows(self):
        text = (TOP / "examples/tank.st").read_bytes()
        self.assertEqual(inputs_of(text), [(b"start", b"FALSE"), (b"alarm", b"FALSE"), (b"drained", b"0")])
        named = b"PROGRAM p VAR_INPUT I0_a: BOOL; I1_END_VAR: LINT (2 .. 3); END_VAR END_PROGRAM"
        self.assertEqual(inputs_of(named), [(b"I0_a", b"FALSE"), (b"I1_END_VAR", b"2")])
        self.assertEqual(plain_rows(text, 1), b"scan,start,alarm,drained\n1,FALSE,FALSE,0\n")
        self.assertEqual(inputs_of(b"PROGRAM p VAR_INPUT a: BOOL; VAR_INPUT b: BOOL; END_VAR var_input c: LINT(-4..1);"), [(b"b", b"FALSE")])

    @unittest.skipUnless(shutil.which("gcc"), "there is no gcc, which compiles what refuses memory")
    def test_refused_requests(self):
        """A program that looks at its first two requests for memory alone."""
        body = '#include <stdlib.h>\n#include <string.h>\n#include <unistd.h>\n'
        body += 'int main(void) {\n  char *one = malloc(3), *two = one ? realloc(one, 9) : 0, *last;\n  if (!two) _exit(5);\n'
        body += '  last = malloc(5);\n  memset(last, 1, 5);\n  if (write(1, "ok\\n", 3) != 3) _exit(4);\n  _exit(last[4] - 1);\n}\n'
        pathlib.Path("program.c").write_text(body)
        subprocess.run(["gcc", "-O0", "-fno-builtin", "-o", "made", "program.c"], check=True)
        self.assertTrue(refuse_memory.compiled())
        refusing = refuse_memory.Refusing("made")
        self.addCleanup(lambda: [os.close(it) for it in refusing.program.outlets])
        self.assertEqual(refusing.run(["check"], 0), (OK, 3))
        ends, count, found = refuse_memory.tried(refusing, ["check"], 0, 0)
        self.assertEqual((count, ends.total()), (3, 6))
        self.assertEqual(found, [f"FOUND  check, request 3{it} refused: signal 11" for it in ("", " and all behind it")])


@unittest.skipUnless(limited_runs.compiler(), "there is no C compiler, which compiles what starts processes")
class PlayingQuickly(Playing):
    """The same by what starts processes quickly."""

    @classmethod
    def setUpClass(cls):
        room = tempfile.TemporaryDirectory()
        cls.addClassCleanup(room.cleanup)
        runner = limited_runs.compiled(room.name)
        cls.runs_by = lambda self, file: Quick(file, runner)

    def test_rows(self):
        """(What needs no program is tested once.)"""

    test_cases = test_scripts = test_texts = test_refused_requests = test_rows

    def test_less_memory(self):
        """With less memory a run is the same, or has status 5; else that is found."""
        for told, fault in (("exit 5", None), ("exit 7", "status 7"), ("echo wrong; exit 5", "another output"), ("kill -11 $$", "signal 11")):
            found = self.faults(f"[ $(ulimit -v) -gt 400000 ] || {{ {told}; }}; echo ok || exit 4", "check", 60)
            self.assertEqual({it and it.partition(" with ")[0] for it in found}, {None, fault}, told)

    def test_limits(self):
        program = self.program("ulimit -v; ulimit -t; ulimit -c; cat")
        told = program.run(["check"])
        self.assertEqual((told.status, told.out), (0, b"524288\n10\n0\n"))
        self.assertEqual(program.run(["check"], megabytes=64).out, b"65536\n10\n0\n")

    def test_its_end(self):
        """What it started ends with it."""
        program, number = self.program("echo $$ >new && mv new number; exec sleep 60"), pathlib.Path("number")
        program.started = program.start()
        program.started.stdin.write(limited_runs.REQUEST.pack(0, 0, 0, 0, 0))
        program.started.stdin.flush()
        self.assertTrue(comes(number.is_file))
        process = int(number.read_text())
        program.close()
        program.outlets.clear()
        self.assertTrue(comes(lambda: all(it != process or has_ended for it, has_ended, _ in building.processes())))


def comes(is_so):
    """Whether it is so within some seconds."""
    end = time.monotonic() + 20
    while not is_so() and time.monotonic() < end:
        time.sleep(0.01)
    return is_so()


class Whole(unittest.TestCase):
    """All of `attack.py` over a program that plays a part."""

    def setUp(self):
        room = tempfile.TemporaryDirectory()
        self.addCleanup(room.cleanup)
        self.room = pathlib.Path(room.name)

    def attacked(self, body, *words):
        file = self.room / "program"
        file.write_text(f"#!/bin/sh\n{body}\n")
        file.chmod(0o755)
        command = [sys.executable, TOP / "tools/attack.py", file, "--keep", self.room, *words]
        ran = subprocess.run(command, capture_output=True, text=True, timeout=300)
        self.assertEqual(ran.stderr, "")
        return ran.returncode, ran.stdout.splitlines()

    def test_in_processes(self):
        """Several processes make and find the same as one, and keep what they found."""
        body = 'case $(wc -c <"$2") in *7) kill -11 $$ ;; *) echo "cif: $2: 4 NotRead at 0" >&2; exit 7 ;; esac'
        ends = [self.attacked(body, "--count", "60", "--seed", "7", "check", *jobs) for jobs in ((), ("-j", "3"))]
        for status, lines in ends:
            self.assertEqual(status, 1)
            self.assertRegex(lines[-5], "^check: 60 attacks in [0-9]+ runs; status -11: [1-9][0-9]*, 4 NotRead: [1-9][0-9]*$")
            self.assertRegex(lines[-4], "^runs of check by status: -11: [1-9][0-9]*, 7: [1-9][0-9]*; none with 0, 2, 3, 4, 5, 6, 8$")
            self.assertRegex(lines[-1], "^[1-9][0-9]* findings$")
        self.assertEqual(*(sorted(lines[:-2]) for _, lines in ends))
        self.assertEqual(f"{len(list(self.room.glob('check-7-*/a.cif')))} findings", ends[0][1][-1])

    def test_without_findings(self):
        self.assertEqual(self.attacked("echo ok", "--count", "3", "check")[1][-1], "0 findings")


if __name__ == "__main__":
    unittest.main()
