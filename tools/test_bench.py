#!/usr/bin/env python3
"""Tests `legend`, `wave`, `draw` and `wrap` of tools/bench.

    tools/test_bench.py [PROGRAM]

PROGRAM is by default the one that the environment variable CIF_PROGRAM names, else the proved program of this checkout, else the one
compiled without proofs; without any, only what needs no program is tested. Graphviz and vcd2fst of GTKWave are run where they are installed.
"""
import json
import os
import pathlib
import random
import re
import shutil
import subprocess
import sys
import tempfile
import unittest
import unittest.mock
import xml.etree.ElementTree as tree

import compare_scans
from bench import expressions, legend
from bench.__main__ import answer
from bench.faults import Fault
from bench.models import Model
from bench.tables import Table, shown
from plain_data import Values
from plain_expressions import ExpressionReader, evaluated
from plain_programs import Program
from random_sources import instances_together
from plain_tokens import RESERVED

TOP = pathlib.Path(__file__).resolve().parent.parent
BUILT = [TOP / "crates/cif_cli/out/cif_cli", TOP / "crates/cif_cli/out/unproved/cif_cli"]
GIVEN = os.environ.get("CIF_PROGRAM")
PROGRAM = pathlib.Path(GIVEN).resolve() if GIVEN else next((it for it in BUILT if it.exists()), None)
EXAMPLES = sorted(it.stem for it in (TOP / "examples").glob("*.cif"))
TRIALS = 6
SVG = "{http://www.w3.org/2000/svg}"


def rows_file(name):
    rows = TOP / "examples" / f"{name}-rows.csv"
    return rows if rows.exists() else TOP / "examples/rows.csv"


def source(name):
    return TOP / "examples" / f"{name}.cif"


class Bench(unittest.TestCase):
    def setUp(self):
        room = tempfile.TemporaryDirectory()
        self.addCleanup(room.cleanup)
        self.room = pathlib.Path(room.name)
        self.addCleanup(os.chdir, os.getcwd())
        os.chdir(self.room)

    def run_bench(self, *words):
        ran = subprocess.run([sys.executable, TOP / "tools/bench", *words], cwd=self.room, stdin=subprocess.DEVNULL, capture_output=True,
                             timeout=120, check=False)
        return ran.returncode, ran.stdout.decode(), ran.stderr.decode("utf-8", "surrogateescape")

    def answer(self, *words):
        """What is written for the words, without a process of its own."""
        return answer(list(map(str, words)))

    def write(self, name, text):
        (self.room / name).write_text(text)
        return name

    def run_program(self, *words):
        ran = subprocess.run(["bash", "-c", 'ulimit -S -s 65536; exec "$@"', "bash", PROGRAM, *words], cwd=self.room, stdin=subprocess.DEVNULL,
                             capture_output=True, text=True, timeout=120, check=False)
        self.assertEqual((ran.returncode, ran.stderr), (0, ""), words)
        return ran.stdout

    def generated(self, name, *options):
        """The file of the program of an example."""
        return self.write(f"{name}.st", self.run_program("generate", source(name), *options))


class Faults(Bench):
    """Each fault has one line and its status."""

    def fault(self, status, line, *words):
        with self.assertRaises(Fault) as caught:
            self.answer(*words)
        self.assertEqual((caught.exception.status, caught.exception.line), (status, f"cif: {line}"), words)

    def test_processes(self):
        """A fault is a line on standard error, and a status."""
        self.assertEqual(self.run_bench("draw"), (2, "", "cif: not a command line\n"))
        self.assertEqual(self.run_bench("draw", "no\udcff\u00e4"), (3, "", "cif: cannot read no\udcff\u00e4\n"))
        self.assertEqual(self.run_bench("draw", source("lamp")), (0, self.answer("draw", source("lamp")), ""))

    def test_words(self):
        for words in ([], ["legend"], ["legend", "a", "b", "c"], ["legend", ""], ["legend", "a", "--json", "--st"], ["legend", "a", "--svg"],
                      ["draw", "a", "b"], ["wave", "a"], ["wave", "a", "b", "c", "d"], ["wrap", "a", "b"], ["wrap", "a", "--plcopen"],
                      ["wrap", "a", "--plcopen", ""], ["wrap", "--codesys", "--twincat", "a"], ["look", "a"], ["--help"]):
            self.fault(2, "not a command line", *words)

    def test_files(self):
        self.fault(3, "cannot read no.cif", "legend", "no.cif")
        self.fault(3, "cannot read .", "draw", ".")
        self.fault(3, "cannot read no.csv", "wave", source("lamp"), "no.csv")
        self.fault(3, "cannot read no.st", "legend", source("lamp"), "no.st")
        (self.room / "long.cif").write_bytes(b" " * 4194305)
        self.fault(6, "long.cif is longer than 4194304 bytes", "draw", "long.cif")

    def test_sources(self):
        for text in ("plant", "plant A: end", "plant A: edge c; end", "input int i; alg int x = 1 div i;", "(" * 3000, "\u00e4",
                     "automaton A: location; end", "alg int v = v;"):
            self.fault(7, "a.cif: refused; cif check a.cif says why", "draw", self.write("a.cif", text))
        self.write("a.cif", "event e; plant A: location: initial; edge e; end")
        self.fault(8, "a.cif: 28 Unclassed event e", "legend", "a.cif")
        self.fault(8, "a.cif: 28 Unclassed event e", "wrap", "a.cif")
        self.answer("draw", "a.cif")
        self.write("a.cif", "controllable e; " + "".join(f"plant {it}: location: initial; {'edge e; ' * 129}end " for it in "AB"))
        self.fault(8, "a.cif: refused; cif check a.cif says why", "draw", "a.cif")

    def test_programs(self):
        shutil.copy(source("lamp"), self.room / "lamp.cif")
        self.write("a.st", "PROGRAM")
        self.fault(9, "a.st: refused; cif replay a.st ROWS says why", "legend", "lamp.cif", "a.st")
        self.write("a.st", "PROGRAM p x := 1; END_PROGRAM")
        self.fault(9, "a.st: refused; cif replay a.st ROWS says why", "legend", "lamp.cif", "a.st")
        shutil.copy(TOP / "examples/tank.st", self.room / "a.st")
        self.fault(9, "a.st: not the program of lamp.cif", "wrap", "lamp.cif", "--plcopen", "a.st")

    def test_tables(self):
        head = "scan,P0_Button,P1_Lamp,R0_lit\n"
        shutil.copy(source("lamp"), self.room / "lamp.cif")
        for text, told in (("", "44 Header column 1"), ("scan,P0_Button\n", "44 Header column 3"), (head.replace("P1", "P2"), "44 Header column 3"),
                           (head + "1,0,0\n", "46 RowLength row 1"), (head + "1,0,2,TRUE\n", "45 Cell row 1 column 3"),
                           (head + "1,0,0,2\n", "45 Cell row 1 column 4"), (head + "1,0,0,TRUE\n3,0,0,TRUE\n", "45 Cell row 2 column 1"),
                           (head + "x,0,0,TRUE\n", "45 Cell row 1 column 1"), (head + "1,00,0,TRUE\n", "45 Cell row 1 column 2")):
            self.fault(10, f"t.csv: {told}", "wave", "lamp.cif", self.write("t.csv", text))
        self.write("t.csv", head + "2,0,0,TRUE\n")
        self.fault(10, "r.csv: no row has the scan 2 of the table", "wave", "lamp.cif", "t.csv", self.write("r.csv", "scan,I0_i_button\n1,0\n"))
        self.fault(10, "r.csv: 44 Header column 2", "wave", "lamp.cif", "t.csv", self.write("r.csv", "scan,scan\n1,1\n"))
        self.write("t.csv", head + "".join(f"{scan},0,0,TRUE\n" for scan in range(1, 1002)))
        self.answer("wave", "lamp.cif", "t.csv")
        self.fault(10, "t.csv: a picture has at most 1000 scans: cut the table, and keep its first line", "wave", "lamp.cif", "t.csv", "--svg")

    @unittest.skipUnless(os.path.exists("/dev/full"), "there is no file that is full")
    def test_output(self):
        with open("/dev/full", "w") as full:
            ran = subprocess.run([sys.executable, TOP / "tools/bench", "draw", source("cell")], stdout=full, stderr=subprocess.PIPE, check=False)
        self.assertEqual((ran.returncode, ran.stderr), (4, b"cif: cannot write\n"))


class Legends(Bench):
    LAMP = """\
Locations of automata
  L0_Button P0_Button  Button  0 Up, 1 Down
  L1_Lamp P1_Lamp      Lamp    0 Dark, 1 Lit

Inputs
  I0_i_button H0_i_button  i_button  bool

Algebraic variables
  R0_lit  lit  bool
"""

    def test_lamp(self):
        text = self.answer("legend", source("lamp"))
        self.assertTrue(text.startswith(self.LAMP), text)
        self.assertTrue(text.endswith("""\
Controllable events, as a round tries them
  1. Lamp.c_on
      Lamp  Dark -> Lit  15:10
  2. Lamp.c_off
      Lamp  Lit -> Dark  17:10
"""), text)

    def test_instances(self):
        """Instances have their full paths, events those of the arguments, and places those of the definition."""
        text = self.answer("legend", source("pumps"))
        self.assertIn("  L2_north_valve P2_north_valve  north.valve  0 Shut, 1 Opening, 2 Open, 3 Closing\n", text)
        self.assertIn("  V2_south_pump_starts Q2_south_pump_starts  south.pump.starts  int 0 .. 999\n", text)
        at = [number for number, line in enumerate(source("pumps").read_text().splitlines(), 1) if "edge opened" in line][0]
        self.assertIn(f". southOpened\n      south.valve  Opening -> Open  {at}:10\n", text)
        self.assertIn(". north.pump.stroke\n      Sump", text)

    def test_names(self):
        """JSON has the names of literals and locations, ranges, first values, roles and places."""
        self.write("a.cif", "enum Mode = idle, busy; input Mode m; controllable int[0..3] c;\nplant A: disc Mode n = busy; disc bool b; disc int k; "
                   "location: initial; edge c!k; end plant B: monitor; alphabet; location x; location y: initial; edge c? goto x; end")
        found = json.loads(self.answer("legend", "a.cif", "--json"))
        held = {it["path"]: it for it in found["variables"]}
        self.assertEqual((held["m"]["variables"], held["m"]["names"], held["m"]["first"]), (["I0_m", "H0_m"], ["idle", "busy"], 0))
        self.assertEqual((held["A.n"]["kind"], held["A.n"]["first"], held["A.b"]["first"]), ("enum", 1, False))
        self.assertEqual(held["A.k"]["range"], [-2**31, 2**31 - 1])
        self.assertEqual((held["B"]["names"], held["B"]["first"]), (["x", "y"], 1))
        self.assertEqual([it["path"] for it in found["events"]["controllable"]], ["c"])
        edges = found["events"]["controllable"][0]["edges"]
        self.assertEqual([(it["automaton"], it["role"]) for it in edges], [("A", "sends"), ("B", "receives")])
        self.assertEqual((edges[0]["line"], edges[1]["from"], edges[1]["to"]), (2, "y", "x"))

    def test_never(self):
        self.write("a.cif", "controllable c, d; plant A: location: initial; edge c; end plant B: alphabet c; location: initial; end")
        self.assertIn("  never: c, d\n", self.answer("legend", "a.cif"))

    def test_comment(self):
        """The comment has no end within it, and is ASCII."""
        name = self.write("(*a*)\u00e4.cif", source("lamp").read_text())
        text = self.answer("legend", name, "--st")
        self.assertEqual((text[:3], text[-3:], text.count("(*"), text.count("*)")), ("(* ", "*)\n", 1, 1))
        self.assertTrue(text.isascii())


@unittest.skipUnless(PROGRAM, "no program was built: what is written beside a program is not tested")
class Programs(Bench):
    """The lines of events, against the text of programs."""

    def lines_of_events(self, found, program):
        """In the lines of an event, the locations that are stored are those of the automata that take an edge."""
        lines = program.splitlines()
        names = {it["path"]: it["variables"][0] for it in found["variables"] if it["what"] == "location"}
        for event in sum(found["events"].values(), []):
            if event["choices"]:
                first, last = event["lines"]
                text = "\n".join(lines[first - 1:last])
                wanted = {names[it["automaton"]] for it in event["edges"] if "from" in it}
                self.assertEqual(set(re.findall(r"^ *(L\d+_\w+) := ", text, re.M)), wanted, event)
                self.assertEqual(len(re.findall("^ *T0_fired := TRUE;", text, re.M)), event["choices"])

    def whole_loops(self, found, program):
        """The lines of the events of a class are all of its loop, but for its first and last two."""
        lines = program.splitlines()
        starts = [at for at, line in enumerate(lines, 1) if line.startswith("WHILE ")]
        for start, word in zip(starts, ("uncontrollable", "controllable")):
            at = start + 2
            for event in found["events"][word]:
                if event["choices"]:
                    self.assertEqual(event["lines"][0], at)
                    at = event["lines"][1] + 1
            self.assertEqual(lines[at:at + 1], ["END_WHILE;"])

    def test_examples(self):
        for name in EXAMPLES:
            file = self.generated(name, "--unc", "2", "--con", "3")
            found, program = json.loads(self.answer("legend", source(name), file, "--json")), (self.room / file).read_text()
            self.lines_of_events(found, program)
            self.whole_loops(found, program)
            self.assertEqual([it["variable"] for it in found["own"]], re.findall(r"^  (T\w+):", program, re.M))
            held = {it for one in found["variables"] for it in one["variables"]}
            self.assertEqual(held, set(re.findall(r"^  ([LVHIPQR]\d\w*):", program, re.M)))

    def test_random_sources(self):
        choose = random.Random(11)
        for _ in range(TRIALS):
            trial = compare_scans.made(choose)
            file = self.write("a.cif", trial.text)
            program = self.run_program("generate", file)
            found = json.loads(self.answer("legend", file, self.write("a.st", program), "--json"))
            self.lines_of_events(found, program)
            self.whole_loops(found, program)

    def test_comment_above_the_program(self):
        """The program with the comment has the same table, and the lines of the comment are those of both together."""
        file = self.generated("cell")
        comment = self.answer("legend", source("cell"), file, "--st")
        whole = self.write("both.st", comment + (self.room / file).read_text())
        rows = rows_file("cell")
        self.assertEqual(self.run_program("replay", whole, rows), self.run_program("replay", file, rows))
        first, last = re.search(r"motor\.c_on, lines (\d+) to (\d+)", comment).groups()
        text = "\n".join((self.room / whole).read_text().splitlines()[int(first) - 1:int(last)])
        self.assertTrue(text.startswith("  IF L3_motor = 0 AND ") and text.endswith("  END_IF;"), text)

    def test_program_of_another_source(self):
        file = self.generated("lamp")
        self.write("a.cif", source("lamp").read_text().replace("controllable c_on, c_off;", "controllable c_on, c_off, c_also;").replace(
            "edge c_off goto Dark;", "edge c_off goto Dark; edge c_also goto Dark;"))
        self.assertEqual(self.run_bench("legend", "a.cif", file), (9, "", "cif: lamp.st: not the program of a.cif\n"))



# ---- waves


def read_vcd(text):
    """The values of a VCD file by full paths: for each time a dictionary, in which values stay until they change."""
    scopes, names, values, found, time = [], {}, {}, {}, None
    for line in text.splitlines():
        words = line.split()
        if line.startswith("$scope"):
            scopes.append(words[2])
        elif line.startswith("$upscope"):
            scopes.pop()
        elif line.startswith("$var"):
            names[words[3]] = ".".join(scopes[1:] + [words[4]])
        elif line.startswith("#"):
            time = int(line[1:])
            found[time] = values = dict(values)
        elif time is not None and words and not line.startswith("$"):
            value, code = (words[0][1:], words[1]) if words[0][0] in "bs" else (words[0][0], words[0][1:])
            if words[0][0] == "b":
                value = str(int(value, 2) - (2**64 if int(value, 2) >= 2**63 else 0))
            values[names[code]] = value
    return found


def wanted_waves(file, table, rows):
    """The same from the table itself."""
    model = Model(str(file), file.read_text())
    found = Table(model, str(table), str(rows))
    return {scan: {it.held.path: shown(it.held, it.values[place]).replace("FALSE", "0").replace("TRUE", "1") for it in found.signals}
            for place, scan in enumerate(found.scans)}


@unittest.skipUnless(PROGRAM, "no program was built: tables are not shown")
class Waves(Bench):
    def tables(self):
        for name in EXAMPLES:
            file, rows = self.generated(name, "--unc", "2", "--con", "1"), rows_file(name)
            table = self.write(f"{name}-table.csv", self.run_program("replay", file, rows))
            yield name, table, rows

    def test_examples(self):
        for name, table, rows in self.tables():
            wanted = wanted_waves(source(name), self.room / table, rows)
            text = self.answer("wave", source(name), table, rows)
            found = read_vcd(text)
            self.assertEqual({scan: found[scan] for scan in wanted}, wanted)
            self.assertEqual(max(found), max(wanted) + 1)
            self.picture(name, table, rows, wanted)
            self.converted(name, text, wanted)

    def picture(self, name, table, rows, wanted):
        """The picture is XML, and has a line for each signal and the names of its values."""
        found = tree.fromstring(self.answer("wave", source(name), table, rows, "--svg").encode("latin-1"))
        texts = {it.text for it in found.iter(SVG + "text")}
        titles = {it.text for it in found.iter(SVG + "title")}
        model = Model(name, source(name).read_text())
        signals = model.inputs() + model.outputs()
        self.assertLessEqual({it.path for it in signals}, texts)
        of_kind = [it.path for it in signals if it.kind != "bool"]
        self.assertEqual(titles, {values[path] for values in wanted.values() for path in of_kind})
        self.assertLessEqual(titles, texts)

    def converted(self, name, text, wanted):
        """GTKWave's own programs read the file, and give the same values back."""
        if not shutil.which("vcd2fst") or not shutil.which("fst2vcd"):
            return
        self.write("a.vcd", text)
        subprocess.run(["vcd2fst", "a.vcd", "a.fst"], cwd=self.room, capture_output=True, timeout=60, check=True)
        back = subprocess.run(["fst2vcd", "-f", "a.fst"], cwd=self.room, capture_output=True, text=True, timeout=60, check=True).stdout
        found, values = read_vcd(back), {}
        for scan in wanted:
            values = found.get(scan, values)
            self.assertEqual(values, wanted[scan], name)

    def test_part_of_a_table(self):
        """A table may begin later, and have no rows beside it."""
        table = self.run_program("replay", self.generated("cell"), rows_file("cell")).splitlines()
        self.write("part.csv", "\n".join(table[:1] + table[4:6]) + "\n")
        found = read_vcd(self.answer("wave", source("cell"), "part.csv", rows_file("cell")))
        self.assertEqual(sorted(found), [4, 5, 6])
        self.assertEqual((found[4]["i_part"], found[5]["i_part"]), ("1", "0"))
        self.assertNotIn("i_part", read_vcd(self.answer("wave", source("cell"), "part.csv"))[4])
        self.write("none.csv", table[0] + "\n")
        self.assertEqual(read_vcd(self.answer("wave", source("cell"), "none.csv")), {})
        tree.fromstring(self.answer("wave", source("cell"), "none.csv", "--svg").encode())


class Cases(Bench):
    """The tables of `batch`, one after the other, and its cases. The tables of VALUES are those of the worked example for `batch`."""
    VALUES = "scan,R0_y\n1,1\n2,2\nscan,R0_y\n1,3\n2,3\nscan,R0_y\n1,0\n"
    GIVEN = "scan,I0_a\n1,1\n2,2\n1,3\n2,3\n1,0\n"

    def setUp(self):
        super().setUp()
        self.write("b.cif", "input int[0..9] a; alg int y = a;")

    def wave(self, table, cases=None, *options):
        files = [self.write("t.csv", table)] + ([] if cases is None else [self.write("c.csv", cases)])
        return self.answer("wave", "b.cif", *files, *options)

    def fault(self, line, table, cases=None):
        with self.assertRaises(Fault) as caught:
            self.wave(table, cases)
        self.assertEqual((caught.exception.status, caught.exception.line), (10, f"cif: {line}"))

    def test_time_goes_on(self):
        text = self.wave(self.VALUES, self.GIVEN)
        self.assertTrue(text.startswith("$comment scans of 3 cases of b: one takes one unit of time $end\n"), text)
        names = ("case", "scan", "a", "y")
        wanted = {1: "1111", 2: "1222", 3: "2133", 4: "2233", 5: "3100", 6: "3100"}
        self.assertEqual(read_vcd(text), {time: dict(zip(names, values)) for time, values in wanted.items()})
        self.assertEqual(read_vcd(self.wave(self.VALUES))[3], {"case": "2", "scan": "1", "y": "3"})

    def test_gtkwave(self):
        """GTKWave's own programs give the same values back."""
        if not shutil.which("vcd2fst") or not shutil.which("fst2vcd"):
            self.skipTest("GTKWave is not installed")
        text = self.wave(self.VALUES, self.GIVEN)
        self.write("a.vcd", text)
        subprocess.run(["vcd2fst", "a.vcd", "a.fst"], cwd=self.room, capture_output=True, timeout=60, check=True)
        back = subprocess.run(["fst2vcd", "-f", "a.fst"], cwd=self.room, capture_output=True, text=True, timeout=60, check=True).stdout
        found = read_vcd(text)
        self.assertEqual({time: values for time, values in read_vcd(back).items() if time < 6}, {time: found[time] for time in range(1, 6)})

    def test_picture(self):
        """No value goes on from a case into the next one; each case has its number and numbers its scans from 1."""
        found = tree.fromstring(self.wave(self.VALUES, self.GIVEN, "--svg"))
        texts = {word: [it.text for it in found.iter(SVG + "text") if it.get("class", "") == word] for word in ("", "case", "scan", "name")}
        self.assertEqual(texts[""], ["case", "scan", "y"])
        self.assertEqual((texts["case"], texts["scan"]), (["1", "2", "3"], ["1", "2", "1", "2", "1"]))
        self.assertEqual(texts["name"], ["1", "2", "3", "0"] * 2)
        marks = [float(it.get("x1")) for it in found.iter(SVG + "line") if it.get("class") == "mark"]
        self.assertEqual(len(marks), 2)
        boxes = [[float(it.split(",")[0]) for it in one.get("points").split()] for one in found.iter(SVG + "polygon")]
        self.assertFalse([box for box in boxes for mark in marks if min(box) <= mark <= max(box)])
        self.assertLessEqual(max(map(max, boxes)), float(found.get("width")))
        self.write("b.cif", "input int[0..9] a; alg bool y = a > 0;")
        found = tree.fromstring(self.wave(self.VALUES.replace("2,2", "2,1").replace(",3", ",1"), None, "--svg"))
        self.assertEqual([it.get("class") for it in found.iter(SVG + "polyline")], ["wave"] * 3)

    def test_cell(self):
        """The first three scans of the cell, once more as a case of their own."""
        lines, rows = compare_scans.CELL.splitlines(True), rows_file("cell").read_text().splitlines(True)
        self.write("t.csv", "".join(lines + lines[:4]))
        found = read_vcd(self.answer("wave", source("cell"), "t.csv", self.write("c.csv", "".join(rows + rows[1:4]))))
        self.write("t.csv", "".join(lines))
        alone = read_vcd(self.answer("wave", source("cell"), "t.csv", rows_file("cell")))
        for time in range(1, 14):
            case, scan = divmod(time - 1, 10)
            wanted = {"case": str(case + 1), "scan": str(scan + 1), **alone[scan + 1]}
            self.assertEqual(found[time], wanted)
        self.assertEqual(max(found), 14)

    def test_one_case(self):
        """One case is what `replay` gives."""
        table, rows = "scan,R0_y\n1,1\n2,2\n", "scan,I0_a\n1,1\n2,2\n"
        self.assertEqual(self.wave(table, rows), """\
$comment scans of b: one takes one unit of time $end
$timescale 1 ms $end
$scope module b $end
$var integer 64 ! a $end
$var integer 64 " y $end
$upscope $end
$enddefinitions $end
#1
b1 !
b1 "
#2
b10 !
b10 "
#3
""")
        self.assertNotIn("case", self.wave(table, rows, "--svg"))

    def test_no_case(self):
        """Of a cases file without a row `batch` writes nothing."""
        self.assertEqual(read_vcd(self.wave("", "scan,I0_a\n")), {})
        tree.fromstring(self.wave("", "scan,I0_a\n", "--svg"))
        self.fault("t.csv: 44 Header column 1", "")
        self.fault("c.csv: row 1: scan 1 of case 1 is not in t.csv", "", self.GIVEN)

    def test_names_of_the_source(self):
        """Where the source has the names of the counters, these are others."""
        self.write("b.cif", "alg int $case = 7; group scan: alg int x = 8; end")
        found = read_vcd(self.answer("wave", "b.cif", self.write("t.csv", "scan,R0_case,R1_scan_x\n1,7,8\nscan,R0_case,R1_scan_x\n1,7,8\n")))
        self.assertEqual(found[2], {"case_": "2", "scan_": "1", "case": "7", "scan.x": "8"})

    def test_files_that_disagree(self):
        """The first row is named that only one of the files has."""
        for table, cases, told in (
                (self.VALUES, "scan,I0_a\n1,1\n2,2\n1,3\n2,3\n", "t.csv: row 5: scan 1 of case 3 is not in c.csv"),
                (self.VALUES, self.GIVEN + "1,4\n", "c.csv: row 6: scan 1 of case 4 is not in t.csv"),
                (self.VALUES, self.GIVEN + "2,4\n", "c.csv: row 6: scan 2 of case 3 is not in t.csv"),
                (self.VALUES, "scan,I0_a\n1,1\n1,3\n2,3\n1,0\n", "t.csv: row 2: scan 2 of case 1 is not in c.csv"),
                (self.VALUES, "scan,I0_a\n1,1\n2,2\n3,2\n1,3\n2,3\n1,0\n", "c.csv: row 3: scan 3 of case 1 is not in t.csv"),
                (self.VALUES, "scan,I0_a\n", "t.csv: row 1: scan 1 of case 1 is not in c.csv"),
                ("scan,R0_y\n1,1\n2,2\n", self.GIVEN, "c.csv: row 3: scan 1 of case 2 is not in t.csv"),
                ("scan,R0_y\n2,2\n", self.GIVEN, "c.csv: row 1: scan 1 of case 1 is not in t.csv"),
                ("scan,R0_y\n2,2\n" + self.VALUES[18:], self.GIVEN, "c.csv: row 1: scan 1 of case 1 is not in t.csv")):
            self.fault(told, table, cases)

    def test_broken_files(self):
        head = "scan,R0_y\n"
        for table, told in ((head * 2 + "1,1\n", "case 1 has no scan"), (self.VALUES + head, "case 4 has no scan"),
                            (head + "1,1\n" + head + "2,1\n", "45 Cell row 2 column 1"), (head + "1,1\n1,1\n", "45 Cell row 2 column 1"),
                            (head + "1,1\n" + head + "1,x\n", "45 Cell row 2 column 2"), (head + "1,1\nscan,R0_z\n", "45 Cell row 2 column 1")):
            self.fault(f"t.csv: {told}", table)
        head = "scan,I0_a\n"
        for cases, told in (("2,1\n", "48 CaseBoundary row 1"), ("1,1\n2,1\n1,1\n3,1\n", "48 CaseBoundary row 4"), ("1,1\n3,10\n", "45 Cell row 2 column 2"),
                            ("1,1\n3,1,1\n", "46 RowLength row 2"), ("1,1\n100001,1\n", "45 Cell row 2 column 1"), ("0,1\n", "45 Cell row 1 column 1"),
                            ("01,1\n", "45 Cell row 1 column 1"), ("1,1\nscan,I0_a\n", "45 Cell row 2 column 1")):
            self.fault(f"c.csv: {told}", self.VALUES, head + cases)

    def test_most(self):
        """The rows of all cases are counted, and their headers are not."""
        self.assertEqual(max(read_vcd(self.wave("scan,R0_y\n1,1\n" * 1001))), 1002)
        with self.assertRaises(Fault) as caught:
            self.wave("scan,R0_y\n1,1\n" * 1001, None, "--svg")
        self.assertIn("at most 1000 scans", caught.exception.line)
        self.wave("scan,R0_y\n1,1\n" * 1000, None, "--svg")
        self.fault("t.csv: 47 TooManyRows", "scan,R0_y\n" * 2 + "1,1\n" * 100001)


class Numbers(Bench):
    def test_negative_and_large(self):
        self.write("a.cif", "input int i; alg int v = i * i, w = -i; alg bool b = i < 0;")
        self.write("t.csv", "scan,R0_v,R1_w,R2_b\n1,4611686018427387904,2147483648,TRUE\n2,1,-1,FALSE\n")
        found = read_vcd(self.answer("wave", "a.cif", "t.csv", self.write("r.csv", "I0_i,scan\n-2147483648,1\n1,2\n")))
        self.assertEqual(found[1], {"i": "-2147483648", "v": "4611686018427387904", "w": "2147483648", "b": "1"})
        self.assertEqual(found[2], {"i": "1", "v": "1", "w": "-1", "b": "0"})

    def test_long_names(self):
        """Where a name has no room it is cut, and its title has the whole."""
        values = ["aVeryLongNameOfALiteralWithMoreLettersThanFit", "b"]
        self.write("a.cif", f"enum T = {', '.join(values)}; alg T v = b;")
        self.write("t.csv", "scan,R0_v\n" + "".join(f"{scan},{scan % 2}\n" for scan in range(1, 9)))
        text = self.run_bench("wave", "a.cif", "t.csv", "--svg")[1]
        self.assertIn("<title>" + values[0] + "</title>", text)
        self.assertRegex(text, r">aVeryLong\w*\u2026</text>")

    def test_many_signals(self):
        """Each signal has a code of its own."""
        count = 300
        self.write("a.cif", "".join(f"alg int v{number} = {number};\n" for number in range(count)))
        names, values = [f"R{it}_v{it}" for it in range(count)], [str(it) for it in range(count)]
        self.write("t.csv", ",".join(["scan"] + names) + "\n" + ",".join(["1"] + values) + "\n")
        self.assertEqual(read_vcd(self.answer("wave", "a.cif", "t.csv"))[1], {f"v{it}": str(it) for it in range(count)})


# ---- drawings


def spelled(frame, slot):
    """A full path as it is written in a source."""
    return ".".join("$" + it if it in RESERVED else it for it in frame.path() + (slot.name,))


class Drawings(Bench):
    def test_examples(self):
        for name in EXAMPLES:
            text, model = self.answer("draw", source(name)), Model(name, source(name).read_text())
            self.assertEqual(text.count("subgraph cluster"), len(model.automata))
            self.assertEqual(len(re.findall(r"^    at\d+_\d+ \[", text, re.M)), sum(party.places for party in model.net.parties))
            for party in model.net.parties:
                self.assertRegex(text, rf'label="{re.escape(party.path)}\\l')
            self.drawn(name, text, model)

    def drawn(self, name, text, model):
        """Graphviz draws it without a word."""
        if not shutil.which("dot"):
            return
        ran = subprocess.run(["dot", "-Tsvg"], input=text, capture_output=True, text=True, timeout=60, check=True)
        self.assertEqual(ran.stderr, "", name)
        inner = "\n".join(tree.fromstring(ran.stdout).itertext())
        for number, _ in enumerate(model.automata):
            for place in model.locations(number):
                self.assertIn("" if place == "-" else place, inner)

    def test_lamp(self):
        text = self.answer("draw", source("lamp"))
        for line in ('    at0_0 [label="Up", peripheries=2];', '    at0_1 [label="Down"];', "    begin0 -> at0_0;",
                     '    at0_0 -> at0_1 [label="Button.u_press\\nwhen i_button", style=dashed];',
                     '    at1_1 -> at1_0 [label="Lamp.c_off", style=solid];',
                     '  label="\\lalg lit = Lamp.Lit\\linvariant Lamp.c_on needs Button.Down\\linvariant Lamp.c_off needs Button.Up\\l";'):
            self.assertIn(line + "\n", text)

    def test_instances(self):
        """Parameters are the arguments of the instance, and names are full paths."""
        text = self.answer("draw", source("pumps"))
        self.assertIn("south.valve.open\\nwhen Turn.South and Sump.level >= high", text)
        self.assertIn("north.pump.start\\nwhen Turn.North, north.valve.Open,\\nSump.level > 0", text)
        self.assertIn("drill.part := ?", self.answer("draw", source("handover")))

    def test_expressions(self):
        """What is written of a guard means, read at the top of the source, what the guard means in its place."""
        choose, tried = random.Random(4), 0
        while tried < 12:
            model = Model("random", instances_together(choose))
            values = Values(model.net.values.places)
            for frame, party in zip(model.automata, model.net.parties):
                for edge, arc in zip(frame.body.automaton.edges, party.arcs):
                    if edge.guards:
                        tried += 1
                        with unittest.mock.patch.object(expressions, "dotted", spelled):
                            text = expressions.several(frame, edge.guards)
                        self.same_value(choose, model, values, text, arc.guard)

    def same_value(self, choose, model, values, text, guard):
        reader = ExpressionReader(text)
        again = values.conjunction(model.frames[0], reader.listed(reader.expression))
        self.assertEqual(reader.next, len(reader.tokens), text)
        for _ in range(10):
            state = tuple(choose.randint(low, min(high, low + 9)) for low, high in model.net.ranges)
            self.assertEqual(evaluated(again, state), evaluated(guard, state), text)

    def test_forms(self):
        """Each form of an expression and of an update, in an instance with arguments that need parentheses, and with some that do not."""
        self.write("a.cif", """enum M = off, on; const int k = 2; input int[0..9] i; controllable int[0..9] h; controllable c; p: D(i + k, not (i = k), on);
            plant def D(alg int v; alg bool b; alg M m): disc int[-99..99] x; disc bool y; disc M z; location P: initial;
            edge c when -v < 2 * v - 1, not b or P => z = m do if v = 1, b: x := abs(min(x, v)) elif y: x := max(-x, +k) mod 3 div 1 else x := 0 end,
            y := if b: true elif y: x >= 0 <=> y else v != 3 end, z := m;
            edge h!if x > 9: 9 else 0 end goto Q; location Q; end""")
        text = self.answer("draw", "a.cif").replace("\\n", " ")
        for part in ("c when -(i + k) < 2 * (i + k) - 1, not (not (i = k)) or p.P => p.z = on do ",
                     "do if (i + k) = 1, not (i = k): p.x := abs(min(p.x, (i + k))) elif p.y: p.x := max(-p.x, +k) mod 3 div 1 else p.x := 0 end, "
                     "p.y := if not (i = k): true elif p.y: p.x >= 0 <=> p.y else (i + k) != 3 end, p.z := on",
                     "h!if p.x > 9: 9 else 0 end"):
            self.assertIn(part, text)

    def test_odd_names(self):
        """Reserved words of Graphviz and signs are quoted."""
        self.write("a.cif", "plant node: controllable edge1, digraph; location graph: initial; edge digraph goto strict; location strict; end")
        self.drawn("odd", self.answer("draw", "a.cif"), Model("a", (self.room / "a.cif").read_text()))


# ---- frames


# The part of the schema of TC6 that is written here, from knowledge of it: for each element its attributes that are required, and those of
# its elements that occur, in their order; a list of alternatives is one place, which occurs once or more.
SCHEMA = {
    "project": ([], ["fileHeader", "contentHeader", "types", "instances"]),
    "fileHeader": (["companyName", "productName", "productVersion", "creationDateTime"], []),
    "contentHeader": (["name"], ["Comment", "coordinateInfo"]),
    "coordinateInfo": ([], ["fbd", "ld", "sfc"]),
    "fbd": ([], ["scaling"]), "ld": ([], ["scaling"]), "sfc": ([], ["scaling"]), "scaling": (["x", "y"], []), "Comment": ([], []),
    "types": ([], ["dataTypes", "pous"]), "dataTypes": ([], []), "pous": ([], [["pou"]]),
    "pou": (["name", "pouType"], ["interface", "body"]),
    "interface": ([], [["localVars", "inputVars", "outputVars", "externalVars"]]),
    "localVars": ([], [["variable"]]), "inputVars": ([], [["variable"]]), "outputVars": ([], [["variable"]]),
    "externalVars": ([], [["variable"]]), "globalVars": ([], [["variable"]]),
    "variable": (["name"], ["type", "initialValue?", "documentation?"]),
    "type": ([], [["BOOL", "LINT", "subrangeSigned", "derived"]]),
    "subrangeSigned": ([], ["range", "baseType"]), "range": (["lower", "upper"], []), "baseType": ([], ["LINT"]), "derived": (["name"], []),
    "BOOL": ([], []), "LINT": ([], []), "initialValue": ([], ["simpleValue"]), "simpleValue": (["value"], []),
    "body": ([], ["ST"]), "ST": ([], ["xhtml"]), "documentation": ([], ["xhtml"]), "xhtml": ([], []),
    "instances": ([], ["configurations"]), "configurations": ([], [["configuration"]]), "configuration": (["name"], [["resource"]]),
    "resource": (["name"], [["task"], "globalVars?"]), "task": (["name", "priority"], [["pouInstance"]]), "pouInstance": (["name", "typeName"], []),
}
TC6 = "{http://www.plcopen.org/xml/tc6_0201}"


def pattern_of(part):
    """One place of a list of elements, as a pattern of names with a blank behind each."""
    if isinstance(part, list):
        return f"(?:(?:{'|'.join(part)}) )+"
    return f"(?:{part[:-1]} )?" if part.endswith("?") else f"{part} "


def of_schema(element):
    """What an element breaks of the schema."""
    name = element.tag.split("}")[1]
    if name == "xhtml":
        return [] if element.tag.startswith("{http://www.w3.org/1999/xhtml}") else ["namespace"]
    attributes, parts = SCHEMA[name]
    names = [it.tag.split("}")[1] for it in element]
    form = "".join(map(pattern_of, parts))
    broken = [f"{name} lacks {it}" for it in attributes if it not in element.attrib]
    if not element.tag.startswith(TC6) or not re.fullmatch(form, "".join(it + " " for it in names)):
        broken.append(f"{name} has {names}")
    return broken + [it for inner in element for it in of_schema(inner)]


class Frames(Bench):
    def test_cell(self):
        text = self.answer("wrap", source("cell"), "--codesys")
        self.assertEqual(text, self.answer("wrap", source("cell")))
        self.assertIn("tried with no vendor", text)
        for line in ("  motor_On: BOOL; (* motor is at On *)", "GVL.motor_On := CifScan.P3_motor = 1;", "  I0_i_start := GVL.i_start,",
                     "GVL.Run_count := CifScan.Q0_Run_count;", "GVL.full := CifScan.R0_full;"):
            self.assertIn(line + "\n", text)
        self.assertIn("  i_start AT %I*: BOOL; (* i_start *)\n", self.answer("wrap", source("cell"), "--twincat"))

    def test_names(self):
        """Names are identifiers, and differ in more than the case of letters; an input is kept in its range."""
        self.write("a.cif", "enum T = a, A, on; input int[2..5] main; input T t; group x: alg bool y_z = true; end group x_y: alg bool z = true; end "
                   "alg bool $end = true, If = true, __v__w = true, if_ = false, END_If = true, char = true;")
        text = self.answer("wrap", "a.cif")
        names = re.findall(r"^  (\w+): ", text, re.M)
        self.assertEqual(names, ["x_main", "t", "end", "x_If", "v_w", "x_if_2", "x_END_If", "x_char", "x_y_z", "x_y_z_2"])
        self.assertEqual(len({it.lower() for it in names}), len(names))
        self.assertIn("  I0_main := LIMIT(2, GVL.x_main, 5),\n  I1_t := LIMIT(0, GVL.t, 2));\n", text)

    def test_stable(self):
        """A name stays where an automaton is added before."""
        names = set(re.findall(r"^  (\w+): ", self.answer("wrap", source("cell")), re.M))
        self.write("a.cif", "plant First: location p: initial; location q; end\n" + source("cell").read_text())
        self.assertLessEqual(names, set(re.findall(r"^  (\w+): ", self.answer("wrap", "a.cif"), re.M)))

    @unittest.skipUnless(PROGRAM, "no program was built: what MAIN shows is not computed")
    def test_values(self):
        """What MAIN assigns, computed from a table, is what the legend says of its numbers."""
        for name in ("cell", "dosing"):
            table = self.run_program("replay", self.generated(name), rows_file(name)).splitlines()
            statements = re.findall(r"^GVL\.(\w+) := CifScan\.(\w+)(?: = (\d+))?;$", self.answer("wrap", source(name)), re.M)
            model = Model(name, source(name).read_text())
            held = {it.names[-1]: it for it in model.outputs()}
            for line in table[1:]:
                row = dict(zip(table[0].split(","), line.split(",")))
                for target, output, number in statements:
                    it = held[output]
                    if number:
                        literal = it.literals[int(number)]
                        self.assertEqual(target, f"{it.path}.{literal}".replace(".", "_"))
                        self.assertEqual(row[output] == number, shown(it, int(row[output])) == literal)
                    else:
                        self.assertEqual(target, it.path.replace(".", "_"))

    @unittest.skipUnless(PROGRAM, "no program was built: PLCopen XML is not written")
    def test_plcopen(self):
        for name in EXAMPLES:
            file = self.generated(name)
            project = tree.fromstring(self.answer("wrap", source(name), "--plcopen", file))
            self.assertEqual(of_schema(project), [], name)
            self.of_program(project, (self.room / file).read_text())
            main = project.find(f".//{TC6}pou[@name='MAIN']")
            self.assertEqual(main.get("pouType"), "program")
            named = [{it.get("name") for it in at} for at in (main.find(f".//{TC6}externalVars"), project.find(f".//{TC6}globalVars"))]
            self.assertEqual(named[0], named[1])
            used = set(re.findall(r"^(\w+) :=", "".join(main.itertext()), re.M))
            self.assertLessEqual(used, named[0])

    def of_program(self, project, text):
        """The variables are those of the program in their order, and its statements are its text."""
        pou = project.find(f".//{TC6}pou[@name='CifScan']")
        program = Program(text)
        found = [(it.get("name"), (it.find(f".//{TC6}simpleValue").get("value"))) for it in pou.iter(f"{TC6}variable")]
        self.assertEqual(found, [(it.name, str(it.first).upper()) for it in program.variables])
        ranges = [(int(it.get("lower")), int(it.get("upper"))) for it in pou.iter(f"{TC6}range")]
        self.assertEqual(ranges, [(it.low, it.high) for it in program.variables if it.kind == "RANGE"])
        body = "".join(pou.find(f"{TC6}body").itertext())
        self.assertEqual(Program("PROGRAM p\n" + body + "END_PROGRAM").body, program.body)
        self.assertIn(body.strip(), text)

    def test_schema_refuses(self):
        """What is no project is found."""
        for text in (f'<pou xmlns="{TC6[1:-1]}" name="a"/>', f'<task xmlns="{TC6[1:-1]}" name="a" priority="1"/>', "<BOOL/>",
                     f'<variable xmlns="{TC6[1:-1]}" name="a"><initialValue/><type><BOOL/></type></variable>'):
            self.assertNotEqual(of_schema(tree.fromstring(text.replace("<BOOL/>", "<x:BOOL xmlns:x='y'/>") if text == "<BOOL/>" else text)), [])


class Pictures(Bench):
    """The pictures of docs/ are what the commands write."""

    def test_wave(self):
        self.write("t.csv", compare_scans.CELL)
        wanted = (TOP / "docs/pictures/cell-wave.svg").read_text()
        self.assertEqual(self.answer("wave", source("cell"), "t.csv", rows_file("cell"), "--svg"), wanted)

    def test_automata(self):
        """Graphviz drew the picture, other versions of which place it otherwise: it has all texts."""
        inner = "".join(tree.parse(TOP / "docs/pictures/lamp-automata.svg").getroot().itertext()).replace("\u00a0", " ")
        labels = re.findall(r'label="([^"]+)"', self.answer("draw", source("lamp")))
        texts = {part for label in labels for part in re.split(r"\\[ln]", label) if part}
        self.assertGreater(len(texts), 10)
        self.assertEqual({it for it in texts if it not in inner}, set())


class Modules(unittest.TestCase):
    def test_own_variables(self):
        for name, what in (("T0_fired", 0), ("T1_rounds", 1), ("T2_done", 2), ("T3_in_range", 3), ("T4_new_a_if", 4), ("T4_new_x_done", 4),
                           ("T4_new", 4), ("T4_new_in_range", 4), ("T4_new_sent", 4), ("T5_sent", 5), ("T6_if", 6)):
            self.assertEqual([number for number, (it, _) in enumerate(legend.OWN) if legend.is_own(name, it)], [what], name)

    def test_fault_is_a_line(self):
        self.assertEqual(Fault(7, "a: b").line, "cif: a: b")


def main():
    global PROGRAM
    if len(sys.argv) > 1 and not sys.argv[1].startswith("-") and os.path.exists(sys.argv[1]):
        PROGRAM = pathlib.Path(sys.argv.pop(1)).resolve()
    unittest.main()


if __name__ == "__main__":
    main()
