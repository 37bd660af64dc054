#!/usr/bin/env python3
"""Tests what the comparisons share: random sources, their rows, and programs that run over files.

    tools/test_random_sources.py
"""
import pathlib
import random
import sys
import tempfile
import unittest

from plain_nets import Net, broken
from plain_sources import Source
from random_sources import MAKERS, MOST_NODES, MOST_TRIED, first_begin, has_data_by, made_file, rows_of
from run_programs import Folder, Ran, case_answers

# Writes its words and the file of the first of them, says that it did, and ends with status 3.
PLAYER = """#!%s
import sys
sys.stdout.write(repr(sys.argv[1:]) + repr(open(sys.argv[1], 'rb').read()))
sys.stderr.write('done')
sys.exit(3)
"""
# Answers each case with two lines for each of its words, but the one that it stops at.
CASES = """#!%s
import sys
count = 0
for line in sys.stdin:
    if line == 'stop\\n':
        break
    if line == 'fault\\n':
        sys.exit(1)
    print(line, end='')
    for word in line.split()[1:]:
        print(f'  {word}\\n  [{word}]')
    count += 1
print(f'{count} cases')
"""


class Sources(unittest.TestCase):
    def test_sources(self):
        """Each maker's sources break no rule, are of a bounded size, and are the same for the same seed."""
        for make in dict.fromkeys(MAKERS):
            one, other = random.Random(4), random.Random(4)
            for _ in range(3):
                text = make(one)
                self.assertEqual(text, make(other))
                due, net = broken(Source(text))
                self.assertEqual(due, set(), text)
                self.assertLessEqual(net.nodes(), MOST_NODES)
                self.assertLessEqual(sum(map(net.count, range(len(net.events)))), MOST_TRIED)

    def test_data(self):
        """Those of a maker without variables have none and no inputs, and all names of the other ones have both at times."""
        choose, found = random.Random(1), set()
        for make in MAKERS:
            net = Net(Source(make(choose)))
            found |= {(has_data_by(make), bool(net.variables or net.inputs))}
        self.assertEqual(found & {(False, True)}, set())
        self.assertIn((True, True), found)

    def test_rows(self):
        """Each row has a value of its range for each input."""
        net = Net(Source("input bool b; group g: input int[-2..9] n; end enum T = r, g1; input T c;"))
        choose = random.Random(2)
        file = made_file(choose, net, 50)
        self.assertEqual(sorted(file.splitlines()[0].split(",")), ["I0_b", "I1_c", "I2_g_n", "scan"])
        rows = rows_of(net, file)
        self.assertEqual(len(rows), 50)
        for row, (lo, hi) in zip(zip(*rows), net.ranges):
            self.assertLessEqual(set(row), set(range(lo, hi + 1)))
            self.assertGreater(len(set(row)), 1)
        self.assertEqual(first_begin(net, file), tuple(rows[0]))


class Programs(unittest.TestCase):
    def test_folder(self):
        with tempfile.TemporaryDirectory() as room:
            player = pathlib.Path(room, "player")
            player.write_text(PLAYER % sys.executable)
            player.chmod(0o755)
            inner = pathlib.Path(room, "inner")
            inner.mkdir()
            folder = Folder(player, inner)
            folder.write("a", b"\x00\xff")
            self.assertEqual(folder.run("a", ""), Ran(3, b"['a', '']b'\\x00\\xff'", b"done"))
            folder.write("a", "\xe9\n")
            self.assertEqual(folder.run("a").out, b"['a']b'\\xe9\\n'")
            folder.clear()
            self.assertEqual(list(inner.iterdir()), [])

    def test_cases(self):
        with tempfile.TemporaryDirectory() as room:
            player = pathlib.Path(room, "player")
            player.write_text(CASES % sys.executable)
            player.chmod(0o755)
            self.assertEqual(case_answers(player, ["ask a", "ask", "ask b c"]), [["a", "[a]"], [], ["b", "[b]", "c", "[c]"]])
            for word, where in (("stop", "before: stop"), ("fault", "before: fault")):
                for cases in ([word], ["ask a", word], ["ask a", word, "ask b"]):
                    with self.assertRaises(SystemExit) as ended:
                        case_answers(player, cases)
                    self.assertEqual(ended.exception.code, f"{player} stopped {where}")
            player.write_text((CASES % sys.executable).replace("print(f'{count}", "sys.exit(f'{count}"))
            with self.assertRaises(SystemExit) as ended:
                case_answers(player, ["ask a"])
            self.assertEqual(ended.exception.code, f"{player} stopped behind: ask a")


if __name__ == "__main__":
    unittest.main()
