#!/usr/bin/env python3
"""Compares how `words.py` looks at the words of a command line with what the program says of them.

    tools/test_words.py [PROGRAM]

PROGRAM is by default the proved program of this checkout, else the one without proofs; without either nothing is compared.
"""
import os
import pathlib
import random
import resource
import subprocess
import sys
import tempfile
import unittest

import words

TOP = pathlib.Path(__file__).resolve().parent.parent
BUILT = [TOP / "crates/cif_cli/out/cif_cli", TOP / "crates/cif_cli/out/unproved/cif_cli"]
PROGRAM = sys.argv.pop() if len(sys.argv) > 1 and os.path.isfile(sys.argv[-1]) else next((it for it in BUILT if it.exists()), None)
COMMANDS = ["check", "generate", "replay", "batch", "simulate", "simulate", "why"]
OPTIONS = ["--unc", "--con", "5", "10000", "--first", "--first", "1000000"]
OTHERS = ["Check", "", "0", "10001", "1000001", "01", "+1", " 5", "5 ", "1\n", "\u0665", "9" * 5000, "--unc=5", "--first=5", "--unc ", "-o", "--places", "\udcff", "none"]
LISTS = 400


def some_words(choose):
    """A list of words that is nearly a command line: of files there are none, so that nothing is read."""
    found = [choose.choice(COMMANDS if choose.random() < 0.9 else OTHERS)] if choose.random() < 0.98 else []
    found += [choose.choice(OPTIONS + OTHERS) if choose.random() < 0.25 else "none" for _ in range(choose.choice([0, 1, 1, 1, 2, 2]))]
    return found + [choose.choice(OPTIONS if choose.random() < 0.8 else OTHERS) for _ in range(choose.choice([0, 0, 1, 2, 2, 3, 4, 4]))]


@unittest.skipUnless(PROGRAM, "no program stands here: the words are not compared")
class Words(unittest.TestCase):
    def setUp(self):
        room = tempfile.TemporaryDirectory()
        self.addCleanup(room.cleanup)
        before = os.getcwd()
        program = os.path.abspath(PROGRAM)
        os.chdir(room.name)
        self.addCleanup(os.chdir, before)
        self.program = program
        # (the program without proofs takes more stack than is common)
        _, hard = resource.getrlimit(resource.RLIMIT_STACK)
        resource.setrlimit(resource.RLIMIT_STACK, (hard, hard))

    def test_random_words(self):
        choose = random.Random(1)
        for given in (some_words(choose) for _ in range(LISTS)):
            ran = subprocess.run([self.program, *map(os.fsencode, given)], capture_output=True)
            found = words.fault(given)
            self.assertIsNotNone(found, given)
            self.assertEqual((ran.returncode, ran.stderr), (found[0], os.fsencode(found[1] + "\n")), given)


if __name__ == "__main__":
    unittest.main()
