"""Tests of what library/preload/suites.py makes of two runs of a program: preload_suites.py"""

import pathlib
import sys
import unittest

sys.path.insert(0, str(pathlib.Path(__file__).resolve().parent.parent / "preload"))
import suites


class Comparing(unittest.TestCase):
    HOST = {"one": "ok", "two": "ok", "status": "0"}

    def test_alike(self):
        self.assertEqual(suites.differing(self.HOST, dict(self.HOST)), {})
        self.assertEqual(suites.faults_of({}, {}), [])

    def test_other_outcome(self):
        found = suites.differing(self.HOST, {**self.HOST, "two": "not-ok"})
        self.assertEqual(found, {"two": ("ok", "not-ok")})
        self.assertEqual(len(suites.faults_of(found, {})), 1)
        self.assertEqual(suites.faults_of(found, {"two": ("ok", "not-ok")}), [])
        self.assertEqual(len(suites.faults_of(found, {"two": ("ok", "skipped")})), 1)

    def test_missing_test(self):
        # a program that crashed tells less, and its status differs
        found = suites.differing(self.HOST, {"one": "ok", "status": "-11"})
        self.assertEqual(found, {"two": ("ok", "-"), "status": ("0", "-11")})
        self.assertEqual(len(suites.faults_of(found, {})), 2)

    def test_listed_and_alike(self):
        self.assertEqual(suites.faults_of({}, {"two": ("ok", "not-ok")}), ["two: listed, and it didn't occur"])


class Counting(unittest.TestCase):
    def test_sums(self):
        counts = suites.counts_of("process 7 pipes 2 reads 0\nprocess 8 pipes 1 reads 4\n")
        self.assertEqual(counts, {"pipes": 3, "reads": 4})

    def test_nothing_reached_the_layer(self):
        self.assertEqual(suites.lacking("calls", {"pipes": 1, "reads": 1}), [])
        self.assertEqual(suites.lacking("moves", {"pipes": 1, "moves": 1}), [])
        for need, counts in ("calls", {}), ("calls", {"pipes": 1, "moves": 1}), ("moves", {"pipes": 1}), ("calls", {"reads": 1}):
            self.assertEqual(len(suites.lacking(need, counts)), 1, (need, counts))


class Reading(unittest.TestCase):
    def test_tap(self):
        text = "1..4\nok 1 - a\nnot ok 2 - b\nok 3 # SKIP none\n# ok 9\nnot ok 4 # skip\n"
        self.assertEqual(suites.told_by_tap(text), {"1": "ok", "2": "not-ok", "3": "skipped", "4": "skipped"})

    def test_tcl(self):
        text = "++++ io-1.1 PASSED\n++++ io-1.2 SKIPPED: win\n\n==== io-1.3 a name FAILED\n==== Contents of test case:\n==== io-1.3 FAILED\n"
        self.assertEqual(suites.told_by_tcl(text), {"io-1.1": "passed", "io-1.2": "skipped", "io-1.3": "failed"})

    def test_differences(self):
        text = "| Program | Test |\n|---|---|\n| `perl io/a.t` | `3` | ok | not-ok | A reason. |\n| `perl io/a.t` | `4` | ok | not-ok |  |\n"
        self.assertEqual(suites.differences_of(text), {("perl io/a.t", "3"): ("ok", "not-ok")})

    def test_list(self):
        # each program has a kind and a need that the script knows, and is there once
        programs = suites.programs_of((suites.HERE / "suites").read_text())
        self.assertGreater(len(programs), 30)
        self.assertEqual(len({(kind, *words) for _, kind, _, words in programs}), len(programs))
        for when, kind, need, words in programs:
            self.assertIn((when in ("short", "long"), kind in ("python", "perl", "tcl", "glib"), need in suites.COUNTED, bool(words)), [(True,) * 4])


if __name__ == "__main__":
    unittest.main()
