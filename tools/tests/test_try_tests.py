"""Tests of tools/try-tests: what counts as failed and what as not tried, and the status."""
import contextlib
import importlib.machinery
import importlib.util
import io
import os
import subprocess
import sys
import unittest

TOOL = os.path.join(os.path.dirname(os.path.dirname(os.path.abspath(__file__))), "try-tests")
LOADER = importlib.machinery.SourceFileLoader("try_tests", TOOL)
SPEC = importlib.util.spec_from_loader("try_tests", LOADER)
try_tests = importlib.util.module_from_spec(SPEC)
LOADER.exec_module(try_tests)
unproved = try_tests.unproved

# With --minutes, over rows that end at once and never.
SLOW = f"""
import importlib.machinery, importlib.util, sys, time
loader = importlib.machinery.SourceFileLoader("try_tests", {TOOL!r})
tool = importlib.util.module_from_spec(importlib.util.spec_from_loader("try_tests", loader))
loader.exec_module(tool)
tool.has_tests = lambda crate: crate in ("base", "monch")
tool.has_output = lambda crate: False
tool.run_tests = lambda crate: (sys.argv[1] == "passes", "1 tests") if crate == "base" else time.sleep(600)
sys.exit(tool.main(["--jobs", "2", "--minutes", "0.02", "base", "monch"]))
"""


def raises(error):
    def act(_):
        raise error

    return act


class TryTests(unittest.TestCase):
    def ended(self, *outcomes):
        """The last line and the status where this came of each."""
        said = io.StringIO()
        with contextlib.redirect_stdout(said):
            tally = try_tests.Tally(len(outcomes))
            for number, passed in enumerate(outcomes):
                tally.take(f"row {number}", passed, "so", 1.0)
            status = tally.end()
        return said.getvalue().splitlines()[-1].split(";")[:2], status

    def test_what_is_told_of_an_attempt(self):
        for act, passed in (
            (lambda _: (True, "as it must"), True),
            (lambda _: (False, "else"), False),
            (raises(unproved.Failed("a.rt:1:2: error[no-such-name]: b")), False),
            (raises(unproved.Unable("no space")), None),
            (raises(OSError("no space")), None),
            (raises(subprocess.TimeoutExpired("program", 120)), None),
        ):
            self.assertEqual(try_tests.attempt("row", act, "crate")[1], passed)

    def test_a_fault_of_the_sources_has_a_place(self):
        self.assertTrue(unproved.FAULT.search("rt: ..\n/r/crates/base/src/items.rt:29:5: error[unexpected-token]: expected item\nrun=none proved=no\n"))
        self.assertFalse(unproved.FAULT.search("error: out of memory\nrun=none proved=no\n"))

    def test_a_test_that_was_ended_is_not_tried(self):
        self.assertTrue(try_tests.WAS_ENDED.search("test a ... FAILED: did not end within the time limit"))
        self.assertTrue(try_tests.WAS_ENDED.search("test a ... FAILED: was killed by signal 9"))
        self.assertFalse(try_tests.WAS_ENDED.search("test a ... FAILED: was killed by signal 11"))

    def test_the_last_line_and_the_status(self):
        self.assertEqual(self.ended(True, True)[0][0], "2 passed, 0 failed")
        self.assertEqual([self.ended(True)[1], self.ended(True, False)[1], self.ended(None, False)[1], self.ended(True, None)[1]], [0, 1, 1, 75])
        self.assertEqual(self.ended(True, False, None)[0], ["1 passed, 1 failed: row 1", " 1 not tried"])

    def test_only_what_failed_is_printed(self):
        for verbose, lines in ((False, 2), (True, 3)):
            said = io.StringIO()
            with contextlib.redirect_stdout(said):
                tally = try_tests.Tally(3, verbose)
                tally.take("one", True, "so", 1.0)
                tally.take("two", False, "why", 1.0)
                tally.take("three", True, "so", 1.0) if not verbose else None
            self.assertEqual(said.getvalue().splitlines()[-2:], ["try-tests: 2 of 3: two: FAILED, 1 s", "why"])
            self.assertEqual(len(said.getvalue().splitlines()), lines)

    def test_after_its_minutes_it_ends(self):
        for word, counts, status in (("passes", "1 passed, 0 failed; 1 not tried", 75), ("fails", "0 passed, 1 failed: tests of base; 1 not tried", 1)):
            ran = subprocess.run([sys.executable, "-c", SLOW, word], capture_output=True, text=True, check=False, timeout=60)
            self.assertTrue(ran.stdout.splitlines()[-1].startswith(counts), ran.stdout + ran.stderr)
            self.assertEqual(ran.returncode, status)


if __name__ == "__main__":
    unittest.main()
