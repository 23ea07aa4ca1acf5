"""Tests of .ci/run, over a toolchain and tools that are stand-ins: what it calls, in which order, and how it ends."""
import os
import shutil
import subprocess
import tempfile
import unittest

ROOT = os.path.dirname(os.path.dirname(os.path.dirname(os.path.abspath(__file__))))
TOOLCHAIN = """#!/bin/sh
[ "$1" = help ] && { echo 'What a run passed is kept'; exit; }
echo "called rt $*"
echo "$RT_SAYS"
exit "$RT_STATUS"
"""
TRIES = """#!/bin/sh
echo "called try-tests $*"
echo "$TRY_SAYS"
exit "$TRY_STATUS"
"""
CHECK = """#!/bin/sh
echo "called check"
exit "$CHECK_STATUS"
"""
EDITS = """#!/bin/sh
echo "called edits $1 $2"
"""


class CiRun(unittest.TestCase):
    def setUp(self):
        room = tempfile.TemporaryDirectory()
        self.addCleanup(room.cleanup)
        self.room = room.name
        os.makedirs(f"{self.room}/.ci")
        shutil.copy(os.path.join(ROOT, ".ci", "run"), f"{self.room}/.ci/run")
        for path, text in (("bin/rt", TOOLCHAIN), ("tools/try-tests", TRIES), ("tools/check-one", CHECK), ("tools/check-edits", EDITS)):
            os.makedirs(os.path.dirname(f"{self.room}/{path}"), exist_ok=True)
            with open(f"{self.room}/{path}", "w", encoding="utf-8") as file:
                file.write(text)
            os.chmod(f"{self.room}/{path}", 0o755)

    def gate(self, *words, tried=(0, "3 passed, 0 failed; 0.1 minutes"), proved=(0, "5 passed, 0 failed"), check=0):
        """The lines that it prints, and its status."""
        said = {"TRY_STATUS": str(tried[0]), "TRY_SAYS": tried[1], "RT_STATUS": str(proved[0]), "RT_SAYS": proved[1], "CHECK_STATUS": str(check)}
        how = {**os.environ, **said, "PATH": f"{self.room}/bin:{os.environ['PATH']}", "HOME": self.room}
        ran = subprocess.run([f"{self.room}/.ci/run", *words], env=how, capture_output=True, text=True, check=False)
        return ran.stdout.splitlines(), ran.returncode

    def test_both_are_called(self):
        lines, status = self.gate()
        called = [line for line in lines if line.startswith("called")]
        self.assertEqual(called[:-1], ["called try-tests --minutes 10", "called rt ci", "called check"])
        # the edits come last, with what is left of two hours
        self.assertRegex(called[-1], r"^called edits --seconds (7200|71\d\d)$")
        self.assertEqual((lines[-1], status), ("7 passed, 0 failed", 0))

    def test_without_cached_proofs_no_mutant_is_begun(self):
        with open(f"{self.room}/bin/rt", "w", encoding="utf-8") as file:
            file.write(TOOLCHAIN.replace("What a run passed is kept", "rt ci"))
        lines, status = self.gate()
        self.assertEqual([line for line in lines if line.startswith("called")][-1], "called edits --seconds 0")
        self.assertEqual((lines[-1], status), ("7 passed, 0 failed", 0))

    def test_a_failing_test_ends_it(self):
        lines, status = self.gate(tried=(1, "2 passed, 1 failed: tests of a; 0.1 minutes"))
        self.assertNotIn("called rt ci", lines)
        self.assertIn("gate: nothing is proved, since what needs no proof failed", lines)
        self.assertEqual((lines[-1], status), ("2 passed, 1 failed", 1))

    def test_what_could_not_be_tried_decides_nothing(self):
        for number in (75, 70, 137):
            lines, status = self.gate(tried=(number, "2 passed, 0 failed; 1 not tried; 0.1 minutes"))
            self.assertIn("called rt ci", lines)
            self.assertTrue(any("the proofs decide" in line for line in lines))
            self.assertEqual((lines[-1], status), ("7 passed, 0 failed", 0))

    def test_the_proofs_alone(self):
        lines, status = self.gate("--no-try")
        self.assertNotIn("called try-tests --minutes 10", lines)
        self.assertEqual((lines[-1], status), ("7 passed, 0 failed", 0))

    def test_what_is_proved_and_checked_counts(self):
        self.assertEqual(self.gate(proved=(1, "4 passed, 1 failed"))[0][-1], "6 passed, 1 failed")
        self.assertEqual(self.gate(proved=(1, "4 passed, 1 failed"))[1], 1)
        lines, status = self.gate(check=1)
        self.assertEqual((lines[-1], status), ("6 passed, 1 failed", 1))
        lines, status = self.gate(proved=(2, "no last line"))
        self.assertEqual((lines[-1], status), ("2 passed, 1 failed", 2))

    def test_words_that_are_wrong(self):
        self.assertEqual(self.gate("--all"), ([], 64))


if __name__ == "__main__":
    unittest.main()
