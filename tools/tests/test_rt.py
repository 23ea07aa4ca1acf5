"""parts/rt.py: a crate's checksum is computed once in a run, and an rt that is no program of Python runs as it is."""
import os
import subprocess
import sys
import unittest

TOOLS = os.path.dirname(os.path.dirname(os.path.abspath(__file__)))
sys.path.insert(0, TOOLS)
from parts import kit  # noqa: E402
from tests.rooms import Room  # noqa: E402

# rt as far as its checksums go: low is below side and high, side below high.
RT = """#!/usr/bin/env python3
import os, sys, types

class Crate:
    computed = 0

    def __init__(self, *deps):
        self.deps = deps

    def stamp(self):
        Crate.computed += 1
        return f"({''.join(dep.stamp() for dep in self.deps)})"

rtlib = types.SimpleNamespace(Crate=Crate)

def main(words):
    low = Crate()
    side = Crate(low)
    high = Crate(low, side)
    print(words, os.path.basename(sys.argv[0]), high.stamp(), high.stamp(), Crate.computed)
    return 3

if __name__ == "__main__":
    sys.exit(main(sys.argv[1:]))
"""


class Rt(Room):
    def ran(self, text):
        self.write("bin/rt", text)
        os.chmod(f"{self.room}/bin/rt", 0o755)
        done = subprocess.run([*kit.RT, "lib", "--jobs"], capture_output=True, text=True, check=False,
                              env={**os.environ, "PATH": f"{self.room}/bin:{os.environ['PATH']}"})
        return done.returncode, done.stdout

    def test_each_checksum_is_computed_once(self):
        self.assertEqual(self.ran(RT), (3, "['lib', '--jobs'] rt (()(())) (()(())) 3\n"))

    def test_another_rt_runs_as_it_is(self):
        self.assertEqual(self.ran('#!/bin/sh\necho "$# $1"\nexit 4\n'), (4, "2 lib\n"))
        self.assertEqual(self.ran(RT.replace("stamp(", "sum(")), (3, "['lib', '--jobs'] rt (()(())) (()(())) 8\n"))


if __name__ == "__main__":
    unittest.main()
