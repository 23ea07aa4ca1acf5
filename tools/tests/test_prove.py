"""Tests of tools/prove: which crates are below one, how a crate is proved, and when a cached archive is that of the same sources."""
import importlib.machinery
import importlib.util
import os
import re
import sys
import tempfile
import unittest

TOOL = os.path.join(os.path.dirname(os.path.dirname(os.path.abspath(__file__))), "prove")
sys.path.insert(0, os.path.dirname(TOOL))
from tests.rooms import Room  # noqa: E402

LOADER = importlib.machinery.SourceFileLoader("prove", TOOL)
SPEC = importlib.util.spec_from_loader("prove", LOADER)
prove = importlib.util.module_from_spec(SPEC)
LOADER.exec_module(prove)
unproved = prove.kits.tool("parts/unproved.py")

FILES = {
    "crates.txt": "low:\nside: low\nhigh staticlib: low url\n",
    "KIT-ID": "kit 1\n",
    "crates/low/src/lib.rt": "one\n",
    "crates/low/proofs/a/B.antt": "two\n",
    "crates/low/README.md": "three\n",
    "crates/side/src/lib.rt": "four\n",
    "crates/high/src/lib.rt": "five\n",
}

# The toolchain, which says how it is called, each word quoted where it must be, and what it is given.
TOOLCHAIN = """#!/bin/bash
echo "$(printf ' %q' "$@" | cut -c2-): $(cat)"
"""


class Folder(Room):
    def setUp(self):
        super().setUp()
        root, kept = prove.ROOT, prove.KEPT
        prove.ROOT = prove.kits.ROOT = self.room
        prove.KEPT = os.path.join(self.room, "kept")
        self.addCleanup(lambda: (setattr(prove, "ROOT", root), setattr(prove.kits, "ROOT", root), setattr(prove, "KEPT", kept)))
        self.put(FILES)

    def sum(self):
        return prove.sum_of("high", prove.kits.listed_crates(), {"low"}, self.room)


class Prove(Folder):
    def test_crates_below(self):
        self.assertEqual(set(prove.crates_below("high", prove.kits.listed_crates())), {"low", "high"})

    def test_an_archive_is_that_of_its_sources(self):
        first = self.sum()
        for path, changes in (
            ("crates/low/README.md", False),
            ("crates/side/src/lib.rt", False),
            ("crates/low/src/lib.rt", True),
            ("crates/low/proofs/a/B.antt", True),
            ("crates/high/specs/New.antt", True),
            ("KIT-ID", True),
        ):
            self.write(path, "other\n")
            self.assertEqual(self.sum() != first, changes, path)
            first = self.sum()

    def test_an_unproved_program_is_that_of_its_sources(self):
        kit, root, kept = unproved.kits.kit, unproved.kits.ROOT, unproved.kits.KEPT
        unproved.kits.KEPT = self.room
        self.addCleanup(setattr, unproved.kits, "KEPT", kept)
        unproved.kits.kit, unproved.kits.ROOT = lambda: self.room, self.room
        self.addCleanup(lambda: (setattr(unproved.kits, "kit", kit), setattr(unproved.kits, "ROOT", root)))
        first = unproved.sum_of("high")
        for path, changes in (
            ("crates/low/README.md", False),
            ("crates/side/src/lib.rt", False),
            ("crates/low/proofs/a/B.antt", False),
            ("crates/low/src/lib.rt", True),
            ("crates/high/src/new.rt", True),
            ("KIT-ID", True),
        ):
            self.write(path, "other\n")
            self.assertEqual(unproved.sum_of("high") != first, changes, path)
            first = unproved.sum_of("high")

    def test_the_latest_archives_are_kept(self):
        self.write("made.a", "archive")
        for number in range(prove.MOST_KEPT + 3):
            place = os.path.join(prove.KEPT, f"{number}.a")
            prove.keep(os.path.join(self.room, "made.a"), place)
            os.utime(place, (number, number))
        self.assertEqual(sorted(os.listdir(prove.KEPT)), sorted(f"{number}.a" for number in range(3, prove.MOST_KEPT + 3)))

    def test_a_program_is_run_and_a_library_built(self):
        self.put({"crates/end/src/main.rt": "six\n", "crates/end/args": "a\nb c\n", "crates/end/stdin": "seven", "bin/rt": TOOLCHAIN})
        os.chmod(f"{self.room}/bin/rt", 0o755)
        old = os.environ["PATH"]
        os.environ["PATH"] = f"{self.room}/bin:{old}"
        self.addCleanup(os.environ.update, PATH=old)
        self.assertEqual(prove.prove("end")[:2], (0, "run --jobs 1 -- a b\\ c: seven\n"))
        self.assertEqual(prove.prove("low")[:2], (0, "lib --jobs 1: \n"))

    def test_nothing_is_built_over_what_is_not_proved(self):
        self.assertFalse(prove.are_built({"low"}))


class Joined(unittest.TestCase):
    def test_the_program_makes_the_calls_of_the_library(self):
        with tempfile.TemporaryDirectory() as room:
            root = unproved.joined_sources(room)
            with open(os.path.join(root, "crates", unproved.LIBRARY, "src", "main.rt"), encoding="utf-8") as file:
                text = file.read()
            self.assertEqual((text.count("call_each(&rt);"), text.count("fn main("), text.count("#![tactic")), (1, 1, 1))
            other = unproved.with_calls("fn main(rt: HostRuntime) -> ExitCode {\n    go(&rt)\n}\n")
            self.assertEqual((other.count("call_each(&rt);"), other.count("fn is_never()")), (1, 1))
            library = unproved.source(unproved.LIBRARY, "lib.rt")
            for name in re.findall(r'extern "C" fn (joravelsu_\w+)', library):
                self.assertIn(f" {name}(", unproved.CALLS)


if __name__ == "__main__":
    unittest.main()
