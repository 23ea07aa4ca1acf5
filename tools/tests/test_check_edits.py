"""Tests of tools/check-edits: what a line of its table stands on, which edits can be applied, what a copy holds, and when it ends."""
import contextlib
import importlib.machinery
import importlib.util
import io
import os
import sys
import tempfile
import unittest

TOOL = os.path.join(os.path.dirname(os.path.dirname(os.path.abspath(__file__))), "check-edits")
sys.path.insert(0, os.path.dirname(TOOL))
from tests.rooms import Room  # noqa: E402

LOADER = importlib.machinery.SourceFileLoader("check_edits", TOOL)
SPEC = importlib.util.spec_from_loader("check_edits", LOADER)
check_edits = importlib.util.module_from_spec(SPEC)
LOADER.exec_module(check_edits)

FILES = {
    "HANDLES": "Handles allowed: none.\n",
    "crates.txt": "# NAME: DEP ..\nlow:\nside: low\nhigh: low url\n",
    "crates/low/src/lib.rt": "one\n",
    "crates/low/README.md": "two\n",
    "crates/side/src/lib.rt": "three\n",
    "crates/high/src/lib.rt": "four five\n",
    "crates/high/edits/a.edit": "file: src/lib.rt\nold: four\nnew: six\n",
    "crates/high/must-fail/b.edit": "file: src/lib.rt\nold: four\nnew: six\n",
}
EDIT = ("high", "a.edit")


class Edits(Room):
    def setUp(self):
        super().setUp()
        self.put(FILES)

    def repository(self):
        return check_edits.Repository(self.room)

    def test_edits_that_rt_ci_tries_are_left_out(self):
        self.assertEqual(self.repository().edits(), [EDIT])

    def test_a_checksum_is_of_all_that_the_check_reads(self):
        for path, changes in (
            ("crates/low/README.md", False),
            ("crates/side/src/lib.rt", False),
            ("crates/high/must-fail/b.edit", False),
            ("crates/low/src/lib.rt", True),
            ("crates/low/proofs/New.antt", True),
            ("crates/high/specs/New.antt", True),
            ("crates/high/edits/a.edit", True),
            ("HANDLES", True),
            ("crates.txt", True),
        ):
            first = self.repository().sum_of_edit(EDIT)
            self.write(path, "low:\nside: low\nhigh: low\n" if path == "crates.txt" else "file: other\n")
            self.assertEqual(self.repository().sum_of_edit(EDIT) != first, changes, path)

    def test_an_edit_that_cannot_be_applied(self):
        self.assertIsNone(self.repository().fault_of(EDIT))
        for text in ("file: src/lib.rt\nold: f\nnew: g\n", "file: src/no.rt\nold: f\nnew: g\n", "old: four\nnew: g\n", ""):
            self.write("crates/high/edits/a.edit", text)
            self.assertIsNotNone(self.repository().fault_of(EDIT), text)

    def test_pairs_apply_to_what_earlier_ones_made(self):
        self.write("crates/high/edits/a.edit", "file: src/lib.rt\nold: four\nnew: five\nold: five five\nnew: six\n")
        self.assertIsNone(self.repository().fault_of(EDIT))

    def test_a_copy_has_the_crate_and_those_below_it(self):
        with tempfile.TemporaryDirectory() as to:
            self.assertEqual(check_edits.make_copy(self.repository(), [EDIT], to), {"low", "high"})
            self.assertEqual(sorted(os.listdir(f"{to}/crates")), ["high", "low"])
            self.assertEqual(os.listdir(f"{to}/crates/high/must-fail"), ["a.edit"])
            with open(f"{to}/crates.txt", encoding="utf-8") as file:
                self.assertEqual(file.read(), "low:\nhigh: low url\n")

    def test_a_copy_leaves_out_folders_of_the_crate_alone(self):
        for path in ("proofs/edits/Answers.antt", "proofs/out/Answers.antt", "src/must-fail/mod.rt", "out/rlib/stamp", "README.md"):
            self.write(f"crates/low/{path}", "text\n")
        with tempfile.TemporaryDirectory() as to:
            check_edits.make_copy(self.repository(), [EDIT], to)
            self.assertEqual(sorted(os.listdir(f"{to}/crates/low")), ["README.md", "proofs", "src"])
            self.assertEqual(sorted(os.listdir(f"{to}/crates/low/proofs")), ["edits", "out"])
            self.assertEqual(sorted(os.listdir(f"{to}/crates/low/src")), ["lib.rt", "must-fail"])

    def test_a_table_is_read_as_it_was_written(self):
        os.mkdir(os.path.join(self.room, "tools"))
        check_edits.write_table(self.room, {EDIT: ("12ab", "kit")})
        self.assertEqual(check_edits.read_table(self.room), {EDIT: ("12ab", "kit")})


# The toolchain as far as edits go: it refuses those whose new text isn't `right`, and takes a tenth of a second for each crate.
# bin/unproved names crates that aren't proved among others, and with a `!` those that never are.
TOOLCHAIN = """#!/bin/sh
[ "$1" = version ] && { echo rattle-kit-0; exit; }
[ "$1" = help ] && { echo 'What a run passed is kept'; exit; }
sleep 0.1
unproved=" $(cat "${0%rt}unproved") "
crates=$(ls -d crates/*/must-fail | wc -l)
not_proved() {
  seq -f "fn $1::early_%g: proved" 50
  echo "fn $1::error: proved"
  echo "fn $1::middle: no proof: expected answers in ./proofs/middle/Answers.antt; \`search\` did not prove \`result\`"
  echo "help: write these lines"
  seq -f "    line %g" 50
  echo "note: \`result\` of proofs/middle/Answers.antt must prove: c.result ≡ 7"
  seq -f "fn $1::late_%g: proved" 50
  echo "rt: $1 NOT PROVED"
}
for edit in crates/*/must-fail/*.edit; do
  crate=${edit#crates/}
  case "$unproved" in
    *" !${crate%%/*} "*) not_proved "${crate%%/*}"; continue ;;
    *" ${crate%%/*} "*) [ "$crates" = 1 ] || { not_proved "${crate%%/*}"; continue; } ;;
  esac
  case "$(cat "$edit")" in
    *right*) said='NOT REFUSED: the crate is still proved with this edit' ;;
    *) said='refused, as it must be: src/lib.rt:1:1: error' ;;
  esac
  echo "rt: must-fail ${crate%%/*}/${edit##*/}: $said"
done
"""
# Another, whose `ci` keeps nothing and whose `must-fail` takes any edit of a crate that isn't proved as refused.
KEEPS_NOTHING = """#!/bin/sh
folder=$(basename "$PWD")
case "$1" in
  version) echo rattle-kit-0 ;;
  help) ;;
  lib)
    echo "rt lib $folder" >> "${0%rt}called"
    case " $(cat "${0%rt}unproved") " in *" $folder "*) echo "rt: $folder NOT PROVED"; exit 1 ;; esac
    mkdir -p out/rlib && touch out/rlib/stamp
    ;;
  must-fail)
    echo "rt must-fail $2: $(ls -d crates/*/out/rlib | wc -l)" >> "${0%rt}called"
    for edit in crates/"$2"/must-fail/*.edit; do
      echo "rt: must-fail $2/${edit##*/}: refused, as it must be: src/lib.rt:1:1: error"
    done
    ;;
  *) exit 2 ;;
esac
"""
# tools/prove: each crate of the repository.
PROVE = """import subprocess, sys
print("prove:", sys.argv[1])
with open("bin/called", "a") as file:
    file.write(f"prove {sys.argv[1]}\\n")
for crate in ("low", sys.argv[1]):
    if subprocess.run(["rt", "lib"], cwd=f"crates/{crate}", check=False).returncode:
        sys.exit(70)
"""
EDITS = {f"crates/{crate}/edits/{name}.edit": f"file: src/lib.rt\nold: {old}\nnew: six\n" for crate, old in (("low", "one"), ("side", "three")) for name in "ab"}


class Runs(Room):
    """Whole runs, over a toolchain that is a stand-in."""

    def setUp(self):
        super().setUp()
        old = (check_edits.ROOT, check_edits.MOST_AT_ONCE, os.environ["PATH"])
        check_edits.ROOT, check_edits.MOST_AT_ONCE = self.room, 2
        os.environ["PATH"] = f"{self.room}/bin:{old[2]}"
        self.addCleanup(lambda: (setattr(check_edits, "ROOT", old[0]), setattr(check_edits, "MOST_AT_ONCE", old[1]), os.environ.update(PATH=old[2])))
        self.put({**FILES, **EDITS, "bin/rt": TOOLCHAIN, "bin/unproved": "", check_edits.TABLE: ""})
        os.chmod(f"{self.room}/bin/rt", 0o755)

    def run_of(self, *words):
        said = io.StringIO()
        with contextlib.redirect_stdout(said):
            status = check_edits.main(list(words))
        return said.getvalue().splitlines(), status

    def table(self):
        return sorted("/".join(edit) for edit in check_edits.read_table(self.room))

    def test_crates_are_tried_a_few_at_a_time(self):
        lines, status = self.run_of("--write")
        self.assertEqual((lines[:3], status), (["edits: 2 are tried, of low", "edits: 1 are tried, of high", "edits: 2 are tried, of side"], 0))
        self.assertEqual(self.table(), ["high/a.edit", "low/a.edit", "low/b.edit", "side/a.edit", "side/b.edit"])
        lines, status = self.run_of()
        self.assertEqual((lines[0], status), ("edits: tried in this run: 0, 0 of them refused, as they must be", 0))

    def test_no_crate_is_begun_when_the_seconds_are_gone(self):
        lines, status = self.run_of("--seconds", "0", "--write")
        self.assertEqual((lines, status), (["edits: tried in this run: 0, 0 of them refused, as they must be",
                                            "edits: not tried in this run, since its 0 seconds are gone, and so neither passed nor failed: 5, of high, low, side"], 0))
        self.assertEqual(self.table(), [])

    def test_verdicts_of_crates_before_that_stand(self):
        tries, calls = check_edits.try_edits, []
        check_edits.try_edits = lambda repository, group: (calls.append(group), setattr(self, "now", 9.0), tries(repository, group))[2]
        clock, self.now = check_edits.time.monotonic, 0.0
        check_edits.time.monotonic = lambda: self.now
        self.addCleanup(lambda: (setattr(check_edits, "try_edits", tries), setattr(check_edits.time, "monotonic", clock)))
        lines, status = self.run_of("--seconds", "5", "--write")
        self.assertEqual((len(calls), status), (1, 0))
        self.assertEqual(self.table(), ["low/a.edit", "low/b.edit"])
        self.assertIn("3, of high, side", lines[-1])

    def test_an_edit_that_is_not_refused_fails(self):
        self.write("crates/low/edits/b.edit", "file: src/lib.rt\nold: one\nnew: right\n")
        lines, status = self.run_of("--write")
        self.assertEqual(status, 1)
        self.assertIn("edits: low/b.edit: NOT REFUSED: the crate is still proved with this edit", lines)
        self.assertNotIn("low/b.edit", self.table())

    def test_a_crate_that_is_not_proved_among_others_is_tried_once_more_alone(self):
        check_edits.MOST_AT_ONCE = 8
        self.write("bin/unproved", "side")
        lines, status = self.run_of("--write")
        self.assertEqual((lines[0], status), ("edits: 5 are tried, of high, low, side", 0))
        again = lines.index("edits: 2 of side weren't tried, and are tried once more, it alone")
        self.assertEqual(lines[again + 1:], ["edits: tried in this run: 5, 5 of them refused, as they must be"])
        self.assertEqual(self.table(), ["high/a.edit", "low/a.edit", "low/b.edit", "side/a.edit", "side/b.edit"])

    def test_a_crate_that_is_not_proved_alone_either_fails(self):
        check_edits.MOST_AT_ONCE = 8
        self.write("bin/unproved", "side !low")
        lines, status = self.run_of("--write")
        self.assertEqual(status, 1)
        self.assertEqual([line for line in lines if "NOT TRIED" in line], [
            f"edits: low/{name}.edit: NOT TRIED: its crate is not proved, nor when it is tried alone" for name in "ab"])
        self.assertIn("edits: tried in this run: 5, 3 of them refused, as they must be", lines)
        self.assertEqual(self.table(), ["high/a.edit", "side/a.edit", "side/b.edit"])

    def test_a_crate_that_is_not_proved_is_left_when_the_seconds_are_gone(self):
        self.write("bin/unproved", "!low")
        clock, times = check_edits.time.monotonic, iter([0.0, 0.0] + [9.0] * 9)
        check_edits.time.monotonic = lambda: next(times)
        self.addCleanup(lambda: setattr(check_edits.time, "monotonic", clock))
        lines, status = self.run_of("--seconds", "5", "--write")
        self.assertEqual((status, self.table()), (0, []))
        self.assertIn("5, of high, low, side", lines[-1])

    def test_why_a_crate_is_not_proved_is_told(self):
        self.write("bin/unproved", "!low")
        lines, _ = self.run_of("low")
        first = lines[:lines.index("edits: 2 of low weren't tried, and are tried once more, it alone")]
        for told in ("fn low::middle: no proof: expected answers in ./proofs/middle/Answers.antt; `search` did not prove `result`",
                     "note: `result` of proofs/middle/Answers.antt must prove: c.result ≡ 7", "    line 50", "fn low::late_2: proved", "..", "rt: low NOT PROVED"):
            self.assertIn(told, first)
        for left_out in ("fn low::early_9: proved", "    line 9", "fn low::late_9: proved"):
            self.assertNotIn(left_out, first)

    def test_an_edit_whose_check_was_ended_is_tried_once_more(self):
        ended = TOOLCHAIN.replace("case \"$(cat", "mkdir \"${0%rt}once\" 2>&- && { echo \"rt: must-fail ${crate%%/*}/${edit##*/}: NOT TRIED: its check was killed\"; continue; }\n  case \"$(cat")
        self.write("bin/rt", ended)
        lines, status = self.run_of("low")
        self.assertEqual(status, 0)
        self.assertIn("edits: tried in this run: 2, 2 of them refused, as they must be", lines)
        self.assertIn("edits: 1 of low weren't tried, and are tried once more, it alone", lines)

    def called(self):
        with open(f"{self.room}/bin/called", encoding="utf-8") as file:
            return file.read().splitlines()

    def test_a_kit_that_keeps_nothing_proves_each_crate_first(self):
        self.put({"bin/rt": KEEPS_NOTHING, "tools/prove": PROVE, "bin/unproved": "side"})
        lines, status = self.run_of("--write")
        self.assertEqual(status, 1)
        self.assertEqual(self.table(), ["high/a.edit", "low/a.edit", "low/b.edit"])
        self.assertIn("rt: side NOT PROVED", "\n".join(lines))
        self.assertEqual([line for line in lines if "NOT TRIED" in line], [
            f"edits: side/{name}.edit: NOT TRIED: its crate is not proved, nor when it is tried alone" for name in "ab"])
        # low has nothing below it; high has low, which is built by then, and its libraries are given to the copy
        self.assertEqual(self.called()[:4], ["rt lib low", "rt must-fail low: 1", "rt lib high", "rt must-fail high: 2"])
        self.assertNotIn("rt must-fail side: 1", self.called())

    def test_a_kit_that_keeps_nothing_proves_what_is_not_built_side_by_side(self):
        self.put({"bin/rt": KEEPS_NOTHING, "tools/prove": PROVE})
        _, status = self.run_of("high")
        self.assertEqual((self.called(), status), (["prove high", "rt lib low", "rt lib high", "rt must-fail high: 2"], 0))

    def test_what_takes_too_long_to_prove_is_left(self):
        self.put({"bin/rt": KEEPS_NOTHING, "tools/prove": PROVE, "bench/times": "low 2026-12-01 kit 1 900 900 0 0 0 0 machine\n"})
        root = check_edits.kits.ROOT
        check_edits.kits.ROOT = self.room
        self.addCleanup(setattr, check_edits.kits, "ROOT", root)
        lines, status = self.run_of("--seconds", "100", "high", "side")
        self.assertEqual((status, os.path.exists(f"{self.room}/bin/called")), (0, False))
        self.assertIn("3, of high, side", lines[-2])
        # low has nothing below it; then it is built
        lines, status = self.run_of("--seconds", "100")
        self.assertEqual((status, lines[-1]), (0, "edits: tried in this run: 5, 5 of them refused, as they must be"))

    def test_refused_edits_say_nothing_of_why(self):
        self.assertEqual(check_edits.excerpt(["rt: must-fail low/a.edit: refused, as it must be: a.rt:1:1: error\n", *["\n"] * 30, "end\n"]), "..\n" + "\n" * 19 + "end\n")


if __name__ == "__main__":
    unittest.main()
