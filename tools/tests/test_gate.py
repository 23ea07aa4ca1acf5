"""Tests of bench/gate: the longest chain, what is saved, and the tables that are made of it."""
import importlib.machinery
import importlib.util
import io
import os
import tempfile
import unittest

TOOL = os.path.join(os.path.dirname(os.path.dirname(os.path.dirname(os.path.abspath(__file__)))), "bench", "gate")
LOADER = importlib.machinery.SourceFileLoader("gate", TOOL)
SPEC = importlib.util.spec_from_loader("gate", LOADER)
gate = importlib.util.module_from_spec(SPEC)
LOADER.exec_module(gate)

BELOW = {"low": set(), "side": {"low"}, "high": {"low", "side", "url"}, "alone": set()}
ROWS = {
    ("low", "earlier", "kit a"): ([3, 40, 0, 0, 0, 0, 0], "one machine"),
    ("low", "2026-11-28", "kit b"): ([3, 160, 125, 0, 2, 5, 30], "another"),
    ("side", "2026-11-28", "kit b"): ([1, 7, 0, 0, 0, 0, 0], "another"),
    ("high", "earlier", "kit a"): ([2, 96, 0, 60, 0, 0, 0], "one machine"),
}


class Gate(unittest.TestCase):
    def test_the_latest_day_counts(self):
        self.assertEqual(gate.latest(ROWS)["low"][1], 160)

    def test_the_longest_chain_takes_the_clock_where_it_was_read(self):
        chain = gate.longest_chain(BELOW, gate.latest(ROWS))
        self.assertEqual(chain, (228, [("low", 125), ("side", 7), ("high", 96)]))

    def test_saved_rows_are_read_again(self):
        rows = {(crate, day, kit.replace(" ", "-")): line for (crate, day, kit), line in ROWS.items()}
        with tempfile.TemporaryDirectory() as room:
            gate.save_times({**rows, ("gone", "2026-11-28", "kit-b"): ([1] * 7, "another")}, list(BELOW), f"{room}/times")
            self.assertEqual(gate.read_times(f"{room}/times"), rows)

    def test_a_crate_stands_in_the_latest_table_that_has_it(self):
        out = io.StringIO()
        gate.tables(list(BELOW), BELOW, ROWS, out)
        first, second = out.getvalue().split("### earlier, kit a")
        self.assertIn("| `low` | 3 | 160 |  |", first)
        self.assertNotIn("| `side` |", first)
        self.assertIn("| all 2 crates | 4 | 167 | 0 |", first)
        self.assertNotIn("`low` | 3", second)
        self.assertIn("| `high` | 2 | 96 | 60 |", second)
        self.assertIn("Not read off: `alone`.", second)

    def test_a_kit_that_keeps_nothing_proves_a_copy(self):
        root, keeps = gate.ROOT, gate.kits.keeps_proofs
        self.addCleanup(lambda: (setattr(gate, "ROOT", root), setattr(gate.kits, "ROOT", root), setattr(gate.kits, "keeps_proofs", keeps)))
        with tempfile.TemporaryDirectory() as room, tempfile.TemporaryDirectory() as to:
            gate.ROOT = gate.kits.ROOT = room
            for crate in BELOW:
                os.makedirs(f"{room}/crates/{crate}/src")
                os.makedirs(f"{room}/crates/{crate}/out")
            with open(f"{room}/crates.txt", "w", encoding="utf-8") as file:
                file.write("# base\nlow:\nside: low\nhigh: low side url\nalone:\n")
            gate.kits.keeps_proofs = lambda: True
            self.assertEqual(gate.gate_of(["side"], True, to), (["rt", "ci", "--anew", "side"], room))
            gate.kits.keeps_proofs = lambda: False
            self.assertEqual(gate.gate_of([], True, to), (["rt", "ci"], room))
            self.assertEqual(gate.gate_of(["side"], True, to), (["rt", "ci"], to))
            self.assertEqual(sorted(os.listdir(f"{to}/crates")), ["low", "side"])
            self.assertEqual(os.listdir(f"{to}/crates/low"), ["src"])
            with open(f"{to}/crates.txt", encoding="utf-8") as file:
                self.assertEqual(file.read(), "low:\nside: low\n")
            with self.assertRaises(SystemExit):
                gate.gate_of(["none"], False, to)


if __name__ == "__main__":
    unittest.main()
