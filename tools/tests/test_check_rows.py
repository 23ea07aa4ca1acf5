"""Tests of tools/check-rows: what its blocks say, over a program that is a stand-in."""
import contextlib
import importlib.machinery
import importlib.util
import io
import json
import os
import tempfile
import unittest

TOOL = os.path.join(os.path.dirname(os.path.dirname(os.path.abspath(__file__))), "check-rows")
LOADER = importlib.machinery.SourceFileLoader("check_rows", TOOL)
SPEC = importlib.util.spec_from_loader("check_rows", LOADER)
check_rows = importlib.util.module_from_spec(SPEC)
LOADER.exec_module(check_rows)

REPORT = "root file:///a.ts\nfile:///a.ts module TypeScript 9\n  import 7-8 \"b\" - ! ImportPrefixMissing\nfile:///c.ts error Missing\nentries 2"


class Asked(check_rows.Asked):
    """A program that writes the same whatever it is asked."""

    def __init__(self, status, said):
        self.passed = self.failed = 0
        self.said = status, said.splitlines()

    def run(self, words, bundle="", is_second=False):
        return self.said


class CheckRows(unittest.TestCase):
    def counts(self, asked, call, *row):
        with contextlib.redirect_stderr(io.StringIO()):
            getattr(asked, call)("here", *row)
        return asked.passed, asked.failed

    def test_blocks(self):
        with tempfile.TemporaryDirectory() as room:
            os.makedirs(f"{room}/examples/rows")
            with open(f"{room}/examples/rows/x.rows", "w", encoding="utf-8") as file:
                file.write("# head\n\na| b\nc\n\n# between\nd\n  e\n")
            root, check_rows.kits.ROOT = check_rows.kits.ROOT, room
            try:
                self.assertEqual(list(check_rows.blocks_of("x.rows")), [("examples/rows/x.rows:3", ["a| b", "c"]), ("examples/rows/x.rows:7", ["d", "  e"])])
            finally:
                check_rows.kits.ROOT = root

    def test_modules(self):
        self.assertEqual(check_rows.modules_of(["a.ts| b", "a.ts|", "c.ts| -> a.ts", "a.ts x | y"]), ({"a.ts": "b\n", "c.ts": "-> a.ts"}, ["a.ts x | y"]))
        bundle = json.loads(check_rows.bundle_of({"a.ts": "b", "c.ts": "-> a.ts"}))
        self.assertEqual((bundle["roots"], bundle["modules"][1]), (["file:///a.ts"], {"specifier": "file:///c.ts", "redirect": "file:///a.ts"}))

    def test_a_bundle(self):
        # once for each number of batches that is asked for, and by the second program
        times = len(check_rows.BUILDS) + 1
        lines = REPORT.splitlines()
        self.assertEqual(self.counts(Asked(0, REPORT), "bundle", ["{}", "0", *lines]), (times, 0))
        self.assertEqual(self.counts(Asked(1, REPORT), "bundle", ["{}", "0", *lines]), (0, times))
        self.assertEqual(self.counts(Asked(0, REPORT), "bundle", ["{}", "0", *lines[1:]]), (0, times))

    def test_an_entry(self):
        block = ["a.ts| import 'b'", "a.ts module TypeScript 9", '  import 7-8 "b" - ! ImportPrefixMissing']
        self.assertEqual(self.counts(Asked(0, REPORT), "entry", block), (1, 0))
        self.assertEqual(self.counts(Asked(0, REPORT), "entry", block[:2]), (0, 1))
        self.assertEqual(self.counts(Asked(2, "error NotJson"), "entry", block), (0, 1))

    def test_an_order(self):
        self.assertEqual(self.counts(Asked(0, "order file:///a.ts"), "order", {"a.ts": ""}, ["order a.ts"]), (2, 0))
        self.assertEqual(self.counts(Asked(0, "order file:///a.ts"), "order", {"a.ts": ""}, []), (1, 1))

    def test_a_ring(self):
        check_rows.MANY, many = 3, check_rows.MANY
        try:
            texts, edges = check_rows.ring()
            self.assertEqual(texts, {"0.ts": 'import "./1.ts";', "1.ts": 'import "./2.ts";', "2.ts": 'import "./0.ts";'})
            self.assertEqual(edges[2], 'cycle 2.ts 7-15 "./0.ts" -> 0.ts')
        finally:
            check_rows.MANY = many


if __name__ == "__main__":
    unittest.main()
