"""Tests of tools/wrap-proofs: where a line breaks. The formatter isn't asked here."""
import importlib.machinery
import importlib.util
import os
import re
import unittest

TOOL = os.path.join(os.path.dirname(os.path.dirname(os.path.abspath(__file__))), "wrap-proofs")
LOADER = importlib.machinery.SourceFileLoader("wrap_proofs", TOOL)
SPEC = importlib.util.spec_from_loader("wrap_proofs", LOADER)
wrap_proofs = importlib.util.module_from_spec(SPEC)
LOADER.exec_module(wrap_proofs)


def wrapped(text):
    tokens = [(len(text[: it.start()].encode()), 0, it[0]) for it in re.finditer(r"[()\[\]{}]|[^\s()\[\]{}]+", text)]
    return wrap_proofs.broken(text, tokens)


class Breaks(unittest.TestCase):
    def test_before_the_last_arrow_outside_brackets(self):
        law = "law : " + "→ ".join(f"(n{i} : Number) " for i in range(6)) + "→ (Holds n0 → Holds n5) → Holds n0 ≡ Holds n5"
        front, rest = wrapped(law).split("\n")
        self.assertEqual(rest, "    → (Holds n0 → Holds n5) → Holds n0 ≡ Holds n5")
        self.assertEqual(f"{front} {rest.strip()}", law)

    def test_behind_an_equals_sign(self):
        proof = "law one other third = " + "follows_from_the_other " * 5 + "one"
        self.assertEqual(wrapped(proof).split("\n")[0], "law one other third =")

    def test_a_rest_that_is_long_too(self):
        lines = wrapped("  law = " + " ∙ ".join(f"step{i} one other" for i in range(30))).split("\n")
        self.assertTrue(all(len(line) <= 120 for line in lines))
        self.assertTrue(all(line.startswith("      ") for line in lines[1:]))

    def test_what_stays(self):
        for text in ("law : " + "→ " * 30, "-- " + "a word " * 20, "use Rattle.a.{" + "name, " * 30 + "}", "x" * 130):
            self.assertEqual(wrapped(text), text)


if __name__ == "__main__":
    unittest.main()
