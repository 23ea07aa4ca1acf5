"""tools/check-links on a small repository."""
import os
import shutil
import subprocess
import tempfile
import unittest

TOOL = os.path.join(os.path.dirname(os.path.dirname(os.path.abspath(__file__))), "check-links")
FILES = {
    "README.md": "# One\n\nA [page](docs/PAGE.md#the-second-part) and `IsRead`.\n",
    "docs/PAGE.md": "# Page\n\n## The second part\n\n| crate `lexer` | `scan` | `IsRead`, specs/Reads.antt |\n",
    "crates/lexer/README.md": "# lexer\n\nThe call `read_all` is what `IsRead` of `specs/Reads.antt` says.\n",
    "crates/lexer/src/scan.rt": "ghost use Rattle.lexer.specs.Reads.{IsRead};\n\npub fn read_all()\n    ensures read { IsRead 0 }\n",
    "crates/lexer/specs/Reads.antt": "pub record IsRead (x : ℕ) : Type 0 where\n  pub whole : x ≡ x\n",
    "crates/lexer/must-fail/reads_nothing.edit": "",
}


class CheckLinks(unittest.TestCase):
    def setUp(self):
        room = tempfile.TemporaryDirectory()
        self.addCleanup(room.cleanup)
        self.room = room.name
        for path, text in FILES.items():
            self.put(path, text)
        os.makedirs(os.path.join(self.room, "tools"))
        shutil.copy(TOOL, os.path.join(self.room, "tools", "check-links"))

    def put(self, path, text):
        path = os.path.join(self.room, path)
        os.makedirs(os.path.dirname(path), exist_ok=True)
        with open(path, "w", encoding="utf-8") as file:
            file.write(text)

    def told(self, *words):
        done = subprocess.run([os.path.join(self.room, "tools", "check-links"), *words], capture_output=True, text=True, check=False)
        return done.returncode, done.stdout.splitlines()

    def test_nothing_wrong(self):
        self.assertEqual(self.told(), (0, ["links: 3 pages, 0 faults"]))

    def test_faults(self):
        rows = [
            ("[a](nowhere.md)", "no file nowhere.md"), ("[a](docs/PAGE.md#first)", "no heading #first in docs/PAGE.md"),
            ("[a](#second)", "no heading #second in README.md"), ("![a](docs/a.svg)", "no file docs/a.svg"),
            ("[`Stops`](crates/lexer/specs/Reads.antt)", "crates/lexer/specs/Reads.antt declares no Stops"),
            ("[`X::scan`](crates/lexer/src/scan.rt)", "crates/lexer/src/scan.rt declares no scan"),
            ("`ReadsTokens`", "no source has a ReadsTokens"), ("`read_none`", "no source has a read_none"),
            ("docs/NONE.md", "no file docs/NONE.md"), ("`specs/None.antt`", "no file specs/None.antt"),
        ]
        for text, fault in rows:
            self.put("README.md", f"# One\n\n{text}\n")
            status, lines = self.told()
            self.assertEqual((status, lines[0]), (1, f"README.md:3: {fault}"))

    def test_what_no_contract_cites(self):
        self.put("crates/lexer/specs/Dead.antt", "use Rattle.lexer.specs.Reads.{IsRead}\npub IsDead : Type\nIsDead = IsRead 1\n")
        self.put("crates/lexer/specs/Reads.antt", FILES["crates/lexer/specs/Reads.antt"].replace("whole : x", "whole : IsBelow x") + "pub IsBelow : Type\n")
        self.put("README.md", "# One\n\n[`IsBelow`](crates/lexer/specs/Reads.antt), law [`IsDead`](crates/lexer/specs/Dead.antt)\n")
        self.assertEqual(self.told()[0], 0)
        self.put("README.md", "# One\n\n[`IsDead`](crates/lexer/specs/Dead.antt)\n")
        self.assertEqual(self.told()[1][0], "README.md:3: no contract cites IsDead of crates/lexer/specs/Dead.antt, and the line speaks of no law")

    def test_a_promise_names_what_is_declared(self):
        rows = "# Theorems\n\n| promise | call and clause | definition |\n|---|---|---|\n| all is read | `read_all`, `{}` | `IsRead` |\n\n| a | b | c |\n|---|---|---|\n| d | `nowhere` | |\n"
        self.put("docs/THEOREMS.md", rows.format("read"))
        self.assertEqual(self.told()[0], 0)
        self.put("docs/THEOREMS.md", rows.format("record"))
        self.assertEqual(self.told(), (1, ["docs/THEOREMS.md:5: no source declares record", "links: 4 pages, 1 faults"]))

    def test_a_crate_that_the_page_of_crates_lacks(self):
        self.put("docs/ARCHITECTURE.md", "# Crates\n\n| `lexer` |\n")
        self.assertEqual(self.told()[0], 0)
        self.put("crates/parser/README.md", "# parser\n")
        self.assertEqual(self.told()[1], ["docs/ARCHITECTURE.md: it has no crate parser", "links: 5 pages, 1 faults"])

    def test_a_crate_in_the_row_of_another_area(self):
        self.put("docs/ARCHITECTURE.md", "# Crates\n\n| area | crates |\n|---|---|\n| reading | `lexer`, `reader`, `tree` |\n| end | `end` |\n")
        for crate in ("reader", "tree", "end"):
            self.put(f"crates/{crate}/README.md", f"# {crate}\n")
        self.put("crates.txt", "# Reading\nlexer:\nreader: lexer\ntree: lexer\n\n# End\nend: tree\n")
        self.assertEqual(self.told()[0], 0)
        self.put("crates.txt", "# Reading\nlexer:\nreader: lexer\n\n# End\ntree: lexer\nend staticlib: tree\n")
        self.assertEqual(self.told()[1][0], "docs/ARCHITECTURE.md: tree isn't in the row of its heading in crates.txt")

    def test_a_crate_of_the_notice_that_is_gone(self):
        self.put("NOTICE", "ported by: crates/lexer,\ncrates/reader\n")
        self.assertEqual(self.told()[1], ["NOTICE: there is no crate reader", "links: 3 pages, 1 faults"])

    def test_a_crate_that_a_new_statement_visits(self):
        self.put("docs/ADDING.md", "# Adding\n\nA row.\n")
        self.assertEqual(self.told()[0], 0)
        for known in ("DoStatement", "ConditionalType"):
            self.put("crates/lexer/specs/Plan.antt", f"pub plan : ℕ\nplan = {known}\n")
            self.assertEqual(self.told(), (1, [f"docs/ADDING.md: it doesn't name lexer, which knows {known}", "links: 4 pages, 1 faults"]))
        self.put("docs/ADDING.md", "# Adding\n\nA row of `lexer`.\n")
        self.assertEqual(self.told()[0], 0)

    def test_the_first_page_is_short(self):
        self.put("README.md", "# One\n\n" + "word " * 1198)
        self.assertEqual(self.told()[0], 0)
        self.put("README.md", "# One\n\n" + "word " * 1199)
        self.assertEqual(self.told(), (1, ["README.md: it has 1,201 words, and 1,200 at most are wanted", "links: 3 pages, 1 faults"]))

    def test_words_of_the_table(self):
        for text, fault in (("it stands there", "it has 'stands': is"), ("right behind", "it has 'behind': after"), ("such a form, as `b`, is", "it has ', as `..`': such as"),
                            ("read anew", "it has 'anew': again"), ("it is told", "it has 'told': reported, reports, says"), ("for want of memory", "it has 'want of memory': out of memory")):
            self.put("README.md", f"# One\n\n{text}\n")
            status, lines = self.told()
            self.assertEqual((status, lines[0]), (1, f"README.md:3: {fault}"))
        for text in ("`behind` stands for it", "as `b` does", "[`told`](crates/lexer/src/scan.rt) is `stands`", "    behind"):
            self.put("README.md", f"# One\n\n{text}\n")
            self.assertEqual([line for line in self.told()[1] if "it has" in line], [], text)
        self.put("README.md", FILES["README.md"])
        self.put("CONTRIBUTING.md", "# Contributing\n\n## English\n\n| behind | after |\n\n## Rules\n\nbehind\n")
        self.assertEqual(self.told(), (1, ["CONTRIBUTING.md:9: it has 'behind': after", "links: 4 pages, 1 faults"]))

    def test_no_faults(self):
        for text in ("[a](https://example.com/none)", "[One](#one)", "`reads_nothing`", "`lexer`", "`FOLDER` and `check-NAME`", "`a word`",
                     "`..-in_room`", "`let x_y = 1;`", "```\n`None_such` [a](b.md)\n```", "    `None_such`", "[`whole`](crates/lexer/specs/Reads.antt)",
                     "[`read`](crates/lexer/src/scan.rt)"):
            self.put("README.md", f"# One\n\n{text}\n")
            self.assertEqual(self.told()[0], 0, text)

    def test_write(self):
        for _ in range(2):  # what is a link stays as it is
            self.assertEqual(self.told("--write"), (0, ["links: 3 pages, 0 faults"]))
            wanted = {
                "README.md": "# One\n\nA [page](docs/PAGE.md#the-second-part) and [`IsRead`](crates/lexer/specs/Reads.antt).\n",
                "docs/PAGE.md": "# Page\n\n## The second part\n\n"
                                "| crate [`lexer`](../crates/lexer/README.md) | `scan` | [`IsRead`](../crates/lexer/specs/Reads.antt) |\n",
                "crates/lexer/README.md": "# lexer\n\nThe call [`read_all`](src/scan.rt) is what [`IsRead`](specs/Reads.antt) of "
                                          "[`specs/Reads.antt`](specs/Reads.antt) says.\n",
            }
            for path, text in wanted.items():
                with open(os.path.join(self.room, path), encoding="utf-8") as file:
                    self.assertEqual(file.read(), text)


if __name__ == "__main__":
    unittest.main()
