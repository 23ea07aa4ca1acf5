"""tools/picture on reports."""
import json
import os
import re
import shutil
import subprocess
import unittest
import xml.etree.ElementTree as xml

TOOL = os.path.join(os.path.dirname(os.path.dirname(os.path.abspath(__file__))), "picture")
SVG = "{http://www.w3.org/2000/svg}"
REPORT = r"""root file:///src/a.ts
data:text/javascript,import 'https://x.test/b.js' module JavaScript 28
  import 7-28 "https://x.test/b.js" - -> https://x.test/b.js
file:///lib/old.ts redirect file:///lib/new.ts
file:///lib/new.ts module TypeScript 5
  dynamic 3-9 "../src/a.ts" "json" -> file:///src/a.ts
file:///src/a.ts module TypeScript 115
  import-type 29-53 "npm:@a/b@1" - -> npm:@a/b@1
  import 62-113 "data:text/javascript,import 'https://x.test/b.js'" - -> data:text/javascript,import 'https://x.test/b.js'
  import 120-130 "<\"&\u0000" ? ! ImportPrefixMissing "<"
  export 140-150 "../lib/old.ts" - -> file:///lib/old.ts
https://x.test/b.js error Missing
npm:@a/b@1 package npm "@a/b" "1" -
entries 6
"""


def draw(*words, report=REPORT):
    done = subprocess.run([TOOL, *words], input=report.encode(), capture_output=True)
    return done.returncode, done.stdout.decode(), done.stderr.decode()


def drawn(*words, report=REPORT):
    status, out, errors = draw(*words, report=report)
    assert (status, errors) == (0, ""), errors
    return out


class Picture(unittest.TestCase):
    def test_svg(self):
        picture = xml.fromstring(drawn())
        rows = [group for group in picture.iter(SVG + "g") if (group.get("class") or "").startswith("row")]
        told = {group.find(SVG + "title").text: group.get("class").split()[1:] for group in rows}
        self.assertEqual(told["file:///src/a.ts\nmodule TypeScript 115"], ["root"])
        self.assertEqual(told["https://x.test/b.js\nerror Missing"], ["fault"])
        self.assertEqual(told[r'import 120-130 "<\"&\u0000" ! ImportPrefixMissing "<"'], ["nowhere"])
        self.assertEqual(len(rows), 6 + 1)
        edges = [path for path in picture.iter(SVG + "path") if path.get("data-a")]
        self.assertEqual(sorted(path.find(SVG + "title").text.split(" ")[0] for path in edges),
                         ["dynamic", "export", "import", "import", "import-type", "redirect"])
        folders = [text.find(SVG + "title").text for text in picture.iter(SVG + "text") if text.get("class") == "name"]
        self.assertEqual(sorted(folders), ["/lib/", "/src/", "data:", "https://x.test/", "packages"])
        counts = [text.text for text in picture.iter(SVG + "text") if text.get("class") == "counts"]
        self.assertEqual(counts, ["6 entries, 3 modules, 1 package, 1 redirect, 1 error, 6 edges, 1 of them without target"])

    def test_html(self):
        page = drawn("--html")
        data = json.loads(re.search(r'<script type="application/json" id="data">(.*)</script>', page)[1])
        self.assertEqual(data["entries"][4][:5], ["https://x.test/b.js", "https://x.test/", "b.js", "Missing", "error Missing"])
        self.assertEqual(len(data["edges"]), 6)
        self.assertEqual(data["cycles"], [])
        self.assertEqual([(row[0], row[2]) for row in data["faults"]], [(3, '<"&\u0000')])
        self.assertNotIn("http://", page.replace("http://www.w3.org/2000/svg", ""))
        self.assertEqual(page.count("<script"), 2)
        self.assertNotIn(" src=", page)

    def test_html_has_the_cycles(self):
        page = drawn("--html", report=REPORT.replace("  dynamic 3-9", "  import 3-9"))
        data = json.loads(re.search(r'<script type="application/json" id="data">(.*)</script>', page)[1])
        self.assertEqual([sorted(data["entries"][at][0] for at in part) for part in data["cycles"]], [["file:///lib/new.ts", "file:///src/a.ts"]])

    def test_the_script_is_one(self):
        """As far as node can see without a browser."""
        if not shutil.which("node"):
            self.skipTest("there is no node")
        for name in ("page.js",):
            done = subprocess.run(["node", "--check", os.path.join(os.path.dirname(TOOL), "parts", name)], capture_output=True, text=True, check=False)
            self.assertEqual((done.returncode, done.stderr), (0, ""))

    def test_dot(self):
        lines = drawn("--dot").splitlines()
        self.assertEqual((lines[0], lines[-1]), ("digraph modules {", "}"))
        self.assertIn('  "file:///src/a.ts" -> "npm:@a/b@1" [color="#3b6ea5", style=dotted, tooltip="import-type"];', lines)
        self.assertEqual(sum("->" in line for line in lines), 6 + 1)
        self.assertEqual(sum("subgraph" in line for line in lines), 3)

    def test_dot_names_what_is_outside_once(self):
        report = ("root file:///a/1.ts\nfile:///a/1.ts module TypeScript 1\n  import 0-3 \"x\" - ! ImportPrefixMissing \"x\"\n  import 4-9 \"node:fs\" - -> node:fs\n"
                  "file:///a/2.ts module TypeScript 1\n  import 0-3 \"x\" - ! ImportPrefixMissing \"x\"\n  import 4-9 \"node:fs\" - -> node:fs\nnode:fs external\nentries 3\n")
        lines = drawn("--dot", report=report).splitlines()
        self.assertEqual(sum("ImportPrefixMissing" in line for line in lines), 1)
        self.assertEqual(sum(line.startswith('  "node:fs" [') for line in lines), 1)
        self.assertEqual(sum("->" in line for line in lines), 4)

    def test_many(self):
        """A tree of 2,000 modules in 40 folders: each row stands on a place of its own."""
        lines = ["root file:///0/0.ts"]
        for i in range(2000):
            lines.append(f"file:///{i % 40}/{i}.ts module TypeScript 1")
            lines += [f'  import 0-1 "x" - -> file:///{j % 40}/{j}.ts' for j in (2 * i + 1, 2 * i + 2) if j < 2000]
        report = "\n".join(lines + ["entries 2000", ""])
        picture = xml.fromstring(drawn("--open", report=report))
        places = [(cell.get("x"), cell.get("y")) for cell in picture.iter(SVG + "rect") if cell.get("class") == "cell"]
        self.assertEqual((len(places), len(set(places))), (2000, 2000))
        self.assertEqual(sum(path.get("data-a") is not None for path in picture.iter(SVG + "path")), 1999)
        closed = xml.fromstring(drawn(report=report))
        rows = [group.findall(SVG + "text")[0].text for group in closed.iter(SVG + "g") if (group.get("class") or "").startswith("row closed")]
        self.assertEqual(rows, ["50 entries"] * 40)

    def test_folders(self):
        """Folders are opened, the fullest first, until there are some thirty boxes; what stands alone is drawn as it is."""
        lines = ["root file:///main.ts", "file:///main.ts module TypeScript 1"]
        lines += [f"file:///src/{'ab'[i % 2]}/{i % 60}/{i}.ts module TypeScript 1" for i in range(300)]
        closed = xml.fromstring(drawn(report="\n".join(lines + ["entries 301", ""])))
        names = [text.find(SVG + "title").text for text in closed.iter(SVG + "text") if text.get("class") == "name"]
        self.assertIn("/", names)
        self.assertIn("/src/a/", names)
        self.assertEqual(len(names), 32)

    def test_refusals(self):
        rows = [("error Bundle \"/roots\"\n", "picture: the report is 'error Bundle \"/roots\"', which has no graph"), ("", "picture: it is empty"),
                ("root file:///a\nhello\n", "picture: line 2 is no line of a report: 'hello'")]
        for report, line in rows:
            self.assertEqual(draw(report=report), (1, "", line + "\n"))
        self.assertEqual(draw("--png")[0], 64)
        self.assertEqual(draw("nowhere.report"), (1, "", "picture: nowhere.report: No such file or directory\n"))

    def test_graph_without_entries(self):
        self.assertIn("0 entries, 0 edges", drawn(report="entries 0\n"))


if __name__ == "__main__":
    unittest.main()
