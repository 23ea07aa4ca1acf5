"""./joravelsu's forms: JSON, SARIF, annotations, imports, diff, the file of options, versions, man page and completions."""
import json
import os
import pty
import re
import shutil
import subprocess
import sys
import tempfile
import unittest

TOOLS = os.path.dirname(os.path.dirname(os.path.abspath(__file__)))
ROOT = os.path.dirname(TOOLS)
sys.path.insert(0, TOOLS)
from parts import compare, config, kit, report, usage, vendoring, verdict, why, words  # noqa: E402
from tests.test_graph_tools import REPORT, faults_of  # noqa: E402

JORAVELSU = os.path.join(ROOT, "joravelsu")
DEMO = "examples/projects/demo/src/main.ts"
EDGES = {"import", "export", "dynamic"}


def ran(*words, cwd=ROOT, given=b""):
    done = subprocess.run([JORAVELSU, *words], input=given, capture_output=True, cwd=cwd, env={**os.environ, "JORAVELSU_QUIET": "1"}, check=False)
    return done.returncode, done.stdout.decode(), done.stderr.decode()


def schema(name):
    with open(os.path.join(ROOT, "docs", name), encoding="utf-8") as file:
        return json.load(file)


class Project(unittest.TestCase):
    """A folder with these files."""

    FILES = {}

    def setUp(self):
        room = tempfile.TemporaryDirectory()
        self.addCleanup(room.cleanup)
        self.room = room.name
        for name, text in self.FILES.items():
            with open(os.path.join(self.room, name), "w", encoding="utf-8") as file:
                file.write(text)


class Check(unittest.TestCase):
    def test_json(self):
        status, out, _ = ran("check", "--json", "--all", DEMO)
        value = json.loads(out)
        whole = schema("check.schema.json")
        self.assertEqual(list(faults_of(value, whole, whole)), [])
        self.assertEqual((status, value["status"], len(value["faults"]), len(value["unread"])), (1, 1, 15, 2))
        self.assertEqual(value["faults"][1], {"kind": "Parse", "specifier": "file:///src/faulty/assigns.ts", "file": "examples/projects/demo/src/faulty/assigns.ts",
                                              "line": 6, "column": 18, "message": "unexpected '='", "range": [126, 127]})
        self.assertTrue(out.isascii())
        text = ran("check", "--all", DEMO)[1]
        self.assertEqual(text.splitlines()[-1], value["verdict"])
        for fault in value["faults"]:
            self.assertIn(f"{fault['file']}:{fault['line']}:{fault['column']}: {fault['message']}\n", text)

    def test_calls_that_no_graph_shows(self):
        for module, status in (("main.ts", 1), ("pages/home.ts", 0)):
            done, out, _ = ran("check", "--json", "--fail-on", "unread", os.path.join(os.path.dirname(DEMO), module))
            value = json.loads(out)
            self.assertEqual((done, "unread" in value["found"], bool(value["unread"])), (status, bool(status), bool(status)))
        self.assertEqual(ran("graph", "--fail-on", "unread", DEMO)[0], 64)

    def test_sarif(self):
        run = json.loads(ran("check", "--sarif", "--fail-on", "cycle", DEMO)[1])
        self.assertEqual((run["version"], len(run["runs"])), ("2.1.0", 1))
        driver, results = run["runs"][0]["tool"]["driver"], run["runs"][0]["results"]
        self.assertEqual(len(results), 18)
        for result in results:
            self.assertEqual(driver["rules"][result["ruleIndex"]]["id"], result["ruleId"])
            self.assertIn(result["level"], ("error", "warning"))
            place = result["locations"][0]["physicalLocation"]
            self.assertTrue(os.path.exists(os.path.join(ROOT, place["artifactLocation"]["uri"])))
        self.assertEqual(results[1]["locations"][0]["physicalLocation"]["region"], {"startLine": 6, "startColumn": 18, "endLine": 6, "endColumn": 19, "byteOffset": 126, "byteLength": 1})
        self.assertEqual([result["level"] for result in results if result["ruleId"] == "cycle"], ["error"])

    def test_rules_have_each_fault(self):
        faults = kit.tool("explain").faults
        self.assertLessEqual(set(faults.OF_ENTRY) | set(faults.OF_EDGE) | {"Parse", "Decode", "unread", "cycle"}, set(verdict.RULES))

    def test_annotations(self):
        lines = ran("check", "--github", DEMO)[1].splitlines()
        self.assertEqual(len(lines), 18)
        self.assertEqual(lines[1], "::error file=examples/projects/demo/src/faulty/assigns.ts,line=6,col=18,title=joravelsu Parse::unexpected '='")
        self.assertEqual((verdict.of_message("50%\r\n::error::x"), verdict.of_property("a,b:c%")), ("50%25%0D%0A::error::x", "a%2Cb%3Ac%25"))

    def test_output_file(self):
        with tempfile.TemporaryDirectory() as room:
            path = os.path.join(room, "found.json")
            self.assertEqual(ran("check", "--json", "-o", path, DEMO)[:2], (1, ""))
            with open(path, encoding="utf-8") as file:
                self.assertEqual(json.load(file)["format"], "joravelsu-check")


class Colours(unittest.TestCase):
    def test_coloured(self):
        text = "a.ts:1:2: b\n    x = y\n      ^~\n\nmissing: 1\ncycles: none\n1 fault; status 1\n"
        self.assertEqual(words.coloured(text.encode()).decode(), "\x1b[1ma.ts:1:2:\x1b[0m b\n    x = y\n      \x1b[31m^~\x1b[0m\n\n\x1b[31mmissing: 1\x1b[0m\ncycles: none\n\x1b[31m1 fault; status 1\x1b[0m\n")
        self.assertEqual(words.coloured(b"no faults; status 0\n"), b"\x1b[32mno faults; status 0\x1b[0m\n")

    def test_on_a_terminal_alone(self):
        for value, wanted in (("", True), ("1", False)):
            try:
                ours, theirs = pty.openpty()
            except OSError:
                self.skipTest("this system gives no terminal")
            subprocess.run([JORAVELSU, "check", "examples/projects/demo/src/pages/home.ts"], stdout=theirs, stderr=subprocess.DEVNULL, cwd=ROOT, check=False,
                           env={**os.environ, "JORAVELSU_QUIET": "1", "NO_COLOR": value, "TERM": "xterm"})
            os.close(theirs)
            said = os.read(ours, 65_536)
            os.close(ours)
            self.assertEqual(b"\x1b[32m" in said, wanted)


class Imports(unittest.TestCase):
    def test_lines(self):
        text = "import a from './b' with { type: 'json' };\nexport * from \"c\"; import('d'); // import 'e'\nimport type { F } from './f';"
        wanted = ['standard-input:1:15: import "./b" with type "json"', 'standard-input:2:15: export "c"', 'standard-input:2:27: dynamic "d"', 'standard-input:3:24: import-type "./f"']
        self.assertEqual(ran("imports", "-", given=text.encode()), (0, "".join(line + "\n" for line in wanted), ""))

    def test_json(self):
        status, out, _ = ran("imports", "--json", "--as", ".mjs", "-", given=b"import 'a'")
        self.assertEqual((status, json.loads(out)), (0, {"format": "joravelsu-imports", "version": 1, "file": "standard-input",
                                                         "imports": [{"kind": "import", "typeOnly": False, "specifier": "a", "range": [7, 10], "line": 1, "column": 8}]}))

    def test_faults(self):
        status, out, _ = ran("imports", "-", given=b"import 'a';\n  let = ;")
        self.assertEqual(status, 1)
        self.assertRegex(out, r"^standard-input:2:\d+: ")
        value = json.loads(ran("imports", "--json", "-", given=b"\xff")[1])
        self.assertEqual(value["fault"], {"kind": "Decode", "message": "byte 0 (0xff) is no UTF-8", "line": 1, "column": 1})
        for words, said in ((("docs/TOOLS.md",), "docs/TOOLS.md: a file with this extension has no imports; --as .ts reads it as TypeScript"), (("gone.ts",), "gone.ts: No such file or directory"), (("docs",), "docs: Is a directory")):
            self.assertEqual(ran("imports", *words), (2, "", f"joravelsu: {said}\n"))

    def test_a_file(self):
        self.assertTrue(ran("imports", DEMO)[1].startswith(DEMO + ":1:"))


class Why(unittest.TestCase):
    def test_a_way(self):
        status, out, _ = ran("why", "examples/projects/demo/src/pages/home.ts", DEMO)
        self.assertEqual((status, out.splitlines()), (0, [
            f"{DEMO}: a root", f'{DEMO}:4:23: import "./app" -> examples/projects/demo/src/app.ts', 'examples/projects/demo/src/app.ts:1:22: import "./pages" -> examples/projects/demo/src/pages/index.ts',
            'examples/projects/demo/src/pages/index.ts:1:22: export "./home" -> examples/projects/demo/src/pages/home.ts',
            "without it 1 other entry would be gone:", "  examples/projects/demo/node_modules/old-format/index.js"]))

    def test_names(self):
        for name in ("src/store.ts", "file:///src/store.ts", "./examples/projects/demo/src/store.ts"):
            self.assertEqual(json.loads(ran("why", "--json", name, DEMO)[1])["entry"], "file:///src/store.ts")
        self.assertEqual(json.loads(ran("why", "--json", "tiny-events", DEMO)[1])["entry"], "file:///node_modules/tiny-events/dist/index.js")
        status, out, errors = ran("why", "none", DEMO)
        self.assertEqual((status, out, errors.splitlines()[-1]), (2, "", "joravelsu: none: not in the graph"))

    def test_by_hand(self):
        """A diamond with a tail and a redirect: the shortest way, and what hangs on each."""
        lines = ["root file:///a", "file:///a module TypeScript 1", '  import 0-1 "b" - -> file:///b', '  import 2-3 "c" - -> file:///c', "file:///b module TypeScript 1", '  import 0-1 "d" - -> file:///d',
                 "file:///c module TypeScript 1", '  import 0-1 "b" - -> file:///b', "file:///d redirect file:///e", "file:///e module TypeScript 1", "entries 5", ""]
        graph = report.graph_of("\n".join(lines).encode())
        rows = [("a", [], ["b", "c", "d", "e"]), ("b", ["a"], ["d", "e"]), ("c", ["a"], []), ("d", ["a", "b"], ["e"]), ("e", ["a", "b", "d"], [])]
        for name, way, alone in rows:
            found = why.Reason(graph, graph.entries["file:///" + name])
            self.assertEqual([before.specifier for before, _ in found.way], ["file:///" + it for it in way], name)
            self.assertEqual(found.alone, ["file:///" + it for it in alone], name)
        for name, number, alone in (("a", 0, []), ("a", 1, ["c"]), ("b", 0, ["d", "e"]), ("c", 0, []), ("d", 0, ["e"])):
            found = why.Reason(graph, graph.entries["file:///" + name], number=number)
            self.assertEqual(found.alone, ["file:///" + it for it in alone], (name, number))
            told = why.Reason(graph, graph.entries["file:///" + name], ["why 0"], number, ["gone file:///" + it for it in alone])
            self.assertEqual(told.alone, found.alone)

    def test_what_is_followed(self):
        """Edges that name a place, of types in a graph of code, and in a graph of types those of JavaScript and of calls."""
        lines = ["root file:///a", "root file:///c", "file:///a module TypeScript 1", '  import-type 0-1 "b" - -> file:///b', '  address 2-3 "d" - -> file:///d', '  require 4-5 "e" - -> file:///e',
                 "file:///b module TypeScript 1", "file:///c module JavaScript 1", '  import 0-1 "d" - -> file:///d', "file:///d module TypeScript 1", "file:///e module TypeScript 1", "entries 5", ""]
        graph = report.graph_of("\n".join(lines).encode())
        for kind, wanted in (("all", "abcde"), ("code", "acde"), ("types", "abc")):
            self.assertEqual("".join(sorted(it[-1] for it in why.reached(graph, kind))), wanted)

    def test_an_edge(self):
        app = "examples/projects/demo/src/app.ts"
        for words in (("--edge", "./pages"), ("--edge", "1"), ("--edge", "1:22"), ("--loader", "library", "--edge", "./pages")):
            status, out, _ = ran("why", *words, app, DEMO)
            self.assertEqual((status, out.splitlines()), (0, [
                f"{DEMO}: a root", f'{DEMO}:4:23: import "./app" -> {app}', f'{app}:1:22: import "./pages" -> examples/projects/demo/src/pages/index.ts',
                "without it 4 entries would be gone:", "  examples/projects/demo/node_modules/old-format/index.js", "  examples/projects/demo/src/pages/about.ts",
                "  examples/projects/demo/src/pages/home.ts", "  examples/projects/demo/src/pages/index.ts"]))
        value = json.loads(ran("why", "--json", "--edge", "./store", app, DEMO)[1])
        self.assertEqual((value["entry"], value["edge"], value["alone"]), ("file:///src/app.ts", {"module": "file:///src/app.ts", "kind": "import", "specifier": "./store", "target": "file:///src/store.ts", "line": 2, "column": 23}, []))
        status, _, errors = ran("why", "--edge", "./none", app, DEMO)
        self.assertEqual((status, errors.splitlines()[-1]), (2, "joravelsu: ./none: no edge of src/app.ts"))


    def test_of_the_second_program(self):
        """The same graph, by the lines of the second program."""
        lines = ["root file:///a", "file:///a module TypeScript 1", '  import 0-1 "b" - -> file:///b', "file:///b redirect file:///c", "file:///c module TypeScript 1", "file:///d module TypeScript 1", "entries 4", ""]
        graph = report.graph_of("\n".join(lines).encode())
        found = why.Reason(graph, graph.entries["file:///c"], ["why 2", 'way file:///a import 0-1 "b" - -> file:///b', "way file:///b redirect file:///c", "gone file:///c"])
        self.assertEqual(([(before.specifier, edge.kind, edge.target) for before, edge in found.way], found.start, found.alone),
                         ([("file:///a", "import", "file:///b"), ("file:///b", "redirect", "file:///c")], "file:///a", []))
        self.assertEqual(why.Reason(graph, graph.entries["file:///d"], ["why none"]).said_of_start(), "no edge leads to it that has a target")
        searched = why.Reason(graph, graph.entries["file:///d"])
        self.assertEqual((searched.way, searched.alone), (None, []))

    def test_by_a_search(self):
        for name in ("src/store.ts", "tiny-events"):
            said = [json.loads(ran("why", "--json", "--loader", loader, name, DEMO)[1]) for loader in ("library", "program")]
            self.assertEqual(len(said[0]["way"]), len(said[1]["way"]))
            self.assertEqual(said[0]["alone"], said[1]["alone"])


class Order(Project):
    FILES = {"package.json": "{}", "main.ts": "import './a'; import './b'; import('./c');", "a.ts": "import './b';", "b.ts": "import './a'; import './d';", "c.ts": "import './main';", "d.ts": ""}

    def test_cycles_are_groups(self):
        self.assertEqual(ran("order", "main.ts", cwd=self.room), (0, "d.ts\na.ts <-> b.ts\nmain.ts\nc.ts\n", ""))
        value = json.loads(ran("order", "--json", "main.ts", cwd=self.room)[1])
        self.assertEqual(value, {"format": "joravelsu-order", "version": 1, "groups": [["file:///d.ts"], ["file:///a.ts", "file:///b.ts"], ["file:///main.ts"], ["file:///c.ts"]]})


class Mentions(Project):
    FILES = {"package.json": "{}", "main.ts": "import './a.js'; import type { T } from './t'; const u = new URL('./w.wasm', import.meta.url); export { u };",
             "a.js": "import './b.cjs'; console.log(eval('1'));\nexport default (a = require, b) => { var require; return b.constructor(a) };",
             "b.cjs": "require('./main.ts'); with (a) b;", "t.d.ts": "export interface T { a: Function }", "quiet.ts": "export const a = Math.max(1, 2);", "typed.ts": "import { T } from './t'; let t: T; export { t };",
             "slip.ts": "a b;", "data.ts": "import 'data:text/javascript,eval(1)';"}
    LISTED = ["a.js:1:19: console is declared nowhere in the text, and isn't allowed", "a.js:1:31: eval is declared nowhere in the text, and isn't allowed",
              "a.js:2:21: require is declared nowhere in the text, and isn't allowed", "b.cjs:1:1: require is declared nowhere in the text, and isn't allowed",
              "b.cjs:1:23: with may make a name of a property", "b.cjs:1:29: a is declared nowhere in the text, and isn't allowed", "b.cjs:1:32: b is declared nowhere in the text, and isn't allowed",
              "main.ts:1:62: URL is declared nowhere in the text, and isn't allowed"]

    def lines(self, *words):
        status, out, errors = ran(*words, cwd=self.room)
        self.assertEqual(errors, "")
        return status, out.splitlines()

    def test_each(self):
        status, lines = self.lines("mentions", "main.ts")
        self.assertEqual((status, lines[1:-1]), (1, self.LISTED))
        self.assertTrue(lines[0].startswith("allowed: AggregateError Array "))
        self.assertNotIn("eval", lines[0].split(" "))
        self.assertIn("which --strict lists", lines[-1])

    def test_what_is_allowed(self):
        status, lines = self.lines("mentions", "--host", "--allow", "a,b", "--allow", "require", "main.ts")
        self.assertEqual((status, lines[1:-1]), (1, [self.LISTED[1], self.LISTED[4]]))
        self.assertTrue(lines[0].endswith(" a b require"))
        self.assertIn("a.js:2:59: .constructor may reach what makes code", self.lines("mentions", "--strict", "main.ts")[1])

    def test_an_empty_list(self):
        status, lines = self.lines("mentions", "quiet.ts")
        self.assertEqual((status, len(lines)), (0, 3))
        self.assertTrue(lines[1].startswith("nothing is mentioned: each name that the modules use at run time is declared"))
        self.assertTrue(lines[2].startswith("not said: what a function does"))
        self.assertEqual(self.lines("check", "--fail-on", "mention", "quiet.ts")[0], 0)

    def test_what_is_not_read(self):
        self.assertEqual(self.lines("mentions", "slip.ts")[1][1:-1], ["slip.ts:1:3: isn't read: the tokens are no program of the grammar at byte 2"])
        self.assertEqual(self.lines("mentions", "typed.ts")[1][1:-1], ["typed.ts:1:19: \"./t\" resolves to a declaration: the code isn't in the graph"])
        self.assertEqual(self.lines("mentions", "data.ts")[1][1:-1], ["data:text/javascript,eval(1):1:1: eval is declared nowhere in the text, and isn't allowed"])
        self.assertEqual(ran("mentions", "--kind", "types", "main.ts", cwd=self.room)[::2], (2, "joravelsu: a graph of types doesn't show what code mentions: --kind code does\n"))

    def test_calls_of_require_that_are_edges(self):
        self.assertNotIn(self.LISTED[3], self.lines("mentions", "--commonjs", "main.ts")[1])

    def test_check(self):
        status, lines = self.lines("check", "--fail-on", "unread,mention", "main.ts")
        self.assertEqual([line for line in lines if line in self.LISTED], self.LISTED)
        self.assertTrue(status == 1 and lines[-1].endswith("8 mentions; status 1"), lines[-1])
        self.assertNotIn(self.LISTED[1], self.lines("check", "main.ts")[1])
        value, whole = json.loads(ran("check", "--json", "--fail-on", "mention", "main.ts", cwd=self.room)[1]), schema("check.schema.json")
        self.assertEqual(list(faults_of(value, whole, whole)), [])
        self.assertEqual((value["found"], value["mentions"]["strict"], len(value["mentions"]["found"])), (["mention", "unread"], False, 8))
        self.assertEqual(value["mentions"]["found"][1], {"specifier": "file:///a.js", "file": "a.js", "line": 1, "column": 31, "reason": "name", "text": "eval"})
        results = json.loads(ran("check", "--sarif", "--fail-on", "mention", "main.ts", cwd=self.room)[1])["runs"][0]["results"]
        self.assertEqual(sum(result["ruleId"] == "mention" and result["level"] == "error" for result in results), 8)

    def test_of_a_bundle(self):
        with open(os.path.join(self.room, "bundle.json"), "w", encoding="utf-8") as file:
            json.dump({"roots": ["file:///a.js"], "modules": [{"specifier": "file:///a.js", "text": "eval(import(b))"}]}, file)
        done = subprocess.run([os.path.join(TOOLS, "mentions"), "--allow", "b", os.path.join(self.room, "bundle.json")], capture_output=True, text=True, check=False, env={**os.environ, "JORAVELSU_QUIET": "1"})
        self.assertEqual((done.returncode, done.stdout.splitlines()[1:-1]), (1, ["a.js:1:1: eval is declared nowhere in the text, and isn't allowed", "a.js:1:6: import(b) has no literal"]))


class Vendor(unittest.TestCase):
    FILES = {
        "package.json": "{}", "src/main.ts": "/// <reference path='types.d.ts' />\nimport './a'; import './d/'; import 'p/x'; import 'fs'; import j from './j.json' with { type: 'json' };\nimport './m.wasm'; import type { T } from './t';\n"
        "import 'data:text/javascript,export%20{}'; import 'https://h.test/x.js'; export * from '../A.js'; import('../a.js'); import '@/a'; import './it%27s.js'",
        "src/types.d.ts": "", "src/a.ts": "\ufeff// é\nimport /* x */ './main'; const s = './main'", "src/d/index.js": "", "node_modules/p/package.json": '{"exports": {"./x": "./lib/x.mjs"}}',
        "node_modules/p/lib/x.mjs": "import '../y.cjs'", "node_modules/p/y.cjs": "", "src/j.json": "{}", "src/t.ts": "export type T = 1", "A.js": "", "a.js": "", "src/it's.js": "",
        "tsconfig.json": '{"compilerOptions": {"paths": {"@/*": ["./src/*"]}}}', "src/x.js": "",
    }

    def setUp(self):
        room = tempfile.TemporaryDirectory()
        self.addCleanup(room.cleanup)
        self.room = room.name
        for path, text in self.FILES.items():
            place = os.path.join(self.room, path)
            os.makedirs(os.path.dirname(place), exist_ok=True)
            with open(place, "w", encoding="utf-8") as file:
                file.write(text)
        with open(os.path.join(self.room, "src/m.wasm"), "wb") as file:
            file.write(b"\0asm\x01\0\0\0\x02\x0c\x01\x06./x.js\x01f\0\0")

    def vendored(self, *words):
        return ran("vendor", "-o", "out", "--external", "https://*", *words, "src/main.ts", cwd=self.room)

    def read(self, path):
        with open(os.path.join(self.room, "out", path), "rb") as file:
            return file.read().decode()

    def test_files(self):
        self.assertEqual(self.vendored("--kind", "all")[:2], (0, "14 files; out/src/main.ts\n"))
        self.assertEqual(self.read("src/main.ts"), "/// <reference path=\"./types.d.ts\" />\nimport \"./a.ts\"; import \"./d/index.js\"; import \"../node_modules/p/lib/x.mjs\"; import \"node:fs\"; import j from \"./j.json\" with { type: 'json' };\n"
                         "import \"./m.wasm\"; import type { T } from \"./t.ts\";\nimport \"../data/module.js\"; import \"https://h.test/x.js\"; export * from \"../A.js\"; import(\"../a-2.js\"); import \"./a.ts\"; import \"./it_s.js\"")
        self.assertEqual(self.read("src/a.ts"), "\ufeff// é\nimport /* x */ \"./main.ts\"; const s = './main'")
        self.assertEqual((self.read("data/module.js"), self.read("a-2.js")), ("export {}", ""))
        status, out, _ = ran("graph", "--json", "--folder", "out", "--external", "https://*", "out/src/main.ts", cwd=self.room)
        states = [entry["state"] for entry in json.loads(out)["modules"]]
        self.assertEqual((status, sorted(set(states)), states.count("module")), (0, ["external", "module"], 14))

    def test_only_code(self):
        self.assertEqual(self.vendored()[:2], (0, "12 files; out/src/main.ts\n"))
        self.assertFalse(os.path.exists(os.path.join(self.room, "out/src/t.ts")))

    def test_the_folder_is_not_there_yet(self):
        os.mkdir(os.path.join(self.room, "out"))
        self.assertEqual(self.vendored()[0], 0)
        status, _, errors = self.vendored()
        self.assertEqual(status, 2)
        self.assertTrue(errors.endswith("out: it is there, and isn't an empty folder\n"))

    def test_causes(self):
        with open(os.path.join(self.room, "src/main.ts"), "w", encoding="utf-8") as file:
            file.write("import './gone.ts';\nimport 'none'; import './bad.js'")
        with open(os.path.join(self.room, "src/bad.js"), "w", encoding="utf-8") as file:
            file.write("import {")
        status, out, _ = self.vendored()
        self.assertEqual((status, out.splitlines()), (1, [
            "src/bad.js: its module is in error: Parse", 'src/main.ts:1:8: "./gone.ts": there is no such module in the bundle', 'src/main.ts:2:8: "none": it doesn\'t resolve: ImportPrefixMissing']))
        self.assertFalse(os.path.exists(os.path.join(self.room, "out")))

    def test_names(self):
        rows = [("file:///a b/é.js", "JavaScript", "a_b/_.js"), ("https://h.test:8/x?y=1", "TypeScript", "h.test_8/x_y_1.ts"), ("https://h.test/", "JavaScript", "h.test.js"), ("file:///a.js", "TypeScript", "a.js.ts"),
                ("file:///..%2f/x.d.ts", "Dts", ".._/x.d.ts"), ("data:text/javascript,1", "JavaScript", "data/module.js"), ("file:///%2e%2e/%2E/y.ts", "TypeScript", "_/_/y.ts")]
        for specifier, media, name in rows:
            found = vendoring.wanted_name(report.Entry(specifier, f"module {media} 1"))
            self.assertEqual(found, name)
            self.assertEqual(os.path.normpath(found), found)


class Diff(unittest.TestCase):
    def setUp(self):
        room = tempfile.TemporaryDirectory()
        self.addCleanup(room.cleanup)
        self.room = room.name

    def put(self, name, text):
        with open(os.path.join(self.room, name), "w", encoding="utf-8") as file:
            file.write(text)
        return os.path.join(self.room, name)

    def test_differences(self):
        old = self.put("old", REPORT)
        changed = REPORT.replace('  import 30-34 "fs" - ! ImportPrefixMissing "fs"\n', "").replace("file:///c.ts error Missing", "file:///c.ts module TypeScript 5\n  import 1-5 \"./x\" - -> file:///x")
        new = self.put("new", changed.replace("node:f external\n", "file:///x error Missing\nnode:f external\n").replace("TypeScript 20", "TypeScript 21"))
        status, out, _ = ran("diff", old, new)
        self.assertEqual((status, out.splitlines()), (1, [
            "new entries: 1", "  + x: error Missing", "changed entries: 1", "  ! c.ts: error Missing, now module TypeScript",
            "new edges: 1", '  + c.ts: import "./x" -> x', "removed edges: 1", '  - a.ts: import "fs" ! ImportPrefixMissing "fs"',
            "new faults: 1", "  + x: Missing", "removed faults: 2", '  - a.ts: "fs": ImportPrefixMissing "fs"', "  - c.ts: Missing"]))
        value = json.loads(ran("diff", "--json", new, old)[1])
        self.assertEqual(value["entries"], {"new": [], "removed": [{"specifier": "file:///x", "state": "error Missing"}],
                                            "changed": [{"specifier": "file:///c.ts", "state": "error Missing", "old": "module TypeScript"}]})
        self.assertEqual(ran("diff", old, old), (0, "the graphs are equal, except for sizes and ranges\n", ""))

    def test_a_report_and_its_json_are_the_same(self):
        for name in ("demo.expected/graph",):
            path = os.path.join(ROOT, "examples", "projects", name)
            self.assertEqual(ran("diff", path + ".report", path + ".json")[0], 0)
        report = self.put("report", REPORT)
        made = self.put("json", subprocess.run([os.path.join(TOOLS, "graph-json"), report], capture_output=True, text=True, check=True).stdout)
        self.assertEqual(ran("diff", report, made)[1], "the graphs are equal, except for sizes and ranges\n")

    def test_no_graph(self):
        other = self.put("other", "{}")
        self.assertEqual(ran("diff", other, other), (2, "", f"joravelsu: {other}: neither a report nor a graph as JSON\n"))
        self.assertTrue(compare.side_of(REPORT.encode()).faults)


class Options(unittest.TestCase):
    def setUp(self):
        room = tempfile.TemporaryDirectory()
        self.addCleanup(room.cleanup)
        self.room = room.name
        os.makedirs(os.path.join(self.room, "src"))
        for name, text in (("src/main.ts", "import './a'; import 'b'"), ("src/a.ts", "import './main'"), ("package.json", "{}")):
            with open(os.path.join(self.room, name), "w", encoding="utf-8") as file:
                file.write(text)

    def configure(self, value):
        with open(os.path.join(self.room, "joravelsu.json"), "w", encoding="utf-8") as file:
            json.dump(value, file)

    def test_what_the_file_says(self):
        self.configure({"$schema": "x", "roots": ["src/main.ts"], "external": ["b"], "failOn": ["cycle"]})
        self.assertEqual(ran("check", cwd=self.room)[0], 1)
        status, out, errors = ran("check", "--fail-on", "missing", cwd=os.path.join(self.room, "src"))
        self.assertEqual((status, errors), (0, ""))
        self.assertIn("no faults; status 0", out)
        self.assertIn("1 fault; status 1", ran("check", "--config", "none", "src/main.ts", cwd=self.room)[1])
        self.assertIn("1 fault; status 0", ran("check", "--external", "c", "--fail-on", "missing", cwd=self.room)[1].replace("status 1", "status 0"))

    def test_what_is_no_option(self):
        rows = [({"rots": []}, "rots isn't one of roots, folder, "), ({"roots": "a"}, "roots isn't a list"), ({"roots": [1]}, "roots isn't a text"), ({"all": 1}, "all is neither true nor false"),
                ({"kind": "some"}, "kind: some isn't one of all, code, types"), ({"failOn": ["x"]}, "failOn: x isn't one of missing, "), ([], "the file isn't an object")]
        for value, said in rows:
            self.configure(value)
            status, _, errors = ran("check", cwd=self.room)
            self.assertEqual(status, 2)
            self.assertTrue(errors.startswith(f"joravelsu: joravelsu.json: {said}"), errors)

    def test_the_schema_has_each_key(self):
        whole = schema("config.schema.json")
        self.assertEqual(set(whole["properties"]) - {"$schema"}, set(config.KEYS))
        options = {word for name, part, _ in usage.commands_of(kit.tool("../joravelsu").options()) if name == "check" for words, _, _ in usage.options_of(part) for word in words}
        for key, row in whole["properties"].items():
            word = re.match(r"--[a-z-]+", row.get("description", ""))
            self.assertTrue(key in ("$schema", "roots") or word[0] in options, key)
        not_there = {"--watch", "--help", "--version", "--config", "--json", "--sarif", "--github", "--no-cache", "--check-cache", "--loader"}
        told = {re.match(r"--[a-z-]+", row["description"])[0] for row in whole["properties"].values() if row.get("description", "").startswith("--")}
        self.assertEqual({word for word in options if word.startswith("--")} - not_there, told)


class Usage(unittest.TestCase):
    def test_versions(self):
        for words in (["./joravelsu", "--version"], ["./joravelsu", "check", "--version"], ["./joravelsu", "diff", "--version"], ["./graph_tool", "--version"], ["tools/build-library", "--version"],
                      *([f"tools/{name}", "--version"] for name in ("pack", "explain", "summary", "graph-json", "picture", "unread", "mentions", "check-bundle"))):
            done = subprocess.run(words, capture_output=True, text=True, cwd=ROOT, stdin=subprocess.DEVNULL, check=False)
            self.assertEqual((done.returncode, done.stderr), (0, ""), words)
            self.assertRegex(done.stdout, rf"^{re.escape(os.path.basename(words[0]))} {re.escape(kit.VERSION)} \(.*program.*\)\n$")

    def test_each_command_has_help(self):
        for name in ("check", "graph", "unread", "why", "vendor", "imports", "dts", "diff", "mentions", "order", "man", "completions"):
            status, out, errors = ran(name, "--help")
            self.assertEqual((status, errors), (0, ""), name)
            self.assertIn(f"usage: joravelsu {name} ", out)

    def test_the_man_page(self):
        status, out, _ = ran("man")
        self.assertEqual(status, 0)
        self.assertTrue(out.startswith(".TH JORAVELSU 1 "))
        for name in ("CHECK", "GRAPH", "UNREAD", "MENTIONS", "ORDER", "IMPORTS", "DTS", "DIFF"):
            self.assertIn(f".SH {name}\n", out)
        self.assertIn("\\fB\\-\\-fail\\-on\\fR \\fIWORD,..\\fR\n", out)
        if shutil.which("mandoc") or shutil.which("groff"):
            words = ["mandoc", "-Tlint"] if shutil.which("mandoc") else ["groff", "-man", "-ww", "-z"]
            self.assertEqual(subprocess.run(words, input=out, capture_output=True, text=True, check=False).stderr, "")

    def test_bash_completes(self):
        script = ran("completions", "bash")[1]
        rows = [("chec", ["check"]), ("check --fail", ["--fail-on"]), ("imports --a", ["--as"]), ("dts --no", ["--no-comments"]), ("graph --sv", ["--svg"])]
        for line, wanted in rows:
            words = ["joravelsu", *line.split(" ")]
            asked = f"{script}\nCOMP_WORDS=({' '.join(words)}); COMP_CWORD={len(words) - 1}; _joravelsu; echo \"${{COMPREPLY[@]}}\""
            done = subprocess.run(["bash", "-c", asked], capture_output=True, text=True, check=True)
            self.assertEqual(done.stdout.split(), wanted)

    def test_other_shells_read_theirs(self):
        for shell in ("zsh", "fish"):
            script = ran("completions", shell)[1]
            self.assertIn("fail-on", script)
            if shutil.which(shell):
                self.assertEqual(subprocess.run([shell, "-n"], input=script, capture_output=True, text=True, check=False).stderr, "")


if __name__ == "__main__":
    unittest.main()
