"""What ./joravelsu chooses beyond the program of the specification: JSON without an attribute, calls of require, and rules."""
import json
import os
import subprocess
import sys
import unittest

TOOLS = os.path.dirname(os.path.dirname(os.path.abspath(__file__)))
ROOT = os.path.dirname(TOOLS)
sys.path.insert(0, TOOLS)
from parts import resolve  # noqa: E402
from tests.rooms import Room  # noqa: E402
from tests.test_graph_tools import faults_of  # noqa: E402

JORAVELSU = os.path.join(ROOT, "joravelsu")


class Project(Room):
    def ran(self, *words):
        done = subprocess.run([JORAVELSU, *words], capture_output=True, cwd=self.room, env={**os.environ, "JORAVELSU_QUIET": "1"}, check=False)
        return done.returncode, done.stdout.decode(), done.stderr.decode()


class JsonWithoutAttribute(Project):
    FILES = {"package.json": {"name": "it"}, "a.ts": 'import b from "./b.json"; console.log(b);', "b.json": {}}

    def test_it_is_allowed_without_a_deno_json(self):
        self.put(self.FILES)
        for loader in ("program", "library"):
            self.assertEqual(self.ran("check", "--loader", loader, "a.ts")[0], 0)
        self.assertIn('import 14-24 "./b.json" - -> file:///b.json\n', self.ran("graph", "a.ts")[1])

    def test_it_is_a_fault_with_one(self):
        self.put({**self.FILES, "deno.json": {}})
        for loader in ("program", "library"):
            status, out, _ = self.ran("check", "--loader", loader, "a.ts")
            self.assertEqual((status, out.splitlines()[0]), (1, 'a.ts:1:15: "./b.json": the attribute type doesn\'t fit what the module is'))
        self.assertEqual(self.ran("check", "--deno", "none", "a.ts")[0], 0)

    def test_another_attribute_is_a_fault(self):
        self.put({**self.FILES, "a.ts": 'import b from "./b.json" with { type: "text" };'})
        self.assertEqual(self.ran("check", "a.ts")[0], 1)

    def test_it_is_vendored(self):
        self.put(self.FILES)
        self.assertEqual(self.ran("vendor", "-o", "out", "a.ts")[0], 0)
        with open(os.path.join(self.room, "out", "a.ts"), encoding="utf-8") as file:
            self.assertEqual(file.read(), self.FILES["a.ts"])


class CommonJs(Project):
    FILES = {
        "package.json": {"name": "it"}, "data.json": {"a": 1}, "lib/a.js": 'module.exports = require("../index");', "lib/b.ts": "", "lib/b.js": "",
        "index.js": 'const a = require("./lib/a"), fs = require("fs"), b = require("./lib"); require("dual"); require("plain"); require("./data");\n'
                    'function f(require) { return require("./not-there") } import("./later.mjs"); require(f);',
        "lib/index.js": 'require("./b"); require("node:path")', "later.mjs": 'import d from "dual"; export { d }',
        "node_modules/dual/package.json": {"name": "dual", "exports": {"import": "./i.mjs", "require": "./r.cjs"}}, "node_modules/dual/i.mjs": "", "node_modules/dual/r.cjs": "",
        "node_modules/plain/package.json": {"name": "plain", "main": "lib", "module": "lib/es.mjs"}, "node_modules/plain/lib/index.js": "", "node_modules/plain/lib/es.mjs": "",
    }
    # Worked out by the rules of Node's pages on modules and packages.
    EDGES = """
        index.js ./lib/a lib/a.js|index.js fs node:fs|index.js ./lib lib/index.js|index.js dual node_modules/dual/r.cjs|index.js plain node_modules/plain/lib/index.js
        index.js ./data data.json|index.js ./later.mjs later.mjs|lib/a.js ../index index.js|lib/index.js ./b lib/b.js|lib/index.js node:path node:path
        later.mjs dual node_modules/dual/i.mjs"""

    def edges(self, *words):
        status, out, told = self.ran("graph", "--json", *words)
        self.assertEqual(status, 0, told)
        plain = lambda url: (url or "").removeprefix("file:///")
        return {" ".join((plain(entry["specifier"]), edge["specifier"], plain(edge.get("target")))) for entry in json.loads(out)["modules"] for edge in entry.get("edges", ())}

    def test_calls_lead_where_node_leads_them(self):
        self.put(self.FILES)
        wanted = {row.strip() for line in self.EDGES.strip().split("\n") for row in line.split("|")}
        self.assertEqual(self.edges("--commonjs", "index.js"), wanted)
        self.assertEqual(self.edges("index.js"), {"index.js ./later.mjs later.mjs", "later.mjs dual node_modules/dual/i.mjs"})

    def test_what_is_an_edge_is_not_unread(self):
        self.put(self.FILES)
        status, out, _ = self.ran("unread", "--commonjs", "index.js")
        self.assertEqual((status, [line.split(":")[:2] for line in out.splitlines()]), (1, [["index.js", "2"], ["index.js", "2"]]))

    def test_it_is_vendored(self):
        self.put(self.FILES)
        self.assertEqual(self.ran("vendor", "--commonjs", "-o", "out", "index.js")[0], 0)
        with open(os.path.join(self.room, "out", "index.js"), encoding="utf-8") as file:
            self.assertIn('require("./node_modules/dual/r.cjs"); require("./node_modules/plain/lib/index.js"); require("./data.json");', file.read())

    def test_conditions_of_a_call(self):
        value = {"node": {"types": "t1", "import": "n", "require": "r"}, "types": "t2", "import": "i", "require": ["s", {"default": "j"}], "default": "d"}
        self.assertEqual(list(resolve.paths_of(value, resolve.Ways(requires=True))), ["r", "s", "j", "d", "t1", "t2"])
        self.assertEqual(resolve.Ways(["a"]).of_require().conditions, {"a", "require", "node", "default"})


class FurtherForms(Project):
    FILES = {
        "package.json": {}, "t.ts": "export type T = 1;", "w.ts": "export {};", "pic.js": "",
        "a.ts": 'let t: import("./t").T; new Worker(new URL("w.ts", import.meta.url)); new URL("pic.js", import.meta.url); import.meta.resolve("dual"); require.resolve("dual");',
        "node_modules/dual/package.json": {"name": "dual", "exports": {"import": "./i.mjs", "require": "./r.cjs"}}, "node_modules/dual/i.mjs": "", "node_modules/dual/r.cjs": "",
    }

    def edges(self, *words):
        status, out, told = self.ran("graph", "--json", *words, "a.ts")
        self.assertEqual(status, 0, told)
        plain = lambda url: (url or "").removeprefix("file:///")
        graph = json.loads(out)["modules"]
        return [" ".join((edge["kind"], edge["specifier"], plain(edge.get("target")))) for entry in graph for edge in entry.get("edges", ())], [plain(entry["specifier"]) for entry in graph]

    def test_each_is_chosen(self):
        self.put(self.FILES)
        types, works = "type-import ./t t.ts", "worker w.ts w.ts"
        places = ["address pic.js pic.js", "address dual node_modules/dual/i.mjs"]
        self.assertEqual(self.edges(), ([], ["a.ts"]))
        self.assertEqual(self.edges("--type-imports"), ([types], ["a.ts", "t.ts"]))
        self.assertEqual(self.edges("--workers"), ([works], ["a.ts", "w.ts"]))
        self.assertEqual(self.edges("--addresses"), (["address w.ts w.ts", *places], ["a.ts"]))
        self.assertEqual(self.edges("--type-imports", "--workers", "--addresses", "--kind", "code"), ([types, works, *places], ["a.ts", "w.ts"]))
        self.assertEqual(self.edges("--commonjs"), (["require-resolve dual node_modules/dual/r.cjs"], ["a.ts"]))

    def test_the_file_of_options_says_it(self):
        self.put({**self.FILES, "joravelsu.json": {"workers": True, "typeImports": True, "addresses": False}})
        self.assertEqual(self.edges()[1], ["a.ts", "t.ts", "w.ts"])

    def packed(self, *words):
        done = subprocess.run([os.path.join(TOOLS, "pack"), "--packages", *words[:-1], ".", words[-1]], stdout=subprocess.PIPE, cwd=self.room, check=True)
        return json.loads(done.stdout)

    DUAL = ("dynamic dual node_modules/dual/i.mjs", "require dual node_modules/dual/r.cjs")

    def test_a_text_leads_to_two_files_by_two_forms(self):
        for text in ('import("dual"); require("dual");', 'require("dual"); import("dual");'):
            self.put({**self.FILES, "a.ts": text})
            self.assertEqual(self.edges("--commonjs"), ([*self.DUAL], ["a.ts", "node_modules/dual/i.mjs", "node_modules/dual/r.cjs"]))
            self.assertNotIn("by one form", self.ran("graph", "--commonjs", "a.ts")[2])

    def test_a_call_leads_nowhere_where_an_import_leads_somewhere(self):
        for only, found in (("import", [self.DUAL[0], "require dual "]), ("require", ["dynamic dual ", self.DUAL[1]])):
            self.put({**self.FILES, "a.ts": 'import("dual"); require("dual");', "node_modules/dual/package.json": {"exports": {only: "./i.mjs" if only == "import" else "./r.cjs"}}})
            self.assertEqual(self.edges("--commonjs")[0], found)

    def test_the_maps_of_a_bundle(self):
        self.put({**self.FILES, "a.ts": 'import("dual"); require("dual"); require.resolve("dual");', "b.ts": 'import "./a.ts"; require("./t");'})
        bundle = self.packed("--commonjs", "a.ts")
        self.assertEqual(bundle["importMap"]["map"], {"imports": {"dual": "file:///node_modules/dual/i.mjs"}})
        self.assertEqual(bundle["requireMap"]["map"], {"imports": {"dual": "file:///node_modules/dual/r.cjs"}})
        self.put({**self.FILES, "a.ts": 'import "./t"; require("dual");'})
        self.assertNotIn("requireMap", self.packed("--commonjs", "a.ts"))
        self.assertEqual(len(self.packed("--commonjs", "a.ts")["importMap"]["map"]["imports"]), 2)

    def test_two_files_of_one_text_are_vendored(self):
        self.put({**self.FILES, "a.ts": 'import("dual"); require("dual");'})
        self.assertEqual(self.ran("vendor", "--commonjs", "-o", "out", "a.ts")[0], 0)
        with open(os.path.join(self.room, "out", "a.ts"), encoding="utf-8") as file:
            self.assertEqual(file.read(), 'import("./node_modules/dual/i.mjs"); require("./node_modules/dual/r.cjs");')

    def test_an_equals_import_of_two_files_is_told(self):
        self.put({**self.FILES, "a.ts": 'import("dual"); import a = require("dual");'})
        told = self.ran("graph", "--commonjs", "a.ts")[2]
        self.assertIn('"dual" in a.ts is file:///node_modules/dual/i.mjs by one form and file:///node_modules/dual/r.cjs by another: the graph has the latter\n', told)

    def test_it_is_vendored(self):
        self.put(self.FILES)
        self.assertEqual(self.ran("vendor", "--workers", "--type-imports", "--kind", "all", "-o", "out", "a.ts")[0], 0)
        with open(os.path.join(self.room, "out", "a.ts"), encoding="utf-8") as file:
            self.assertIn('let t: import("./t.ts").T; new Worker(new URL("./w.ts", import.meta.url)); new URL("pic.js", import.meta.url);', file.read())


class AllForms(Project):
    FILES = {"package.json": {}, "a.ts": 'import b from "./b";\nexport default <any>b;', "b.ts": "export default <const>[1];"}

    def test_assertions_are_read_by_choice(self):
        self.put(self.FILES)
        self.assertEqual(self.ran("check", "--all-forms", "a.ts")[0], 0)
        self.assertIn('import 14-19 "./b" - -> file:///b.ts\n', self.ran("graph", "--all-forms", "a.ts")[1])
        self.assertEqual(self.ran("check", "a.ts")[0], 1)

    def test_the_file_of_options_says_it(self):
        self.put({**self.FILES, "joravelsu.json": {"allForms": True}})
        self.assertEqual(self.ran("check", "a.ts")[0], 0)

    def test_a_fault_is_told_where_it_is(self):
        self.put({**self.FILES, "b.ts": "export default <const>[1];\nlet = <a>;"})
        status, out, _ = self.ran("check", "--all-forms", "a.ts")
        self.assertEqual((status, out.split(":")[:2]), (1, ["b.ts", "2"]))

    def test_it_is_vendored(self):
        self.put(self.FILES)
        self.assertEqual(self.ran("vendor", "--all-forms", "-o", "out", "a.ts")[0], 0)
        with open(os.path.join(self.room, "out", "a.ts"), encoding="utf-8") as file:
            self.assertEqual(file.read(), 'import b from "./b.ts";\nexport default <any>b;')


class Rules(Project):
    FILES = {"package.json": {}, "src/a.ts": 'import "./b";\nimport type { T } from "../vendor/t";\nimport("./c.test");', "src/b.ts": "export {};", "src/c.test.ts": "export {};", "vendor/t.ts": "export type T = 1;"}

    def setUp(self):
        super().setUp()
        self.put(self.FILES)

    def checked(self, rules, *more):
        self.put({"rules.json": rules})
        return self.ran("check", "--policy", "rules.json", *more, "src/a.ts")

    def test_nothing_is_forbidden(self):
        for rules in ({}, {"forbidden": [{"to": {"path": "*/vendor/*", "typeOnly": False}}]}, {"allowed": [{"from": {"path": "file:///*"}}]},
                      {"modules": {"allowed": [{"module": {"scheme": ["file", "npm"]}}]}}):
            status, out, _ = self.checked(rules)
            self.assertEqual((status, out.splitlines()[-2:]), (0, ["rules: 7 entries and edges looked at, none breaks one", "no faults; status 0"]))

    def test_a_forbidden_edge(self):
        status, out, _ = self.checked({"forbidden": [{"to": {"kind": "dynamic", "path": "*.js"}}, {"name": "no tests", "comment": "they aren't shipped", "to": {"path": "*.test.ts"}}]})
        self.assertEqual((status, out.splitlines()[:3]), (1, ['src/a.ts:3:8: "./c.test": "no tests" forbids it: they aren\'t shipped', '    import("./c.test");', "           ^~~~~~~~~~"]))
        self.assertEqual(out.splitlines()[-2:], ["rules: one is broken", "no faults; status 1"])

    def test_the_first_in_the_order_of_the_report(self):
        rules = {"modules": {"forbidden": [{"module": {"path": "*.ts", "pathNot": ["*/a.ts", "*/b.ts"]}}]}}
        self.assertEqual(self.checked(rules)[1].splitlines()[0], "src/c.test.ts: rule 0 forbids it")

    def test_what_no_rule_allows(self):
        status, out, _ = self.checked({"allowed": [{"to": {"path": "*/src/*"}}]})
        self.assertEqual((status, out.splitlines()[0]), (1, 'src/a.ts:2:24: "../vendor/t": no rule of allowed fits it'))

    def test_a_required_edge(self):
        for rules in ({"required": [{"module": {"path": "*/a.ts"}, "to": {"path": "*.test.ts", "dynamic": True}}]}, {"required": [{"module": {"path": "*.tsx"}, "to": {"path": []}}]}):
            self.assertEqual(self.checked(rules)[0], 0)
        rules = {"required": [{"module": {"path": "*/a.ts"}, "to": {"path": "*/b.ts"}}, {"name": "all use types", "module": {"path": "*/src/*"}, "to": {"path": "*/vendor/*"}}]}
        status, out, _ = self.checked(rules)
        self.assertEqual((status, out.splitlines()[0], out.splitlines()[-2:]), (1, 'src/b.ts: "all use types" requires an edge that it lacks', ["rules: one is broken", "no faults; status 1"]))
        self.assertEqual(self.checked({"required": [{"to": {"path": "*/x.ts"}}]})[1].splitlines()[0], "src/a.ts: rule 0 requires an edge that it lacks")

    def test_rules_that_are_none(self):
        for rules, at in (([], "/"), ({"forbidden": [{"from": {"pathNot": 1}}]}, "/forbidden/0/from/pathNot"), ({"forbid": []}, "/forbid"), ({"required": [{"to": {"reachable": True}}]}, "/required/0/to/reachable"), ({"required": {}}, "/required"), ({"modules": {"allowed": [{"modul": {}}]}}, "/modules/allowed/0/modul")):
            status, out, told = self.checked(rules)
            self.assertEqual((status, out, told), (2, "", f"joravelsu: rules.json: no rules: {at}\n"))

    def test_as_json(self):
        with open(os.path.join(ROOT, "docs", "check.schema.json"), encoding="utf-8") as file:
            schema = json.load(file)
        for rules, wanted in (({}, {"kept": 7}), ({"forbidden": [{"to": {"typeOnly": True}}]},
                                                   {"breach": {"specifier": "file:///src/a.ts", "file": "src/a.ts", "line": 2, "column": 24, "message": '"../vendor/t": rule 0 forbids it'}})):
            value = json.loads(self.checked(rules, "--json")[1])
            self.assertEqual(list(faults_of(value, schema, schema)), [])
            self.assertEqual(value["policy"], wanted)
        self.assertIn("title=joravelsu policy::", self.checked({"forbidden": [{}]}, "--github")[1])


if __name__ == "__main__":
    unittest.main()
