"""tools/summary, graph-json, unread and the shared parts, on small reports and bundles."""
import json
import os
import random
import subprocess
import sys
import tempfile
import unittest

TOOLS = os.path.dirname(os.path.dirname(os.path.abspath(__file__)))
sys.path.insert(0, TOOLS)
from parts import bundles, kit, packing, records, report, resolve, scan, settings, sites, tsconfig, urls, words  # noqa: E402

unread = kit.tool("unread")
prove = kit.tool("prove")
WAYS = resolve.Ways()
REPORT = """root file:///a.ts
import file:///deno.json referrer - "./a.ts" - -> file:///a.ts
file:///a.ts module TypeScript 10
  import 7-13 "./b" - -> file:///b
  import-type 20-26 "./c.ts" - -> file:///c.ts
  import 30-34 "fs" - ! ImportPrefixMissing "fs"
  import 40-44 "npm:d@1/e" "json" -> npm:d@1/e
  import-equals 50-55 "node:f" ? -> node:f
file:///b redirect file:///b.ts
file:///b.ts module TypeScript 20
  import 7-15 "./a.ts" - -> file:///a.ts
file:///c.ts error Missing
node:f external
npm:d@1/e package npm "d" "1" "e"
entries 6
"""


def run(tool, *words, report=REPORT):
    done = subprocess.run([os.path.join(TOOLS, tool), *words], input=report.encode(), capture_output=True)
    return done.returncode, done.stdout.decode(), done.stderr.decode()


def faults_of(value, schema, whole, at="graph"):
    """What keeps a value from fitting a schema, as far as the schema's words here go."""
    if "$ref" in schema:
        schema = whole["$defs"][schema["$ref"].rpartition("/")[2]]
    types = {"object": dict, "array": list, "string": str, "integer": int, "boolean": bool, "null": type(None)}
    named = schema.get("type", [])
    if named and not any(isinstance(value, types[name]) for name in ([named] if isinstance(named, str) else named)):
        yield f"{at}: {value!r} is no {named}"
    if "const" in schema and value != schema["const"]:
        yield f"{at}: {value!r} isn't {schema['const']!r}"
    if "enum" in schema and value not in schema["enum"]:
        yield f"{at}: {value!r} is none of {schema['enum']}"
    if isinstance(value, dict):
        for key in schema.get("required", []):
            if key not in value:
                yield f"{at}: no {key}"
        for key, item in value.items():
            if key in schema.get("properties", {}):
                yield from faults_of(item, schema["properties"][key], whole, f"{at}.{key}")
            elif schema.get("additionalProperties") is False:
                yield f"{at}: {key} is told by no schema"
    if isinstance(value, list):
        if not schema.get("minItems", 0) <= len(value) <= schema.get("maxItems", len(value)):
            yield f"{at}: {len(value)} items"
        for number, item in enumerate(value):
            yield from faults_of(item, schema.get("items", {}), whole, f"{at}[{number}]")


class Json(unittest.TestCase):
    def schema(self):
        with open(os.path.join(kit.ROOT, "docs", "graph.schema.json"), encoding="utf-8") as file:
            return json.load(file)

    def test_shape(self):
        status, out, errors = run("graph-json", "-")
        self.assertEqual((status, errors), (0, ""))
        value = json.loads(out)
        self.assertEqual(list(faults_of(value, self.schema(), self.schema())), [])
        modules = {module["specifier"]: module for module in value["modules"]}
        self.assertEqual(modules["file:///a.ts"]["edges"][3], {"kind": "import", "typeOnly": False, "specifier": "npm:d@1/e", "range": [40, 44], "attribute": "json", "target": "npm:d@1/e"})
        self.assertEqual(modules["file:///a.ts"]["edges"][2]["fault"], 'ImportPrefixMissing "fs"')
        self.assertEqual(modules["npm:d@1/e"]["package"], {"kind": "npm", "name": "d", "requirement": "1", "subPath": "e"})
        self.assertEqual(modules["file:///b.ts"]["importers"], ["file:///a.ts"])
        self.assertEqual(value["referrers"][0]["referrer"], "file:///deno.json")

    def test_examples(self):
        folder = os.path.join(kit.ROOT, "examples", "bundles")
        for name in os.listdir(folder):
            if name.endswith(".report") and not os.path.exists(os.path.join(folder, name.replace(".report", ".status"))):
                path = os.path.join(folder, name)
                status, out, _ = run("graph-json", path, path.replace(".report", ".json"))
                self.assertEqual(status, 0)
                self.assertEqual(list(faults_of(json.loads(out), self.schema(), self.schema())), [], name)


class Summary(unittest.TestCase):
    def test_verdicts(self):
        for words, status in ((), 0), (("missing",), 1), (("parse",), 0), (("cycle",), 1), (("fault",), 1), (("parse,cycle",), 1), (("nothing",), 64):
            self.assertEqual(run("summary", *[it for word in words for it in ("--fail-on", word)], "-")[0], status, words)
        self.assertEqual(run("summary", "-", report="x\n")[0], 2)

    def test_cycles_go_over_redirects(self):
        out = run("summary", "-")[1]
        self.assertIn("cycles: 1\n  a.ts -> b.ts -> a.ts\n", out)
        self.assertIn("  c.ts  (by a.ts)\n  fs  (by a.ts)\n", out)

    def test_importers(self):
        self.assertEqual(run("summary", "--importers", "b.ts", "-")[1], "b.ts\n  a.ts  (a root)\n")


class Unread(unittest.TestCase):
    def scanned(self, text):
        return [(kind, text.encode()[start:end].decode()) for kind, start, end in unread.calls_by_scan(bundles.Source(text.encode()))]

    def test_rows_of_the_library(self):
        """The scan has the same answers as the proved calls, over the rows of crates/test_unread."""
        read = 0
        with open(os.path.join(kit.ROOT, "crates", "test_unread", "stdin"), encoding="utf-8") as file:
            rows = [line.rstrip("\n").split("\t") for line in file if line.startswith("calls\t")]
        for _, text, wanted in rows:
            text, wanted = (it.replace("\\\\", "\0").replace("\\n", "\n").replace("\0", "\\") for it in (text, wanted))
            if " at byte " in wanted:
                continue
            found = "".join(f"{kind.title()} {start}-{end} {text.encode()[start:end].decode()}, " for kind, start, end in unread.calls_by_scan(bundles.Source(text.encode())))
            self.assertEqual(found, wanted, text)
            read += 1
        self.assertGreater(read, 60)

    def test_scan(self):
        rows = [
            ("'import(a)'", []), ("// import(a)", []), ("`${require('a')}`", [("require", "require('a')")]),
            ("a /require('b')/ c", [("require", "require('b')")]), ("x = /require('b')/", []),
        ]
        for text, wanted in rows:
            self.assertEqual(self.scanned(text), wanted, text)

    def test_declared(self):
        rows = [
            ("function f(require) { require('a') }", True), ("const require = createRequire(a); require('b')", False),
            ("const require = f; require('b')", True), ("(require) => require('a')", True), ("require('a')", False),
            ("f(require, a)", False), ("function require(a) { }", True),
        ]
        for text, wanted in rows:
            self.assertEqual(unread.declares_require(text), wanted, text)

    def test_places(self):
        text = "\ufeffé;\n  import(x)\nrequire(\n  'a' )\nvar require"
        bundle = {"roots": [], "modules": [{"specifier": "file:///a.js", "text": text}]}
        status, out, _ = run("unread", "--scan", "-", report=json.dumps(bundle))
        wanted = "a.js:2:3: import(x) gives no edge\na.js:3:1: require('a') gives no edge, unless it is a require of the file itself\n"
        self.assertEqual((status, out), (1, wanted))


class Resolve(unittest.TestCase):
    FILES = {
        "node_modules/a/package.json": '{"exports": {".": {"types": "./t.d.ts", "import": "./i.js", "default": "./d.js"}, "./x/*": "./s/*.js", "./no": null}}',
        "node_modules/a/i.js": "", "node_modules/a/d.js": "", "node_modules/a/t.d.ts": "", "node_modules/a/s/y.js": "",
        "node_modules/b/package.json": '{"module": "m.js", "main": "n.js"}', "node_modules/b/m.js": "", "node_modules/b/n.js": "", "node_modules/b/sub/index.ts": "",
        "node_modules/c/index.js": "", "node_modules/@s/d/package.json": '{"main": "lib"}', "node_modules/@s/d/lib/index.cjs": "",
        "node_modules/b/node_modules/c/index.mjs": "", "src/q.ts": "", "package.json": '{"name": "me", "imports": {"#q": "./src/q.ts"}, "exports": "./src/q.ts"}',
        "tsconfig.json": '{"extends": "./base", "compilerOptions": {"paths": {"@/*": ["./none/*", "./src/*"], "exact": ["src/q.ts"],}} /* , */ }',
        "base.json": '{"compilerOptions": {"baseUrl": "src"}}',
    }

    def setUp(self):
        room = tempfile.TemporaryDirectory()
        self.addCleanup(room.cleanup)
        for path, text in self.FILES.items():
            place = os.path.join(room.name, path)
            os.makedirs(os.path.dirname(place), exist_ok=True)
            with open(place, "w", encoding="utf-8") as file:
                file.write(text)
        self.folder = resolve.Folder(room.name)

    def test_packages(self):
        rows = [
            ("src", "a", "node_modules/a/i.js"), ("", "a/x/y", "node_modules/a/s/y.js"), ("", "a/no", None), ("", "a/s/y.js", None),
            ("src", "b", "node_modules/b/m.js"), ("", "b/sub", "node_modules/b/sub/index.ts"), ("", "c", "node_modules/c/index.js"),
            ("node_modules/b/sub", "c", "node_modules/b/node_modules/c/index.mjs"), ("", "@s/d", "node_modules/@s/d/lib/index.cjs"),
            ("src", "#q", "src/q.ts"), ("src", "me", "src/q.ts"), ("", "none", None), ("", "@s", None),
        ]
        for folder, specifier, place in rows:
            self.assertEqual(self.folder.in_packages(folder, specifier, WAYS)[0], place, specifier)

    def test_tsconfig(self):
        paths = tsconfig.Paths(self.folder, self.folder.path("tsconfig.json"))
        for specifier, place in (("@/q", "src/q.ts"), ("exact", "src/q.ts"), ("q", "src/q.ts"), ("@/none", None), ("other", None)):
            self.assertEqual(paths.file_of(specifier, WAYS), place, specifier)

    def put(self, path, text):
        place = self.folder.path(path)
        os.makedirs(os.path.dirname(place), exist_ok=True)
        with open(place, "w", encoding="utf-8") as file:
            file.write(text)
        return place

    def test_tsconfig_of_a_package(self):
        self.put("node_modules/@t/one/tsconfig.json", '{"compilerOptions": {"paths": {"p": ["../../../src/q.ts"]}}}')
        self.put("node_modules/two/strict.json", '{"extends": "@t/one"}')
        for extends, place in (('"@t/one"', "src/q.ts"), ('"two/strict.json"', "src/q.ts"), ('["none", "two/strict"]', "src/q.ts"), ('"none"', None)):
            paths = tsconfig.Paths(self.folder, self.put("other.json", f'{{"extends": {extends}}}'))
            self.assertEqual(paths.file_of("p", WAYS), place, extends)

    def test_tsconfig_of_another_shape(self):
        for text, said in (
            ("[]", "the file isn't an object"), ('{"extends": 1}', "extends isn't a list"), ('{"extends": [1]}', "extends isn't a text"),
            ('{"extends": "./gone.json"}', "gone.json: No such file"), ('{"compilerOptions": null}', "compilerOptions isn't an object"),
            ('{"compilerOptions": {"paths": {"a": "b"}}}', "paths isn't a list"), ('{"compilerOptions": {"baseUrl": 1}}', "baseUrl isn't a text"),
            ('{"compilerOptions": {"paths": []}}', "paths isn't an object"), ("{", "not JSON"),
        ):
            with self.assertRaisesRegex(settings.BadFile, said):
                tsconfig.Paths(self.folder, self.put("other.json", text))


class Program:
    """A program that counts what it is asked, and finds one import in each text."""

    def __init__(self, path):
        self.path = path
        self.asked = []

    def report(self, data):
        names = [module["specifier"] for module in json.loads(data)["modules"]]
        self.asked.append(len(names))
        lines = [f'{name} module TypeScript 1\n  import 0-1 "./a" - -> file:///a' for name in names]
        return 0, "\n".join(lines).encode()


class Records(unittest.TestCase):
    def setUp(self):
        room = tempfile.TemporaryDirectory()
        self.addCleanup(room.cleanup)
        kept, kit.KEPT = kit.KEPT, room.name
        self.addCleanup(setattr, kit, "KEPT", kept)
        self.program = Program(os.path.join(room.name, "program"))
        with open(self.program.path, "w", encoding="utf-8"):
            pass

    def read(self, contents):
        kept = records.Records(self.program)
        found = sites.Reader(self.program, kept).read(contents)
        kept.save()
        return found

    def test_only_what_changed_is_read(self):
        first = {"a.ts": {"text": "1"}, "b.ts": {"text": "2"}, "b.js": {"text": "2"}}
        wanted = dict.fromkeys(first, [sites.Site("import", "./a")])
        self.assertEqual(self.read(first), wanted)
        self.assertEqual(self.read(first), wanted)
        self.assertEqual(list(self.read({**first, "a.ts": {"text": "3"}, "c.ts": {"text": "2"}})), ["a.ts", "b.ts", "b.js", "c.ts"])
        self.assertEqual(self.program.asked, [3, 1])

    def test_what_is_kept_is_compared(self):
        self.read({"a.ts": {"text": "1"}})
        kept = records.Records(self.program)
        self.assertEqual(sites.Reader(self.program, kept, True).read({"a.ts": {"text": "1"}, "b.ts": {"text": "2"}}), dict.fromkeys(("a.ts", "b.ts"), [sites.Site("import", "./a")]))
        kept.of_key(kept.key("a.ts", {"text": "1"}))[1:] = [["import", "./b"]]
        with self.assertRaisesRegex(words.Wrong, "^a.ts: what is cached isn't what the program says$"):
            sites.Reader(self.program, kept, True).read({"a.ts": {"text": "1"}})

    def test_records_of_another_program_or_shape_are_none(self):
        first = {"a.ts": {"text": "1"}}
        self.read(first)
        path = records.Records(self.program).path
        for text in ("[]", "{", "", '{"x": 1}'):
            with open(path, "w", encoding="utf-8") as file:
                file.write(text)
            self.read(first)
        with open(self.program.path, "w", encoding="utf-8") as file:
            file.write("another")
        self.read(first)
        self.assertEqual(self.program.asked, [1] * 6)


class Parts(unittest.TestCase):
    def test_joined(self):
        rows = [("./b", "file:///x/b"), ("../b.ts?q#f", "file:///b.ts?q#f"), ("/c/./d", "file:///c/d"), ("./é", "file:///x/%C3%A9"), ("../../..", "file:///")]
        for reference, url in rows:
            self.assertEqual(urls.joined("file:///x/a.ts", reference), url)

    def test_joined_without_a_parse(self):
        some = random.Random(1)
        parts = ("a", "b", ".", "..", "/", "./", "../", "c.ts", "@x", "-", "..a", "//")
        for _ in range(20_000):
            reference = "".join(some.choice(parts) for _ in range(some.randint(1, 7)))
            base = "file:///" + "".join(some.choice(("a/", "b/", "x.ts", "_", "d/")) for _ in range(some.randint(0, 5)))
            self.assertEqual(self.or_none(urls.joined, base, reference), self.or_none(urls.joined_by_the_rules, base, reference), (base, reference))

    @staticmethod
    def or_none(act, *asked):
        try:
            return act(*asked)
        except urls.NoUrl:
            return None

    def test_the_text_of_a_bundle(self):
        value, modules = {"roots": ["a"], "importMap": {"base": "file:///", "map": {"imports": {}}}}, [{"specifier": "a", "text": "é\n\"x\x00"}, {"specifier": "b", "external": True}]
        for rows in (modules, []):
            self.assertEqual(packing.text_of(value, rows), json.dumps({**value, "modules": rows}, indent=1, ensure_ascii=False) + "\n")

    def test_lines(self):
        source = bundles.Source("\ufeffaé\r\nb\n\nc".encode())
        self.assertEqual([source.place(at) for at in (0, 1, 3, 5, 7, 8)], [(1, 1), (1, 2), (1, 3), (2, 1), (3, 1), (4, 1)])
        self.assertEqual([source.line(number)[0] for number in (1, 2, 3, 4)], ["aé", "b", "", "c"])

    def test_mates(self):
        tokens = scan.Scan("f(`a${[b]}c${d}`, { e })").tokens
        told = {token.text: tokens[token.mate].text for token in tokens if token.mate is not None}
        self.assertEqual(told["("], ")")
        self.assertEqual(told["`a${"], "}c${")
        self.assertEqual(told["["], "]")

    def test_report_of_a_redirect_that_leads_on(self):
        graph = report.graph_of(REPORT.encode())
        self.assertEqual(graph.end_of("file:///b").specifier, "file:///b.ts")

    def test_time_left(self):
        estimate = prove.Estimate({"a": set(), "b": {"a"}, "c": {"a"}}, 2)
        estimate.seconds = {"a": 100, "b": 200, "c": 60}
        self.assertEqual(estimate.left(), 300)
        estimate.end("a", 50, False)
        self.assertEqual(estimate.left(), 100)
        estimate.end("b", 1, True)
        self.assertEqual(estimate.left(), 30)


if __name__ == "__main__":
    unittest.main()
