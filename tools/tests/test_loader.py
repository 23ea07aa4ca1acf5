"""./joravelsu by the library and by the program: the same graphs, byte for byte, and what only the library can do."""
import json
import os
import shutil
import subprocess
import sys
import tempfile
import unittest
from unittest import mock

TOOLS = os.path.dirname(os.path.dirname(os.path.abspath(__file__)))
ROOT = os.path.dirname(TOOLS)
sys.path.insert(0, TOOLS)
from parts import builder, kit, library, outlines, packing, records, sites, words  # noqa: E402
from tests.rooms import Room  # noqa: E402

JORAVELSU = os.path.join(ROOT, "joravelsu")
PROJECTS = os.path.join(ROOT, "examples", "projects")
# What imports of all kinds lead to, and what is wrong with some of them.
FILES = {
    "package.json": {"name": "it", "imports": {"#in": "./src/a.ts"}},
    "deno.json": {"imports": {"mapped/": "./src/d/", "refused": "../x"}},
    "src/main.ts": """/// <reference path="types.d.ts" />
/// <reference types="p" />
import "./a"; import type { T } from "./t"; export * from './d'; import x = require("./x"); import "#in";
import j from "./j.json" with { type: "json" }; import k from "./j.json"; import m from "./m.wasm"; import source n from "./m.wasm";
import "node:fs"; import "fs"; import "npm:p@1/sub"; import "npm:"; import "jsr:@a/b@^2"; import "https://h.test/a.ts"; import "mapped/index.js"; import "refused";
import "data:text/javascript,import 'file:///src/a.ts'; import 'data:text/javascript,1'"; import "data:text/javascript;base64,?"; import "none"; import "../../out.ts"; import "http://[";
import("./b%20c.ts"); import("./b c.ts"); import(`./d`); import("./d/"); import defer * as q from "./d/../a"; import "./é.js"; import "./a?query"; import "./a.ts#fragment"; import ".";
import "./broken.ts"; import "./bytes.js"; import "./mark.ts"; import "./UPPER.TS"; import "./gone"; import "./data.css"; import "p"; import "p/lib/x.js"; import "q"; import "./\\u{1F600}\\n"; import "";
""",
    "src/types.d.ts": 'import "./a"; declare module "y" { import "./t"; }', "src/a.ts": 'export {}; import "./main.ts"; import "./a";', "src/t.ts": "export type T = 1;",
    "src/d/index.js": 'import "../main.ts"; import "p";', "src/d/index.d.ts": "export {};", "src/x.cjs": 'require("./y"); import("./a.ts")', "src/x.ts": "export = 1;", "src/j.json": "{}",
    "src/b c.ts": 'import "./b%20c.ts"', "src/é.js": "import './é.js'; '😀'; import './a.ts'", "src/broken.ts": "import './a'; import {", "src/mark.ts": "\ufeffimport './a';", "src/UPPER.TS": "import './a'",
    "src/index.ts": "export {}", "src/data.css": "a {}", "src/comment.ts": "", "node_modules/p/package.json": {"main": "main.js", "types": "main.d.ts"}, "node_modules/p/main.js": 'import "./lib/x"; import "fs"',
    "node_modules/p/main.d.ts": "export {}", "node_modules/p/lib/x.js": "exports.a = require('q')", "node_modules/q/package.json": {"exports": {".": {"types": "./q.d.ts", "default": "./q.mjs"}}}, "node_modules/q/q.mjs": "", "node_modules/q/q.d.ts": "",
}


# What makes a text of JavaScript or TypeScript so long that it has an outline.
LONG = f"\n/*{'é' * outlines.SHORT}*/"


def ran(*asked, at=ROOT, **variables):
    done = subprocess.run([JORAVELSU, *asked], capture_output=True, cwd=at, env={**os.environ, "JORAVELSU_QUIET": "1", **variables}, check=False)
    return done.returncode, done.stdout, done.stderr


class Loader(Room):
    @classmethod
    def setUpClass(cls):
        cls.library = library.made()

    def same(self, verb, *asked, at=None):
        """What both say."""
        by_program, by_library = (ran(verb, "--loader", it, *asked, at=at or self.room) for it in ("program", "library"))
        self.assertEqual(by_library, by_program)
        return by_library


class Same(Loader):
    def test_of_the_example_projects(self):
        shutil.copytree(PROJECTS, os.path.join(self.room, "projects"))
        for root in ("demo/src/main.ts", "site/app/main.ts", "routes/main.ts", "shop/main.js"):
            for asked in (["graph"], ["check", "--all", "--kind", "types"]):
                self.same(*asked, "--no-cache", os.path.join("projects", root))

    def test_of_all_kinds(self):
        self.put_all(FILES)
        for asked in ([], ["--kind", "code", "--external", "https://*"], ["--kind", "types"], ["--kind", "all", "--also", "*", "--browser", "--deno", "none"]):
            status, out, _ = self.same("graph", "--no-cache", *asked, "src/main.ts")
            self.assertEqual(status, 0)
            self.assertGreater(out.count(b"\n"), 60)
        for asked in (["check", "--json"], ["check"], ["graph", "--json"], ["graph", "src/mark.ts", "src/é.js", "https://h.test/x y"], ["why", "src/t.ts"], ["unread"]):
            self.same(*asked[:1], "--no-cache", *asked[1:], "src/main.ts")
        (broken,) = (entry for entry in json.loads(self.same("graph", "--json", "--no-cache", "src/broken.ts")[1])["modules"] if "message" in entry)
        self.assertEqual([broken[key] for key in ("fault", "byte", "line", "column", "kind", "message")], ["Parse", 21, 1, 22, "Unbalanced", "this bracket has no partner"])
        for name in ("main.ts", "m.wasm", "bytes.js", "broken.ts", "é.js"):
            self.same("imports", f"src/{name}")

    def put_all(self, files):
        self.put(files)
        for name, data in (("m.wasm", b"\0asm\x01\0\0\0\x02\x0c\x01\x06./a.ts\x01f\0\0"), ("bytes.js", b"import './a'; '\xff'")):
            with open(os.path.join(self.room, "src", name), "wb") as file:
                file.write(data)

    def test_of_outlines(self):
        self.put_all({path: text + LONG if isinstance(text, str) and path.endswith(("s", "S", "css")) else text for path, text in FILES.items()})
        for asked in ([], ["--kind", "code", "--external", "https://*"], ["--kind", "types"], ["--also", "*", "--deno", "none"]):
            by_program = ran("graph", "--loader", "program", "--no-cache", *asked, "src/main.ts", at=self.room)
            self.assertEqual(by_program[0], 0)
            with mock.patch.dict(os.environ, {"XDG_CACHE_HOME": os.path.join(self.room, "cache"), "JORAVELSU_LIBRARY": self.library}):
                for more in ([], [], ["--check-cache"], ["--no-cache"]):
                    self.assertEqual(ran("graph", "--loader", "library", *more, *asked, "src/main.ts", at=self.room), by_program, (asked, more))
        self.same("check", "--json", "--no-cache", "src/main.ts")
        self.same("imports", "src/main.ts")

    def test_each_kind_of_site_has_an_outline(self):
        made = builder.Library(self.library)
        for place, text in (("a.d.ts", '/// <reference path="é"/>\n/// <reference types="b"/>\nimport type a from "\\"\\n"; export type { b } from "c"; import type d = require("e");'),
                            ("a.js", """import a from 'b'; export * from 'c'; import d from 'e' with { type: "json" }; import source f from 'g'; import defer * as h from 'i';
                                      import('j'); import.source('k'); import.defer('l'); import('m', { with: { type: 'json' } }); import('n', o); import '\\ud800';"""),
                            ("a.ts", "import a = require('b'); import a2 = require('c'); export {}"), ("a.js", ""), ("a.mjs", "("), ("a.cjs", "'"), ("a.json", ""), ("a.css", "a {}")):
            data = (text + LONG).encode()
            found, outline = made.read(place, data)
            self.assertTrue(outline is not None and len(outline.data) < outlines.SHORT, (place, text))
            self.assertEqual(outlines.of_row(outlines.row_of("", outline)), outline)
            self.assertEqual(outline.sites, list(found))
        self.assertEqual(made.read("a.js", b"\xff")[1], outlines.of_no_utf8())
        self.assertIsNone(made.read("a.wasm", b"")[1])
        self.assertEqual(made.read("a.js", b"\xef\xbb\xbfa")[1], outlines.Outline(b"\xef\xbb\xbfa", 1, None, []))

    def test_what_ends_it(self):
        self.put({"a.ts": "", "deno.json": {"imports": {"a": 1}}})
        for asked in (["b.ts"], ["--tsconfig", "none.json", "a.ts"], ["http://["], ["a.ts"]):
            self.same("graph", *asked)

    def test_vendored(self):
        self.put({"main.ts": 'import "./a"; import("https://h.test/x")', "a.ts": 'import "./main"'})
        for loader in ("program", "library"):
            self.assertEqual(ran("vendor", "--loader", loader, "--external", "https://*", "-o", loader, "main.ts", at=self.room)[:2], (0, f"2 files; {loader}/main.ts\n".encode()))
        for name in ("main.ts", "a.ts"):
            with open(os.path.join(self.room, "program", name), "rb") as one, open(os.path.join(self.room, "library", name), "rb") as other:
                self.assertEqual(one.read(), other.read())


class Watch(Loader):
    # What is written (None: gone), what is then said to have changed, and the verdict.
    STEPS = (("src/b.ts", "import './c'", "src/b.ts has changed", "1 fault; status 1"), ("src/c.ts", "import", "src has changed", "1 fault; status 1"),
             ("src/c.ts", "", "src/c.ts has changed", "no faults; status 0"), ("src/b.ts", None, "src/b.ts has changed", "1 fault; status 1"))

    def test_runs_again_where_a_file_comes_changes_or_goes(self):
        for loader in ("library", "program"):
            with self.subTest(loader):
                self.put({"src/a.ts": "import './b'", "src/b.ts": ""})
                watching = subprocess.Popen([JORAVELSU, "check", "--watch", "--loader", loader, "src/a.ts"], stdout=subprocess.PIPE, stderr=subprocess.PIPE, text=True,
                                            cwd=self.room, env={**os.environ, "JORAVELSU_QUIET": "1"})
                self.addCleanup(watching.communicate)
                self.addCleanup(watching.kill)
                self.assertEqual(self.verdict(watching), "no faults; status 0")
                for path, text, changed, verdict in self.STEPS:
                    if text is None:
                        os.remove(os.path.join(self.room, path))
                    else:
                        self.put_at_once(path, text)
                    self.assertEqual((watching.stderr.readline(), self.verdict(watching)), (f"joravelsu: {changed}\n", verdict))
                watching.terminate()
                self.assertEqual((watching.wait(), watching.stderr.readline()), (130, "joravelsu: stopped\n"))
                os.remove(os.path.join(self.room, "src", "c.ts"))

    def put_at_once(self, path, text):
        """Writes a file of which no part is seen before all of it is there."""
        with tempfile.NamedTemporaryFile("w", delete=False) as file:
            file.write(text)
        os.replace(file.name, os.path.join(self.room, path))

    def verdict(self, watching):
        """What one run ends with; after it all is watched."""
        found = next(line.strip() for line in watching.stdout if "; status " in line)
        self.assertRegex(watching.stderr.readline(), "^joravelsu: [123] files? (is|are) watched\n$")
        return found


class Library(Loader):
    def test_more_than_the_program_reads(self):
        for name, count in (("a.js", 9_000_000), ("b.js", 17_000_000)):
            self.put({name: f"import './c.js'; //{'/' * count}"})
        self.put({"main.ts": "import './a.js'; import './b.js'", "c.js": ""})
        status, out, _ = ran("graph", "--loader", "library", "main.ts", at=self.room)
        self.assertEqual((status, out.count(b" module "), out.count(b' -> file:///c.js\n')), (0, 4, 2))
        self.assertIn(b'file:///b.js module JavaScript 17000019\n  import 7-15 "./c.js" - -> file:///c.js\n', out)
        made, more = builder.Library(self.library), b"/" * 17_000_000
        self.assertEqual(made.read("a.ts", b"import './c' //" + more)[1].places, [15, 7, 12])
        self.assertEqual([made.read("a.ts", text + more)[1] for text in (b"a b //", b"'", b"\xff//")], [outlines.of_no_program(), outlines.of_no_program(), outlines.of_no_utf8()])

    def test_files_are_read_once_and_only_if_they_are_reached(self):
        self.put({"a.ts": 'import "./b"; import "./b.ts"; // import "./c"', "b.ts": 'import "./a"', "c.ts": ""})
        read, real = [], words.read_regular
        with mock.patch.object(sites, "read_regular", lambda path, most: (read.append(os.path.basename(path)), real(path, most))[1]):
            asked = kit.tool("pack").options().parse_args([self.room, "a.ts"])
            packer, roots = packing.packed(asked, builder.Reader(builder.Library(self.library)), sys.stderr)
        self.assertEqual((read, roots), (["a.ts", "b.ts"], ["file:///a.ts"]))

    def test_the_cache_is_by_content(self):
        self.put({"a.ts": 'import "./b"', "b.ts": "", "c.ts": ""})
        for text, wanted in ((None, ["a.ts", "b.ts"]), (None, []), ('import "./c"', ["a.ts"])):
            if text:
                self.put({"a.ts": text})
            self.assertEqual(self.packed()[0], wanted)

    def test_a_file_of_the_same_time_and_size_is_not_read(self):
        self.put({"a.ts": 'import "./b"', "b.ts": LONG, "c.ts": ""})
        with mock.patch.object(records, "SHORTLY", 0):
            self.assertEqual(self.packed(), (["a.ts", "b.ts"], ["a.ts", "b.ts"]))
            self.assertEqual(self.packed(), ([], []))
            self.put({"a.ts": 'import "./c"'})
            self.assertEqual(self.packed(), (["a.ts", "c.ts"], ["a.ts", "c.ts"]))
            self.put({"a.ts": 'import "./b"'})
            self.assertEqual(self.packed(), ([], ["a.ts"]))
        with mock.patch.object(records, "SHORTLY", 10 ** 12):
            self.put({"c.ts": 'import "./b"'})
            self.assertEqual([self.packed("c.ts")[1] for _ in range(2)], [["c.ts"], ["c.ts"]])

    # What is written (None: gone), and whether the graph is built from scratch.
    CHANGES = (({}, True), ({}, False), ({"a.ts": 'import "./b"; import "./j.json"; // é'}, False), ({"a.ts": '/* é */ import "./b"; import "./j.json";'}, False),
               ({"b.ts": f'{LONG} import type {{ T }} from "./c"; import("./d"); export * from "./a"; '}, False),
               ({"b.ts": f' import type {{ T }} from "./c"; import("./d"); export * from "./a";{LONG}{LONG}'}, False),
               ({"b.ts": 'import type { T } from "./c"; import("./d"); export * from "./a";', "a.ts": 'import "./b";\nimport "./j.json"; let a;'}, False),
               ({"b.ts": 'import { T } from "./c"; import("./d"); export * from "./a";'}, True), ({"j.json": "[1, 2, 3]"}, False), ({"c.ts": "export type T = 2; //"}, False),
               ({"c.ts": "export type T ="}, True), ({"c.ts": "'"}, False), ({"c.ts": f"'{LONG}'"}, False), ({"c.ts": f"export type T = 1;{LONG}"}, True), ({"d.ts": None}, True),
               ({"d/index.ts": "export {};"}, True), ({"d.ts": "export {};"}, True), ({"d/index.ts": "import './a'"}, False), ({"\ufeff": None, "c.ts": "\ufeffexport type T = 1;"}, False),
               ({"a.ts": 'import "./b"; import "./j.json"; import "data:text/javascript,1"; import "none"; import "./none"'}, True),
               ({"a.ts": 'import "./b"; import "./j.json"; import "data:text/javascript,1"; import "none"; import "./none";;'}, False),
               ({"package.json": {"imports": {"#a": "./a.ts"}}}, False), ({"b.ts": 'import { T } from "./c"; import("#a"); export * from "./a";'}, True),
               ({f"e{n}.ts": "" for n in range(120)} | {"a.ts": "".join(f"import './e{n}';" for n in range(120))}, True), ({f"e{n}.ts": "//" for n in range(120)}, True),
               ({f"e{n}.ts": "///" for n in range(90)}, False))

    def test_the_graph_is_built_where_sites_change(self):
        self.put({"a.ts": 'import "./b"; import "./j.json";', "j.json": "{}", "c.ts": "export type T = 1;", "d.ts": "export {};",
                  "b.ts": f'import type {{ T }} from "./c"; import("./d"); export * from "./a";{LONG}'})
        with mock.patch.object(records, "SHORTLY", 0), mock.patch.object(kit, "KEPT", os.path.join(self.room, "kept")):
            for changes, is_built in self.CHANGES:
                for path, text in changes.items():
                    if text is None and path != "\ufeff":
                        os.remove(os.path.join(self.room, path))
                self.put({path: text for path, text in changes.items() if text is not None})
                self.assertEqual(self.is_built(), is_built, changes)

    def is_built(self):
        """Whether the graph is built; it is that of the whole texts."""
        made, built = builder.Library(self.library), []
        kept = records.Records(made)
        packer, roots = packing.packed(kit.tool("pack").options().parse_args(["--packages", self.room, "a.ts"]), builder.Reader(made, kept), sys.stderr)
        kept.save()
        modules = packer.modules()
        settings = packer.settings(roots, len(modules))
        with mock.patch.object(made, "graph", lambda *asked: (built.append(asked), builder.Library.graph(made, *asked))[1]):
            found = made.kept_graph(settings, modules, kept)
        packer, roots = packing.packed(kit.tool("pack").options().parse_args(["--packages", self.room, "a.ts"]), builder.Reader(made), sys.stderr)
        self.assertEqual(found, made.graph(settings, [{key: it for key, it in module.items() if key != "row"} for module in packer.modules()]))
        return bool(built)

    def test_what_is_kept_is_compared(self):
        self.put({"a.ts": 'import "./b"', "b.ts": "", "c.ts": ""})
        with mock.patch.object(records, "SHORTLY", 0):
            self.packed()
            self.assertEqual(self.packed(compares=True), (["a.ts", "b.ts"], ["a.ts", "b.ts"]))

            def changed(kept):
                kept.rows[0][4] = ["import", "./c"]

            def misplaced(kept):
                kept.files["b.ts"][0] = 0

            for change, place in ((changed, "a.ts"), (misplaced, "b.ts")):
                with self.assertRaisesRegex(words.Wrong, f"^{place}: what is cached isn't what the library says$"):
                    self.packed(compares=True, change=change)

    def packed(self, root="a.ts", compares=False, change=None):
        """The files whose texts the library was asked for, and those that were read, where records are kept."""
        made, asked, read, real = builder.Library(self.library), [], [], words.read_regular
        with mock.patch.object(kit, "KEPT", os.path.join(self.room, "kept")), \
                mock.patch.object(made, "read", lambda place, data: (asked.append(place), builder.Library.read(made, place, data))[1]), \
                mock.patch.object(sites, "read_regular", lambda path, most: (read.append(os.path.basename(path)), real(path, most))[1]):
            kept = records.Records(made)
            if change:
                change(kept)
            packing.packed(kit.tool("pack").options().parse_args([self.room, root]), builder.Reader(made, kept, compares), sys.stderr)
            kept.save()
        return sorted(asked), sorted(read)

    def test_which_texts_are_programs(self):
        made = builder.Library(self.library)
        for name, texts, wanted in (("a.ts", ["let a", "let", "'", "a b", "let a: T"], [True, False, False, False, True]), ("a.js", ["let a: T"], [False]), ("x", ["a"], [True])):
            self.assertEqual(made.which_are_read(f"file:///{name}", texts), wanted)

    def test_where_reading_stops(self):
        from parts import program
        rows = [("a.ts", "let a = ;", 8, "Syntax"), ("a.ts", "/* é */ let a: = 1;", 15, "Syntax"), ("a.js", "a b", 2, "Syntax"), ("a.js", "let a", None, None), ("a.js", "'", None, "UnterminatedString"), ("a.js", "(", None, "Unbalanced")]
        for made in (builder.Library(self.library), program.Program("test")):
            for name, text, wanted, kind in rows:
                self.assertEqual((made.stop_of(f"file:///{name}", text), made.kind_of(f"file:///{name}", text)), (wanted, kind), (made, text))

    def test_specifiers_that_are_two_ways_written(self):
        made = builder.Library(self.library)
        self.assertEqual(made.read_urls(["external:a b", "node:fs", "file:///%61/../b"]), ["external:a b", "node:fs", "file:///b"])
        with self.assertRaisesRegex(words.Wrong, '^there is no graph: error Bundle "/modules/1/specifier"$'):
            made.given([{"specifier": "file:///b", "bytes": b""}, {"specifier": "file:///a/../b", "bytes": b""}])
        self.assertEqual(made.graph({"roots": ["file:///a.ts"], "limit": 1}, [{"specifier": "file:///a.ts", "bytes": b"import './b'"}]), (1, b"error TooManyModules 2\n"))
        self.assertEqual(made.graph({"roots": ["a.ts"]}, []), (2, b'error Bundle "/roots/0"\n'))

    def test_no_library(self):
        with mock.patch.dict(os.environ, {"JORAVELSU_LIBRARY": os.path.join(self.room, "none.so")}):
            self.assertIsNone(builder.found(None))
            with self.assertRaises(library.NoLibrary):
                builder.found("library")
        self.assertIsNone(builder.found("program"))
        self.assertEqual(sites.content_of("a.ts", b"a"), {"text": "a"})


if __name__ == "__main__":
    unittest.main()
