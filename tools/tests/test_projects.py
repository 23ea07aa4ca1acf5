"""./joravelsu on folders as real projects have them: where each import leads, and which folder and roots are taken."""
import json
import os
import subprocess
import sys
import tempfile
import unittest

TOOLS = os.path.dirname(os.path.dirname(os.path.abspath(__file__)))
sys.path.insert(0, TOOLS)
from parts import import_maps, project, resolve  # noqa: E402

JORAVELSU = os.path.join(os.path.dirname(TOOLS), "joravelsu")


class Projects(unittest.TestCase):
    def setUp(self):
        room = tempfile.TemporaryDirectory()
        self.addCleanup(room.cleanup)
        self.room = os.path.realpath(room.name)
        self.errors = []

    def put(self, **files):
        """Writes files, whose names have __ in the place of / and are given as pairs too."""
        for path, text in files.items():
            self.put_at(path, text)

    def put_at(self, path, text=""):
        place = os.path.join(self.room, path)
        os.makedirs(os.path.dirname(place), exist_ok=True)
        with open(place, "w", encoding="utf-8") as file:
            file.write(text if isinstance(text, str) else json.dumps(text))

    def put_all(self, files):
        for path, text in files.items():
            self.put_at(path, text)

    def graph(self, *words, at=""):
        done = subprocess.run([JORAVELSU, "graph", "--json", *words], capture_output=True, cwd=os.path.join(self.room, at), env={**os.environ, "JORAVELSU_QUIET": "1"}, check=False)
        self.errors = done.stderr.decode().splitlines()
        self.assertEqual(done.returncode, 0, self.errors)
        return json.loads(done.stdout)

    def leads(self, *words, at=""):
        """Where each import of the graph's modules leads: by its file and its text, the file, or what it is."""
        graph = self.graph(*words, at=at)
        states = {entry["specifier"]: entry for entry in graph["modules"]}
        found = {}
        for entry in graph["modules"]:
            for edge in entry.get("edges", ()):
                target = states.get(edge.get("target"), {"state": "no entry"})
                end = edge.get("target", edge.get("fault", "")).removeprefix("file:///")
                found[entry["specifier"].removeprefix("file:///"), edge["specifier"]] = end if target["state"] == "module" else f"{target['state']} {end}"
        return found

    def files(self, *words, at=""):
        return [entry["specifier"].removeprefix("file:///") for entry in self.graph(*words, at=at)["modules"] if entry["state"] == "module"]


class Leads(Projects):
    def test_a_source_beside_its_declaration(self):
        self.put_all({"main.ts": "import { x } from './x'; import './y.js'", "x.d.ts": "import './z'; export const x: number", "x.js": "import 'node:child_process'; import './z'",
                      "y.js": "", "y.d.ts": "import './y'", "z.js": "", "z.d.ts": "", "package.json": {}})
        self.assertEqual(self.leads("main.ts"), {
            ("main.ts", "./x"): "x.js", ("main.ts", "./y.js"): "y.js", ("x.js", "node:child_process"): "external node:child_process", ("x.js", "./z"): "z.js",
            ("x.d.ts", "./z"): "z.d.ts", ("y.d.ts", "./y"): "y.d.ts"})
        self.assertEqual([(it["referrer"], it["target"]) for it in self.graph("main.ts")["referrers"]], [("file:///x.js", "file:///x.d.ts"), ("file:///y.js", "file:///y.d.ts")])
        importers = {entry["specifier"]: entry["importers"] for entry in self.graph("main.ts")["modules"]}
        self.assertEqual(importers["file:///x.d.ts"], ["file:///x.js"])
        self.assertEqual(self.files("--kind", "code", "main.ts"), ["main.ts", "x.js", "y.js", "z.js"])
        self.assertEqual(self.files("--kind", "types", "main.ts"), ["main.ts", "x.d.ts", "y.d.ts", "z.d.ts"])

    def test_no_redirects(self):
        self.put_all({"main.js": "import a from './a'; import './b'; import './c.js'; import j from './j'", "a.js": "export default 1", "b/index.js": "import '../a'", "c.ts": "", "j.json": "{}", "package.json": {}})
        graph = self.graph("main.js")
        self.assertEqual([entry["state"] for entry in graph["modules"]], ["module"] * 5)
        self.assertEqual(next(entry["importers"] for entry in graph["modules"] if entry["specifier"] == "file:///a.js"), ["file:///b/index.js", "file:///main.js"])

    def test_conditions(self):
        self.put_all({"package.json": {}, "main.js": "import 'p'; import 'q'", "node_modules/p/package.json": {"exports": {"worker": "./w.js", "browser": "./b.js", "node": {"import": "./n.js"}, "default": "./d.js"}},
                      "node_modules/q/package.json": {"main": "m.js", "browser": {"./m.js": "./b.js", "fs": False, "r": "./r.js", "./gone.js": False}}, "node_modules/q/m.js": "import 'no'",
                      "node_modules/q/b.js": "import 'fs'; import 'r'; import './gone'", "node_modules/q/r.js": "", "node_modules/q/gone.js": ""})
        for name in "wbnd":
            self.put_at(f"node_modules/p/{name}.js")
        self.assertEqual(self.leads("main.js")["main.js", "p"], "node_modules/p/d.js")
        self.assertEqual(self.leads("--conditions", "node", "main.js")["main.js", "p"], "node_modules/p/n.js")
        self.assertEqual(self.leads("--conditions", "node,worker", "main.js")["main.js", "p"], "node_modules/p/w.js")
        leads = self.leads("--browser", "main.js")
        self.assertEqual(leads["main.js", "p"], "node_modules/p/b.js")
        at = "node_modules/q/b.js"
        self.assertEqual([leads["main.js", "q"], leads[at, "fs"], leads[at, "r"], leads[at, "./gone"]],
                         [at, "external external:fs", "node_modules/q/r.js", "external file:///node_modules/q/gone".replace("file:///", "")])

    def test_an_index_comes_before_types(self):
        self.put_all({"package.json": {}, "main.js": "import 'p'; import 'q'; import 'p/'", "node_modules/p/package.json": {"types": "./index.d.ts"}, "node_modules/p/index.d.ts": "",
                      "node_modules/p/index.js": "", "node_modules/q/package.json": {"types": "./t.d.ts"}, "node_modules/q/t.d.ts": ""})
        self.assertEqual(list(self.leads("main.js").values()), ["node_modules/p/index.js", "node_modules/q/t.d.ts", "redirect node_modules/p/index.js/"])
        self.assertEqual(self.files("main.js"), ["main.js", "node_modules/p/index.js", "node_modules/q/t.d.ts"])

    def test_types_of_packages(self):
        self.put_all({"package.json": {}, "main.ts": "import 'p'; import '@s/q'; import 'r'", "node_modules/p/package.json": {"types": "t.d.ts", "main": "m.js"}, "node_modules/p/t.d.ts": "", "node_modules/p/m.js": "",
                      "node_modules/@types/s__q/index.d.ts": "", "node_modules/@s/q/index.js": "", "node_modules/r/package.json": {"exports": {"import": {"types": "./t.d.ts", "default": "./m.js"}}},
                      "node_modules/r/t.d.ts": "", "node_modules/r/m.js": ""})
        self.assertEqual(list(self.leads("main.ts").values()), ["node_modules/p/m.js", "node_modules/@s/q/index.js", "node_modules/r/m.js"])
        self.assertEqual(list(self.leads("--kind", "types", "main.ts").values()), ["node_modules/p/t.d.ts", "node_modules/@types/s__q/index.d.ts", "node_modules/r/t.d.ts"])

    def test_root_dirs(self):
        self.put_all({"tsconfig.json": {"compilerOptions": {"rootDirs": ["src", "gen/out"]}}, "src/a/main.ts": "import './made'; import '../top'", "gen/out/a/made.ts": "import './main'", "gen/out/top.ts": ""})
        self.assertEqual(self.leads("src/a/main.ts"), {("src/a/main.ts", "./made"): "gen/out/a/made.ts", ("src/a/main.ts", "../top"): "gen/out/top.ts", ("gen/out/a/made.ts", "./main"): "src/a/main.ts"})

    def test_deno(self):
        self.put_all({"deno.jsonc": '{ // of Deno\n "imports": {"@/": "./src/", "x": "./src/x.ts", "chalk": "npm:chalk@5", "std": "jsr:@std/path@1", "far": "https://a.test/b.ts",}, "scopes": {"./lib/": {"x": "./lib/x.ts"}}}',
                      "src/main.ts": "import '@/y.ts'; import 'x'; import 'chalk'; import 'chalk/a'; import 'std/posix'; import '../lib/z.ts'; import 'far'", "src/y.ts": "", "src/x.ts": "", "lib/z.ts": "import 'x'", "lib/x.ts": ""})
        self.assertEqual(self.leads("src/main.ts"), {
            ("src/main.ts", "@/y.ts"): "src/y.ts", ("src/main.ts", "x"): "src/x.ts", ("src/main.ts", "chalk"): "package npm:chalk@5", ("src/main.ts", "chalk/a"): "package npm:/chalk@5/a",
            ("src/main.ts", "std/posix"): "package jsr:/@std/path@1/posix", ("src/main.ts", "../lib/z.ts"): "lib/z.ts", ("src/main.ts", "far"): "error https://a.test/b.ts", ("lib/z.ts", "x"): "lib/x.ts"})
        self.put_at("deno.jsonc", {"importMap": "./maps/m.json"})
        self.put_at("maps/m.json", {"imports": {"x": "../lib/x.ts", "@/": "../src/"}})
        leads = self.leads("src/main.ts")
        self.assertEqual((leads["src/main.ts", "x"], leads["src/main.ts", "@/y.ts"]), ("lib/x.ts", "src/y.ts"))

    def test_what_is_told_is_of_edges(self):
        self.put_all({"package.json": {}, "main.js": "// import 'a'\nconst t = \"import 'b'\"; `from 'c'`; x = /from 'd'/; import 'e'; type.from('f'); import(`g`); export const from = 1"})
        self.graph("main.js")
        self.assertEqual(self.errors, ['pack: "e" in main.js doesn\'t resolve: no node_modules has e'])

    def test_webassembly(self):
        self.put_all({"package.json": {}, "main.js": "import './m.wasm'", "a.js": ""})
        with open(os.path.join(self.room, "m.wasm"), "wb") as file:
            file.write(b"\0asm\x01\0\0\0\x02\x0a\x01\x04./" + b"a" + b"\x00" + b"\x01f\0\0" if False else b"\0asm\x01\0\0\0\x02\x09\x01\x03./a\x01f\0\0")
        self.assertEqual(self.leads("main.js"), {("main.js", "./m.wasm"): "m.wasm", ("m.wasm", "./a"): "a.js"})


class Folders(Projects):
    def folder_of(self, *roots):
        return [os.path.relpath(at, self.room) for at in project.folders_of([os.path.join(self.room, os.path.dirname(root)) for root in roots])]

    def test_workspaces(self):
        self.put_all({"package.json": {"workspaces": ["apps/*", "packages/*"]}, "apps/web/package.json": {"name": "web"}, "apps/web/tsconfig.json": {"compilerOptions": {"paths": {"@/*": ["./src/*"]}}},
                      "apps/web/src/main.ts": "import '@/a'; import 'ui'; import 'ui/deep'", "apps/web/src/a.ts": "", "packages/ui/package.json": {"name": "ui", "exports": {".": "./i.ts", "./deep": "./d.ts"}},
                      "packages/ui/i.ts": "import './d'", "packages/ui/d.ts": ""})
        os.makedirs(os.path.join(self.room, "node_modules"))
        os.symlink("../packages/ui", os.path.join(self.room, "node_modules/ui"))
        self.assertEqual(self.folder_of("apps/web/src/main.ts"), ["."])
        self.assertEqual(self.leads("src/main.ts", at="apps/web"), {
            ("apps/web/src/main.ts", "@/a"): "apps/web/src/a.ts", ("apps/web/src/main.ts", "ui"): "packages/ui/i.ts", ("apps/web/src/main.ts", "ui/deep"): "packages/ui/d.ts", ("packages/ui/i.ts", "./d"): "packages/ui/d.ts"})

    def test_which_folder(self):
        self.put_all({"a/b/package.json": {}, "a/b/src/m.ts": ""})
        self.assertEqual(self.folder_of("a/b/src/m.ts"), ["a/b"])
        os.makedirs(os.path.join(self.room, "a/node_modules"))
        self.assertEqual(self.folder_of("a/b/src/m.ts"), ["a"])
        os.makedirs(os.path.join(self.room, ".git"))
        self.assertEqual(self.folder_of("a/b/src/m.ts"), ["a", "."])
        self.put_at("a/pnpm-workspace.yaml")
        self.assertEqual(self.folder_of("a/b/src/m.ts"), ["a", "."])
        self.put_at("deno.json", {"workspace": ["./a"]})
        self.assertEqual(self.folder_of("a/b/src/m.ts"), ["."])

    def test_a_greater_folder_is_packed_where_an_import_leads_out(self):
        self.put_all({"a/package.json": {}, "a/main.ts": "import '../b/x.ts'; import '../../gone.ts'", "b/x.ts": ""})
        os.makedirs(os.path.join(self.room, ".git"))
        self.assertEqual(self.files("a/main.ts"), ["a/main.ts", "b/x.ts"])
        self.assertEqual(self.errors[0], "joravelsu: main.ts leads out of a: . is packed instead")
        self.assertEqual(self.files("--folder", "a", "a/main.ts"), ["main.ts"])


class Roots(Projects):
    def roots(self, *words, at=""):
        return [root.removeprefix("file:///") for root in self.graph(*words, at=at)["roots"]]

    def test_what_package_json_names(self):
        self.put_all({"src/index.ts": "", "lib/m.js": "", "lib/b.js": "", "lib/c.js": "", "bin/x.js": ""})
        rows = [({"exports": {".": {"types": "./lib/t.d.ts", "import": "./lib/m.js"}, "./c": "./lib/c.js", "./*": "./lib/*"}}, ["lib/m.js", "lib/c.js"]), ({"exports": "./lib/m.js"}, ["lib/m.js"]),
                ({"module": "lib/m", "main": "lib/b.js"}, ["lib/m.js"]), ({"main": "./lib/b"}, ["lib/b.js"]), ({"bin": {"x": "bin/x.js"}}, ["bin/x.js"]), ({}, ["src/index.ts"])]
        for package, wanted in rows:
            self.put_at("package.json", package)
            self.assertEqual(self.roots(), wanted, package)
            self.assertEqual(self.roots("."), wanted, package)
            self.assertEqual(self.roots(at="lib"), wanted, package)
        self.assertEqual(self.errors, ["joravelsu: the root is ../src/index.ts (its usual name)"])

    def test_what_deno_json_names(self):
        self.put_all({"deno.json": {"exports": {".": "./mod.ts", "./x": "./x.ts"}}, "mod.ts": "", "x.ts": ""})
        self.assertEqual(self.roots(), ["mod.ts", "x.ts"])

    def test_a_folder(self):
        self.put_all({"package.json": {}, "src/index.ts": "import './a'", "src/a.ts": "", "other/main.js": ""})
        self.assertEqual(self.roots("src"), ["src/index.ts"])
        self.assertEqual(self.roots("src", "other"), ["src/index.ts", "other/main.js"])

    def test_a_url_of_the_disk(self):
        self.put_all({"package.json": {}, "src/a.ts": ""})
        self.assertEqual(self.roots("file://" + os.path.join(self.room, "src/a.ts")), ["src/a.ts"])

    def test_none(self):
        rows = [({"main": "dist/gone.js"}, "package.json: main names dist/gone.js, which isn't there; name a ROOT"), ({}, ": no ROOT, and neither package.json nor deno.json names one")]
        for package, said in rows:
            self.put_at("package.json", package)
            done = subprocess.run([JORAVELSU, "check"], capture_output=True, cwd=self.room, env={**os.environ, "JORAVELSU_QUIET": "1"}, check=False)
            self.assertEqual((done.returncode, done.stdout), (2, b""))
            self.assertTrue(done.stderr.decode().endswith(said + "\n"), done.stderr)


class Maps(unittest.TestCase):
    def test_the_rules_of_html(self):
        found = import_maps.ImportMap("m.json", {
            "imports": {"a": "./x.js", "a/": "./y/", "b": None, "c/": "./z", "./k.js": "/w.js", "https://h.test/": "./h/"},
            "scopes": {"./s/": {"a": "/s.js"}, "s/t/": {"a": "/t.js"}, "./one.js": {"a": "/one.js"}}}, "file:///d/m.json")
        rows = [("a", "file:///q.js", "file:///d/x.js"), ("a/1", "file:///q.js", "file:///d/y/1"), ("b", "file:///q.js", False), ("c/1", "file:///q.js", False), ("./k.js", "file:///d/q.js", "file:///w.js"),
                ("../k.js", "file:///d/e/q.js", "file:///w.js"), ("a", "file:///d/s/q.js", "file:///s.js"), ("a", "file:///d/s/t/q.js", "file:///t.js"), ("a", "file:///d/one.js", "file:///one.js"),
                ("a/2", "file:///d/s/q.js", "file:///d/y/2"), ("none", "file:///q.js", None), ("./none", "file:///q.js", None), ("https://h.test/p", "file:///q.js", "file:///d/h/p")]
        for specifier, referrer, url in rows:
            self.assertEqual(found.resolve(specifier, referrer), url, (specifier, referrer))

    def test_conditions_in_order(self):
        value = {"node": {"types": "t1", "import": "n"}, "types": "t2", "import": ["i", {"default": "j"}], "default": "d"}
        self.assertEqual(list(resolve.paths_of(value, resolve.Ways())), ["i", "j", "d", "t2"])
        self.assertEqual(list(resolve.paths_of(value, resolve.Ways(["node"]))), ["n", "i", "j", "d", "t1", "t2"])
        self.assertEqual(list(resolve.paths_of(value, resolve.Ways(types_first=True))), ["t2", "i", "j", "d"])


if __name__ == "__main__":
    unittest.main()
