"""tools/pack on folders that stand in real projects."""
import base64
import json
import os
import pty
import subprocess
import tempfile
import unittest

PACK = os.path.join(os.path.dirname(os.path.dirname(os.path.abspath(__file__))), "pack")


def run(*words, cwd=None):
    done = subprocess.run([PACK, *words], capture_output=True, cwd=cwd)
    return done.returncode, done.stdout, done.stderr.decode()


class Pack(unittest.TestCase):
    def setUp(self):
        room = tempfile.TemporaryDirectory()
        self.addCleanup(room.cleanup)
        self.room = room.name
        self.folder = os.path.join(room.name, "proj")
        os.mkdir(self.folder)
        self.put("main.ts", b"")

    def put(self, path, data):
        path = os.path.join(self.folder, path) if isinstance(path, str) else os.path.join(self.folder.encode(), path)
        os.makedirs(os.path.dirname(path), exist_ok=True)
        with open(path, "wb") as file:
            file.write(data)

    def bundle(self, *words):
        status, out, errors = run(*(words or (self.folder, "main.ts")))
        self.assertEqual((status, errors), (0, ""))
        return json.loads(out)

    def specifiers(self, *words):
        return [module["specifier"] for module in self.bundle(*words)["modules"]]

    def assert_refused(self, line, *words):
        status, out, errors = run(*words, cwd=self.room)
        self.assertEqual((status, out, errors), (2, b"", line + "\n"))

    def test_specifiers(self):
        rows = [
            ("@scope/a.ts", "@scope/a.ts"), ("+page.ts", "+page.ts"), ("[id].ts", "[id].ts"), ("(group)/x.ts", "(group)/x.ts"),
            ("a,b;c=d&e!$'*.ts", "a,b;c=d&e!$'*.ts"), ("~a:b.ts", "~a:b.ts"), ("a|b.ts", "a|b.ts"), ("a b.ts", "a%20b.ts"),
            ("100%.ts", "100%25.ts"), ("a#b?c.ts", "a%23b%3Fc.ts"), ("a\\b.ts", "a%5Cb.ts"), ("a^b.ts", "a%5Eb.ts"),
            ('<"`{}>.ts', "%3C%22%60%7B%7D%3E.ts"), ("é.ts", "%C3%A9.ts"), ("a\nb.ts", "a%0Ab.ts"),
        ]
        for name, _ in rows:
            self.put(name, b"")
        found = self.specifiers("--all", self.folder, "main.ts")
        for name, path in rows:
            self.assertIn("file:///" + path, found, name)
        self.assertEqual(len(found), len(rows) + 1)

    def test_content(self):
        for name, data in (("a.ts", "\ufeff/* é */\r\n".encode()), ("b.ts", b"\xff"), ("c.wasm", b"\0asm"), ("D.TS", b"d")):
            self.put(name, data)
        modules = {module.pop("specifier"): module for module in self.bundle("--all", self.folder, "main.ts")["modules"]}
        self.assertEqual(modules["file:///a.ts"], {"text": "\ufeff/* é */\r\n"})
        self.assertEqual(modules["file:///b.ts"], {"base64": "/w=="})
        self.assertEqual(base64.b64decode(modules["file:///c.wasm"]["base64"]), b"\0asm")
        self.assertEqual(modules["file:///D.TS"], {"text": "d"})

    def test_which_files(self):
        for name in ("a.css", "b.txt", ".hidden.ts", ".git/c.ts", "node_modules/d/d.js", "noending", "e.ts"):
            self.put(name, b"")
        main, css, text, plain, other = ("file:///" + name for name in ("main.ts", "a.css", "b.txt", "noending", "e.ts"))
        self.assertEqual(self.specifiers(), [main])
        self.assertEqual(self.specifiers("--all", self.folder, "main.ts"), [other, main])
        self.assertEqual(self.specifiers("--all", "--also", ".css", self.folder, "main.ts"), [css, other, main])
        self.assertEqual(self.specifiers("--all", "--also", "css", "--also", ".txt", self.folder, "main.ts"), [css, text, other, main])
        self.assertEqual(self.specifiers("--all", "--also", "*", self.folder, "main.ts"), [css, text, other, main, plain])
        self.put("main.ts", b"import './a.css'; import './noending'; import './.hidden'")
        self.assertEqual(self.specifiers(), ["file:///.hidden.ts", main])
        self.assertEqual(self.specifiers("--also", ".css", self.folder, "main.ts"), ["file:///.hidden.ts", css, main])

    def leads(self, *words):
        """Where URLs of files and bare specifiers lead, by the import map's imports and by redirects."""
        bundle = self.bundle(*words)
        rows = {**bundle.get("importMap", {}).get("map", {}).get("imports", {}),
                **{module["specifier"]: module["redirect"] for module in bundle["modules"] if "redirect" in module}}
        return {key.removeprefix("file:///"): url.removeprefix("file:///") for key, url in rows.items()}

    def test_only_what_is_reached(self):
        for name in ("a.ts", "b.ts", "c.ts", "d.d.ts", "e.js", "f.json", "g.wasm", "no.ts", "sub/h.ts", "i.ts", "j.ts", "k.ts"):
            self.put(name, b"")
        self.put("main.ts", b"""/// <reference path="./d.d.ts" />
            import /* x */ './a.ts'; export * from "./b.ts"; import(// y
             './c.ts'); import e = require('./e.js'); import f from './f.json' with { type: 'json' }; import './g.wasm';
            import * as h from "./sub/\\x68.ts"; export { i } from'./i.ts'; type J = import('./j.ts').J; require('./no.ts'); let k = './no.ts'""")
        found = {it.removeprefix("file:///") for it in self.specifiers()}
        self.assertEqual(found, {"a.ts", "b.ts", "c.ts", "d.d.ts", "e.js", "f.json", "g.wasm", "sub/h.ts", "i.ts", "main.ts"})

    def test_endings(self):
        wanted, main = {}, ""
        for ending in (".ts", ".tsx", ".mts", ".cts", ".d.ts", ".js", ".mjs", ".cjs", ".jsx", ".json"):
            self.put("of" + ending + "/x" + ending, b"")
            self.put("in" + ending + "/y/index" + ending, b"")
            main += f"import './of{ending}/x'; import './in{ending}/y'; import './in{ending}/y/';"
            wanted.update({f"of{ending}/x": f"of{ending}/x{ending}", f"in{ending}/y": f"in{ending}/y/index{ending}", f"in{ending}/y/": f"in{ending}/y/index{ending}"})
        self.put("main.ts", main.encode())
        self.assertEqual(self.leads(), wanted)
        redirects = [module["specifier"] for module in self.bundle()["modules"] if "redirect" in module]
        self.assertEqual(sorted(redirects), sorted("file:///" + key for key in wanted if key.endswith("/")))
        for name in ("a.ts", "a.js", "b.d.ts", "b.js", "c/index.ts", "c.ts", "d.tsx", "e.mts", "f.cts", "g.jsx.ts", "g.tsx", "h.d.mts", "i/i.ts"):
            self.put(name, b"")
        self.put("i/package.json", b'{"main": "./i.js"}')
        self.put("main.ts", b"import './a'; import './b'; import './c'; import './d.js'; import './e.mjs'; import './f.cjs'; import './g.jsx';"
                            b"import './h.mjs'; import './a.js'; import './i'; import './c'; import './none'")
        wanted = {"a": "a.ts", "b": "b.js", "c": "c.ts", "d.js": "d.tsx", "e.mjs": "e.mts", "f.cjs": "f.cts", "g.jsx": "g.jsx.ts", "h.mjs": "h.d.mts", "i": "i/i.ts"}
        self.assertEqual(self.leads(), wanted)
        self.assertEqual(self.bundle()["imports"], [{"referrer": "file:///b.js", "imports": ["./b.d.ts"]}])
        self.assertEqual(self.leads("--kind", "code", self.folder, "main.ts"), wanted)
        self.assertNotIn("imports", self.bundle("--kind", "code", self.folder, "main.ts"))
        self.assertEqual(self.leads("--kind", "types", self.folder, "main.ts"), {**wanted, "b": "b.d.ts"})

    def test_external(self):
        self.put("main.ts", b"import 'node:fs'; import 'https://a.test/b.js'; import './gen/x.ts'")
        external = [module["specifier"] for module in self.bundle("--external", "https://*", "--external", "./gen/*", self.folder, "main.ts")["modules"]
                    if module.get("external")]
        self.assertEqual(external, ["file:///gen/x.ts", "https://a.test/b.js", "node:fs"])

    def test_exclude(self):
        for name in ("a.ts", "dist/b.ts", "src/c.test.ts"):
            self.put(name, b"")
        self.put("main.ts", b"import './a.ts'; import './dist/b.ts'; import './src/c.test.ts'")
        status, out, errors = run("--exclude", "dist", "--exclude", "*.test.ts", self.folder, "main.ts")
        self.assertEqual(status, 0)
        self.assertEqual([module["specifier"] for module in json.loads(out)["modules"]], ["file:///a.ts", "file:///main.ts"])
        self.assertEqual(errors.splitlines(), ["pack: dist/b.ts: left out: excluded", "pack: src/c.test.ts: left out: excluded"])

    def test_of_very_many_the_commonest_are_told(self):
        names = [f"p{number:02}" for number in range(50)]
        self.put("main.ts", "".join(f"import '{name}'; " for name in names).encode() + b"/* a from ' + b + ' */ import '!==a&&'; import './b.ts'")
        self.put("b.ts", b"import 'p49'; import 'p48'")
        errors = run(self.folder, "main.ts")[2].splitlines()
        self.assertEqual(errors[-1], "pack: 11 more don't resolve")
        told = [line.split('"')[1] for line in errors[:-1]]
        self.assertEqual(told, sorted(["!==a&&"] + names[:37] + ["p48", "p49"]))
        self.assertIn('pack: "p49" in main.ts and 1 more doesn\'t resolve: packages are read with --packages', errors)

    def test_output_file(self):
        place = os.path.join(self.room, "out.json")
        self.assertEqual(run("-o", place, self.folder, "main.ts")[:2], (0, b""))
        with open(place, "rb") as file:
            self.assertEqual(json.load(file)["roots"], ["file:///main.ts"])

    def test_out_of_the_folder(self):
        self.put("src/a.ts", b"import '../../x.ts'; import '../main.ts'")
        status, out, errors = run(self.folder, "src/a.ts")
        self.assertEqual((status, errors), (0, "pack: src/a.ts: ../../x.ts: left out: it leads out of the folder\n"))

    def test_roots(self):
        self.put("src/a.ts", b"")
        whole = os.path.join(self.folder, "src", "a.ts")
        rows = [("main.ts", "file:///main.ts"), ("./src/../src/a.ts", "file:///src/a.ts"), (whole, "file:///src/a.ts"),
                ("https://example.com/a.ts", "https://example.com/a.ts"), ("npm:chalk@5", "npm:chalk@5")]
        for root, specifier in rows:
            self.assertEqual(self.bundle(self.folder, root)["roots"], [specifier])

    def test_refusals(self):
        self.put("src/a.css", b"")
        self.put(".x/a.ts", b"")
        self.assert_refused("pack: src/mian.ts: no such file below proj", "proj", "src/mian.ts")
        self.assert_refused("pack: nowhere: no such folder", "nowhere", "a.ts")
        self.assert_refused("pack: proj/main.ts: no folder", "proj/main.ts", "a.ts")
        self.assert_refused("pack: /etc/hosts: not below proj", "proj", "/etc/hosts")
        self.assert_refused("pack: src: a folder, and a root is a file", "proj", "src")
        self.assertEqual(self.specifiers(self.folder, "src/a.css"), ["file:///src/a.css"])
        self.assertEqual(self.specifiers(self.folder, ".x/a.ts"), ["file:///.x/a.ts"])

    def test_too_large(self):
        self.put("a.wasm", bytes(12_582_912))  # its base64 alone has 16,777,216 bytes
        status, out, errors = run(self.folder, "a.wasm")
        self.assertEqual((status, out), (2, b""))
        self.assertRegex(errors, r"^pack: too large: 16,777,[0-9]{3} bytes, and the program reads at most 16,777,216; --exclude leaves out; the largest of 1 files:\n +12,582,912  a.wasm\n$")
        self.put("b.wasm", bytes(12_582_912))
        self.put("main.ts", b"import './a.wasm'; import './b.wasm'")
        status, out, errors = run(self.folder, "main.ts")
        self.assertEqual((status, errors.split("\n")[0]), (2, "pack: too large: 25,165,860 bytes, and the program reads at most 16,777,216; --exclude leaves out; the largest of 3 files:"))

    def test_left_out(self):
        os.symlink("nowhere.ts", os.path.join(self.folder, "dangling.ts"))
        os.symlink("main.ts", os.path.join(self.folder, "link.ts"))
        os.mkfifo(os.path.join(self.folder, "pipe.ts"))
        try:
            self.put(b"caf\xe9.ts", b"")
        except OSError:
            self.skipTest("this file system has no names that are no UTF-8")
        status, out, errors = run("--all", "proj", "main.ts", cwd=self.room)
        self.assertEqual(status, 0)
        self.assertEqual(errors.splitlines(), [
            "pack: caf\\xe9.ts: left out: its name is no UTF-8", "pack: dangling.ts: left out: a link to nothing",
            "pack: pipe.ts: left out: not a file"])
        self.assertEqual([module["specifier"] for module in json.loads(out)["modules"]], ["file:///link.ts", "file:///main.ts"])

    def test_bare_specifiers_that_do_not_resolve_are_reported(self):
        self.put("main.ts", b"import 'react'; throw 'away from ' + a + 'b'; // import 'vue'\n`import 'd3'`; /import 'three'/; a.import('four')")
        errors = run(self.folder, "main.ts")[2]
        self.assertEqual(errors, 'pack: "react" in main.ts doesn\'t resolve: packages are read with --packages\n')

    def test_words(self):
        for words in ((), (self.folder,), ("--none", self.folder, "main.ts")):
            status, out, errors = run(*words)
            self.assertEqual((status, out), (64, b""))
            self.assertTrue(errors.startswith("usage: pack [OPTION..] FOLDER ROOT..\n"))

    def test_output_that_fails(self):
        for target, line in (("exec >&-;", "pack: standard output was closed"), ("exec >/dev/full;", "pack: standard output: No space left on device")):
            done = subprocess.run(["bash", "-c", f'{target} "$@"', "-", PACK, self.folder, "main.ts"], capture_output=True)
            self.assertEqual((done.returncode, done.stderr.decode()), (2, line + "\n"))
        reading, writing = os.pipe()
        os.close(reading)
        done = subprocess.run([PACK, self.folder, "main.ts"], stdout=writing, stderr=subprocess.PIPE)
        os.close(writing)
        self.assertEqual((done.returncode, done.stderr), (2, b"pack: standard output was closed\n"))

    def test_progress(self):
        """On a terminal, and only where it takes long: the clock of the tool is put forward."""
        script = (
            "import importlib.machinery, importlib.util, itertools, sys, time\n"
            "sys.dont_write_bytecode = True\n"
            f"loader = importlib.machinery.SourceFileLoader('pack', {PACK!r})\n"
            "pack = importlib.util.module_from_spec(importlib.util.spec_from_loader('pack', loader))\n"
            "loader.exec_module(pack)\n"
            "ticks = itertools.count()\n"
            "time.monotonic = lambda: float(next(ticks))\n"
            f"pack.main([{self.folder!r}, 'main.ts'])\n"
        )
        try:
            ours, theirs = pty.openpty()
        except OSError:
            self.skipTest("this system gives no terminal")
        done = subprocess.run(["python3", "-c", script], stdout=subprocess.DEVNULL, stderr=theirs)
        os.close(theirs)
        told = os.read(ours, 4096).decode()
        os.close(ours)
        self.assertEqual((done.returncode, told), (0, "\r\x1b[Kpack: 1 files, 0 bytes\r\x1b[K"))


if __name__ == "__main__":
    unittest.main()
