"""The tools on folders of strangers: nothing outside is read, nothing takes long, nothing ends in a traceback, and nothing
reaches the terminal raw."""
import contextlib
import json
import os
import subprocess
import sys
import tempfile
import time
import unittest
from unittest import mock

TOOLS = os.path.dirname(os.path.dirname(os.path.abspath(__file__)))
ROOT = os.path.dirname(TOOLS)
sys.path.insert(0, TOOLS)
from parts import bundles, faults, folders, kit, packing, resolve, scan, settings, tsconfig, urls, words  # noqa: E402

JORAVELSU = os.path.join(ROOT, "joravelsu")
QUIET = {**os.environ, "JORAVELSU_QUIET": "1"}


class Strangers(unittest.TestCase):
    """A folder with a file main.ts, and a secret outside of it."""

    def setUp(self):
        room = tempfile.TemporaryDirectory()
        self.addCleanup(room.cleanup)
        self.room = room.name
        self.folder = os.path.join(room.name, "proj")
        os.mkdir(self.folder)
        with open(os.path.join(room.name, "secret.json"), "w", encoding="utf-8") as file:
            file.write('{"secret": 1}')

    def put(self, path, text=""):
        path = os.path.join(self.folder, path)
        os.makedirs(os.path.dirname(path), exist_ok=True)
        with open(path, "w", encoding="utf-8") as file:
            file.write(text if isinstance(text, str) else json.dumps(text))

    def ran(self, *asked):
        """The status, what is written, and the lines on standard error, of one command."""
        done = subprocess.run([JORAVELSU, *asked], capture_output=True, cwd=self.folder, env=QUIET, timeout=300, check=False)
        errors = done.stderr.decode()
        self.assertNotIn("Traceback", errors)
        return done.returncode, done.stdout.decode(), errors.splitlines()

    def refused(self, *asked):
        """The one line of a command that ends with status 2."""
        status, out, errors = self.ran("check", "--folder", ".", *(asked or ("main.ts",)))
        self.assertEqual((status, out, len(errors)), (2, "", 1), errors)
        return errors[0]


class Outside(Strangers):
    """Nothing outside the folder is read."""

    def assert_unread(self, *asked):
        status, out, errors = self.ran("graph", "--json", "--folder", ".", *asked, "main.ts")
        self.assertEqual(status, 0, errors)
        entries = {entry["specifier"]: entry["state"] for entry in json.loads(out)["modules"]}
        self.assertNotIn("module", [state for name, state in entries.items() if "secret" in name])
        return entries, errors

    def test_encoded_names(self):
        self.put("a/b.ts")
        self.put("main.ts", "import './..%2fsecret.json'; import './%2e%2e/secret.json'; import './a/..%2f..%2fsecret.json'; import './a%2Fb.ts'; import './%00.ts'; import './%ff.ts'")
        entries, _ = self.assert_unread()
        self.assertEqual(set(entries.values()), {"module", "error"})
        self.assertEqual(entries["file:///a%2Fb.ts"], "error")

    def test_paths_of_a_tsconfig(self):
        self.put("tsconfig.json", {"compilerOptions": {"baseUrl": ".", "paths": {"@/*": ["./*"], "up": ["../secret.json"], "abs": [os.path.join(self.room, "secret.json")]}}})
        self.put("main.ts", "import '@/../secret.json'; import '@/../../secret.json'; import 'up'; import 'abs'; import '../secret.json'")
        self.assert_unread()

    def test_base_url_outside(self):
        self.put("tsconfig.json", {"compilerOptions": {"baseUrl": self.room}})
        self.put("main.ts", "import 'secret.json'; import 'proj/secret.json'")
        self.assert_unread()

    def test_packages(self):
        self.put("node_modules/a/package.json", {"exports": {"./*": "./*", "./up": "../../../secret.json"}, "main": "../../../secret.json"})
        self.put("node_modules/b/package.json", {"main": "../../../secret.json", "browser": {"./x": "../../../secret.json"}})
        self.put("package.json", {"imports": {"#up": "../secret.json", "#down/*": "./*"}, "main": "../secret.json"})
        self.put("main.ts", "import 'a'; import 'a/up'; import 'a/../../../secret.json'; import 'b'; import 'b/../../../secret.json'; import '#up'; import '#down/../secret.json'; import '.'")
        self.assert_unread()
        self.assert_unread("--browser")

    def test_deno(self):
        self.put("deno.json", {"imports": {"up": "../secret.json", "a/": "../", "@/": "./"}, "importMap": "../map.json"})
        self.put("main.ts", "import 'up'; import 'a/secret.json'; import '@/../secret.json'; import '@/..%2fsecret.json'")
        self.assert_unread()

    def test_links(self):
        os.symlink("../secret.json", os.path.join(self.folder, "a.json"))
        os.symlink("..", os.path.join(self.folder, "up"))
        os.symlink(os.path.join(self.room, "secret.json"), os.path.join(self.folder, "b.json"))
        self.put("main.ts", "import './a.json'; import './up/secret.json'; import './b.json'")
        _, errors = self.assert_unread("--all")
        self.assertIn("pack: main.ts: ./a.json: left out: a symbolic link that leads out of the folder; --links-out takes it", errors)
        self.assertIn("pack: a.json: left out: a symbolic link that leads out of the folder; --links-out takes it", errors)
        status, out, _ = self.ran("graph", "--json", "--folder", ".", "--links-out", "main.ts")
        found = [entry["state"] for entry in json.loads(out)["modules"]]
        self.assertEqual((status, found), (0, ["module"] * 4))

    def test_links_within(self):
        self.put("b/c.ts")
        os.symlink("b", os.path.join(self.folder, "a"))
        self.put("main.ts", "import './a/c.ts'")
        status, out, errors = self.ran("graph", "--folder", ".", "main.ts")
        self.assertEqual((status, errors), (0, []))
        self.assertIn("file:///a/c.ts module", out)

    def test_absolute_names_are_reported(self):
        self.put("etc/x.js")
        self.put("main.ts", "import '/etc/x.js'; import 'file:///etc/y.js'; import 'file:///etc/x.js'")
        _, errors = self.assert_unread()
        self.assertEqual(errors, [
            'pack: "/etc/x.js" in main.ts is taken for etc/x.js of the folder: a path that starts with / is relative to the folder',
            'pack: "file:///etc/x.js" in main.ts is taken for etc/x.js of the folder: a file: URL is relative to the folder'])
        self.assertIn("no such file: as written, with an extension, or as a folder; a file: URL is relative to the folder",
                      self.ran("check", "--folder", ".", "main.ts")[1])


class Names(Strangers):
    """A file that its URL spells otherwise is found, as Node and Deno find it."""

    def test_spellings(self):
        for name in ("it's.js", "a$b.js", "{c}.js", "d e.js", "f.js"):
            self.put(name)
        self.put("main.ts", "import './it%27s.js'; import './a%24b.js'; import './%7Bc%7D.js'; import './%7bc%7d.js'; import './d e.js'; import './d%20e.js';"
                            "import './%66.js'; import './f.js?raw'; import './f.js#x'; import './/f.js'")
        status, out, errors = self.ran("check", "--folder", ".", "main.ts")
        self.assertEqual((status, errors), (0, []), out)
        self.assertTrue(out.startswith("6 entries, 6 modules, 10 edges"), out)


class Time(Strangers):
    """No text takes time that grows faster than it."""

    def in_seconds(self, most, act, *asked):
        start = time.monotonic()
        found = act(*asked)
        self.assertLess(time.monotonic() - start, 4 * most)  # on a machine that is busy; what grows faster takes hours
        return found

    def test_comments_behind_import(self):
        self.put("main.ts", "import" + "/**/" * 100_000 + "'./a.ts'; from" + " " * 100_000 + "\n" + "import(" * 100)
        self.in_seconds(20, self.ran, "graph", "--folder", ".", "main.ts")

    def test_a_fault_in_a_long_text(self):
        self.put("main.ts", "a(b);\n" * 300_000 + "let = ;")
        for loader in ("program", "library"):
            status, out, _ = self.in_seconds(30, self.ran, "check", "--loader", loader, "--folder", ".", "main.ts")
            said = "main.ts:300001:5: 'let' isn't read as a name here, though in some places the language has it as one"
            self.assertEqual((status, out.split("\n")[0]), (1, said))

    def test_settings(self):
        for text in ('"\\"' * 300_000, "/*" * 500_000, "//" * 500_000, ", " * 300_000, '"\\' * 300_000, "/*/" * 300_000):
            self.in_seconds(10, settings.without_comments, text)
            self.in_seconds(10, settings.depth_of, text)

    def test_scan(self):
        for text in ("/[" * 200_000, "a=/[" * 100_000, "`${" * 100_000, "'" * 100_001, "/*" * 200_000, "require(" * 50_000, "é;require(a);" * 20_000):
            self.in_seconds(20, scan.Scan, text)
            self.in_seconds(20, lambda text=text: list(kit.tool("unread").calls_by_scan(bundles.Source(text.encode()))))

    def test_urls(self):
        self.in_seconds(5, urls.url_of, "file:///" + "a/" * 200_000 + "../" * 200_000)
        self.in_seconds(5, urls.url_of, "a:" + " " * 500_000 + "b")
        self.in_seconds(5, folders.parts_of, "file:///" + "a/" * 500_000)

    def test_places_on_one_line(self):
        source = bundles.Source(("é" * 1_000_000).encode())
        self.in_seconds(10, lambda: [source.place(at) for at in range(0, 2_000_000, 20)])
        self.assertEqual(source.place(2_000), (1, 1_001))
        self.in_seconds(10, lambda: [list(faults.excerpt(source, 1, faults.Fault("a", "b", at, at + 2, "c"))) for at in range(0, 2_000_000, 2_000)])

    def test_rows_of_packages(self):
        table = {f"./a{number}/*": "./b/*" for number in range(100_000)}
        patterns = self.in_seconds(5, resolve.Patterns, table)
        self.in_seconds(5, lambda: [patterns.row_of(f"./a{number}/x") for number in range(10_000)])
        self.assertEqual(patterns.row_of("./a77/x/y"), ("./a77/*", "x/y"))
        self.assertEqual(patterns.row_of("./a77/"), (None, ""))


class Lines(Strangers):
    """No traceback: one line with the file, and status 2."""

    def test_mains_that_lead_to_each_other(self):
        self.put("a/package.json", {"main": "../b"})
        self.put("b/package.json", {"main": "../a"})
        self.put("main.ts", "import './a'")
        self.assertEqual(self.refused(), "joravelsu: a/package.json: main leads to b, and from there back")

    def test_what_a_comment_names_breaks_nothing(self):
        self.put("a/package.json", "[")
        self.put("main.ts", "// import './a'\nexport {}")
        self.assertEqual(self.ran("check", "--folder", ".", "main.ts")[0], 0)

    def test_imports_that_lead_to_each_other(self):
        self.put("package.json", {"imports": {"#a": "#b", "#b": "#a"}})
        self.put("main.ts", "import '#a'")
        self.assertEqual(self.refused(), "joravelsu: package.json: imports leads from #a back to it")

    def test_brackets(self):
        self.put("package.json", "[" * 100_000)
        self.put("main.ts", "import 'a'")
        self.assertEqual(self.refused(), "joravelsu: package.json: more than 200 nested brackets")
        self.put("package.json", "{}")
        self.put("tsconfig.json", "[" * 100_000 + "]" * 100_000)
        self.assertEqual(self.refused(), "joravelsu: tsconfig.json: more than 200 nested brackets")

    def test_settings_of_another_shape(self):
        rows = [("package.json", "[", "not JSON: "), ("tsconfig.json", "[]", "the file isn't an object"), ("tsconfig.json", '{"compilerOptions": {"paths": []}}', "paths isn't an object"),
                ("deno.json", '{"imports": []}', "imports isn't an object"), ("tsconfig.json", '{"extends": 1}', "extends isn't a list"), ("tsconfig.json", "9" * 5000, "not JSON: ")]
        for name, text, line in rows:
            self.put(name, text)
            self.put("main.ts", "import 'a'")
            self.assertTrue(self.refused().startswith(f"joravelsu: {name}: {line}"), self.refused())
            os.unlink(os.path.join(self.folder, name))

    def test_extends(self):
        os.mkfifo(os.path.join(self.folder, "pipe.json"))
        self.put("tsconfig.json", {"extends": "./pipe.json"})
        self.put("main.ts")
        self.assertEqual(self.refused(), "joravelsu: pipe.json: not a regular file")
        for number in range(3_000):
            self.put(f"t{number}.json", {"extends": f"./t{number + 1}.json"})
        self.put("tsconfig.json", {"extends": "./t0.json"})
        self.assertEqual(self.refused(), "joravelsu: tsconfig.json: extends leads over more than 100 files")
        self.put("tsconfig.json", {"extends": "./a.json"})
        self.put("a.json", {"extends": ["./tsconfig.json", "./a.json"]})
        self.assertEqual(self.ran("check", "--folder", ".", "main.ts")[0], 0)

    def test_half_of_a_pair(self):
        self.put("main.ts", "import '\\ud800'; import './\\udfff'; import '\\u{d800}x'; import 'b\\ud800'")
        status, out, errors = self.ran("check", "--folder", ".", "main.ts")
        self.assertEqual(status, 1)
        self.assertIn("main.ts:1:8: ", out)
        self.assertFalse([line for line in errors if not line.isprintable()])

    def test_a_link_to_itself(self):
        os.symlink("loop.ts", os.path.join(self.folder, "loop.ts"))
        self.put("a.ts")
        self.put("main.ts", "import './a.ts'; import './loop.ts'")
        status, out, errors = self.ran("check", "--folder", ".", "main.ts")
        self.assertEqual((status, errors), (1, ["pack: main.ts: ./loop.ts: left out: a symbolic link to itself"]))
        self.assertIn("a symbolic link to itself", out)
        self.assertIn("3 entries, 2 modules", out)

    def test_a_folder_that_cannot_be_searched(self):
        self.put("shut/a.ts")
        self.put("main.ts", "import './shut/a.ts'")
        folder = resolve.Folder(self.folder)
        real = os.scandir
        with mock.patch.object(os, "scandir", lambda path: real(path) if not path.endswith("shut") else self.shut(path)):
            with self.assertRaisesRegex(words.Wrong, "proj/shut: Permission denied$"):
                folder.is_file("shut/a.ts")

    @staticmethod
    def shut(path):
        raise PermissionError(13, "Permission denied", path)

    def test_a_fifo(self):
        os.mkfifo(os.path.join(self.folder, "pipe.ts"))
        self.put("main.ts", "import './pipe.ts'")
        status, _, errors = self.ran("check", "--folder", ".", "main.ts")
        self.assertEqual((status, errors), (1, ["pack: main.ts: ./pipe.ts: left out: not a file"]))
        self.assertEqual(self.refused("pipe.ts"), "joravelsu: pipe.ts: not a file")

    def test_a_large_file_is_refused_by_its_size(self):
        with open(os.path.join(self.folder, "large.js"), "wb") as file:
            file.truncate(209_715_200)
        self.put("main.ts", "import './large.js'")
        with mock.patch("os.read", side_effect=lambda *_: self.fail("it is read")):
            with self.assertRaisesRegex(words.Wrong, "large.js: too large: 209,715,200 bytes, and at most 16,777,216 are read$"):
                words.read_regular(os.path.join(self.folder, "large.js"))
        self.assertEqual(self.refused("--loader", "program", "main.ts"), "joravelsu: large.js: too large: 209,715,200 bytes, and at most 16,777,216 are read")

    def test_what_is_too_large_in_all(self):
        for name, count in (("a.js", 9_000_000), ("b.js", 8_000_000)):
            self.put(name, "/" + "/" * count)
        self.put("main.ts", "import './a.js'; import './b.js'")
        status, _, errors = self.ran("check", "--loader", "program", "--folder", ".", "main.ts")
        self.assertEqual(status, 2)
        self.assertRegex(errors[0], "^joravelsu: too large: 17,000,0[0-9]{2} bytes, and the program reads at most 16,777,216; --exclude leaves out; the largest of 3 files:$")
        self.assertEqual(errors[1:3], ["     9,000,001  a.js", "     8,000,001  b.js"])

    def test_long_specifiers(self):
        self.put("main.ts", f"import './{'a/' * 5_000}x'; import '{'b' * 100_000}'; import './{'c' * 3_000}'")
        status, out, errors = self.ran("check", "--folder", ".", "main.ts")
        self.assertEqual(status, 1)
        self.assertLess(max(map(len, errors)), 500)


class Terminal(Strangers):
    """What a terminal may act on reaches it as an escape."""

    BAD = "\x1b]0;x\x07\x9b31m\u202e\u2066\r\x7f"

    def test_plain(self):
        self.assertEqual(words.plain("a\x1b[31m\u202e\n\x9b\udc80\ud800 é😀"), "a\\x1b[31m\\u202e\\n\\x9b\\x80\\ud800 é😀")
        self.assertEqual(words.plain_lines(["a\tb", "c\n::error::d"]), b"a\tb\nc\\n::error::d\n")

    def assert_plain(self, text):
        self.assertEqual([line for line in text.split("\n") if not line.replace("\t", "").isprintable()], [])

    def test_lists(self):
        name = "a\x1b[31m\u202eb\r.ts"
        self.put(name, "import 'c'; import {")
        self.put(f"{name}.d/x.ts", f"import(`{self.BAD}`); require('{self.BAD}'.x)")
        spelled = json.dumps(self.BAD)[1:-1].replace("\\u", "\\u")
        self.put("main.ts", f"import {json.dumps('./' + name)}; import {json.dumps('./' + name + '.d/x.ts')}; import '{spelled}'; import './{spelled}'; import 'https://a.test/{spelled}';"
                            f"import 'npm:{spelled}'; import '@/../{spelled}'; import '/{spelled}'; import 'data:{spelled}'; /* {self.BAD} */ import 'gone'")
        for asked in (("check",), ("unread", "--scan"), ("check", "--all"), ("check", "--exclude", "*.d")):
            done = subprocess.run([JORAVELSU, *asked, "--folder", ".", "main.ts"], capture_output=True, cwd=self.folder, env=QUIET, timeout=300, check=False)
            self.assertIn(done.returncode, (0, 1), done.stderr)
            self.assert_plain(done.stdout.decode())
            self.assert_plain(done.stderr.decode())
        bundle = os.path.join(self.room, "bundle.json")
        done = subprocess.run([os.path.join(TOOLS, "pack"), "--all", "-o", bundle, self.folder, "main.ts"], capture_output=True, env=QUIET, timeout=300, check=False)
        self.assert_plain(done.stderr.decode())
        made = os.path.join(self.room, "report")
        with open(bundle, "rb") as given, open(made, "wb") as report:
            subprocess.run([os.path.join(ROOT, "graph_tool"), "build"], stdin=given, stdout=report, stderr=subprocess.DEVNULL, env=QUIET, check=True)
        for tool in (("explain", made, bundle), ("summary", made, bundle), ("summary", "--importers", "main.ts", made), ("unread", "--scan", bundle, made)):
            done = subprocess.run([os.path.join(TOOLS, tool[0]), *tool[1:]], capture_output=True, env=QUIET, timeout=300, check=False)
            self.assertIn(done.returncode, (0, 1), done.stderr)
            self.assert_plain(done.stdout.decode() + done.stderr.decode())

    def test_lines_of_errors(self):
        os.mkdir(os.path.join(self.folder, "x\x1b[31m"))
        self.assertEqual(self.refused("gone\x1b[31m.ts"), "joravelsu: gone\\x1b[31m.ts: no such file below .")


class Once(unittest.TestCase):
    """Two calls at once compile once."""

    SCRIPT = """
import os, sys, time
sys.path.insert(0, sys.argv[1])
from parts import kit, unproved
kit.KEPT = sys.argv[2]
def compile_both(told):
    with open(os.path.join(kit.KEPT, "log"), "a") as file:
        file.write("compiled\\n")
    time.sleep(1)
    with open(os.path.join(kit.KEPT, "made.unproved"), "w") as file:
        file.write("x")
unproved.compile_both = compile_both
unproved.Clock.MINUTE = 0.2
print(unproved.made("made.unproved", "joravelsu"))
"""

    def test_a_lock(self):
        with tempfile.TemporaryDirectory() as room:
            words_of = [sys.executable, "-c", self.SCRIPT, TOOLS, room]
            environment = {**os.environ, "PYTHONDONTWRITEBYTECODE": "1"}
            environment.pop("JORAVELSU_QUIET", None)
            calls = [subprocess.Popen(words_of, stdout=subprocess.PIPE, stderr=subprocess.PIPE, env=environment) for _ in range(3)]
            said = [call.communicate(timeout=300) for call in calls]
            self.assertEqual([call.returncode for call in calls], [0, 0, 0], said)
            self.assertEqual({out for out, _ in said}, {os.path.join(room, "made.unproved\n").encode()})
            with open(os.path.join(room, "log"), encoding="utf-8") as file:
                self.assertEqual(file.read(), "compiled\n")
            waited = [errors.decode() for _, errors in said if errors]
            self.assertEqual(len(waited), 2)
            for lines in waited:
                self.assertIn("joravelsu: another call compiles joravelsu; this one waits for it\n", lines)
                self.assertRegex(lines, r"this one waits for it: \d+ s so far\n")


if __name__ == "__main__":
    unittest.main()
