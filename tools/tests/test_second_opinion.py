"""Where the imports of example projects lead, beside what TypeScript's resolver and enhanced-resolve say. They are looked for in the
folder that JORAVELSU_PEERS names, or where Debian has them; without them nothing is compared."""
import json
import os
import shutil
import subprocess
import tempfile
import unittest
from urllib import parse as urls

HERE = os.path.dirname(os.path.abspath(__file__))
ROOT = os.path.dirname(os.path.dirname(HERE))
PEERS = os.environ.get("JORAVELSU_PEERS") or "/usr/share/nodejs"
PROJECTS = os.path.join(ROOT, "examples", "projects")
# Each project: its root, and for enhanced-resolve what the paths of its tsconfig mean.
EXAMPLES = {"demo": ("src/main.ts", {"@": "src"}), "site": ("app/main.ts", {}), "routes": ("main.ts", {}), "shop": ("main.js", {})}
# A project that has each way to name a file.
FILES = {
    "package.json": {"name": "me", "imports": {"#in": "./src/in.ts", "#of/*": "./src/of/*.js", "#pkg": "plain"}, "exports": {"./self": "./src/self.ts"}},
    "src/main.ts": "import './a'; import './b.js'; import './c'; import './d/'; import './d'; import './e.json'; import './f.mjs'; import '#in'; import '#of/x'; import '#pkg';"
                   "import 'me/self'; import 'plain'; import 'plain/sub'; import 'plain/sub/deep.js'; import '@s/exp'; import '@s/exp/x/y'; import '@s/exp/hidden'; import 'none'; import './none';"
                   "import 'nested'; import 'typed'; import './g'; import './h.jsx'; import 'linked'; import 'dual'; import './d/i'",
    "src/a.ts": "", "src/a.js": "", "src/b.ts": "", "src/c.tsx": "", "src/d/package.json": {"main": "lib/m"}, "src/d/lib/m.js": "", "src/d/index.ts": "", "src/d/i.cts": "", "src/e.json": {},
    "src/f.mts": "", "src/in.ts": "", "src/of/x.js": "", "src/self.ts": "", "src/g.js": "import './g2'", "src/g.d.ts": "", "src/g2/index.mjs": "", "src/h.tsx": "",
    "node_modules/plain/package.json": {"main": "./lib"}, "node_modules/plain/lib/index.js": "import 'nested'", "node_modules/plain/sub/index.js": "", "node_modules/plain/sub/deep.js": "",
    "node_modules/plain/node_modules/nested/index.js": "", "node_modules/nested/package.json": {"module": "es.js", "main": "cjs.js"}, "node_modules/nested/es.js": "", "node_modules/nested/cjs.js": "",
    "node_modules/@s/exp/package.json": {"exports": {".": {"node": "./n.js", "import": "./i.mjs", "default": "./d.js"}, "./x/*": ["./gone/*.js", "./x/*.js"]}},
    "node_modules/@s/exp/n.js": "", "node_modules/@s/exp/i.mjs": "", "node_modules/@s/exp/d.js": "", "node_modules/@s/exp/x/y.js": "", "node_modules/@s/exp/hidden.js": "",
    "node_modules/typed/package.json": {"types": "t.d.ts"}, "node_modules/typed/t.d.ts": "", "packages/linked/package.json": {"main": "l.ts"}, "packages/linked/l.ts": "import './m'", "packages/linked/m.ts": "",
    "node_modules/dual/package.json": {"main": "./c.js", "module": "./m.js", "types": "./t.d.ts"}, "node_modules/dual/c.js": "", "node_modules/dual/m.js": "", "node_modules/dual/t.d.ts": "",
}
# What is known to differ, by the resolver and the specifier, and why.
KNOWN = {
    ("enhanced-resolve", "./b.js"): "it has no .ts for .js in this version", ("enhanced-resolve", "./f.mjs"): "the same", ("enhanced-resolve", "./h.jsx"): "the same",
    ("enhanced-resolve", "typed"): "types aren't among its fields", ("enhanced-resolve", "./util/format.js"): "it has no .ts for .js in this version",
    ("enhanced-resolve", "@s/exp/x/y"): "of a list in exports it takes the first that is there, and so does pack; Node takes the first",
    ("typescript", "@s/exp"): "this mode of TypeScript doesn't read exports", ("typescript", "@s/exp/x/y"): "the same", ("typescript", "@s/exp/hidden"): "the same",
    ("typescript", "#in"): "nor imports", ("typescript", "#of/x"): "the same", ("typescript", "#pkg"): "the same", ("typescript", "me/self"): "the same",
    ("typescript", "@acme/icons/star"): "nor exports", ("typescript", "./f.mjs"): "nor .mts for .mjs", ("typescript", "./d/i"): ".cts is no extension that this mode adds", ("typescript", "./g2"): "nor .mjs",
    ("typescript", "nested"): "it doesn't know the field module", ("typescript", "./legacy.cjs"): "nor .cjs",
    ("enhanced-resolve", "./(shop)/cart,100%25.ts"): "it decodes no %25, as Node and Deno do", ("typescript", "./theme.css"): "it knows no CSS",
    ("typescript", "tiny-events"): "it doesn't read exports", ("typescript", "./broken.wasm"): "nor WebAssembly",
}
# Extensions that this version of TypeScript refuses in an import.
REFUSED = (".ts", ".tsx", ".mts", ".cts", ".wasm")


def has(name):
    return shutil.which("node") and os.path.isdir(os.path.join(PEERS, name))


class SecondOpinion(unittest.TestCase):
    maxDiff = None

    def leads(self, folder, root, kind):
        """Of each edge of a graph the file that names, the specifier, and the file that is named, or None."""
        done = subprocess.run([os.path.join(ROOT, "joravelsu"), "graph", "--json", "--folder", folder, "--kind", kind, os.path.join(folder, root)],
                              capture_output=True, env={**os.environ, "JORAVELSU_QUIET": "1"}, check=True)
        graph = json.loads(done.stdout)
        redirects = {entry["specifier"]: entry["target"] for entry in graph["modules"] if entry["state"] == "redirect"}
        for entry in graph["modules"]:
            for edge in entry.get("edges", ()):
                text = edge["specifier"]
                is_compared = edge["kind"] in ("import", "export", "dynamic", "import-equals") and ":" not in text and not text.startswith("/")
                if is_compared and not edge.get("fault", "").startswith("InvalidType"):
                    target = redirects.get(edge.get("target"), edge.get("target", ""))
                    place = folder + urls.unquote(target.removeprefix("file://"))
                    yield entry["specifier"], text, place if target.startswith("file:") and os.path.isfile(place) else None

    def compare(self, resolver, kind, folder, root, alias):
        folder = os.path.realpath(folder)
        rows = list(self.leads(folder, root, kind))
        asked = {"root": folder, "resolver": resolver, "alias": {key: os.path.join(folder, path) for key, path in alias.items()},
                 "questions": [[folder + name.removeprefix("file://"), text] for name, text, _ in rows]}
        done = subprocess.run(["node", os.path.join(HERE, "resolvers.js")], input=json.dumps(asked), capture_output=True, text=True,
                              env={**os.environ, "NODE_PATH": PEERS}, check=True)
        different = []
        for (name, text, target), found in zip(rows, json.loads(done.stdout)):
            if (resolver, text) in KNOWN or (resolver == "typescript" and text.endswith(REFUSED)):
                continue
            theirs = os.path.realpath(found) if found and os.path.isabs(found) else None
            if target != theirs:
                different.append((name, text, target, theirs))
        self.assertEqual(different, [])
        return len(rows)

    def all_of(self, resolver, kind):
        for name, (root, alias) in EXAMPLES.items():
            self.compare(resolver, kind, os.path.join(PROJECTS, name), root, alias)
        with tempfile.TemporaryDirectory() as room:
            for path, text in FILES.items():
                place = os.path.join(room, path)
                os.makedirs(os.path.dirname(place), exist_ok=True)
                with open(place, "w", encoding="utf-8") as file:
                    file.write(text if isinstance(text, str) else json.dumps(text))
            os.symlink("../packages/linked", os.path.join(room, "node_modules", "linked"))
            self.assertGreater(self.compare(resolver, kind, room, "src/main.ts", {}), 10)

    @unittest.skipUnless(has("enhanced-resolve"), "there is no enhanced-resolve")
    def test_enhanced_resolve(self):
        self.all_of("enhanced-resolve", "code")

    @unittest.skipUnless(has("typescript"), "there is no TypeScript")
    def test_typescript(self):
        self.all_of("typescript", "types")


if __name__ == "__main__":
    unittest.main()
