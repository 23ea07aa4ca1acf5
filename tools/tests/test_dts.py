"""./joravelsu dts: what it prints, where it writes it, and what it reports."""
import os
import subprocess
import sys
import unittest

TOOLS = os.path.dirname(os.path.dirname(os.path.abspath(__file__)))
ROOT = os.path.dirname(TOOLS)
sys.path.insert(0, TOOLS)
from tests.rooms import Room  # noqa: E402

A = "/** a */ export const a = [1], b = f();\nexport function c(d = 1, {e}): string { return d; }\n"
A_DECLARED = "/** a */\nexport declare const a: readonly [number], b: any;\nexport declare function c(d?: number, { e }): string;\n"
A_FOUND = "a.ts:1:32: unable to infer type, falling back to any type: write the type of b\n    /** a */ export const a = [1], b = f();\n                                   ^\n"


class Dts(Room):
    def ran(self, *words, given=b""):
        done = subprocess.run([os.path.join(ROOT, "joravelsu"), "dts", *words], input=given, capture_output=True, cwd=self.room, env={**os.environ, "JORAVELSU_QUIET": "1"}, check=False)
        return done.returncode, done.stdout.decode(), done.stderr.decode()

    def read(self, path):
        with open(os.path.join(self.room, path), encoding="utf-8") as file:
            return file.read()

    def test_standard_output(self):
        self.put({"a.ts": A, "b.mjs": "export let b = 1;\n"})
        self.assertEqual(self.ran("a.ts"), (0, A_DECLARED, A_FOUND))
        self.assertEqual(self.ran("--no-comments", "a.ts")[1], A_DECLARED.replace("/** a */\n", ""))
        self.assertEqual(self.ran("a.ts", "b.mjs"), (0, f"// a.ts\n{A_DECLARED}// b.mjs\nexport declare let b: number;\n", A_FOUND))

    def test_check(self):
        self.put({"a.ts": A, "b.ts": "export let b: string;\n"})
        self.assertEqual(self.ran("--check", "a.ts", "b.ts"), (1, "", A_FOUND))
        self.assertEqual(self.ran("--check", "b.ts"), (0, "", ""))

    def test_folder(self):
        self.put({"src/a.ts": A, "src/b/c.mts": "export default 1;", "d.cjs": "var a = 1;", "e.d.ts": "interface E { }"})
        status, out, errors = self.ran("-o", "types", "src/a.ts", "src/b/c.mts", "d.cjs", "e.d.ts")
        self.assertEqual((status, out, errors), (0, "", "src/" + A_FOUND))
        self.assertEqual(self.read("types/src/a.d.ts"), A_DECLARED)
        self.assertEqual(self.read("types/src/b/c.d.mts"), "declare const _dts_1: number;\nexport default _dts_1;\n")
        self.assertEqual(self.read("types/d.d.cts"), "declare var a: number;\n")
        self.assertEqual(self.read("types/e.d.ts"), "interface E {\n}\n")
        self.assertEqual(self.ran("-o", "types", "src/a.ts", os.path.join("src", "..", "src", "a.ts"))[0], 2)

    def test_outside_the_folder(self):
        self.put({"in/x.txt": "", "a.ts": "export let a: string;"})
        done = subprocess.run([os.path.join(ROOT, "joravelsu"), "dts", "-o", "types", "../a.ts"], capture_output=True, cwd=os.path.join(self.room, "in"), env={**os.environ, "JORAVELSU_QUIET": "1"}, check=False)
        self.assertEqual((done.returncode, done.stdout, done.stderr), (0, b"", b""))
        self.assertEqual(self.read("in/types/a.d.ts"), "export declare let a: string;\n")

    def test_standard_input(self):
        self.assertEqual(self.ran("-", given=b"export let a = 1n"), (0, "export declare let a: bigint;\n", ""))
        self.assertEqual(self.ran("--as", ".cjs", "-", given=b"let a = 'b'"), (0, "declare let a: string;\n", ""))

    def test_what_is_not_read(self):
        self.put({"a.ts": "export let a: string;", "b.ts": "export let b;\n  let = ;\n", "c.ts": "let a = '", "d.txt": ""})
        status, out, errors = self.ran("a.ts", "b.ts")
        self.assertEqual((status, out), (1, "export declare let a: string;\n"))
        self.assertRegex(errors, r"^b\.ts:2:\d+: isn't read: the tokens are no program of the grammar at byte \d+\n$")
        self.assertEqual(self.ran("c.ts"), (1, "", "c.ts:1:9: isn't read: a part of the text is no token at byte 8\n"))
        for words, said in ((("d.txt",), "d.txt: a file with this extension has no declarations; --as .ts reads it as TypeScript"), (("gone.ts",), "gone.ts: No such file or directory")):
            self.assertEqual(self.ran(*words), (2, "", f"joravelsu: {said}\n"))
        self.assertEqual(self.ran("-o", "x", "--check", "a.ts")[0], 64)

    def test_what_typescript_refuses(self):
        self.put({"a.ts": "export class A { constructor(private a: string) { } }\nexport default A.b;\n"})
        status, out, errors = self.ran("--check", "a.ts")
        self.assertEqual((status, out), (0, ""))
        self.assertEqual(errors, "a.ts: TypeScript refuses in a .d.ts a parameter that is a property (TS2369): constructor(private a: string);\n"
                         "a.ts: TypeScript refuses in a .d.ts an expression as the default export (TS2714): export default A.b;\n")

    def test_diagnostics_of_each_kind(self):
        self.write("a.ts", "export const a = [g()], { b } = h, c = { d() { }, ...e };\nexport const f = [...g()];\n")
        said = [line for line in self.ran("--check", "a.ts")[2].splitlines() if line.startswith("a.ts:")]
        self.assertEqual(said, [
            "a.ts:1:19: unable to infer type from expression or declaration",
            "a.ts:1:25: unable to infer type from expression or declaration",
            "a.ts:1:42: unable to infer type from object property, skipping",
            "a.ts:1:51: unable to infer type from spread, skipping",
            "a.ts:2:14: unable to infer type, falling back to any type: write the type of f",
            "a.ts:2:19: unable to infer type from spread, skipping"])


if __name__ == "__main__":
    unittest.main()
