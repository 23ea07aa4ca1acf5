"""Where explain says that a text stops being a program, by rows; the program must be there, proved or compiled without proofs."""
import base64
import json
import os
import re
import sys
import unittest

sys.path.insert(0, os.path.dirname(os.path.dirname(os.path.abspath(__file__))))
from parts import bundles, faults, kit, places, program, report  # noqa: E402

# The name, and the text with ¦ in front of the place.
ROWS = [
    ("a.ts", "let a = 1;\n" * 900 + "1 ¦= 2\nlet b = 3;\n"),
    ("a.ts", "class A { ¦@dec() x = 1 }"),
    ("a.tsx", "const a = () => { return ¦<div>don't</div>; }"),
    ("a.js", "export default function A() { return (¦<A b={c}>it's</A>) }"),
    ("a.js", "function f() { if (x) { for (let i of y) { foo(1, 2 ¦= 3); } } }\nlet z = 1"),
    ("a.ts", "const a = ¦<T>b;"),
    ("a.ts", "x = `a${ 1 + ¦}`;"),
    ("a.ts", "let a = {\n b: 1,\n c: 2 ¦3\n};"),
    ("a.js", "let s = ¦'abc\n;"),
    ("a.js", "let s = ¦`abc\n;"),
    ("a.js", "let a; ¦/* no end"),
    ("a.ts", "¦@Component({}) export class X {}"),
    ("a.js", "var ¦let = 1;"),
    ("a.js", "if (a) {} ¦/x/.test(y)"),
    ("a.js", "let a¦: number = 1"),
    ("a.ts", "f(a,¦, b)"),
    ("a.ts", "switch (x) { case 1: break; case 2 ¦break; }"),
    ("a.ts", "const a = 1;\nimport { b } ¦form './c';\nlet d"),
    ("a.ts", "interface A { a: string; b ¦number }"),
    ("a.ts", "type A = { [k in keyof T]: ¦};"),
    ("a.ts", "enum A { B = 1, C ¦D }"),
    ("a.js", "f(1, 2¦]"),
    ("a.js", "const é = '😀'; 1 ¦= 2"),
    ("a.ts", "export const x = ¦"),
    ("a.ts", "while (true) {\n  " + "a = b;\n  " * 300 + "if (a ¦b) {}\n}\n"),
    ("a.ts", "class C {\n  m() {\n    return [1, 2].map((x) => {\n      const y ¦y = x;\n    });\n  }\n}\n"),
    ("a.js", "a++ ¦= 1"),
    ("a.js", "a;\n++a¦++"),
    ("a.js", "f() ¦+= 1;\n"),
    ("a.js", "[a, 1] ¦= b"),
    ("a.js", "({ a: 1 } ¦= b)"),
    ("a.js", "for (1 ¦of x);"),
    ("a.js", "for (f() ¦in x);"),
    ("a.js", "let b;\nfor (const a = 1 ¦of b);"),
    ("a.js", "(a, b) ¦= c"),
    ("a.ts", "let a;\n(a as b | c) = 1;\n(a + b as c) ¦= 1"),
    ("a.js", "a?.b ¦= 1"),
    ("a.js", "new.target ¦= 1"),
    ("a.js", "import 'a' ¦import 'b'"),
    ("a.js", "return ¦return"),
]
SENTENCES = [
    ("a.ts", "@d class A {}", "a decorator"), ("a.jsx", "let a = <b/>", "JSX"), ("a.ts", "let a = <b>c", "<T>x"),
    ("a.js", "var await = 1; export {}", "'await'"), ("a.js", "a = {} /b/.c", "unexpected '.'"), ("a.js", "interface A { b: c }", "types are read only in TypeScript files"),
    ("a.cjs", "let a;\nexport { a };", "a .cjs file is read as a script"),
    ("a.js", "a = " + "[" * 600 + "]" * 600, "500 nodes"),
    ("a.ts", "f(a as b\n(c))", "unexpected '('"), ("a.js", "a = 1 - * 2", "unexpected '*'"),
    ("a.ts", "a = b > ;", "unexpected ';'"), ("a.ts", "a = b < c > ;", "isn't called"),
    ("a.ts", "let a = f<T>;", "isn't called"), ("a.ts", "type A = B extends infer C extends D ? C : E", "a condition of infer"),
    ("a.ts", "type A = B extends [infer C extends D] ? C : E", "a condition of infer"), ("a.ts", "import { type as } from 'a'", "after type"),
    ("a.ts", "let a: import('a', { with: { b: 'c' } }).d", "attributes of an import type"),
    ("a.js", "<!-- b", "a comment of HTML"), ("a.js", "a\n--> b", "a comment of HTML"), ("a.js", "import a from 'b' assert { type: 'json' }", "write with"),
]
# The bytes of a source, and the byte and the line and column of the first that is no UTF-8.
NO_UTF8 = [
    (b"a = '\xff'", 5, 1, 6),
    (b"\xef\xbb\xbfa = '\xff'", 8, 1, 6),
    ("é;\r\n'ü".encode() + b"\xe2\x82'", 8, 2, 3),
    (b"\xc3", 0, 1, 1),
    (b"a\n\xed\xa0\x80", 2, 2, 1),
    (b"a\n\n// \xf0\x9f\x98\x80 \xc0\xaf", 11, 3, 6),
]


def spans_in(cell):
    """The code of a cell, between one or two backticks."""
    return [found[1].strip() if found[0] else found[2] for found in re.findall(r"(``)(.+?)``|`([^`]+)`", cell)]


class Places(unittest.TestCase):
    @classmethod
    def setUpClass(cls):
        cls.program = program.Program("test")

    def fault(self, name, text):
        return places.fault_of(text, "file:///" + name, lambda texts: self.program.which_are_read("file:///" + name, texts))

    def test_places(self):
        for name, row in ROWS:
            place, text = row.index("¦"), row.replace("¦", "")
            with self.subTest(text=text[-60:]):
                self.assertEqual(self.fault(name, text)[0], place)

    def test_bytes_that_are_no_utf8(self):
        for data, byte, line, column in NO_UTF8:
            for specifier in ("file:///a.js", "data:text/javascript," + "".join(f"%{it:02X}" for it in data)):
                with self.subTest(specifier=specifier, data=data):
                    modules = [{"specifier": specifier, "base64": base64.b64encode(data).decode()}] if specifier[0] == "f" else []
                    text = json.dumps({"roots": [specifier], "modules": modules})
                    graph = report.graph_of(self.program.report(text.encode())[1])
                    self.assertEqual(graph.entries[specifier].state, "error Decode")
                    (fault,) = faults.of_graph(graph, bundles.Bundle(text), None)
                    told = next(faults.lines_of(fault, bundles.Bundle(text)))
                    self.assertEqual(told, f"{bundles.shown(specifier)}:{line}:{column}: byte {byte:,} (0x{data[byte]:02x}) is no UTF-8")

    def test_forms_that_are_left_out(self):
        """No example of docs/DIFFERENCES.md is read, as whatever source; what stands behind 'instead of' is."""
        with open(os.path.join(kit.ROOT, "docs", "DIFFERENCES.md"), encoding="utf-8") as file:
            part = file.read().partition("## Forms of the languages")[2]
        rows = re.findall(r"(?m)^\| (.*?) \| (.*?) \| .*? \|$", part)[1:]
        for text in spans_in(part.partition("Early errors")[2]):
            with self.subTest(text=text):
                self.assertEqual(self.program.which_are_read("file:///a.ts", [text]), [True])
        asked = 0
        for _, cell in rows:
            left_out, _, instead = cell.replace("`, line end, `", "\n").partition(", instead of ")
            for text in spans_in(left_out):
                for name in ("a.ts", "a.tsx", "a.js", "a.cjs"):
                    with self.subTest(text=text, name=name):
                        self.assertEqual(self.program.which_are_read("file:///" + name, [text]), [False])
                asked += 1
            for text in spans_in(instead) if instead != "`with`" else ():
                with self.subTest(text=text):
                    self.assertEqual(self.program.which_are_read("file:///a.ts", [text if text.endswith(";") else f"x = {text}"]), [True])
        self.assertGreater(asked, 25)

    def test_sentences(self):
        for name, text, part in SENTENCES:
            with self.subTest(text=text[:40]):
                self.assertIn(part, self.fault(name, text)[2])


if __name__ == "__main__":
    unittest.main()
