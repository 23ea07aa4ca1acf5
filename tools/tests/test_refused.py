"""What TypeScript refuses of printed declarations, by lines of text."""
import os
import sys
import unittest

sys.path.insert(0, os.path.dirname(os.path.dirname(os.path.abspath(__file__))))
from parts import refused  # noqa: E402

# A printed text, and what is refused of it.
ROWS = (
    ("declare class A {\n  constructor(private a?: string, readonly: string, readonly b: any);\n}", [("property", 2), ("property", 2)]),
    ("declare class A {\n  constructor(a: {\n    readonly b: string;\n  }, readonly);\n}", []),
    ("declare class A {\n  static constructor(private a);\n  'constructor'(private);\n}", [("property", 2)]),
    ("export default f();", [("default", 1)]),
    ('export default "a";', [("default", 1)]),
    ("export default a;\nexport default class {\n}", []),
    ("export default abstract class A {\n}\nexport default interface B {\n}", []),
    ("export default function(a = 1);", [("parameter", 1)]),
    ("export default function f<T extends (a: X<Y>) => Z = X<Y>>(a: T, b = 2);", [("parameter", 1)]),
    ("export default function f(a: (b: string) => string, { c = 1 });", []),
    ("export declare function f(a = 1);", []),
    ("declare const o: {\n  readonly [1n]: number;\n  [0x1fn](): void;\n  readonly a: readonly [1n];\n};", [("key", 2), ("key", 3)]),
    ("type A = X extends Y ? readonly [1n] : string;", []),
    ("using a = b;\nawait using c = d;", [("using", 1), ("using", 2)]),
    ("declare const using: string;\ntype using = string;", []),
    ("export declare async function f();\ndeclare class A {\n  async m();\n  async(): void;\n  async: string;\n}", [("async", 1), ("async", 3)]),
    ("export declare function* f();\ndeclare class A {\n  *g();\n  static async*h();\n}", [("star", 1), ("star", 3), ("async", 4), ("star", 4)]),
    ('export * from "a";\nimport * as b from "c";\nexport * as d from "e";', []),
    ("/* using a */\n// export default f()\ndeclare const a: `export default f()`;", []),
    ("", []),
)


class Refused(unittest.TestCase):
    def test_rows(self):
        for text, wanted in ROWS:
            self.assertEqual([tuple(it) for it in refused.refused_in(text)], wanted, text)

    def test_said(self):
        text = "declare let a;\nexport default f();\n"
        said = [refused.said_of("a.ts", text, it) for it in refused.refused_in(text)]
        self.assertEqual(said, ["a.ts: TypeScript refuses in a .d.ts an expression as the default export (TS2714): export default f();"])


if __name__ == "__main__":
    unittest.main()
