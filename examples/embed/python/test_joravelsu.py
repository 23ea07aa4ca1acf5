"""Tests of the module, and of the calls on bad input: python3 test_joravelsu.py. tools/check-library runs them."""
import asyncio
import concurrent.futures
import ctypes
import doctest
import json
import os
import tempfile
import unittest
import zipfile

import backend
import folder
import joravelsu
import watch
from joravelsu import AnswerError, Builder, BundleError, Edge, Graph, Redirect, TooManyModules

EXAMPLES = os.path.join(os.path.dirname(os.path.abspath(__file__)), "..", "..", "bundles")


def raw_sites(text, media_type, sites_length, values_length):
    """The call itself: status, answer, and whether the buffers were left alone."""
    sites, values = (joravelsu._Site * (sites_length + 1))(), ctypes.create_string_buffer(b"#" * (values_length + 1))
    sites[0].kind = 99
    answer = joravelsu._Answer(7, 7, 7, 7)
    status = joravelsu._library.joravelsu_sites(
        text, len(text), media_type, sites, sites_length, values, values_length, ctypes.byref(answer)
    )
    untouched = sites[0].kind == 99 and values.raw[:-1] == b"#" * (values_length + 1)
    return status, (answer.sites, answer.value_bytes, answer.fault, answer.place), untouched


def raw_calls(text, length):
    """The same of the calls of a text."""
    calls = (joravelsu._Call * (length + 1))()
    calls[0].kind = 99
    answer = joravelsu._UnreadAnswer(7, 7, 7)
    status = joravelsu._library.joravelsu_unread(text, len(text), calls, length, ctypes.byref(answer))
    return status, (answer.calls, answer.fault, answer.place), calls[0].kind == 99


def raw_rewrite(text, media_type, records, values, length):
    """The same of other specifiers: each record is a site's number, and where its specifier begins and ends. The buffer is told with the byte behind it."""
    changes = (joravelsu._Change * len(records))(*[joravelsu._Change(*record) for record in records])
    buffer = ctypes.create_string_buffer(b"#" * (length + 1))
    answer = joravelsu._RewriteAnswer(7, 7, 7, 7)
    status = joravelsu._library.joravelsu_rewrite(
        text, len(text), media_type, changes, len(records), values, len(values), buffer, length, ctypes.byref(answer)
    )
    return status, (answer.needed, answer.change, answer.fault, answer.place), buffer.raw[:-1]


def raw_exports(text, media_type, common_js, names_length, values_length):
    """The same of exports."""
    names, values = (joravelsu._Name * (names_length + 1))(), ctypes.create_string_buffer(b"#" * (values_length + 1))
    names[0].start = 99
    answer = joravelsu._ExportsAnswer(7, 7, 7, 7, 7)
    status = joravelsu._library.joravelsu_exports(
        text, len(text), media_type, common_js, names, names_length, values, values_length, ctypes.byref(answer)
    )
    untouched = names[0].start == 99 and values.raw[:-1] == b"#" * (values_length + 1)
    return status, (answer.exports, answer.reexports, answer.value_bytes, answer.fault, answer.place), untouched


def raw_declarations(text, media_type, length, room):
    """The same of declarations."""
    found, buffer = (joravelsu._Diagnostic * (length + 1))(), ctypes.create_string_buffer(b"#" * (room + 1))
    found[0].kind = 99
    answer = joravelsu._DeclarationsAnswer(7, 7, 7, 7)
    status = joravelsu._library.joravelsu_declarations(text, len(text), media_type, 1, found, length, buffer, room, ctypes.byref(answer))
    untouched = found[0].kind == 99 and buffer.raw[:-1] == b"#" * (room + 1)
    return status, (answer.diagnostics, answer.text_bytes, answer.fault, answer.place), untouched


class Version(unittest.TestCase):
    def test_version(self):
        self.assertEqual(joravelsu.version(), (0, 1, 0))


class Sites(unittest.TestCase):
    def test_of_a_text(self):
        text = 'import "./b.ts";\n// import "./x.ts"\nimport \'ö\';'
        found = joravelsu.imports_of(text, joravelsu.TYPESCRIPT)
        self.assertEqual([it.value for it in found], ["./b.ts", "ö"])
        bytes_of_text = text.encode()
        for site, literal in zip(found, ['"./b.ts"', "'ö'"]):
            self.assertEqual(bytes_of_text[site.start : site.end].decode(), literal)
            self.assertEqual((site.kind, site.type_only, site.attribute), ("import", False, None))

    def test_reference_comments(self):
        text = '#!/bin/x\n/// <reference path="a.d.ts" />\n/// <reference types="node" />\nimport "b";\n/// <reference path="c" />'
        wanted = [("reference-path", True, "a.d.ts", '"a.d.ts"'), ("reference-types", True, "node", '"node"'), ("import", False, "b", '"b"')]
        for media_type, first in ((joravelsu.TYPESCRIPT, 0), (joravelsu.DTS, 0), (joravelsu.TSX, 0), (joravelsu.JAVASCRIPT, 2), (joravelsu.MJS, 2)):
            found = joravelsu.imports_of(text, media_type)
            self.assertEqual([(it.kind, it.type_only, it.value, text[it.start : it.end]) for it in found], wanted[first:])
        self.assertEqual([it.attribute for it in joravelsu.imports_of(text, joravelsu.MTS)], [joravelsu.UNKNOWN] * 2 + [None])

    def test_attributes(self):
        rows = [
            ('import a from "a" with { type: "json" };', joravelsu.MJS, "json"),
            ("import a from 'a' with { 'type': 'ö' };", joravelsu.MJS, "ö"),
            ('import a from "a" with { other: "json" };', joravelsu.MJS, None),
            ('import a from "a" with { type: "" };', joravelsu.MJS, ""),
            ('export * from "a" with { type: "css" };', joravelsu.MTS, "css"),
            ('import("a", { with: { type: "json" } })', joravelsu.MJS, "json"),
            ('import("a", b)', joravelsu.MJS, joravelsu.UNKNOWN),
            ('import a = require("a");', joravelsu.MTS, joravelsu.UNKNOWN),
        ]
        for text, media_type, attribute in rows:
            found = joravelsu.imports_of(text, media_type)
            self.assertEqual([(it.value, it.attribute) for it in found], [("a", attribute)], text)

    def test_behind_a_byte_order_mark(self):
        found = joravelsu.imports_of('\ufeffimport "a";', joravelsu.MJS)
        self.assertEqual([(it.start, it.end, it.value) for it in found], [(7, 10, "a")])

    def test_more_than_the_first_buffers_hold(self):
        names = [f"./{'x' * 100}{i}.ts" for i in range(1000)]
        text = "".join(f'import "{name}";\n' for name in names)
        self.assertEqual([it.value for it in joravelsu.imports_of(text, joravelsu.MTS)], names)

    def test_refusals(self):
        rows = [
            (b"", 99, 8, None),
            (b"", joravelsu.WASM, 9, None),
            (b"", joravelsu.JSON, 9, None),
            (b"\xff", joravelsu.MJS, 7, 0),
            (b"\xef\xbb\xbfab\xc3", joravelsu.MJS, 7, 5),
            ("ö".encode() + b"\xed\xa0\x80", joravelsu.MJS, 7, 2),
            (b" " * (1 << 24) + b" ", joravelsu.MJS, 6, None),
            (b'import "a', joravelsu.MJS, 10, 7),
            (b"import", joravelsu.MJS, 11, 6),
            (b"let a = 1;\n" * 900 + b"1 = 2\nlet b;\n", joravelsu.MJS, 11, 9900),
            (b"b; a++ = 1", joravelsu.MJS, 11, 3),
            (b"for (1 of b);", joravelsu.MJS, 11, 5),
            (b"if (a) for (f() in b);", joravelsu.MJS, 11, 12),
            (b"a = b = f() += 1", joravelsu.MJS, 11, 8),
            (b"a; ++f()", joravelsu.MJS, 11, 3),
            (b"({ a, b: [c, 1] } = d)", joravelsu.MJS, 11, 13),
            (b"a;\n(b + c as d) = e", joravelsu.TYPESCRIPT, 11, 3),
            (b"a b", joravelsu.MJS, 11, 2),
        ]
        for text, media_type, status, place in rows:
            with self.assertRaises(joravelsu.SourceError) as caught:
                joravelsu.imports_of(text, media_type)
            self.assertEqual((caught.exception.status, caught.exception.place), (status, place))

    def test_sizes_at_the_limit(self):
        self.assertEqual(joravelsu.imports_of(b" " * (1 << 24), joravelsu.JAVASCRIPT), [])

    def test_buffers(self):
        text = b'import "ab"; import "c";'
        for sites_length, values_length in ((0, 0), (1, 3), (2, 2), (0, 3)):
            status, answer, untouched = raw_sites(text, joravelsu.MJS, sites_length, values_length)
            self.assertEqual((status, answer, untouched), (4, (2, 3, 0, 0), True))
        self.assertEqual(raw_sites(text, joravelsu.MJS, 2, 3)[:2], (0, (2, 3, 0, 0)))
        self.assertEqual(raw_sites(b"", joravelsu.MJS, 0, 0), (0, (0, 0, 0, 0), True))
        self.assertEqual(raw_sites(b'"', joravelsu.MJS, 0, 0), (10, (0, 0, 1, 0), True))
        text = b'import "ab" with { type: "json" };'
        self.assertEqual(raw_sites(text, joravelsu.MJS, 1, 5), (4, (1, 6, 0, 0), True))
        self.assertEqual(raw_sites(text, joravelsu.MJS, 1, 6)[:2], (0, (1, 6, 0, 0)))


class Mentions(unittest.TestCase):
    def test_of_a_text(self):
        text = '\ufeffimport a from "a"; import(a); a(Math, eval, import.meta, "ö"); new URL("b", import.meta.url); a.constructor; function f(b = c) { var c }'
        bare = text[1:].encode()
        rows = [(False, ["import import(a)", "name eval", "meta import.meta", "name c"]), (True, ["import import(a)", "name eval", "meta import.meta", "member .constructor", "name c"])]
        for strict, wanted in rows:
            found = joravelsu.mentions_in(text, joravelsu.MJS, (*joravelsu.ECMASCRIPT, *joravelsu.HOST), strict)
            self.assertEqual([f"{it.reason} {bare[it.start : it.end].decode()}" for it in found], wanted)

    def test_allowed(self):
        for names, wanted in (((), ["name", "name"]), (("a",), ["name"]), (("a", "ö"), []), (("a ö",), ["name", "name"])):
            self.assertEqual([it.reason for it in joravelsu.mentions_in("a; ö", joravelsu.MJS, names)], wanted)

    def test_reasons(self):
        rows = [(joravelsu.CJS, "with (a) this.b", ["with", "name", "this"]), (joravelsu.MJS, "({})[1 + 1]", ["key"]), (joravelsu.TYPESCRIPT, "interface Function {} new Function()", ["name"])]
        for media_type, text, wanted in rows:
            self.assertEqual([it.reason for it in joravelsu.mentions_in(text, media_type, (), True)][: len(wanted)], wanted, text)

    def test_more_than_the_first_buffer_holds(self):
        self.assertEqual(len(joravelsu.mentions_in("a;" * 1000, joravelsu.MJS, ())), 1000)

    def test_refusals(self):
        rows = [(b"ab\xff", 3, 7, 2), (b" " * ((1 << 24) + 1), 3, 6, None), (b'require("a', 3, 10, 8), (b"1 = 2", 3, 11, 0), (b"{}", joravelsu.JSON, 9, None), (b"", 99, 8, None)]
        for text, media_type, status, place in rows:
            with self.assertRaises(joravelsu.SourceError) as caught:
                joravelsu.mentions_in(text, media_type, ())
            self.assertEqual((caught.exception.status, caught.exception.place), (status, place))


class Calls(unittest.TestCase):
    def test_of_a_text(self):
        text = '\ufeffimport "a"; import("b"); import(c + "ö"); require("d"); a.require("e"); class A { require(f) { } }'
        found = joravelsu.unread_in(text)
        bare = text[1:].encode()
        self.assertEqual([(it.kind, bare[it.start : it.end].decode()) for it in found], [("import", 'import(c + "ö")'), ("require", 'require("d")')])

    def test_of_no_program(self):
        self.assertEqual([it.kind for it in joravelsu.unread_in("1 = 2; require(a)")], ["require"])

    def test_more_than_the_first_buffer_holds(self):
        self.assertEqual(len(joravelsu.unread_in("require(a);" * 1000)), 1000)

    def test_refusals(self):
        rows = [(b"ab\xff", 7, 2), (b" " * ((1 << 24) + 1), 6, None), (b'require("a', 10, 8)]
        for text, status, place in rows:
            with self.assertRaises(joravelsu.SourceError) as caught:
                joravelsu.unread_in(text)
            self.assertEqual((caught.exception.status, caught.exception.place), (status, place))

    def test_buffers(self):
        text = b"require(a); import(b)"
        for length in (0, 1):
            self.assertEqual(raw_calls(text, length), (4, (2, 0, 0), True))
        self.assertEqual(raw_calls(text, 2)[:2], (0, (2, 0, 0)))
        self.assertEqual(raw_calls(b"", 0), (0, (0, 0, 0), True))
        self.assertEqual(raw_calls(b'"', 0), (10, (0, 1, 0), True))


class Rewriting(unittest.TestCase):
    def test_of_texts(self):
        ts, mjs = joravelsu.TYPESCRIPT, joravelsu.MJS
        rows = [
            ('import "./a.ts"; const s = "./a.ts";', ts, {0: "./b.ts"}, 'import "./b.ts"; const s = "./a.ts";'),
            ("import './a.ts'", ts, {0: 'x\n"'}, 'import "x\\n\\""'),
            ('import "./b.ts"; import("./c.ts");', ts, {0: "./lib/b.ts"}, 'import "./lib/b.ts"; import("./c.ts");'),
            ("import a from'a'\nexport*from'b'", mjs, {1: "ö", 0: ""}, 'import a from""\nexport*from"ö"'),
            ('/// <reference path="r" />\nimport "a"', ts, {1: "b"}, '/// <reference path="r" />\nimport "b"'),
            ("\ufeffimport 'a'", mjs, {0: "b"}, 'import "b"'),
            ("1 + '2'", mjs, {}, "1 + '2'"),
        ]
        for text, media_type, specifiers, wanted in rows:
            self.assertEqual(joravelsu.rewrite(text, media_type, specifiers), wanted)

    def test_moved_sites(self):
        new = joravelsu.rewrite('import "./b.ts"; import("./c.ts");', joravelsu.TYPESCRIPT, {0: "./lib/b.ts"})
        found = [(it.start, it.end, it.value) for it in joravelsu.imports_of(new, joravelsu.TYPESCRIPT)]
        self.assertEqual(found, [(7, 19, "./lib/b.ts"), (28, 36, "./c.ts")])

    def test_more_than_the_first_buffer_holds(self):
        text, values = 'import "a";' * 1000, {i: '"' * 100 for i in range(1000)}
        self.assertEqual(joravelsu.rewrite(text, joravelsu.MJS, values), ('import "' + '\\"' * 100 + '";') * 1000)

    def test_changes_that_cant_be_made(self):
        text = '/// <reference path="r" />\nimport "a"; import "b";'
        for specifiers, status, site in (({3: "c"}, 13, 3), ({0: "c"}, 14, 0), ({1: "c", 9: "d"}, 13, 9), ({-1: "c"}, 13, -1)):
            with self.assertRaises(joravelsu.ChangeError) as caught:
                joravelsu.rewrite(text, joravelsu.TYPESCRIPT, specifiers)
            self.assertEqual((caught.exception.status, caught.exception.site), (status, site))
        for text, status, place in ((b"\xff", 7, 0), (b'import "a', 10, 7), (b"a b", 11, 2)):
            with self.assertRaises(joravelsu.SourceError) as caught:
                joravelsu.rewrite(text, joravelsu.MJS, {0: "b"})
            self.assertEqual((caught.exception.status, caught.exception.place), (status, place))

    def test_buffers(self):
        text, mjs = b'import "a"; import "b";', joravelsu.MJS
        rows = [
            ([(0, 0, 1)], b"x", 23, 0, (23, 0, 0, 0), b'import "x"; import "b";'),
            ([(0, 0, 1)], b"x", 22, 4, (23, 0, 0, 0), b"#" * 22),
            ([(0, 0, 1), (1, 1, 1)], b"x", 23, 0, (22, 0, 0, 0), b'import "x"; import "";#'),
            ([(0, 0, 1), (1, 0, 2)], b"x", 2, 12, (0, 1, 0, 0), b"##"),
            ([(0, 1, 0)], b"x", 2, 12, (0, 0, 0, 0), b"##"),
            ([(0, 0, 1)], b"\xff", 2, 12, (0, 0, 0, 0), b"##"),
            ([(1, 0, 1), (1, 0, 1)], b"x", 2, 15, (0, 1, 0, 0), b"##"),
            ([(1, 0, 1), (0, 0, 1)], b"x", 2, 15, (0, 1, 0, 0), b"##"),
            ([(2, 0, 1)], b"x", 2, 13, (0, 0, 0, 0), b"##"),
            ([], b"", 0, 4, (23, 0, 0, 0), b""),
        ]
        for records, values, length, status, answer, held in rows:
            # the byte behind the buffer stays as it was
            self.assertEqual(raw_rewrite(text, mjs, records, values, length), (status, answer, held + b"#"), records)
        self.assertEqual(raw_rewrite(text, 99, [(5, 9, 3)], b"", 0)[:2], (8, (0, 0, 0, 0)))


class Exports(unittest.TestCase):
    def test_of_modules(self):
        rows = [
            ('export { z } from "./o.js"; export const [p, q] = r;', joravelsu.MJS, ["z", "p", "q"], []),
            ("export class A {} export enum B {} export module C.Test {} export { h1 as h, other as 'testing-this' };",
             joravelsu.TYPESCRIPT, ["A", "B", "C", "h", "testing-this"], []),
            ('export * from "./ö.js"; export * as y from "y"; export default 1;', joravelsu.MJS, ["y", "default"], ["./ö.js"]),
            ("exports.a = 1;", joravelsu.CJS, [], []),
            ("", joravelsu.JAVASCRIPT, [], []),
        ]
        for text, media_type, names, again in rows:
            self.assertEqual(joravelsu.exports_of(text, media_type), (names, again), text)

    def test_of_modules_of_common_js(self):
        rows = [
            ('module.exports = require("./a"); exports.b = 1; module.exports = require("./c");', ["b"], ["./c"]),
            ("exports.ö = exports.b = exports.b = 1;", ["b", "ö"], []),
            ("Object.defineProperty(exports, 'a', { get: function () { return b(); } }); exports.c = 1;", ["c"], []),
            ('export * from "./b.js";', [], []),
            ("let exports2 = {};", [], []),
        ]
        for text, names, again in rows:
            media_type = joravelsu.MJS if text.startswith("export *") else joravelsu.CJS
            self.assertEqual(joravelsu.exports_of(text, media_type, common_js=True), (names, again), text)

    def test_many(self):
        text = "".join(f"export let a{i};" for i in range(1000))
        self.assertEqual(joravelsu.exports_of(text, joravelsu.MJS).names, [f"a{i}" for i in range(1000)])

    def test_refusals(self):
        for text, media_type, status, place in (
            (b"\xff", joravelsu.MJS, 7, 0), (b'import "a', joravelsu.MJS, 10, 7), (b"a b", joravelsu.MJS, 11, 2),
            (b"export {}", joravelsu.CJS, 11, 0), (b"{}", joravelsu.JSON, 9, None), (b"", 99, 8, None),
            (b" " * ((1 << 24) + 1), joravelsu.MJS, 6, None),
        ):
            for common_js in (False, True):
                with self.assertRaises(joravelsu.SourceError) as caught:
                    joravelsu.exports_of(text, media_type, common_js)
                self.assertEqual((caught.exception.status, caught.exception.place), (status, place))

    def test_buffers(self):
        text, mjs = b'export let a, bc; export * from "d";', joravelsu.MJS
        for names_length, values_length, status in ((3, 4, 0), (2, 4, 4), (3, 3, 4), (0, 0, 4)):
            told = raw_exports(text, mjs, 0, names_length, values_length)
            self.assertEqual(told, (status, (2, 1, 4, 0, 0), status == 4))
        self.assertEqual(raw_exports(text, mjs, 5, 0, 0), (0, (0, 0, 0, 0, 0), True))
        self.assertEqual(raw_exports(b"exports.a = 1;", joravelsu.CJS, 5, 1, 1), (0, (1, 0, 1, 0, 0), False))
        self.assertEqual(raw_exports(b"a b", mjs, 0, 0, 0), (11, (0, 0, 0, 0, 2), True))


class Declarations(unittest.TestCase):
    def test_of_sources(self):
        rows = [
            ("export function foo(a = 2): number { return 2; }", "export declare function foo(a?: number): number;\n", []),
            ("export default 42;", "declare const _dts_1: number;\nexport default _dts_1;\n", []),
            ('export const nope = [...foo(), "a"] as const;', "export declare const nope: any;\n", [("spread", 21, 29), ("any", 13, 17)]),
            ("export const a = [g()], { b } = h;", "export declare const a: readonly [any], { b };\n", [("type", 18, 21), ("type", 24, 33)]),
            ("\ufeffexport const ö = { m() {} };", "export declare const ö: {\n};\n", [("property", 20, 26)]),
        ]
        for text, declared, diagnostics in rows:
            self.assertEqual(joravelsu.declarations_of(text, joravelsu.TYPESCRIPT), (declared, diagnostics), text)

    def test_comments(self):
        text = "/** a */ export let a: string; // b\n/* c */ f();\n/* d */ export let b: string;"
        plain = "export declare let a: string;\nexport declare let b: string;\n"
        self.assertEqual(joravelsu.declarations_of(text, joravelsu.TYPESCRIPT, comments=False).text, plain)
        self.assertEqual(joravelsu.declarations_of(text, joravelsu.TYPESCRIPT).text, plain.replace("export declare let a", "/** a */\nexport declare let a").replace("export declare let b", "/* d */\nexport declare let b"))

    def test_many(self):
        text = "".join(f"export let a{i} = b;" for i in range(1000))
        found = joravelsu.declarations_of(text, joravelsu.MJS)
        self.assertEqual(found.text, "".join(f"export declare let a{i}: any;\n" for i in range(1000)))
        self.assertEqual([it.kind for it in found.diagnostics], ["any"] * 1000)

    def test_refusals(self):
        rows = [(b"ab\xff", 3, 7, 2), (b" " * ((1 << 24) + 1), 3, 6, None), (b'import "a', 8, 10, 7), (b"1 = 2", 3, 11, 0), (b"{}", joravelsu.JSON, 9, None), (b"", 99, 8, None)]
        for text, media_type, status, place in rows:
            with self.assertRaises(joravelsu.SourceError) as caught:
                joravelsu.declarations_of(text, media_type)
            self.assertEqual((caught.exception.status, caught.exception.place), (status, place))

    def test_buffers(self):
        text = b"export let a = b;"
        for length, room, status in ((1, 27, 0), (1, 26, 4), (0, 27, 4), (0, 0, 4)):
            self.assertEqual(raw_declarations(text, joravelsu.TYPESCRIPT, length, room), (status, (1, 27, 0, 0), status == 4))
        self.assertEqual(raw_declarations(b"", joravelsu.TYPESCRIPT, 0, 0), (0, (0, 0, 0, 0), True))


class Graphs(unittest.TestCase):
    def test_of_the_examples(self):
        for name in ("one-import", "site", "packages"):
            with open(f"{EXAMPLES}/{name}.json", encoding="utf-8") as file:
                bundle = file.read()
            with open(f"{EXAMPLES}/{name}.report", encoding="utf-8") as file:
                report = file.read()
            self.assertEqual(joravelsu.graph(bundle), report, name)
            self.assertEqual(joravelsu.graph(json.loads(bundle)), report, name)

    def test_refusals(self):
        rows = [
            (b"{", "error NotJson"),
            (b"{}", 'error Bundle "/roots"'),
            (b"\xff", "error NotJson"),
            (b" " * ((1 << 24) + 1), "error InputTooLong"),
        ]
        for bundle, line in rows:
            with self.assertRaises(joravelsu.BundleError) as caught:
                joravelsu.graph(bundle)
            self.assertEqual(str(caught.exception), line)

    def test_buffer_of_nothing(self):
        needed, buffer = ctypes.c_size_t(), ctypes.create_string_buffer(b"#")
        status = joravelsu._library.joravelsu_build(b"{", 1, buffer, 0, ctypes.byref(needed))
        self.assertEqual((status, needed.value, buffer.raw), (4, len("error NotJson\n"), b"#\0"))


FILES = {
    "file:///a.ts": 'import "./b.ts" with { type: "json" };\n  import("./c");',
    "file:///b.ts": "{}",
    "file:///c": Redirect("file:///c.ts"),
    "file:///c.ts": "é; 1 = 2",
}


class Building(unittest.TestCase):
    def test_docstrings(self):
        self.assertEqual(doctest.testmod(joravelsu).failed, 0)

    def test_of_files(self):
        graph = Graph.build(["file:///a.ts"], FILES.get)
        self.assertEqual([entry.specifier for entry in graph.entries], list(FILES))
        first = graph.entries[0]
        self.assertEqual(first.edges, [
            Edge("import", False, 7, 15, "./b.ts", "json", None, None, "InvalidTypeAssertion"),
            Edge("dynamic", False, 48, 53, "./c", None, 2, "file:///c", None),
        ])
        self.assertEqual(graph.place(first, 48), (2, 10))
        last = graph.resolve("file:///c")
        self.assertEqual((last.state, last.fault, last.place), ("error", "Parse", 4))
        self.assertIn("file:///c", graph)
        self.assertNotIn("file:///d", graph)

    def test_many_loads_at_a_time(self):
        count, most = 0, 0

        async def load(specifier):
            nonlocal count, most
            count += 1
            most = max(most, count)
            await asyncio.sleep(0.01)
            count -= 1
            return "".join(f'import "./{i}.ts";' for i in range(50)) if specifier.endswith("/a.ts") else ""

        graph = asyncio.run(Graph.build_async(["file:///a.ts"], load))
        self.assertEqual((len(graph.entries), most), (51, 50))

    def test_a_loader_that_raises(self):
        def load(specifier):
            raise KeyError(specifier)

        async def load_later(specifier):
            raise KeyError(specifier)

        self.assertRaises(KeyError, Graph.build, ["file:///a.ts"], load)
        with self.assertRaises(KeyError):
            asyncio.run(Graph.build_async(["file:///a.ts"], load_later))

    def refuses(self, status, builder, number, answer):
        with self.assertRaises(AnswerError) as caught:
            builder.answer(number, answer)
        self.assertEqual(caught.exception.status, status)

    def test_answers_that_arent_taken(self):
        builder = Builder(["file:///a.ts"])
        self.refuses(20, builder, 0, "")
        self.assertFalse(builder.poll())
        self.refuses(23, builder, 0, Redirect("b.ts"))
        self.refuses(20, builder, 1, "")
        self.assertEqual(list(builder.wanted()), [(0, "file:///a.ts")])
        builder.answer(0, 'import "./b.ts";')
        self.refuses(21, builder, 0, "")
        self.assertEqual(list(builder.wanted()), [])
        self.assertRaises(IndexError, builder.entry, 0)
        self.assertFalse(builder.poll())
        self.assertEqual(list(builder.wanted()), [(1, "file:///b.ts")])
        builder.answer(1, None)
        self.assertTrue(builder.poll())
        self.assertTrue(builder.poll())
        self.refuses(21, builder, 1, "")
        self.assertEqual((builder.entry(1).fault, builder.entry(0).edges[0].target), ("Missing", 1))
        self.assertRaises(IndexError, builder.entry, 2)
        self.assertRaises(ValueError, builder.place, 0, 100)

    def test_what_ends_it(self):
        with self.assertRaises(BundleError) as caught:
            Builder(["a"])
        self.assertEqual(str(caught.exception), 'error Bundle "/roots/0"')
        builder = Builder(["file:///a.ts"], limit=1)
        builder.poll()
        builder.answer(0, 'import "./b.ts";')
        with self.assertRaises(TooManyModules) as caught:
            builder.poll()
        self.assertEqual(caught.exception.seen, 2)
        self.assertRaises(RuntimeError, builder.poll)

    def test_an_import_map(self):
        files = {"file:///a.ts": 'import "x"; import "y";', "file:///lib/x.ts": ""}
        graph = Graph.build(["file:///a.ts"], files.get, importMap={"base": "file:///", "map": {"imports": {"x": "./lib/x.ts"}}})
        self.assertEqual([(edge.target_specifier, edge.fault) for edge in graph.entries[0].edges],
                         [("file:///lib/x.ts", None), (None, "ImportPrefixMissing")])

    def test_more_than_a_bundle_holds(self):
        graph = Graph.build(["file:///a.ts"], lambda specifier: f"/*{'x' * (20 << 20)}*/")
        self.assertEqual(graph.entries[0].size, (20 << 20) + 4)
        text = "".join(f'import "./{"y" * 100}{i}.ts";' for i in range(500))
        graph = Graph.build(["file:///a.ts"], lambda specifier: text if specifier.endswith("/a.ts") else "")
        self.assertEqual((len(graph.entries), len(graph.entries[0].edges)), (501, 500))

    def test_of_several_threads(self):
        with concurrent.futures.ThreadPoolExecutor(8) as pool:
            counts = pool.map(lambda _: len(Graph.build(["file:///a.ts"], FILES.get).entries), range(32))
            self.assertEqual(list(counts), [4] * 32)

    def test_a_resolver(self):
        files = {
            "file:///a.ts": "import 'b'; import './c'; import type {} from 'd'; import('e'); import './f/'; import './a.ts' with { type: 'x' }; import './j' with { type: 'json' };"
                            "import 'data:text/javascript,import%20%22b%22'",
            "app:b": "import './c'", "app:c": Redirect("app:b"), "app:d": "", "app:e": "", "app:f/x.ts": "", "app:j.json": "{}",
        }
        leads = {"b": "app:b", "./c": "app:c", "d": "app:d", "e": "app:e", "./f/": "app:f/x.ts", "./j": "app:j.json"}
        asked, loaded = [], []

        def resolve(specifier, referrer):
            asked.append((specifier, referrer))
            return leads.get(specifier, specifier if specifier.startswith("data:") else None)

        def load(specifier):
            loaded.append(specifier)
            return files.get(specifier)

        async def load_later(specifier):
            return load(specifier)

        graph = Graph.build(["file:///a.ts"], load, resolver=resolve)
        edges = [(edge.target_specifier, edge.fault) for edge in graph["file:///a.ts"].edges]
        self.assertEqual(edges, [("app:b", None), ("app:c", None), ("app:d", None), ("app:e", None), ("file:///f/", None), (None, "Refused"),
                                 ("app:j.json", None), ("data:text/javascript,import%20%22b%22", None)])
        self.assertEqual(graph.resolve("file:///f/").specifier, "app:f/x.ts")
        self.assertEqual(graph["data:text/javascript,import%20%22b%22"].edges[0].target_specifier, "app:b")
        self.assertEqual((sorted(loaded), len(asked)), (sorted(files), 10))
        self.assertEqual(asyncio.run(Graph.build_async(["file:///a.ts"], load_later, resolver=resolve)).entries, graph.entries)
        loaded.clear()
        graph = Graph.build(["file:///a.ts"], load, resolver=resolve, kind="code", skipDynamicDeps=True)
        self.assertEqual(sorted(loaded), ["app:b", "app:c", "app:f/x.ts", "app:j.json", "file:///a.ts"])
        self.assertRaises(ValueError, Graph.build, ["file:///a.ts"], load, resolver=resolve, importMap={})
        with self.assertRaises(TooManyModules):
            Graph.build(["file:///a.ts"], load, resolver=resolve, limit=3)

    def test_the_folder(self):
        with tempfile.TemporaryDirectory() as room:
            for name, text in (("a.ts", "import './b'; import 'p';\nimport('./c.ts')"), ("b/index.ts", "import 'fs:x'"), ("node_modules/p.js", "")):
                os.makedirs(os.path.dirname(os.path.join(room, name)), exist_ok=True)
                with open(os.path.join(room, name), "w", encoding="utf-8") as file:
                    file.write(text)
            at = "file://" + room
            self.assertEqual(list(folder.lines(Graph.build([at + "/a.ts"], folder.load, resolver=folder.resolve))), [
                f"{at}/a.ts module", f"  1:8 ./b -> {at}/b/index.ts", f"  1:22 p -> {at}/node_modules/p.js", "  2:8 ./c.ts Refused",
                f"{at}/b/index.ts module", "  1:8 fs:x -> fs:x", f"{at}/node_modules/p.js module", "fs:x external"])

    def test_the_wheel(self):
        with tempfile.TemporaryDirectory() as room:
            with zipfile.ZipFile(os.path.join(room, backend.write_wheel(room, "0.1.0", b"x"))) as wheel:
                self.assertEqual(sorted(wheel.namelist()), ["joravelsu-0.1.0.dist-info/METADATA", "joravelsu-0.1.0.dist-info/RECORD", "joravelsu-0.1.0.dist-info/WHEEL",
                                                            "joravelsu/__init__.py", "joravelsu/libjoravelsu.so", "joravelsu/py.typed"])

    def test_the_watcher(self):
        with tempfile.TemporaryDirectory() as room:
            def write(name, text):
                with open(os.path.join(room, name), "w", encoding="utf-8") as file:
                    file.write(text)

            at = "file://" + room
            write("a.ts", 'import "./b.ts";')
            files = watch.Files()
            told, said = watch.lines({}, Graph.build([at + "/a.ts"], files.load))
            self.assertEqual(said, [f"+ {at}/a.ts", f"+ {at}/b.ts", f"! {at}/b.ts Missing"])
            self.assertFalse(files.changed())
            write("b.ts", 'import "./c.ts";')
            self.assertTrue(files.changed())
            told, said = watch.lines(told, Graph.build([at + "/a.ts"], files.load))
            self.assertEqual((said, files.reads), ([f"+ {at}/c.ts", f"! {at}/c.ts Missing"], 2))
            os.unlink(os.path.join(room, "b.ts"))
            self.assertTrue(files.changed())
            told, said = watch.lines(told, Graph.build([at + "/a.ts"], files.load))
            self.assertEqual((said, files.reads), ([f"- {at}/c.ts", f"! {at}/b.ts Missing"], 2))


class Threads(unittest.TestCase):
    def test_several_at_a_time(self):
        texts = [f'import "./{i}.ts";' * 50 for i in range(40)]
        with concurrent.futures.ThreadPoolExecutor(8) as pool:
            found = list(pool.map(lambda text: joravelsu.imports_of(text, joravelsu.TYPESCRIPT), texts))
        for i, sites in enumerate(found):
            self.assertEqual([it.value for it in sites], [f"./{i}.ts"] * 50)


if __name__ == "__main__":
    unittest.main()
