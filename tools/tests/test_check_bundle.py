"""tools/check-bundle on each shape that the program refuses."""
import os
import subprocess
import unittest

TOOL = os.path.join(os.path.dirname(os.path.dirname(os.path.abspath(__file__))), "check-bundle")
A = '{"specifier":"file:///a.ts","text":""}'


def told(data):
    done = subprocess.run([TOOL], input=data if isinstance(data, bytes) else data.encode(), capture_output=True)
    return done.returncode, done.stdout.decode().splitlines()


def bundle(*modules, roots="[]"):
    return '{"roots":%s,"modules":[%s]}' % (roots, ",".join(modules))


def module(rest, specifier="file:///b.ts"):
    return '{"specifier":"%s"%s}' % (specifier, rest)


class CheckBundle(unittest.TestCase):
    def test_bundles(self):
        levels = '{"roots":[],"modules":[],"roots":' + "[" * 126 + "]" * 126 + "}"
        for data in (bundle(), bundle(A), bundle(A, module(',"base64":"QUI="')), bundle(A, module(',"text":"","headers":{"a":"b"}')),
                     bundle(A, roots='["file:///a.ts","npm:chalk@5","data:,x","https://[::1]:8080/a"]'),
                     bundle(module(',"text":""', "file://host/a.ts"), A)):
            self.assertEqual(told(data), (0, ["nothing is wrong with this bundle"]), data)
        self.assertEqual(told(levels)[1][0], "roots[0]: an array where a URL is wanted")

    def test_no_json(self):
        rows = [
            (b"\xef\xbb\xbf{}", "not JSON: it starts with a byte order mark"), (b'"\xff"', "not JSON: byte 1 is no UTF-8"),
            ("[" * 128 + "]" * 128, "not JSON here: more than 127 arrays and objects stand within each other"),
            ('{"roots":[1e999]}', "not JSON: the number 1e999 is too large"), ("[NaN]", "not JSON: NaN is no JSON"),
            (r'["\ud800"]', r"not JSON here: half of a surrogate pair, as \ud800, in '\ud800'"),
            ("{,}", "not JSON: line 1, column 2: Expecting property name enclosed in double quotes"),
            (b" " * 16_777_217, "too long: the program reads at most 16,777,216 bytes"),
        ]
        for data, line in rows:
            self.assertEqual(told(data), (1, [line]))

    def test_shapes(self):
        wanted = "where {} is wanted"
        rows = [
            ("[]", "the whole: an array " + wanted.format("an object")), ('{"roots":[]}', "the whole: no key 'modules'"),
            ('{"roots":[],"modules":[],"x":1}', "the whole: the key 'x' means nothing here"),
            ('{"roots":{},"modules":[]}', "roots: an object " + wanted.format("an array")),
            (bundle(roots="[1]"), "roots[0]: a number " + wanted.format("a URL")), (bundle("null"), "modules[0]: null " + wanted.format("an object")),
            (bundle('{"text":""}'), "modules[0]: no key 'specifier'"), (bundle(module(',"text":"","x":1')), "modules[0]: the key 'x' means nothing here"),
            (bundle(module("")), "modules[0]: no content: one of the keys 'text', 'base64', 'redirect', 'external' and 'fail' is wanted"),
            (bundle(module(',"text":"","base64":""')), "modules[0]: both 'text' and 'base64'"),
            (bundle(module(',"text":true')), "modules[0].text: a truth value " + wanted.format("a text")),
            (bundle(module(',"base64":"QUI"')), "modules[0].base64: base64 without its padding: the length is 3, and no multiple of four with = at its end"),
            (bundle(module(',"base64":"QR=="')), "modules[0].base64: base64 with bits left over in its last digit"),
            (bundle(module(r',"base64":"QUI=\n"')), r"modules[0].base64: '\n' at 4 is no digit of base64 (no blanks, no line ends, no - and _)"),
            (bundle(module(',"text":"","headers":[]')), "modules[0].headers: an array " + wanted.format("an object of texts")),
            (bundle(module(',"text":"","headers":{"a":1}')), "modules[0].headers.a: a number " + wanted.format("a text")),
            (bundle(module(',"fail":true,"external":true')), "modules[0]: both 'external' and 'fail'"),
            (bundle(module(',"external":1')), "modules[0].external: only true may stand here"),
            (bundle(module(',"redirect":7')), "modules[0].redirect: a number " + wanted.format("a URL")),
        ]
        for data, line in rows:
            self.assertEqual(told(data), (1, [line]), data)

    def test_options(self):
        fine = ['"kind":"code"', '"limit":1000000', '"skipDynamicDeps":true', '"arrival":[null,"file:///a.ts"]',
                '"imports":[{"referrer":"file:///a.ts","imports":["./b.ts"]}]',
                '"importMap":{"base":"file:///a/","map":{"imports":{"a":null,"":7},"scopes":{"./b/":{}},"integrity":1}}']
        for key in fine:
            self.assertEqual(told('{"roots":[],"modules":[],%s}' % key)[0], 0, key)
        limit = "limit: a whole number from 1 to 1,000,000 is wanted, without point and exponent"
        rows = [
            ('"kind":"both"', "kind: one of the texts 'all', 'code', 'types' is wanted"), ('"kind":[]', "kind: one of the texts 'all', 'code', 'types' is wanted"),
            ('"limit":0', limit), ('"limit":1000001', limit), ('"limit":1.0', limit), ('"limit":1e3', limit), ('"limit":"1"', limit),
            ('"skipDynamicDeps":0', "skipDynamicDeps: a number where true or false is wanted"),
            ('"imports":[{"referrer":"file:///a.ts"}]', "imports[0]: no key 'imports'"),
            ('"imports":[{"referrer":"file:///a.ts","imports":[1]}]', "imports[0].imports[0]: a number where a text is wanted"),
            ('"arrival":[{"force":"file:///a.ts"}]', "arrival[0]: an object where a URL is wanted"),
            ('"importMap":[]', "importMap: an array where an object is wanted"),
            ('"importMap":{"base":"file:///"}', "importMap: no key 'map'"),
            ('"importMap":{"base":"file:///","map":[]}', "importMap.map: an array where an object is wanted"),
            ('"importMap":{"base":"file:///","map":{"imports":1}}', "importMap.map.imports: a number where an object is wanted"),
            ('"importMap":{"base":"file:///","map":{"scopes":{"b":{},"a":""}}}', "importMap.map.scopes.a: a text where an object is wanted"),
        ]
        for key, line in rows:
            self.assertEqual(told('{"roots":[],"modules":[],%s}' % key), (1, [line]), key)

    def test_specifiers(self):
        self.assertEqual(told(bundle(A, A)), (1, ["modules[1]: specifier file:///a.ts repeats modules[0]"]))
        same = [("file:///a.ts", "FILE:/b/../a.ts"), ("https://x.test/", "https://X.test:443"), ("file:///a.ts", "file:///./%2e/a.ts"),
                ("file:///a%20b", "file:///a b"), ("http://x.test/a", "http:\\\\\\\\x.test\\\\a"), ("file:///a", "file://localhost/a"),
                ("http://example.test/", "http://ex%41mple.test/"), ("http://127.0.0.1/", "http://0x7f.1/"), ("http://[::1]/", "http://[0:0::1]/")]
        for one, other in same:
            lines = told(bundle(module(',"text":""', one), module(',"text":""', other)))[1]
            self.assertTrue(lines[0].endswith(f"(read as {one}) repeats modules[0]"), lines)
        for one, other in (("file:///a", "file:///A"), ("file:///a", "file:///a?"), ("npm:a", "npm:A")):
            self.assertEqual(told(bundle(module(',"text":""', one), module(',"text":""', other)))[0], 0, other)
        for text in ("a.ts", "/a.ts", "", "https://", "https://a b/", "http://a:99999/", "file://a:1/b",
                     "http://256.256.256.256/", "http://1.2.3.4.5/", "https://[::g]/", "https://a%00b/", "foo://a b/"):
            self.assertIn("is no URL", told(bundle(roots=f'["{text}"]'))[1][0])


if __name__ == "__main__":
    unittest.main()
