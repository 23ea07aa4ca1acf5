"""Module graphs and import sites of JavaScript and TypeScript, by the C library.

    >>> imports_of('import "./b.ts";', TYPESCRIPT)
    [Site(kind='import', type_only=False, start=7, end=15, value='./b.ts', attribute=None)]
    >>> unread_in("import(a); require('b');")
    [Call(kind='import', start=0, end=9), Call(kind='require', start=11, end=23)]
    >>> mentions_in("let a = Math; eval(a)", MJS, ECMASCRIPT)
    [Mention(reason='name', start=14, end=18)]
    >>> rewrite('import "./b.ts"; import("./c.ts");', TYPESCRIPT, {0: "./lib/b.ts"})
    'import "./lib/b.ts"; import("./c.ts");'
    >>> exports_of('export const a = 1; export * from "./b.js";', MJS)
    Exports(names=['a'], again=['./b.js'])
    >>> exports_of('exports.b = 1; module.exports.a = 2;', CJS, common_js=True)
    Exports(names=['a', 'b'], again=[])
    >>> declarations_of("export const a = [1], b = f();", TYPESCRIPT)
    Declarations(text='export declare const a: readonly [number], b: any;\\n', diagnostics=[Diagnostic(kind='any', start=22, end=23)])

The library is the one that the variable JORAVELSU_LIBRARY names, else libjoravelsu.so beside this module, else the system's.
"""
from __future__ import annotations

import ctypes
import json
import os
import struct
import threading
import weakref
from typing import Any, Awaitable, Callable, Iterator, NamedTuple, Sequence, Union

DTS, DMTS, DCTS, TYPESCRIPT, MTS, CTS, TSX, JAVASCRIPT, MJS, CJS, JSX, JSON, WASM = range(13)

# Names for mentions_in: the globals of ECMA-262 and its annex B without Function, eval and globalThis; and names of hosts that load
# nothing. setTimeout and setInterval aren't among them, since they take a text in browsers; nor are fetch and WebAssembly.
ECMASCRIPT = tuple("""
AggregateError Array ArrayBuffer AsyncDisposableStack Atomics BigInt BigInt64Array BigUint64Array Boolean DataView
Date DisposableStack Error EvalError FinalizationRegistry Float16Array Float32Array Float64Array Infinity Int16Array
Int32Array Int8Array Iterator JSON Map Math NaN Number Object Promise Proxy RangeError ReferenceError Reflect RegExp
Set SharedArrayBuffer String SuppressedError Symbol SyntaxError TypeError URIError Uint16Array Uint32Array Uint8Array
Uint8ClampedArray WeakMap WeakRef WeakSet decodeURI decodeURIComponent encodeURI encodeURIComponent escape isFinite
isNaN parseFloat parseInt undefined unescape
""".split())
HOST = tuple("""
AbortController AbortSignal Buffer Event EventTarget Intl TextDecoder TextEncoder URL URLSearchParams atob btoa
clearInterval clearTimeout console crypto performance queueMicrotask structuredClone
""".split())

_DONE, _BAD_BUNDLE, _NO_ROOM, _NO_MEMORY = 0, 2, 4, 5
_KINDS = ("import", "export", "import-equals", "dynamic", "reference-path", "reference-types", "wasm", "referrer",
          "import-source", "import-defer", "dynamic-source", "dynamic-defer", "require",
          "require-resolve", "type-import", "worker", "address")
_CALLS = ("import", "require")
_DIAGNOSTICS = ("type", "any", "property", "spread", "using")
_MENTIONS = ("name", "import", "meta", "with", "member", "key", "this")
_NO_UTF8, _NAMED = 7, 2
_LEXICAL = (None, "UnterminatedString", "UnterminatedComment", "UnterminatedTemplate", "UnterminatedRegExp", "InvalidEscape", "InvalidChar", "Unbalanced")
_SYNTAX = "Syntax"
_REASONS = {
    6: "the text is over 16 MiB",
    7: "the text is no UTF-8",
    8: "no media type has this number",
    9: "modules of this media type are no sources",
    10: "a part of the text is no token",
    11: "the tokens are no program of the grammar",
}
_REFUSALS = {
    12: "its specifier is no text",
    13: "no site has this number",
    14: "the site stands in a comment",
    15: "the number isn't above that of the change before it",
}


class Unknown:
    """The type of UNKNOWN."""

    def __repr__(self) -> str:
        return "UNKNOWN"


UNKNOWN = Unknown()


class Site(NamedTuple):
    """A place where a source names another module."""

    kind: str
    """import, import-source, import-defer, export, import-equals, dynamic, dynamic-source, dynamic-defer, reference-path or
    reference-types."""
    type_only: bool
    """Whether nothing is loaded when the program runs."""
    start: int
    """The string literal, or the value in the comment, with its quotes: its first byte in the text, from 0."""
    end: int
    """The byte behind it."""
    value: str
    """The literal's value."""
    attribute: str | Unknown | None
    """The import attribute `type`; None where there is none, and UNKNOWN where the text doesn't say."""


class Mention(NamedTuple):
    """Something that a source mentions and a graph doesn't show. reason: name, import, meta, with; if strict also member, key, this."""

    reason: str
    start: int
    end: int


class Call(NamedTuple):
    """A call that may load a module and is no site."""

    kind: str
    """import or require."""
    start: int
    """Its word: the first byte in the text, from 0."""
    end: int
    """The byte behind its closing bracket."""


class Exports(NamedTuple):
    """What a source exports."""

    names: list[str]
    again: list[str]
    """The modules whose names it exports again."""


class Diagnostic(NamedTuple):
    """A type that the declarations of a source can't have."""

    kind: str
    """type: an element of an array is any, a pattern has no type; any: a variable, a parameter or the value of a property is any;
    property, spread, using: one that is dropped; an array with a spread of kind spread has no type."""
    start: int
    """Its first byte in the text, from 0."""
    end: int
    """The byte behind it."""


class Declarations(NamedTuple):
    """What a .d.ts of a source says, and the types that couldn't be determined, in the order in which that was found."""

    text: str
    diagnostics: list[Diagnostic]


class SourceError(ValueError):
    """Why a source isn't read. `status` is the library's; `place` is the byte of the text at which a fault is, or None; `kind` names what
    is wrong at it, such as `UnterminatedString`, or is `Syntax`, or None."""

    def __init__(self, status: int, place: int | None, kind: str | None = None):
        at = "" if place is None else f" at byte {place}"
        super().__init__(_REASONS.get(status, f"status {status}") + at)
        self.status = status
        self.place = place
        self.kind = kind


class ChangeError(ValueError):
    """Why a change can't be made. `status` is the library's, `site` the number that was asked for."""

    def __init__(self, status: int, site: int):
        super().__init__(f"site {site}: {_REFUSALS[status]}")
        self.status = status
        self.site = site


class BundleError(ValueError):
    """Why a bundle has no graph: the line that the program writes for it. `status` is the library's."""

    def __init__(self, line: str, status: int = 2):
        super().__init__(line)
        self.status = status


class _Site(ctypes.Structure):
    _fields_ = [
        ("kind", ctypes.c_uint32),
        ("type_only", ctypes.c_bool),
        ("start", ctypes.c_size_t),
        ("end", ctypes.c_size_t),
        ("value_start", ctypes.c_size_t),
        ("value_end", ctypes.c_size_t),
        ("attribute", ctypes.c_uint32),
        ("attribute_start", ctypes.c_size_t),
        ("attribute_end", ctypes.c_size_t),
    ]


# The fields of a record as a tuple, which is quicker to read than they are one by one.
_SITE = struct.Struct("@I?NNNNINN0N")


class _Answer(ctypes.Structure):
    _fields_ = [
        ("sites", ctypes.c_size_t),
        ("value_bytes", ctypes.c_size_t),
        ("fault", ctypes.c_uint32),
        ("place", ctypes.c_size_t),
    ]


class _Call(ctypes.Structure):
    _fields_ = [("kind", ctypes.c_uint32), ("start", ctypes.c_size_t), ("end", ctypes.c_size_t)]


class _UnreadAnswer(ctypes.Structure):
    _fields_ = [("calls", ctypes.c_size_t), ("fault", ctypes.c_uint32), ("place", ctypes.c_size_t)]


class _Mention(ctypes.Structure):
    _fields_ = [("reason", ctypes.c_uint32), ("start", ctypes.c_size_t), ("end", ctypes.c_size_t)]


class _MentionsAnswer(ctypes.Structure):
    _fields_ = [("mentions", ctypes.c_size_t), ("fault", ctypes.c_uint32), ("place", ctypes.c_size_t)]


class _Diagnostic(ctypes.Structure):
    _fields_ = [("kind", ctypes.c_uint32), ("start", ctypes.c_size_t), ("end", ctypes.c_size_t)]


class _DeclarationsAnswer(ctypes.Structure):
    _fields_ = [
        ("diagnostics", ctypes.c_size_t),
        ("text_bytes", ctypes.c_size_t),
        ("fault", ctypes.c_uint32),
        ("place", ctypes.c_size_t),
    ]


class _Change(ctypes.Structure):
    _fields_ = [("site", ctypes.c_size_t), ("value_start", ctypes.c_size_t), ("value_end", ctypes.c_size_t)]


class _RewriteAnswer(ctypes.Structure):
    _fields_ = [
        ("needed", ctypes.c_size_t),
        ("change", ctypes.c_size_t),
        ("fault", ctypes.c_uint32),
        ("place", ctypes.c_size_t),
    ]


class _Name(ctypes.Structure):
    _fields_ = [("start", ctypes.c_size_t), ("end", ctypes.c_size_t)]


class _ExportsAnswer(ctypes.Structure):
    _fields_ = [
        ("exports", ctypes.c_size_t),
        ("reexports", ctypes.c_size_t),
        ("value_bytes", ctypes.c_size_t),
        ("fault", ctypes.c_uint32),
        ("place", ctypes.c_size_t),
    ]


class _Handle(ctypes.Structure):
    _fields_ = [("live", ctypes.c_bool), ("at", ctypes.c_void_p)]


class _Wanted(ctypes.Structure):
    _fields_ = [("number", ctypes.c_size_t), ("needed", ctypes.c_size_t)]


class _Entry(ctypes.Structure):
    _fields_ = [
        ("state", ctypes.c_uint32),
        ("media_type", ctypes.c_uint32),
        ("fault", ctypes.c_uint32),
        ("place", ctypes.c_size_t),
        ("size", ctypes.c_size_t),
        ("specifier_end", ctypes.c_size_t),
        ("target_end", ctypes.c_size_t),
        ("target", ctypes.c_size_t),
        ("edges", ctypes.c_size_t),
        ("text_bytes", ctypes.c_size_t),
    ]


_ENTRY = struct.Struct("@IIINNNNNNN")


class _Edge(ctypes.Structure):
    _fields_ = [
        ("kind", ctypes.c_uint32),
        ("type_only", ctypes.c_bool),
        ("start", ctypes.c_size_t),
        ("end", ctypes.c_size_t),
        ("value_start", ctypes.c_size_t),
        ("value_end", ctypes.c_size_t),
        ("attribute", ctypes.c_uint32),
        ("attribute_end", ctypes.c_size_t),
        ("target_end", ctypes.c_size_t),
        ("target", ctypes.c_size_t),
        ("fault", ctypes.c_uint32),
    ]


_EDGE = struct.Struct("@I?NNNNINNNI0N")


class _Place(ctypes.Structure):
    _fields_ = [("line", ctypes.c_size_t), ("column", ctypes.c_size_t)]


def _load() -> ctypes.CDLL:
    beside = os.path.join(os.path.dirname(os.path.abspath(__file__)), "libjoravelsu.so")
    path = os.environ.get("JORAVELSU_LIBRARY") or (beside if os.path.exists(beside) else "libjoravelsu.so")
    try:
        library = ctypes.CDLL(path)
    except OSError as error:
        raise ImportError(f"{error}; tools/build-library --unproved PREFIX makes PREFIX/lib/libjoravelsu.so, which JORAVELSU_LIBRARY names") from None
    size, text = ctypes.c_size_t, ctypes.c_char_p
    library.joravelsu_build.argtypes = [text, size, text, size, ctypes.POINTER(size)]
    library.joravelsu_build.restype = ctypes.c_uint32
    buffers = [ctypes.POINTER(_Site), size, text, size]
    library.joravelsu_sites.argtypes = [text, size, ctypes.c_uint32, *buffers, ctypes.POINTER(_Answer)]
    library.joravelsu_sites.restype = ctypes.c_uint32
    library.joravelsu_unread.argtypes = [text, size, ctypes.POINTER(_Call), size, ctypes.POINTER(_UnreadAnswer)]
    library.joravelsu_unread.restype = ctypes.c_uint32
    mentions = [ctypes.POINTER(_Mention), size, ctypes.POINTER(_MentionsAnswer)]
    library.joravelsu_mentions.argtypes = [text, size, ctypes.c_uint32, text, size, ctypes.c_uint32, *mentions]
    library.joravelsu_mentions.restype = ctypes.c_uint32
    changes = [ctypes.POINTER(_Change), size, text, size]
    library.joravelsu_rewrite.argtypes = [text, size, ctypes.c_uint32, *changes, text, size, ctypes.POINTER(_RewriteAnswer)]
    library.joravelsu_rewrite.restype = ctypes.c_uint32
    names = [ctypes.POINTER(_Name), size, text, size]
    library.joravelsu_exports.argtypes = [text, size, ctypes.c_uint32, ctypes.c_uint32, *names, ctypes.POINTER(_ExportsAnswer)]
    library.joravelsu_exports.restype = ctypes.c_uint32
    diagnostics = [ctypes.POINTER(_Diagnostic), size, text, size]
    library.joravelsu_declarations.argtypes = [text, size, ctypes.c_uint32, ctypes.c_uint32, *diagnostics, ctypes.POINTER(_DeclarationsAnswer)]
    library.joravelsu_declarations.restype = ctypes.c_uint32
    graph = ctypes.POINTER(_Handle)
    library.joravelsu_graph_new.argtypes = [text, size, graph, text, size, ctypes.POINTER(size)]
    library.joravelsu_graph_poll.argtypes = [graph, ctypes.POINTER(size)]
    library.joravelsu_graph_wanted.argtypes = [graph, size, text, size, ctypes.POINTER(_Wanted)]
    library.joravelsu_graph_answer.argtypes = [graph, size, ctypes.c_uint32, text, size, text, size]
    library.joravelsu_graph_entry.argtypes = [graph, size, ctypes.POINTER(_Edge), size, text, size, ctypes.POINTER(_Entry)]
    library.joravelsu_graph_place.argtypes = [graph, size, size, ctypes.POINTER(_Place)]
    for name in ("new", "poll", "wanted", "answer", "entry", "place"):
        getattr(library, f"joravelsu_graph_{name}").restype = ctypes.c_uint32
    library.joravelsu_graph_free.argtypes = [graph]
    library.joravelsu_graph_free.restype = None
    library.joravelsu_version.argtypes = []
    library.joravelsu_version.restype = ctypes.c_uint32
    return library


_library = _load()


def version() -> tuple[int, int, int]:
    """The version of the library."""
    number = _library.joravelsu_version()
    return number // 10_000, number // 100 % 100, number % 100


def _refused(status: int, place: int, fault: int) -> SourceError:
    return SourceError(status, place if status == _NO_UTF8 or status >= 10 else None, _SYNTAX if status > 10 else _LEXICAL[fault])


class _Room(threading.local):
    """The buffers for the sites of a text, of each thread its own; they are kept between calls."""

    def __init__(self) -> None:
        self.resize(64, 4096)

    def resize(self, sites: int, values: int) -> None:
        self.sites, self.values = (_Site * sites)(), ctypes.create_string_buffer(values)


_room = _Room()


def _sites_in(room: _Room, answer: _Answer) -> list[Site]:
    text = ctypes.string_at(room.values, answer.value_bytes)
    records = ctypes.string_at(room.sites, answer.sites * _SITE.size)
    return [
        Site(_KINDS[kind], type_only, start, end, text[value_start:value_end].decode(),
             text[attribute_start:attribute_end].decode() if has == _NAMED else UNKNOWN if has else None)
        for kind, type_only, start, end, value_start, value_end, has, attribute_start, attribute_end in _SITE.iter_unpack(records)
    ]


def imports_of(text: str | bytes, media_type: int) -> list[Site]:
    """The sites of a source, in the order of the text. Raises SourceError where it has none.

    Places are bytes of the text in UTF-8, behind a byte order mark where one stands in front.
    """
    source = text.encode() if isinstance(text, str) else bytes(text)
    answer, room = _Answer(), _room
    while True:
        status = _library.joravelsu_sites(
            source, len(source), media_type, room.sites, len(room.sites), room.values, len(room.values), ctypes.byref(answer)
        )
        if status == _NO_MEMORY:
            raise MemoryError
        if status == _DONE:
            return _sites_in(room, answer)
        if status != _NO_ROOM:
            raise _refused(status, answer.place, answer.fault)
        room.resize(max(answer.sites, len(room.sites)), max(answer.value_bytes, len(room.values)))


def unread_in(text: str | bytes) -> list[Call]:
    """The calls that may load a module and are no sites, in the order of the text. Raises SourceError where it isn't read.

    Places are those of imports_of.
    """
    source = text.encode() if isinstance(text, str) else bytes(text)
    answer = _UnreadAnswer()
    length = 64
    while True:
        calls = (_Call * length)()
        status = _library.joravelsu_unread(source, len(source), calls, length, ctypes.byref(answer))
        if status == _NO_MEMORY:
            raise MemoryError
        if status == _DONE:
            return [Call(_CALLS[it.kind], it.start, it.end) for it in calls[: answer.calls]]
        if status != _NO_ROOM:
            raise _refused(status, answer.place, answer.fault)
        length = answer.calls


def mentions_in(text: str | bytes, media_type: int, allowed: Sequence[str], strict: bool = False) -> list[Mention]:
    """What the source mentions that a graph doesn't show, in the order of the text: names that it doesn't declare and that aren't
    allowed, import() of no literal, import.meta, with. Raises SourceError where it has no tree. Places are those of imports_of.
    """
    source = text.encode() if isinstance(text, str) else bytes(text)
    names = "\n".join(allowed).encode()
    answer = _MentionsAnswer()
    length = 64
    while True:
        found = (_Mention * length)()
        status = _library.joravelsu_mentions(source, len(source), media_type, names, len(names), int(strict), found, length, ctypes.byref(answer))
        if status == _NO_MEMORY:
            raise MemoryError
        if status == _DONE:
            return [Mention(_MENTIONS[it.reason], it.start, it.end) for it in found[: answer.mentions]]
        if status != _NO_ROOM:
            raise _refused(status, answer.place, answer.fault)
        length = answer.mentions


def rewrite(text: str | bytes, media_type: int, specifiers: dict[int, str]) -> str:
    """The source with other specifiers at some of its sites, by the numbers of these in imports_of, from 0.

    Each new literal is in double quotes; all else stays, but for a byte order mark in front. Raises SourceError where the
    source isn't read, and ChangeError where no literal has such a number: comments are none.
    """
    source = text.encode() if isinstance(text, str) else bytes(text)
    numbers = sorted(specifiers)
    if numbers and numbers[0] < 0:
        raise ChangeError(13, numbers[0])
    changes, values = (_Change * len(numbers))(), b""
    for change, number in zip(changes, numbers):
        change.site, change.value_start = number, len(values)
        values += specifiers[number].encode()
        change.value_end = len(values)
    answer = _RewriteAnswer()
    length = len(source) + 2 * len(values) + 64
    while True:
        buffer = ctypes.create_string_buffer(length)
        status = _library.joravelsu_rewrite(
            source, len(source), media_type, changes, len(numbers), values, len(values), buffer, length, ctypes.byref(answer)
        )
        if status == _NO_MEMORY:
            raise MemoryError
        if status == _DONE:
            return buffer.raw[: answer.needed].decode()
        if status in _REFUSALS:
            raise ChangeError(status, numbers[answer.change])
        if status != _NO_ROOM:
            raise _refused(status, answer.place, answer.fault)
        length = answer.needed


def exports_of(text: str | bytes, media_type: int, common_js: bool = False) -> Exports:
    """The names that a source exports, and the modules whose names it exports again. Raises SourceError where it isn't read.

    At run time, in the order of its items; or as a module of CommonJS, as far as its text tells, ascending and each once.
    """
    source = text.encode() if isinstance(text, str) else bytes(text)
    answer = _ExportsAnswer()
    names_length, values_length = 64, 4096
    while True:
        names, values = (_Name * names_length)(), ctypes.create_string_buffer(values_length)
        status = _library.joravelsu_exports(
            source, len(source), media_type, int(common_js), names, names_length, values, values_length, ctypes.byref(answer)
        )
        if status == _NO_MEMORY:
            raise MemoryError
        if status == _DONE:
            text = ctypes.string_at(values, answer.value_bytes)
            told = [text[it.start:it.end].decode() for it in names[: answer.exports + answer.reexports]]
            return Exports(told[: answer.exports], told[answer.exports :])
        if status != _NO_ROOM:
            raise _refused(status, answer.place, answer.fault)
        names_length, values_length = answer.exports + answer.reexports, answer.value_bytes


def declarations_of(text: str | bytes, media_type: int, comments: bool = True) -> Declarations:
    """What a .d.ts of the source says, with the comments before the items that stay, and which types couldn't be determined. No type
    is checked, and no other text is read. Raises SourceError where it has no tree. Places are those of imports_of.

    >>> declarations_of("export function f(a = 1): string { return g(a); }", TYPESCRIPT).text
    'export declare function f(a?: number): string;\\n'
    """
    source = text.encode() if isinstance(text, str) else bytes(text)
    answer = _DeclarationsAnswer()
    length, room = 64, 2 * len(source) + 64
    while True:
        found, buffer = (_Diagnostic * length)(), ctypes.create_string_buffer(room)
        status = _library.joravelsu_declarations(
            source, len(source), media_type, int(comments), found, length, buffer, room, ctypes.byref(answer)
        )
        if status == _NO_MEMORY:
            raise MemoryError
        if status == _DONE:
            told = ctypes.string_at(buffer, answer.text_bytes).decode()
            return Declarations(told, [Diagnostic(_DIAGNOSTICS[it.kind], it.start, it.end) for it in found[: answer.diagnostics]])
        if status != _NO_ROOM:
            raise _refused(status, answer.place, answer.fault)
        length, room = answer.diagnostics, answer.text_bytes


def graph(bundle: str | bytes | dict) -> str:
    """The report of a bundle's graph: of its JSON text, or of the object that this is. Raises BundleError where there is none.

    >>> print(graph({"roots": ["file:///a.ts"], "modules": []}), end="")
    root file:///a.ts
    file:///a.ts error Missing
    entries 1
    """
    text = json.dumps(bundle) if isinstance(bundle, dict) else bundle
    source = text.encode() if isinstance(text, str) else bytes(text)
    needed = ctypes.c_size_t()
    length = 2 * len(source) + 4096
    while True:
        buffer = ctypes.create_string_buffer(length)
        status = _library.joravelsu_build(source, len(source), buffer, length, ctypes.byref(needed))
        if status == _NO_MEMORY:
            raise MemoryError
        if status == _NO_ROOM:
            length = needed.value
            continue
        report = buffer.raw[: needed.value].decode()
        if status != _DONE:
            raise BundleError(report.strip(), status)
        return report


# ---- a graph whose loads the caller does

_NOT_YET, _TOO_MANY, _ENDED, _NONE_WANTED, _NO_ENTRY = 16, 1, 17, 19, 24
_NONE = ctypes.c_size_t(-1).value
_MEDIA_TYPES = ("Dts", "Dmts", "Dcts", "TypeScript", "Mts", "Cts", "Tsx", "JavaScript", "Mjs", "Cjs", "Jsx", "Json", "Wasm",
                "Jsonc", "Json5", "Css", "Html", "Markdown", "Sql", "SourceMap", "Unknown", None)
_STATES = ("module", "redirect", "package", "external", "error")
_FAULTS = (None, "Missing", "Loading", "TooManyRedirects", "UnsupportedMediaType", "Decode", "Parse", "WasmParse", "DataUrl",
           "PackageReference", "OutOfMemory")
_EDGE_FAULTS = (None, "ImportPrefixMissing", "InvalidUrl", "InvalidDowngrade", "InvalidLocalImport", "InvalidTypeAssertion",
                "InvalidSourcePhase", "Refused")
_ANSWERS = {
    20: "no request has this number",
    21: "the request was answered before",
    22: "no answer is of this kind",
    23: "the redirect's target is no URL",
    7: "a header isn't UTF-8",
}


class Content(NamedTuple):
    """An answer: the module itself."""

    body: bytes
    content_type: str = ""
    """The value of the header content-type, if there is one."""


class Redirect(NamedTuple):
    """An answer: the module is at another URL."""

    to: str


class _Other(NamedTuple):
    kind: int
    name: str

    def __repr__(self) -> str:
        return self.name


EXTERNAL = _Other(2, "EXTERNAL")
"""An answer: the module isn't part of the graph's sources."""
ABSENT = _Other(3, "ABSENT")
"""An answer: there is no such module. None means the same."""
FAILED = _Other(4, "FAILED")
"""An answer: it couldn't be loaded."""

Answer = Union[Content, Redirect, _Other, bytes, str, None]
"""What a loader returns: bytes and text are Content."""


class Edge(NamedTuple):
    """A reference of a module to another one."""

    kind: str
    type_only: bool
    start: int
    """The string literal in the module, with its quotes: its first byte."""
    end: int
    value: str
    attribute: str | Unknown | None
    target: int | None
    """The number of the entry that it leads to. None if it has none: it has a fault, or isn't followed."""
    target_specifier: str | None
    fault: str | None


class Entry(NamedTuple):
    """What a graph has for a specifier."""

    number: int
    specifier: str
    state: str
    """module, redirect, package, external or error."""
    media_type: str | None
    size: int
    """How many bytes a module has, without a byte order mark."""
    target: int | None
    """Of a redirect the number of the entry that it leads to."""
    target_specifier: str | None
    fault: str | None
    place: int | None
    """Of the fault Parse the byte where it is."""
    edges: list[Edge]


class TooManyModules(ValueError):
    """More is reached than the limit allows; `seen` were counted."""

    def __init__(self, seen: int):
        super().__init__(f"over the limit: {seen} specifiers are reached")
        self.seen = seen


class AnswerError(ValueError):
    """Why an answer isn't taken. `status` is the library's. Nothing has changed."""

    def __init__(self, status: int):
        super().__init__(_ANSWERS.get(status, f"status {status}"))
        self.status = status


def _settings(roots: Sequence[str], options: dict[str, Any]) -> bytes:
    return json.dumps({"roots": list(roots), **options, "modules": []}).encode()


class Builder:
    """A graph under construction, for a loop of your own: poll, look at what is wanted, answer, and poll again.

    >>> builder = Builder(["file:///a.ts"])
    >>> builder.poll()
    False
    >>> list(builder.wanted())
    [(0, 'file:///a.ts')]
    >>> builder.answer(0, b'export let a;')
    >>> builder.poll()
    True
    >>> builder.entry(0).media_type
    'TypeScript'
    """

    def __init__(self, roots: Sequence[str], **options: Any):
        """`options` are those of a bundle (docs/REPORT.md): kind, limit, skipDynamicDeps, imports and importMap."""
        self._handle = _Handle()
        self._room = (_Edge * 64)(), ctypes.create_string_buffer(4096)
        weakref.finalize(self, _library.joravelsu_graph_free, self._handle)
        settings, line, needed = _settings(roots, options), ctypes.create_string_buffer(4096), ctypes.c_size_t()
        status = _library.joravelsu_graph_new(settings, len(settings), self._handle, line, 4096, ctypes.byref(needed))
        if status == _NO_MEMORY:
            raise MemoryError
        if status != _DONE:
            raise BundleError(line.raw[: min(needed.value, 4096)].decode().strip())

    def poll(self) -> bool:
        """Asks for all that is reached by the answers so far. True: each is answered, and the graph is there."""
        seen = ctypes.c_size_t()
        status = _library.joravelsu_graph_poll(self._handle, ctypes.byref(seen))
        if status == _NO_MEMORY:
            raise MemoryError
        if status == _TOO_MANY:
            raise TooManyModules(seen.value)
        if status == _ENDED:
            raise RuntimeError("the graph has ended without a result")
        return status == _DONE

    def wanted(self, start: int = 0) -> Iterator[tuple[int, str]]:
        """The requests from this number on that have no answer yet, each with its specifier."""
        text, wanted = ctypes.create_string_buffer(1024), _Wanted()
        while True:
            status = _library.joravelsu_graph_wanted(self._handle, start, text, len(text), ctypes.byref(wanted))
            if status == _NO_ROOM:
                text = ctypes.create_string_buffer(wanted.needed)
                continue
            if status == _NONE_WANTED:
                return
            yield wanted.number, ctypes.string_at(text, wanted.needed).decode()
            start = wanted.number + 1

    def answer(self, number: int, answer: Answer) -> None:
        """Answers the request with this number. Raises AnswerError if it wasn't made, or was answered before."""
        body, content_type, kind = b"", b"", 0
        if isinstance(answer, (bytes, bytearray, memoryview)):
            body = bytes(answer)
        elif isinstance(answer, str):
            body = answer.encode()
        elif isinstance(answer, Content):
            body, content_type = answer.body, answer.content_type.encode()
        elif isinstance(answer, Redirect):
            body, kind = answer.to.encode(), 1
        else:
            kind = ABSENT.kind if answer is None else answer.kind
        status = _library.joravelsu_graph_answer(self._handle, number, kind, body, len(body), content_type, len(content_type))
        if status == _NO_MEMORY:
            raise MemoryError
        if status != _DONE:
            raise AnswerError(status)

    def entry(self, number: int) -> Entry:
        """The entry with this number. Raises IndexError if there is none."""
        told = _Entry()
        while True:
            edges, texts = self._room
            status = _library.joravelsu_graph_entry(self._handle, number, edges, len(edges), texts, len(texts), ctypes.byref(told))
            if status == _NO_MEMORY:
                raise MemoryError
            if status == _NO_ROOM:
                self._room = (_Edge * max(told.edges, len(edges)))(), ctypes.create_string_buffer(max(told.text_bytes, len(texts)))
                continue
            if status != _DONE:
                raise IndexError(number)
            return _entry_of(number, told, edges, ctypes.string_at(texts, told.text_bytes))

    def place(self, number: int, byte: int) -> tuple[int, int]:
        """Line and column, from 1, of a byte in the text of the module with this number: columns count characters."""
        shown = _Place()
        status = _library.joravelsu_graph_place(self._handle, number, byte, ctypes.byref(shown))
        if status == _NO_MEMORY:
            raise MemoryError
        if status != _DONE:
            raise ValueError("there is no such place, or no text")
        return shown.line, shown.column


def _edges_in(records: bytes, text: bytes) -> list[Edge]:
    return [
        Edge(_KINDS[kind], type_only, start, end, text[value_start:value_end].decode(),
             text[value_end:attribute_end].decode() if has == _NAMED else UNKNOWN if has else None,
             None if target == _NONE else target, text[attribute_end:target_end].decode() or None, _EDGE_FAULTS[fault])
        for kind, type_only, start, end, value_start, value_end, has, attribute_end, target_end, target, fault in _EDGE.iter_unpack(records)
    ]


def _entry_of(number: int, told: _Entry, edges: Any, text: bytes) -> Entry:
    state, media_type, fault, place, size, specifier_end, target_end, target, count, _ = _ENTRY.unpack_from(told)
    return Entry(
        number, text[:specifier_end].decode(), _STATES[state], _MEDIA_TYPES[media_type], size, None if target == _NONE else target,
        text[specifier_end:target_end].decode() or None, _FAULTS[fault], place if _FAULTS[fault] == "Parse" else None,
        _edges_in(ctypes.string_at(edges, count * _EDGE.size), text),
    )


Resolver = Callable[[str, str], Union[str, None]]
"""Returns the URL of a specifier in the module of a URL; None refuses it."""


class _Discovery:
    """What is reached by a resolver of the caller's, with the answers for it, and the import map that says the same."""

    def __init__(self, roots: Sequence[str], resolver: Resolver, options: dict[str, Any]):
        if "importMap" in options or "imports" in options:
            raise ValueError("a resolver takes the place of importMap and imports")
        self.resolver, self.options = resolver, options
        self.answers: dict[str, Answer] = {}
        self.scopes: dict[str, dict[str, str | None]] = {}
        self.seen: set[str] = set()
        self.waiting = list(roots)

    def wanted(self) -> Iterator[tuple[str, Builder]]:
        """What is reached and has no answer yet, each with the builder of its module alone."""
        while self.waiting and len(self.seen) <= self.options.get("limit", 10_000):
            root = self.waiting.pop()
            if root in self.seen:
                continue
            self.seen.add(root)
            builder = Builder([root], limit=1_000_000)
            if builder.poll():
                self.resolve(builder)
                continue
            for _, specifier in builder.wanted():
                if specifier == root or specifier not in self.seen:
                    self.seen.add(specifier)
                    yield specifier, builder
                break

    def answer(self, specifier: str, builder: Builder, answer: Answer) -> None:
        self.answers[specifier] = answer
        if isinstance(answer, Redirect):
            self.waiting.append(answer.to)
            return
        builder.answer(0, answer)
        while not builder.poll():
            for number, _ in builder.wanted(1):
                builder.answer(number, ABSENT)
        self.resolve(builder)

    def resolve(self, builder: Builder) -> None:
        """Asks for each edge of a module, and of the data: URLs in it."""
        for entry in Graph(builder).entries:
            for edge in entry.edges:
                target = self.resolver(edge.value, entry.specifier)
                key = edge.target_specifier or edge.value
                if target is not None and key.endswith("/") and not target.endswith("/"):
                    self.answers[key] = Redirect(target)  # such a key of a map stands for all that is below it
                else:
                    self.scopes.setdefault(entry.specifier, {})[key] = target
                if target is not None and self.may_follow(edge):
                    self.waiting.append(target)

    def may_follow(self, edge: Edge) -> bool:
        if edge.kind.startswith("dynamic") and self.options.get("skipDynamicDeps"):
            return False
        return not (edge.type_only and self.options.get("kind") == "code")

    def settings(self) -> dict[str, Any]:
        return {**self.options, "importMap": {"base": "file:///", "map": {"scopes": self.scopes}}}


class Graph:
    """The graph of all that is reached from some roots. `entries` has them by their numbers, the different roots first."""

    def __init__(self, builder: Builder):
        """The graph of a builder whose poll returned True."""
        self._builder = builder
        self.entries: list[Entry] = []
        while True:
            try:
                self.entries.append(builder.entry(len(self.entries)))
            except IndexError:
                break
        self._numbers = {entry.specifier: entry.number for entry in self.entries}

    @classmethod
    def build(cls, roots: Sequence[str], loader: Callable[[str], Answer], *, resolver: Resolver | None = None, **options: Any) -> Graph:
        """Calls the loader once for each specifier that is reached, and returns their graph.

        `options` are those of a bundle: kind, limit, skipDynamicDeps, imports and importMap. A `resolver` says what each
        specifier of a module resolves to, instead of the URL Standard; each module is analysed twice then.

        >>> files = {"file:///a.ts": 'import "./b.ts";', "file:///b.ts": "export {};"}
        >>> [entry.specifier for entry in Graph.build(["file:///a.ts"], files.get).entries]
        ['file:///a.ts', 'file:///b.ts']
        >>> graph = Graph.build(["file:///a.ts"], files.get, resolver=lambda specifier, referrer: "file:///lib/b.ts")
        >>> [entry.specifier for entry in graph.entries]
        ['file:///a.ts', 'file:///lib/b.ts']
        """
        if resolver:
            found = _Discovery(roots, resolver, options)
            for specifier, alone in found.wanted():
                found.answer(specifier, alone, loader(specifier))
            return cls.build(roots, found.answers.get, **found.settings())
        builder, start = Builder(roots, **options), 0
        while not builder.poll():
            for number, specifier in list(builder.wanted(start)):
                builder.answer(number, loader(specifier))
                start = number + 1
        return cls(builder)

    @classmethod
    async def build_async(cls, roots: Sequence[str], loader: Callable[[str], Awaitable[Answer]], *,
                          resolver: Resolver | None = None, **options: Any) -> Graph:
        """The same with a loader of asyncio: all loads that are open run at the same time.

        >>> import asyncio
        >>> async def load(specifier):
        ...     return b"export {};"
        >>> asyncio.run(Graph.build_async(["file:///a.ts"], load))["file:///a.ts"].state
        'module'
        """
        import asyncio

        loads: dict[Any, Any] = {}
        if resolver:
            found = _Discovery(roots, resolver, options)
            try:
                while True:
                    loads.update({asyncio.ensure_future(loader(specifier)): (specifier, alone) for specifier, alone in found.wanted()})
                    if not loads:
                        return cls.build(roots, found.answers.get, **found.settings())
                    done, _ = await asyncio.wait(loads, return_when=asyncio.FIRST_COMPLETED)
                    for load in done:
                        found.answer(*loads.pop(load), load.result())
            finally:
                for load in loads:
                    load.cancel()
        builder, start = Builder(roots, **options), 0
        try:
            while not builder.poll():
                for number, specifier in list(builder.wanted(start)):
                    loads[asyncio.ensure_future(loader(specifier))] = number
                    start = number + 1
                done, _ = await asyncio.wait(loads, return_when=asyncio.FIRST_COMPLETED)
                for load in sorted(done, key=loads.__getitem__):
                    builder.answer(loads.pop(load), load.result())
        finally:
            for load in loads:
                load.cancel()
        return cls(builder)

    def __getitem__(self, specifier: str) -> Entry:
        """The entry of a specifier. Raises KeyError if it isn't reached."""
        return self.entries[self._numbers[specifier]]

    def __contains__(self, specifier: str) -> bool:
        return specifier in self._numbers

    def resolve(self, specifier: str) -> Entry:
        """Where the redirects from a specifier lead, over ten of them at most."""
        entry = self[specifier]
        for _ in range(10):
            if entry.state != "redirect" or entry.target is None:
                break
            entry = self.entries[entry.target]
        return entry

    def place(self, entry: Entry, byte: int) -> tuple[int, int]:
        """Line and column, from 1, of a byte in the entry's text, as that of an edge's start."""
        return self._builder.place(entry.number, byte)
