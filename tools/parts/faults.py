"""The faults of a graph, each with its places in the sources and one sentence."""
import collections
import contextlib
import json
import re
import sys

from parts import places, report
from parts.bundles import NEAR, shown

Fault = collections.namedtuple("Fault", "kind specifier start end what")
Fault.__doc__ = """kind: missing, parse, decode, wasm, loading, redirects, unsupported, data, package, edge, or root.
specifier: of the module in which it is reported. start, end: bytes of its text, or None. what: one sentence."""

# From so many characters on it takes seconds to find a fault's place.
LONG = 500_000
# Which of the words of --fail-on a fault counts for, beside any.
WORDS = {"Missing": "missing", "Parse": "parse", "Decode": "parse", "WasmParse": "parse"}
OF_ENTRY = {
    "Missing": "there is no such module in the bundle",
    "Loading": "the module couldn't be loaded",
    "WasmParse": "its bytes are no WebAssembly module, as far as its imports and exports go",
    "TooManyRedirects": "more than ten redirects, or some that never end",
    "UnsupportedMediaType": "no module is read from content of this media type",
    "DataUrl": "the data: URL holds nothing",
    "PackageReference": "this names no package",
}
OF_EDGE = {
    "ImportPrefixMissing": "neither a URL, nor does it begin with /, ./ or ../: it doesn't resolve without an import map",
    "InvalidUrl": "this can't be read as a URL",
    "InvalidDowngrade": "from https it would lead to http",
    "InvalidLocalImport": "from the web it would lead to a local file",
    "InvalidTypeAssertion": "the attribute type doesn't fit what the module is",
    "InvalidSourcePhase": "a source is taken of a module of WebAssembly alone, and this is none",
    "Refused": "the import map refuses it: its address is none, or leads elsewhere",
}


def word_of(entry):
    """The word of --fail-on for an entry's fault."""
    return WORDS.get(entry.fault().split(" ")[0], "other")


def of_graph(graph, bundle, program, reasons=None):
    """Each fault, by the order of the modules in which they are reported; the program says which texts are read. reasons has
    for URLs and bare specifiers why they lead nowhere, as far as that is known."""
    reasons = reasons or {}
    for specifier in graph.roots:
        entry = graph.end_of(specifier)
        if entry is None or (entry.is_faulty() and not is_in_itself(entry)):
            yield Fault(entry.fault() if entry else "Missing", specifier, None, None, "a root: " + said_of_entry(entry))
    for entry in graph.entries.values():
        if entry.is_faulty() and is_in_itself(entry):
            yield in_itself(entry, bundle, program)
        for edge in entry.edges:
            fault = of_edge(graph, entry, edge, reasons)
            if fault:
                yield fault
    for place, edge in graph.referrers:
        fault = of_edge(graph, report.Entry(place, "referrer"), edge, reasons)
        if fault:
            yield fault._replace(start=None, end=None)


def is_in_itself(entry):
    """Whether the fault has a place in the module's own text."""
    return entry.fault().split(" ")[0] in ("Parse", "Decode")


def is_unread(entry):
    """Whether an entry's bytes are refused, with or without a place."""
    return entry.is_faulty() and word_of(entry) == "parse"


def said_of_entry(entry):
    if entry is None:
        return OF_ENTRY["TooManyRedirects"]
    name = entry.fault().split(" ")[0]
    return OF_ENTRY.get(name, f"its module is in error: {entry.fault()}")


def range_of(edge):
    if edge.range == "-":
        return None, None
    start, end = edge.range.split("-")
    return int(start), int(end)


def of_edge(graph, entry, edge, reasons):
    """The fault of an edge, or None where it leads to a module, to a package, outside, or to a module that is in error itself."""
    if edge.kind == "redirect":
        return None
    start, end = range_of(edge)
    text = json.dumps(report.value_of(edge), ensure_ascii=False)
    if edge.fault:
        name = edge.fault.split(" ")[0]
        said = reasons.get(report.value_of(edge)) if name == "ImportPrefixMissing" else None
        return Fault(name, entry.specifier, start, end, f"{text}: {said or OF_EDGE.get(name, edge.fault)}")
    target = graph.end_of(edge.target)
    if target is None:
        return Fault("TooManyRedirects", entry.specifier, start, end, f"{text}: {OF_ENTRY['TooManyRedirects']}")
    if not target.is_faulty() or is_in_itself(target):
        return None
    if target.specifier in graph.roots and target.specifier == entry.specifier:
        return None
    said = reasons.get(target.specifier) if target.fault() == "Missing" else None
    if said:
        return Fault("Missing", entry.specifier, start, end, f"{text}: {said}")
    leads = "" if shown(target.specifier) == report.value_of(edge) else f" ({shown(target.specifier)})"
    return Fault(target.fault().split(" ")[0], entry.specifier, start, end, f"{text}: {said_of_entry(target)}{leads}")


def in_itself(entry, bundle, program):
    """The fault of a module whose own text is refused, with its place."""
    name = entry.fault().split(" ")[0]
    source = bundle.source(entry.specifier)
    if source is None:
        return Fault(name, entry.specifier, None, None, f"its content isn't in the bundle, and it is in error: {entry.fault()}")
    if name == "Decode":
        return at_byte_no_utf8(entry, source)
    text, named = source.text(), named_as(entry.specifier)
    stop = program.stop_of(named, text) if program else None
    if stop is None and len(text) > places.MOST_SEARCHED:
        return Fault(name, entry.specifier, None, None, f"its text isn't a program; above {places.MOST_SEARCHED:,} characters the place isn't looked for")
    with told_on_a_terminal(f"looking for the place of the fault in {shown(entry.specifier)}" if stop is None and len(text) >= LONG else None):
        start, length, what = places.fault_of(text, named, lambda texts: program.which_are_read(named, texts), stop)
    first = places.scan.bytes_before(text, start)
    return Fault(name, entry.specifier, first, first + places.scan.bytes_before(text[start:], length), what)


@contextlib.contextmanager
def told_on_a_terminal(what):
    """Shows a line while something goes on."""
    is_shown = what is not None and sys.stderr is not None and sys.stderr.isatty()
    if is_shown:
        sys.stderr.write(f"\r\033[K{what}")
        sys.stderr.flush()
    try:
        yield
    finally:
        if is_shown:
            sys.stderr.write("\r\033[K")
            sys.stderr.flush()


def named_as(specifier):
    """A specifier whose ending tells the language: of a data: URL by its media type."""
    if not specifier.startswith("data:"):
        return specifier
    essence = re.split("[;,]", specifier[len("data:"):])[0].strip().lower()
    kind = essence.rpartition("/")[2].removeprefix("x-")
    return "file:///data." + {"typescript": "ts", "mp2t": "ts", "jsx": "jsx", "tsx": "tsx"}.get(kind, "js")


def at_byte_no_utf8(entry, source):
    """Bytes count from 0 and from the front of the file, a byte order mark too."""
    at = source.no_utf8()
    if at is None:
        return Fault("Decode", entry.specifier, None, None, "these bytes are no UTF-8")
    return Fault("Decode", entry.specifier, at, at + 1, f"byte {source.mark + at:,} (0x{source.data[at]:02x}) is no UTF-8")


def lines_of(fault, bundle, front=""):
    """What is reported of a fault: its place and sentence, and below them the line with a caret."""
    source = bundle.source(fault.specifier) if fault.start is not None else None
    where = shown(fault.specifier, front)
    if source is None:
        yield f"{where}: {fault.what}"
        return
    line, column = source.place(fault.start)
    yield f"{where}:{line}:{column}: {fault.what}"
    yield from excerpt(source, line, fault)


WIDE = 100  # characters of a line that are shown


def excerpt(source, line, fault):
    text, first = source.line(line, fault.start)
    column = len(source.data[first:fault.start].decode("utf-8", "replace")) + 1
    last = source.data[fault.start:min(fault.end, fault.start + NEAR)].decode("utf-8", "replace").split("\n")[0]
    count = max(1, min(len(last), len(text) - column + 1))
    cut = max(0, min(column - WIDE // 2, len(text) - WIDE)) if len(text) > WIDE else 0
    shown_part = text[cut:cut + WIDE]
    before = "".join("\t" if c == "\t" else " " * wide(c) for c in shown_part[:column - 1 - cut])
    under = sum(wide(c) for c in text[column - 1:column - 1 + count]) or 1
    is_cut = cut > 0 or first > source.lines()[line - 1]
    is_open = cut + WIDE < len(text) or fault.start + NEAR < (source.lines() + [len(source.data)])[line]
    yield "    " + ("…" if is_cut else "") + "".join(c if c.isprintable() or c == "\t" else "\ufffd" for c in shown_part) + ("…" if is_open else "")
    yield "    " + (" " if is_cut else "") + before + "^" + "~" * (min(under, WIDE) - 1)


def wide(character):
    import unicodedata

    return 2 if unicodedata.east_asian_width(character) in "WF" else 0 if unicodedata.combining(character) else 1
