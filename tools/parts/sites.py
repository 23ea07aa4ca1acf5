"""Where the texts of files name other modules, as the program reads them: many files in one call."""
import collections
import functools
import json
import re

from parts.resolve import DECLARATIONS
from parts.words import MOST_BYTES, Wrong, plain, read_regular

SOURCES = (".ts", ".mts", ".cts", ".tsx", ".js", ".mjs", ".cjs", ".jsx")
TYPESCRIPT = (".ts", ".mts", ".cts", ".tsx")
# The keys of a bundle that choose further forms, and the options that they stand for.
FORMS = {"commonJs": "commonjs", "typeImports": "type_imports", "workers": "workers", "addresses": "addresses"}
# The kinds of a call of require, those that lead where such a call does, and those whose text is a URL from where it stands, also
# without ./
CALLS = ("require", "require-resolve")
REQUIRES = (*CALLS, "import-equals", "import-equals-type")
ADDRESSES = ("worker", "address")
# The kinds of edges that no graph follows, and those that lead to no types.
PLACES = ("require-resolve", "address")
UNTYPED = (*PLACES, "import-source", "dynamic-source", "wasm", "require", "worker")
# How many bytes of texts one call of the program takes: written as JSON they may be six times as many.
PART = 4_000_000
# Of so many names it is known what their endings say.
MOST_NAMES = 100_000
# What likely names a module; only to read ahead, so that few calls are needed.
NAMED = r"""[\s(]{0,20}(?:"([^"\\\n]{1,500})"|'([^'\\\n]{1,500})')"""
HINT, HINT_OR_CALL = r"\b(?:from|import)" + NAMED, r"\b(?:from|import|require)" + NAMED

Site = collections.namedtuple("Site", "kind value")
Site.__doc__ = "kind: as the report has it, as import-type. value: the text of the specifier."


def is_source(place):
    return place.lower().endswith(SOURCES)


@functools.lru_cache(MOST_NAMES)
def is_declaration(place):
    return place.lower().endswith(DECLARATIONS)


@functools.lru_cache(MOST_NAMES)
def is_typescript(place):
    return place.lower().endswith(TYPESCRIPT)


def hints_in(text, has_calls=False):
    return list(dict.fromkeys(found[1] or found[2] for found in re.finditer(HINT_OR_CALL if has_calls else HINT, text)))


def ending_of(place):
    """The ending by which the program tells how a file is read."""
    name = place.lower().rpartition("/")[2]
    for ending in (*DECLARATIONS, *SOURCES, ".wasm"):
        if name.endswith(ending):
            return ending
    return None


@functools.lru_cache(None)
def is_type_only(kind):
    return kind.endswith("-type") or kind.startswith("reference-") or kind == "type-import"


def is_followed(kind, place, site):
    """Whether a graph of a kind follows an edge of a module, as docs/RESOLUTION.md has it."""
    if kind == "types":
        return is_typescript(place) and site.kind not in UNTYPED
    return site.kind not in PLACES and not (kind == "code" and is_type_only(site.kind))


def content_of(place, data):
    """What a bundle has for a file."""
    try:
        if not place.lower().endswith(".wasm"):
            return {"text": data.decode("utf-8")}
    except UnicodeDecodeError:
        pass
    import base64

    return {"base64": base64.b64encode(data).decode("ascii")}


class Reader:
    """Asks the program for the sites of files."""

    def __init__(self, program, records=None, compares=False):
        """records: what is kept of texts that were read before. compares: read all the same, and see that it is what is kept."""
        self.program = program
        self.records = records
        self.compares = compares
        self.choices = {}  # the keys of a bundle that say what an edge is
        self.of_data = {}  # of each data: URL that is met, those of what it holds

    # Whether files that are likely reached are read ahead, so that few calls are needed; and the most bytes of all files.
    reads_ahead = True
    most = MOST_BYTES
    content_of = staticmethod(content_of)

    def load(self, place, path):
        """What the bundle has for a file, and how many bytes that has."""
        data = read_regular(path, self.most)
        return self.content_of(place, data), len(data)

    def sites_of_data(self, url):
        """The sites of what a data: URL holds that some file names."""
        return self.of_data.get(url, ())

    def read(self, contents):
        """The sites of each file, by place, of a dictionary from places to what the bundle has for them."""
        if not self.records:
            return self.read_anew(contents)
        found = {place: self.records.get(place, content) for place, content in contents.items()}
        if self.compares:
            anew = self.read_anew(contents)
            for place, sites in found.items():
                if sites is not None and sites != list(anew[place]):
                    raise Wrong(f"{plain(place)}: what is cached isn't what the program says")
            return anew
        new = self.read_anew({place: contents[place] for place, sites in found.items() if sites is None})
        for place, sites in new.items():
            if not any(site.value.startswith("data:") for site in sites):
                self.records.put(place, contents[place], sites)
        return {**found, **new}

    def read_anew(self, contents):
        found, part, size = {}, {}, 0
        for place, content in contents.items():
            length = len(next(iter(content.values())))
            if part and size + length > PART:
                found.update(self.asked(part))
                part, size = {}, 0
            part[place] = content
            size += length
        found.update(self.asked(part))
        return found

    def asked(self, contents):
        names = {f"file:///{number}{ending_of(place)}": place for number, place in enumerate(contents) if ending_of(place)}
        if not names:
            return dict.fromkeys(contents, ())
        modules = [{"specifier": name, **contents[place]} for name, place in names.items()]
        data = json.dumps({"roots": list(names), **self.choices, "limit": 1_000_000, "modules": modules}, ensure_ascii=False).encode("utf-8", "surrogatepass")
        if len(data) > MOST_BYTES:
            return dict.fromkeys(contents, ()) if len(contents) == 1 else self.halved(contents)
        status, told = self.program.report(data, True) if self.choices else self.program.report(data)
        found = dict.fromkeys(contents, ())
        for specifier, sites in sites_of(told).items() if status == 0 else ():
            if specifier in names:
                found[names[specifier]] = sites
            else:
                self.of_data[specifier] = sites
        return found

    def halved(self, contents):
        places = list(contents)
        first, second = places[:len(places) // 2], places[len(places) // 2:]
        return {**self.asked({it: contents[it] for it in first}), **self.asked({it: contents[it] for it in second})}


def sites_of(told):
    """The sites of each entry of a report that has edges."""
    from parts import report

    found, at = {}, None
    for line in told.decode("utf-8").split("\n"):
        edge = report.EDGE.fullmatch(line) if line.startswith("  ") else None
        if edge and at is not None:
            found.setdefault(at, {})[Site(edge[1], json.loads(edge[3]))] = None
        elif not edge:
            at = line.partition(" module ")[0] if " module " in line else None
    return {specifier: list(sites) for specifier, sites in found.items()}
