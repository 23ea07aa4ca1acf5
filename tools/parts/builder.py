"""The C library in the place of the program, in this process: it has no bundle to read, asks for each file that is reached, and
knows no limit of bytes."""
import json
import os
import sys

from parts import kit as kits
from parts import library, outlines, sites, sums, urls
from parts.words import MOST_BYTES, Wrong, plain

# The media types by which texts are read, by the ending of the name.
MEDIA_TYPES = {".d.ts": 0, ".d.mts": 1, ".d.cts": 2, ".ts": 3, ".mts": 4, ".cts": 5, ".tsx": 6, ".js": 7, ".mjs": 8, ".cjs": 9, ".jsx": 10}
NO_UTF8, NO_TOKEN, NO_PROGRAM = 7, 10, 11
NOT_A_PROGRAM = (NO_TOKEN, NO_PROGRAM)
# So many bytes are read in a few hundredths of a second.
FEW_BYTES = 1_000_000


class Reader(sites.Reader):
    """Asks the library for the sites of files, each where it is reached. The content of a file has its outline, or none where it
    is to be read whole; a file whose outline is known isn't read, unless its bytes are asked for."""

    reads_ahead = False
    most = sys.maxsize - 1

    def __init__(self, program, records=None, compares=False):
        super().__init__(program, records, compares)
        self.kept = {}  # of files that are read to compare, what is kept by their times

    @staticmethod
    def content_of(_place, data):
        return {"bytes": data}

    def load(self, place, path):
        row, is_same = self.records.of_file(place, path) if self.records else (None, False)
        if is_same and not self.compares:
            return {"row": row, "path": path}, self.records.stamps[place][0]
        content, size = super().load(place, path)
        if row is not None:
            content["was"] = row
            self.kept[place] = row if is_same else None
        return content, size

    def read(self, contents):
        found = {place: outlines.sites_of_row(content["row"]) for place, content in contents.items() if "row" in content}
        new = {place: content for place, content in contents.items() if place not in found}
        for (place, content), (file_sites, row) in zip(new.items(), self.read_each(new)):
            found[place] = file_sites
            if row is not None:
                content["row"] = row
                if self.records:
                    self.records.keep(place, row)
        return found

    def read_each(self, contents):
        """The sites and the row of each file: of many bytes on several processors, since a call of the library holds no lock of
        Python's."""
        items = [(place, content["bytes"]) for place, content in contents.items()]
        if len(items) < 2 or sum(len(data) for _, data in items) < FEW_BYTES:
            return [self.read_one(*item) for item in items]
        from concurrent import futures

        with futures.ThreadPoolExecutor(os.cpu_count()) as pool:
            return list(pool.map(lambda item: self.read_one(*item), items))

    def read_one(self, place, data):
        """The sites of a file, and its row, or None where it has no outline."""
        key = self.records.key(place, {"bytes": data}) if self.records else None
        kept = self.kept.get(place) or (self.records.of_key(key) if self.records else None)
        if kept is not None and not self.compares:
            return outlines.sites_of_row(kept), kept
        found, outline = self.program.read(place, data)
        row = outlines.row_of(key, outline) if outline else None
        if kept is not None and kept != row:
            raise Wrong(f"{plain(place)}: what is cached isn't what the library says")
        return found, row

    def sites_of_data(self, url):
        if url not in self.of_data:
            self.of_data.update({url: (), **self.program.edges_alone(url)})
        return self.of_data[url]


class Library:
    """What the program says, by the library's calls."""

    reader = Reader

    def __init__(self, path):
        self.path = path
        self.api = library.loaded(path)
        self.proved = path.endswith(".proved.so") or bool((kits.release() or {}).get("proved"))

    def report(self, bundle):
        """The status, and what the program writes for a bundle."""
        try:
            return 0, self.api.graph(bundle).encode()
        except self.api.BundleError as error:
            return error.status, f"{error}\n".encode()

    # ---- the graph

    def kept_graph(self, settings, modules, records):
        """The same as graph, of which the last is kept."""
        from parts import reports

        def sites_of(specifier, data):
            return self.sites_or_none(data, MEDIA_TYPES[sites.ending_of(specifier)])

        return reports.Reports(records, sites_of, self.api.UNKNOWN).report(settings, modules, self.graph)

    def graph(self, settings, modules):
        """The status and the report of the graph of a bundle, by its modules and what else it has; the bundle isn't made."""
        given = self.given(modules)
        try:
            builder = self.api.Builder(**settings)
            start = 0
            while not builder.poll():
                for number, specifier in list(builder.wanted(start)):
                    builder.answer(number, self.answer_of(given.get(specifier)))
                    start = number + 1
        except self.api.TooManyModules as error:
            return 1, f"error TooManyModules {error.seen}\n".encode()
        except self.api.BundleError as error:
            return 2, f"{error}\n".encode()
        return 0, self.lines_of(builder, settings, given).encode()

    def given(self, modules):
        """The modules by their specifiers as the program reads these."""
        names = [module["specifier"] for module in modules]
        odd = [name for name in names if not is_plain(name)]
        read = dict(zip(odd, self.read_urls(odd)))
        given = {}
        for number, (name, module) in enumerate(zip(names, modules)):
            if read.get(name, name) in given:
                raise Wrong(f'there is no graph: error Bundle "/modules/{number}/specifier"')
            given[read.get(name, name)] = module
        return given

    def read_urls(self, texts):
        """URLs as the program reads them."""
        return [line[len("root "):] for line in self.frame(texts) if line.startswith("root ")] if texts else []

    def frame(self, roots, **more):
        """The lines of the report where no module is there."""
        value = {"roots": roots, "limit": 1_000_000, **more, "modules": []}
        status, said = self.report(json.dumps(value).encode())
        if status:
            raise Wrong(f"there is no graph: {said.decode().strip()}")
        return said.decode().split("\n")

    def answer_of(self, module):
        if module is None:
            return None
        if "redirect" in module:
            return self.api.Redirect(module["redirect"])
        if "external" in module:
            return self.api.EXTERNAL
        return outlines.data_of_row(module["row"]) if "row" in module else module["bytes"]

    def lines_of(self, builder, settings, given):
        """The report, as docs/REPORT.md has it."""
        entries = sorted(self.api.Graph(builder).entries, key=lambda entry: entry.specifier)
        packages = [entry.specifier for entry in entries if entry.state == "package"]
        roots, asked = settings["roots"], {}
        if "imports" in settings:
            asked = {"imports": settings["imports"], **self.map_of(settings)}
        if asked or packages or not all(map(is_plain, roots)):
            frame = self.frame([*roots, *packages], **asked)
        else:
            frame = [f"root {root}" for root in roots]
        lines = frame[:len(roots)] + [line for line in frame if line.startswith("import ")]
        states = {line.split(" ")[0]: line for line in frame if " package " in line and not line.startswith(" ")} if packages else {}
        for entry in entries:
            row = given.get(entry.specifier, {}).get("row")
            lines.append(states.get(entry.specifier) or line_of(entry, outlines.size_of_row(row) if row else entry.size))
            spans = outlines.spans_of_row(row) if row and outlines.is_apart(row) else None
            lines += [self.edge_line(edge, spans) for edge in entry.edges]
        return "".join(line + "\n" for line in [*lines, f"entries {len(entries)}"])

    @staticmethod
    def map_of(settings):
        """The rows of the import map by which the imports of referrers outside may be resolved."""
        if "importMap" not in settings:
            return {}
        keys = {urls.joined(row["referrer"], value) for row in settings["imports"] for value in row["imports"]}
        rows = settings["importMap"]["map"]

        def some(table):
            return {key: url for key, url in table.items() if key in keys or key.endswith("/")}

        scopes = {scope: some(table) for scope, table in rows.get("scopes", {}).items()}
        return {"importMap": {**settings["importMap"], "map": {"imports": some(rows["imports"]), "scopes": {scope: table for scope, table in scopes.items() if table}}}}

    def edge_line(self, edge, spans):
        """The line of an edge. spans: the places in the text by those in its outline, if the edge is of that."""
        kind = f"{edge.kind}-type" if edge.type_only and edge.kind in outlines.TYPED else edge.kind
        span = "-" if not edge.end else spans[edge.start] if spans else f"{edge.start}-{edge.end}"
        attribute = "-" if edge.attribute is None else "?" if edge.attribute is self.api.UNKNOWN else quoted(edge.attribute)
        outcome = f"! {edge.fault}" if edge.fault else f"-> {edge.target_specifier}"
        return f"  {kind} {span} {quoted(edge.value)} {attribute} {outcome}"

    # ---- texts

    def read(self, place, data):
        """The sites of a file, and its outline, or None where it has none."""
        ending = sites.ending_of(place)
        if ending is None:
            return (), outlines.without_sites(data)
        if ending == ".wasm":
            return self.edges_alone(f"file:///0{ending}", data).get(f"file:///0{ending}", ()), None
        try:
            found = self.edges_of(f"file:///0{ending}", data) if len(data) > MOST_BYTES else self.api.imports_of(data, MEDIA_TYPES[ending])
        except self.api.SourceError as error:
            return (), outlines.of_no_utf8() if error.status == NO_UTF8 else outlines.of_no_program() if error.status in NOT_A_PROGRAM else None
        outline = outlines.outline_of(data, found, lambda text: self.sites_or_none(text, MEDIA_TYPES[ending]), self.api.UNKNOWN)
        return list(dict.fromkeys(map(outlines.named, found))), outline

    def edges_of(self, specifier, data):
        """The edges of a source of any length, as a graph of it alone has them."""
        entry = self.api.Graph(self.built(specifier, data))[specifier]
        if entry.fault:
            raise self.api.SourceError(NO_UTF8 if entry.fault == "Decode" else NO_PROGRAM, entry.place)
        return entry.edges

    def sites_or_none(self, data, media_type):
        try:
            return self.api.imports_of(data, media_type)
        except self.api.SourceError:
            return None

    def edges_alone(self, root, data=None):
        """The sites of a module, and of each data: URL below it, with nothing else in the graph."""
        try:
            builder = self.built(root, data)
        except self.api.BundleError:
            return {}
        return {entry.specifier: list(dict.fromkeys(map(outlines.named, entry.edges))) for entry in self.api.Graph(builder).entries if entry.edges}

    def built(self, root, data):
        """The builder of a graph of one root, of which nothing else is there."""
        builder, start = self.api.Builder([root], limit=1_000_000), 0
        while not builder.poll():
            for number, specifier in list(builder.wanted(start)):
                builder.answer(number, data if specifier == root else None)
                start = number + 1
        return builder

    def which_are_read(self, specifier, texts):
        """Of each text whether it is a program of the grammar, as a module of this specifier's ending."""
        media_type = MEDIA_TYPES.get(sites.ending_of(specifier) or ".js")
        return [self.is_read(text.encode("utf-8", "surrogatepass"), media_type) for text in texts]

    def is_read(self, data, media_type):
        return self.fault_of(data, media_type) is None

    def fault_of(self, data, media_type):
        """Why a text is no program, or None."""
        try:
            self.api.imports_of(data, media_type)
        except self.api.SourceError as error:
            return error if error.status in NOT_A_PROGRAM else None
        return None

    def stop_of(self, specifier, text):
        """The character, from 0, of the token at which reading stops; None where a part of the text is no token."""
        data = text.encode("utf-8", "surrogatepass")
        fault = self.fault_of(data, MEDIA_TYPES.get(sites.ending_of(specifier) or ".js"))
        return len(data[:fault.place].decode("utf-8", "surrogatepass")) if fault and fault.status == NO_PROGRAM else None

    def kind_of(self, specifier, text):
        """The name of what is wrong with a text that is no program."""
        fault = self.fault_of(text.encode("utf-8", "surrogatepass"), MEDIA_TYPES.get(sites.ending_of(specifier) or ".js"))
        return fault.kind if fault else None


def quoted(text):
    """A text as a JSON string."""
    if text.isascii() and text.isprintable() and '"' not in text and "\\" not in text:
        return f'"{text}"'
    return json.dumps(text, ensure_ascii=False)


def is_plain(specifier):
    """Whether the program reads a URL as it is written: that of a file whose path has plain characters and no dots."""
    return specifier.startswith("file:///") and bool(urls.PLAIN.fullmatch(specifier, len("file:///"))) and "/." not in specifier and "//" not in specifier[len("file:///"):]


def line_of(entry, size):
    """The line of an entry that is no package. size: how many bytes it has, if it is a module."""
    if entry.state == "module":
        return f"{entry.specifier} module {entry.media_type} {size}"
    if entry.state == "redirect":
        return f"{entry.specifier} redirect {entry.target_specifier}"
    return f"{entry.specifier} external" if entry.state == "external" else f"{entry.specifier} error {entry.fault}"


def is_better_proved():
    """Whether the program is proved, and of the library only an unproved one can be had."""
    return not os.environ.get("JORAVELSU_LIBRARY") and not kits.release() and bool(kits.proved_program()) and not library.is_proved()


def has_only_to_be_linked():
    """Whether all that the library is made of is there."""
    import shutil

    if kits.release() or not (shutil.which("cc") and shutil.which("objcopy")):
        return False
    return library.is_proved() or bool(kits.kept(sums.name_of_library()))


def found(asked):
    """The library, where it is there and isn't refused; None where the program is to be asked."""
    if asked == "program" or (asked is None and is_better_proved()):
        return None
    try:
        path = library.place() or (library.made() if asked or has_only_to_be_linked() else None)
        return Library(path) if path else None
    except (library.NoLibrary, kits.NoKit, OSError):
        if asked:
            raise
        return None
