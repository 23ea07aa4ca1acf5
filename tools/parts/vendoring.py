"""The modules of a graph as files of a folder, with readable names: each literal leads to its file by a relative path."""
import json
import os
import posixpath
import re
import shutil
import tempfile
from urllib.parse import unquote

from parts import faults, report
from parts.bundles import MARK, shown
from parts.words import Wrong, plain

# The extension of each media type that a module may have.
EXTENSIONS = {
    "TypeScript": ".ts", "Mts": ".mts", "Cts": ".cts", "Tsx": ".tsx", "Dts": ".d.ts", "Dmts": ".d.mts", "Dcts": ".d.cts",
    "JavaScript": ".js", "Mjs": ".mjs", "Cjs": ".cjs", "Jsx": ".jsx", "Json": ".json", "Wasm": ".wasm",
}
UNSAFE = re.compile(r"[^A-Za-z0-9._@+~-]")
LONGEST = 200  # characters of a name


def media_type_of(name):
    """The media type that a name tells by its extension, or None."""
    for media, extension in sorted(EXTENSIONS.items(), key=lambda row: -len(row[1])):
        if name.lower().endswith(extension):
            return media
    return None


def wanted_name(entry):
    """The name that a module would have: the path of a file: URL, the host and the path of another; what isn't a letter, a digit or
    one of . _ @ + ~ - becomes _, and the extension of the media type is added where the name tells another one."""
    found = re.match(r"[A-Za-z][A-Za-z0-9+.-]*://([^/?#]*)(/[^?#]*)?(\?[^#]*)?", entry.specifier)
    path = found[1] + (found[2] or "/") + (found[3] or "") if found else "data/module"
    names = [UNSAFE.sub("_", unquote(name, errors="replace"))[:LONGEST] for name in path.split("/") if name not in ("", ".", "..")]
    name = "/".join("_" if part in (".", "..") else part for part in names) or "index"
    media = entry.state.split(" ")[1]
    return name if media_type_of(name) == media else name + EXTENSIONS[media]


class Plan:
    """The names and the contents of the files, or why there are none."""

    def __init__(self, graph, bundle):
        self.graph, self.bundle = graph, bundle
        self.modules = [entry for entry in graph.entries.values() if entry.kind() == "module"]
        self.names = self.unique_names()
        self.causes = list(self.why_not())
        self.files = {} if self.causes else {self.names[entry.specifier]: self.content(entry) for entry in self.modules}

    def unique_names(self):
        """A name for each module, in the order of specifiers; one that is taken, in whatever case, gets -2, -3 and so on."""
        found, files, folders = {}, set(), set()
        for entry in self.modules:
            first = name = wanted_name(entry)
            count = 1
            while self.is_taken(name.lower(), files, folders):
                count += 1
                extension = EXTENSIONS[entry.state.split(" ")[1]]
                name = f"{first[:-len(extension)]}-{count}{first[-len(extension):]}"
            found[entry.specifier] = name
            files.add(name.lower())
            folders.update(above(name.lower()))
        return found

    @staticmethod
    def is_taken(name, files, folders):
        return name in files or name in folders or any(folder in files for folder in above(name))

    def end_of(self, edge):
        return self.graph.end_of(edge.target) if edge.target else None

    def why_not(self):
        """Each cause: the module, the edge or None, and a sentence."""
        for entry in self.graph.entries.values():
            if entry.is_faulty() and (faults.is_in_itself(entry) or entry.is_root):
                yield entry, None, faults.said_of_entry(entry)
            elif entry.kind() == "module" and self.bundle.bytes_of(entry.specifier) is None:
                yield entry, None, "its content isn't in the bundle"
            for edge in entry.edges if entry.kind() == "module" else ():
                text = json.dumps(report.value_of(edge), ensure_ascii=False)
                end = self.end_of(edge)
                if end is not None and end.is_faulty() and not faults.is_in_itself(end):
                    yield entry, edge, f"{text}: {faults.said_of_entry(end)}"
                elif edge.fault:
                    yield entry, edge, f"{text}: it doesn't resolve: {edge.fault}"
                elif edge.kind == "wasm" and not self.stays(entry, edge):
                    yield entry, edge, f"{text}: an import of WebAssembly, which can't be rewritten, would lead elsewhere"
        if any(place not in self.graph.entries for place, _ in self.graph.referrers):
            yield self.graph.referrers[0][0], None, "a place outside the graph imports a module"

    def stays(self, entry, edge):
        """Whether an import of WebAssembly leads to the same file by its old text."""
        end, text = self.end_of(edge), report.value_of(edge)
        if end is None or end.kind() != "module":
            return end is not None and end.specifier == text
        return text.startswith(("./", "../")) and posixpath.normpath(posixpath.join(posixpath.dirname(self.names[entry.specifier]), text)) == self.names[end.specifier]

    def literal(self, entry, edge):
        """The text that stands for an edge: a relative path, or the whole specifier of what is no module."""
        end = self.end_of(edge)
        if end is None or end.kind() != "module":
            return edge.target if end is None else end.specifier
        path = posixpath.relpath(self.names[end.specifier], posixpath.dirname(self.names[entry.specifier]) or ".")
        return path if path.startswith("../") else "./" + path

    def content(self, entry):
        """The bytes of a module's file."""
        data = self.bundle.bytes_of(entry.specifier)
        if entry.state.startswith(("module Wasm ", "module Json ")):
            return data
        mark = MARK if data.startswith(MARK) else b""
        data, made, last = data.removeprefix(MARK), [], 0
        for edge in sorted((edge for edge in entry.edges if edge.range != "-"), key=lambda edge: faults.range_of(edge)):
            start, end = faults.range_of(edge)
            made += [data[last:start], json.dumps(self.literal(entry, edge)).encode()]
            last = end
        return mark + b"".join(made) + data[last:]

    def lines_of_causes(self, front=""):
        for entry, edge, said in self.causes:
            specifier = entry if isinstance(entry, str) else entry.specifier
            source = self.bundle.source(specifier) if edge is not None and edge.range != "-" and edge.kind != "wasm" else None
            place = source.place(faults.range_of(edge)[0]) if source else None
            yield f"{shown(specifier, front)}{f':{place[0]}:{place[1]}' if place else ''}: {said}"

    # ---- the files

    def bundle_of_files(self, kind, content_of, choices):
        """A bundle of the files, of which the program says whether their graph is the old one: its settings, and its modules."""
        modules = [{"specifier": "file:///" + name, **content_of(name, data)} for name, data in self.files.items()]
        modules += [{"specifier": entry.specifier, "external": True} for entry in self.graph.entries.values() if entry.kind() == "external"]
        roots = list(dict.fromkeys(self.new_name(root) for root in self.graph.roots))
        return {"roots": roots, **({"kind": kind} if kind else {}), **choices, "limit": 1_000_000}, modules

    def new_name(self, specifier):
        end = self.graph.end_of(specifier)
        return "file:///" + self.names[end.specifier] if end is not None and end.kind() == "module" else specifier

    def differs(self, graph):
        """A sentence on the first thing by which the graph of the files isn't the old one, or None."""
        for entry in self.modules:
            other = graph.entries.get("file:///" + self.names[entry.specifier])
            if other is None:
                if entry.depth or entry.is_root:
                    return f"{shown(entry.specifier)} isn't reached any more"
                continue
            if other.state.split(" ")[:2] != entry.state.split(" ")[:2] or len(other.edges) != len(entry.edges):
                return f"{shown(entry.specifier)} is {other.state} with {len(other.edges)} edges"
            for one, two in zip(entry.edges, other.edges):
                if (one.kind, one.attribute, self.new_name(one.target)) != (two.kind, two.attribute, two.target):
                    return f"{shown(entry.specifier)}: {one.text} leads to {two.target or two.fault}"
        return None


def above(name):
    """The folders on the way to a name."""
    parts = name.split("/")[:-1]
    return ["/".join(parts[:count + 1]) for count in range(len(parts))]


def write_files(files, folder):
    """Writes files below a folder that isn't there yet, or is empty: all of them, or none."""
    folder = os.path.abspath(folder)
    if os.path.lexists(folder) and (not os.path.isdir(folder) or os.listdir(folder)):
        raise Wrong(f"{plain(folder)}: it is there, and isn't an empty folder")
    try:
        os.makedirs(os.path.dirname(folder), exist_ok=True)
        made = tempfile.mkdtemp(prefix=".joravelsu-", dir=os.path.dirname(folder))
        try:
            os.chmod(made, 0o755)
            for name, data in files.items():
                if any(part in ("", ".", "..") for part in name.split("/")):
                    raise Wrong(f"{plain(name)}: no name of a file")
                path = os.path.join(made, *name.split("/"))
                os.makedirs(os.path.dirname(path), exist_ok=True)
                with open(path, "xb") as file:
                    file.write(data)
            os.replace(made, folder)
        except BaseException:
            shutil.rmtree(made, ignore_errors=True)
            raise
    except OSError as error:
        raise Wrong(f"{plain(error.filename or folder)}: {error.strerror}") from error
