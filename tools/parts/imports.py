"""The imports of one file."""
import json
import sys

from parts import bundles, faults, front, kit, report, resolve, sites
from parts.words import Wrong, plain, read_regular

# The file that is read where a specifier has no name of its own.
STANDARD_INPUT = "standard-input"


class Imports:
    """The imports of one file, as the program reads it."""

    def __init__(self, path, language, loader=None):
        self.name = path if path != "-" else STANDARD_INPUT
        data = sys.stdin.buffer.read() if path == "-" else read_regular(path)
        ending = language or (sites.ending_of(path) if path != "-" else ".ts")
        if ending not in (*sites.SOURCES, *resolve.DECLARATIONS, ".wasm"):
            raise Wrong(f"{plain(path)}: a file with this extension has no imports; --as .ts reads it as TypeScript")
        self.specifier = f"file:///module{ending}"
        self.program = front.made_program(loader)
        content = self.program.reader.content_of(self.specifier, data)
        status, told = self.program.graph({"roots": [self.specifier], "limit": 1_000_000}, [{"specifier": self.specifier, **content}])
        if status:
            raise Wrong(f"{plain(path)}: {told.decode().strip()}")
        self.graph, self.bundle = report.graph_of(told), bundles.Bundle.of_contents({self.specifier: content})
        self.entry = self.graph.entries[self.specifier]

    def fault(self):
        """Why it isn't read, or None."""
        if not self.entry.is_faulty():
            return None
        if not faults.is_in_itself(self.entry):
            return faults.Fault(self.entry.fault(), self.specifier, None, None, faults.said_of_entry(self.entry))
        return faults.in_itself(self.entry, self.bundle, self.program)

    def lines(self):
        fault, source = self.fault(), self.bundle.source(self.specifier)
        if fault:
            for number, line in enumerate(faults.lines_of(fault, self.bundle)):
                yield line if number else self.name + line.removeprefix("module" + self.specifier[len("file:///module"):])
        for edge in self.entry.edges:
            line, column = source.place(faults.range_of(edge)[0])
            attribute = "" if edge.attribute == "-" else f" with type {edge.attribute}"
            yield f"{self.name}:{line}:{column}: {edge.kind} {json.dumps(report.value_of(edge), ensure_ascii=False)}{attribute}"

    def value(self):
        values = [kit.tool("graph-json").edge_value(edge, self.bundle.source(self.specifier)) for edge in self.entry.edges]
        value = {"format": "joravelsu-imports", "version": 1, "file": self.name, "imports": [{key: it[key] for key in it if key not in ("target", "fault")} for it in values]}
        fault = self.fault()
        if fault:
            value["fault"] = {"kind": fault.kind, "message": fault.what}
            if fault.start is not None:
                value["fault"]["line"], value["fault"]["column"] = self.bundle.source(self.specifier).place(fault.start)
        return value
