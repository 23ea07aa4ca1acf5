"""What a check found, as text, as JSON (docs/check.schema.json), as SARIF 2.1.0, and as annotations of GitHub."""
import collections
import json
from urllib.parse import quote, unquote

from parts import faults, report, urls
from parts.bundles import shown

Found = collections.namedtuple("Found", "level rule message specifier start end place cause", defaults=(None,))
Found.__doc__ = """One row. level: error or warning. rule: the fault's kind, unread, or cycle. start, end: bytes of the module's text,
or None. place: line and column, both from 1, or None. cause: the fault, the row of unread, or the entries of the cycle."""

RULES = {
    "Missing": "A module isn't there", "ImportPrefixMissing": "A bare specifier resolves to nothing", "InvalidUrl": "A specifier can't be read as a URL",
    "Parse": "A text is no program of the grammar", "Decode": "A text isn't UTF-8", "WasmParse": "Bytes are no WebAssembly module",
    "Loading": "A module couldn't be loaded", "TooManyRedirects": "Redirects are more than ten, or never end", "UnsupportedMediaType": "No module is read from content of this media type",
    "DataUrl": "A data: URL holds nothing", "PackageReference": "A specifier names no package", "InvalidDowngrade": "An import leads from https to http",
    "InvalidLocalImport": "An import leads from the web to a local file", "InvalidTypeAssertion": "An import attribute doesn't fit the module",
    "InvalidSourcePhase": "A source is imported of what isn't WebAssembly", "Refused": "An import map refuses a specifier",
    "policy": "An entry or an edge breaks a rule", "mention": "Something that the graph doesn't show", "unread": "A call that may load a module and is no edge", "cycle": "Modules that load each other",
}


class Verdict:
    def __init__(self, run, summary, found, rows, fail_on, mentioned=None):
        """run: the run; summary: its counts; found: its faults; rows: what is unread; fail_on: words of --fail-on; mentioned: what the
        modules mention, if that is asked."""
        self.run, self.summary, self.faults, self.rows, self.fail_on, self.rules = run, summary, found, rows, fail_on, getattr(run, "rules", None)
        self.mentioned = mentioned
        self.words = summary.what_is_there() | ({"unread"} if rows else set()) | ({"mention"} if mentioned and mentioned.rows else set())
        self.breach = self.rules.breach if self.rules else None
        self.status = 1 if self.breach or self.words & set(fail_on) else 0

    def line(self):
        said = report.counted(len(self.faults), "fault", "faults") if self.faults else "no faults"
        if self.rows:
            said += f"; {report.counted(len(self.rows), 'place', 'places')} of import(..) and require(..) that no graph shows"
        if self.mentioned:
            said += f"; {report.counted(len(self.mentioned.rows), 'mention', 'mentions')}"
        return f"{said}; status {self.status}"

    def found(self):
        """Each row, in the order of the text form."""
        from parts import kit

        for fault in self.faults:
            source = self.run.bundle.source(fault.specifier) if fault.start is not None else None
            place = source.place(fault.start) if source else None
            yield Found("error", fault.kind, fault.what, fault.specifier, fault.start, fault.end, place, fault)
        if self.breach:
            source = self.run.bundle.source(self.breach.specifier) if self.breach.start is not None else None
            place = source.place(self.breach.start) if source else None
            yield Found("error", "policy", self.breach.what, self.breach.specifier, self.breach.start, self.breach.end, place, self.breach)
        for row in self.rows:
            specifier, line, column, word, argument, own = row
            hint = ", unless it is a require of the file itself" if own else ""
            yield Found("error" if "unread" in self.fail_on else "warning", "unread", f"{word}({argument}) gives no edge{hint}", specifier, None, None, (line, column), row)
        for specifier, line, column, reason, text in self.mentioned.rows if self.mentioned else ():
            yield Found("error", "mention", kit.tool("mentions").said(reason, text), specifier, None, None, (line, column), (reason, text))
        for part in self.summary.cycles:
            level = "error" if "cycle" in self.fail_on else "warning"
            yield Found(level, "cycle", self.summary.cycle(part), part[0].specifier, None, None, None, part)

    # ---- text

    def lines(self):
        from parts import kit

        found = [line for fault in self.faults for line in faults.lines_of(fault, self.run.bundle, self.run.front)]
        if self.breach:
            found += faults.lines_of(faults.Fault("Policy", *self.breach), self.run.bundle, self.run.front)
        found += kit.tool("unread").lines_of(self.rows, self.run.front)
        below = []
        if self.mentioned:
            found += [self.mentioned.line_of_names(), *self.mentioned.lines(self.run.front)]
            below = self.mentioned.lines_below()
        return [*found, *[""] * bool(found), *self.summary.lines(), *below, *([self.rules.line()] if self.rules else []), self.line()]

    # ---- JSON

    def value(self):
        graph = self.run.graph
        states = collections.Counter(entry.kind() for entry in graph.entries.values())
        edges = [edge for entry in graph.entries.values() for edge in entry.edges if edge.kind != "redirect"]
        return {
            "format": "joravelsu-check",
            "version": 1,
            "status": self.status,
            "verdict": self.line(),
            "failOn": list(self.fail_on),
            "found": sorted(self.words),
            "proved": bool(self.run.program.proved),
            "folder": self.run.front,
            "roots": graph.roots,
            "counts": {"entries": len(graph.entries), **{f"{kind}s": states[kind] for kind in ("module", "package", "redirect", "external", "error")},
                       "edges": len(edges), "edgesWithoutTarget": sum(1 for edge in edges if edge.fault)},
            "faults": [self.fault_value(found) for found in self.found() if found.rule not in ("policy", "unread", "mention", "cycle")],
            "unread": [{**self.where(found), "call": found.cause[3], "argument": found.cause[4], "maybeOwn": found.cause[5]} for found in self.found() if found.rule == "unread"],
            **({"mentions": self.mentions_value()} if self.mentioned else {}),
            "cycles": [[entry.specifier for entry in part] for part in self.summary.cycles],
            **({"policy": self.rules.value(next((self.where(found) for found in self.found() if found.rule == "policy"), {}))} if self.rules else {}),
            **({"unreached": self.summary.unreached} if self.summary.unreached is not None else {}),
        }

    def fault_value(self, found):
        value = {"kind": found.rule, **self.where(found), "message": found.message}
        if found.start is not None:
            value["range"] = [found.start, found.end]
        return value

    def mentions_value(self):
        return {"allowed": self.mentioned.names, "strict": self.mentioned.strict,
                "found": [{**self.where(found), "reason": found.cause[0], "text": found.cause[1]} for found in self.found() if found.rule == "mention"]}

    def where(self, found):
        value = {"specifier": found.specifier}
        if path_of(found.specifier) is not None:
            value["file"] = self.run.front + path_of(found.specifier)
        if found.place:
            value["line"], value["column"] = found.place
        return value

    def json(self):
        return json.dumps(self.value(), ensure_ascii=True, indent=1) + "\n"

    # ---- SARIF

    def sarif(self):
        from parts import kit

        rules = list(RULES)
        driver = {"name": "joravelsu", "version": kit.VERSION, "rules": [{"id": rule, "shortDescription": {"text": RULES[rule]}} for rule in rules]}
        results = []
        for found in self.found():
            result = {"ruleId": found.rule, "level": found.level, "message": {"text": found.message}}
            if found.rule in RULES:
                result["ruleIndex"] = rules.index(found.rule)
            location = {"artifactLocation": {"uri": self.uri(found.specifier)}}
            region = self.region(found)
            if region:
                location["region"] = region
            results.append({**result, "locations": [{"physicalLocation": location}]})
        value = {"$schema": "https://json.schemastore.org/sarif-2.1.0.json", "version": "2.1.0",
                 "runs": [{"tool": {"driver": driver}, "columnKind": "unicodeCodePoints", "results": results}]}
        return json.dumps(value, ensure_ascii=True, indent=1) + "\n"

    def uri(self, specifier):
        path = path_of(specifier)
        return specifier if path is None else quote(self.run.front + path)

    def region(self, found):
        if not found.place:
            return None
        line, column = found.place
        region = {"startLine": line, "startColumn": column}
        source = self.run.bundle.source(found.specifier) if found.start is not None else None
        if source:
            end_line, end_column = source.place(min(found.end, len(source.data)))
            region.update(endLine=end_line, endColumn=max(end_column, column + 1) if end_line == line else end_column)
            if not source.mark:
                region.update(byteOffset=found.start, byteLength=found.end - found.start)
        return region

    # ---- GitHub

    def annotations(self):
        """A line for each row that GitHub shows beside the file."""
        for found in self.found():
            path = path_of(found.specifier)
            parts = [f"file={of_property(self.run.front + path)}"] if path is not None else []
            if found.place:
                parts += [f"line={found.place[0]}", f"col={found.place[1]}"]
            message = found.message if path is not None else f"{shown(found.specifier)}: {found.message}"
            yield f"::{found.level} {','.join([*parts, 'title=joravelsu ' + found.rule])}::{of_message(message)}"


def path_of(specifier):
    """The path from the folder of a specifier of a file, or None."""
    place = urls.to_file(specifier)
    return place if place is not None else unquote(specifier[len("file:///"):], errors="replace") if specifier.startswith("file:///") else None


def of_message(text):
    return text.replace("%", "%25").replace("\r", "%0D").replace("\n", "%0A")


def of_property(text):
    return of_message(text).replace(":", "%3A").replace(",", "%2C")
