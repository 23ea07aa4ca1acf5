"""What is different between two graphs: entries, edges and faults that are only in one."""
import collections
import json

from parts import report
from parts.bundles import shown

Side = collections.namedtuple("Side", "entries edges faults")
Side.__doc__ = "entries: states by specifier, without sizes. edges, faults: how often each is there."


def side_of(data):
    """A graph of the bytes of a report, or of its JSON (docs/graph.schema.json)."""
    return side_of_json(data) if data.lstrip()[:1] == b"{" else side_of_report(report.graph_of(data))


def side_of_report(graph):
    entries = {entry.specifier: " ".join(entry.state.split(" ")[:2]) if entry.kind() == "module" else entry.state for entry in graph.entries.values()}
    rows = [(place, edge) for place, edge in graph.referrers]
    rows += [(entry.specifier, edge) for entry in graph.entries.values() for edge in entry.edges if edge.kind != "redirect"]
    edges = [(place, edge.kind, report.value_of(edge), edge.target, edge.fault) for place, edge in rows]
    return side_of_rows(entries, edges)


def side_of_json(data):
    try:
        value = json.loads(data)
        if value["format"] != "joravelsu-graph":
            raise report.NoReport(f"its format is {value['format']!r}")
        entries = {entry["specifier"]: state_of(entry) for entry in value["modules"]}
        rows = [(edge["referrer"], edge) for edge in value["referrers"]] + [(entry["specifier"], edge) for entry in value["modules"] for edge in entry.get("edges", ())]
        return side_of_rows(entries, [(place, kind_of(edge), edge["specifier"], edge.get("target"), edge.get("fault")) for place, edge in rows])
    except (ValueError, KeyError, TypeError, AttributeError, RecursionError) as error:
        raise report.NoReport("neither a report nor a graph as JSON") from error


def kind_of(edge):
    is_marked = edge["typeOnly"] and edge["kind"] in ("import", "export", "import-equals")
    return edge["kind"] + ("-type" if is_marked else "")


def state_of(entry):
    state = entry["state"]
    if state == "package":
        package = entry["package"]
        fields = ["-" if package[key] is None else json.dumps(package[key], ensure_ascii=False) for key in ("name", "requirement", "subPath")]
        return f"package {package['kind']} {' '.join(fields)}"
    more = {"module": "mediaType", "redirect": "target", "error": "fault"}.get(state)
    return f"{state} {entry[more]}" if more else state


def side_of_rows(entries, edges):
    faults = [(specifier, None, state[len("error "):]) for specifier, state in entries.items() if state.startswith("error ")]
    faults += [(place, text, fault) for place, _, text, _, fault in edges if fault]
    return Side(entries, collections.Counter(edges), collections.Counter(faults))


class Difference:
    def __init__(self, old, new):
        self.entries_come = sorted(set(new.entries) - set(old.entries))
        self.entries_gone = sorted(set(old.entries) - set(new.entries))
        self.changed = sorted(name for name in set(old.entries) & set(new.entries) if old.entries[name] != new.entries[name])
        self.edges_come, self.edges_gone = rows_of(new.edges - old.edges), rows_of(old.edges - new.edges)
        self.faults_come, self.faults_gone = rows_of(new.faults - old.faults), rows_of(old.faults - new.faults)
        self.old, self.new = old, new

    def is_empty(self):
        return not (self.entries_come or self.entries_gone or self.changed or self.edges_come or self.edges_gone or self.faults_come or self.faults_gone)

    def lines(self):
        parts = [
            ("new entries", [f"+ {shown(name)}: {self.new.entries[name]}" for name in self.entries_come]),
            ("removed entries", [f"- {shown(name)}: {self.old.entries[name]}" for name in self.entries_gone]),
            ("changed entries", [f"! {shown(name)}: {self.old.entries[name]}, now {self.new.entries[name]}" for name in self.changed]),
            ("new edges", [f"+ {said_of_edge(edge)}" for edge in self.edges_come]),
            ("removed edges", [f"- {said_of_edge(edge)}" for edge in self.edges_gone]),
            ("new faults", [f"+ {said_of_fault(fault)}" for fault in self.faults_come]),
            ("removed faults", [f"- {said_of_fault(fault)}" for fault in self.faults_gone]),
        ]
        for title, rows in parts:
            if rows:
                yield f"{title}: {len(rows):,}"
                yield from (f"  {row}" for row in rows)
        if self.is_empty():
            yield "the graphs are equal, except for sizes and ranges"

    def value(self):
        def entry(name, side):
            return {"specifier": name, "state": side.entries[name]}

        def edge(row):
            return {key: value for key, value in zip(("module", "kind", "specifier", "target", "fault"), row) if value is not None}

        def fault(row):
            return {key: value for key, value in zip(("module", "specifier", "fault"), row) if value is not None}

        return {
            "format": "joravelsu-diff",
            "version": 1,
            "entries": {"new": [entry(name, self.new) for name in self.entries_come], "removed": [entry(name, self.old) for name in self.entries_gone],
                        "changed": [{**entry(name, self.new), "old": self.old.entries[name]} for name in self.changed]},
            "edges": {"new": list(map(edge, self.edges_come)), "removed": list(map(edge, self.edges_gone))},
            "faults": {"new": list(map(fault, self.faults_come)), "removed": list(map(fault, self.faults_gone))},
        }


def rows_of(counter):
    return sorted(counter.elements(), key=lambda row: [part or "" for part in row])


def said_of_edge(edge):
    place, kind, text, target, fault = edge
    return f"{shown(place)}: {kind} {json.dumps(text, ensure_ascii=False)} {'-> ' + shown(target) if target else '! ' + fault}"


def said_of_fault(row):
    place, text, fault = row
    return f"{shown(place)}: {json.dumps(text, ensure_ascii=False) + ': ' if text is not None else ''}{fault}"
