"""Why an entry is in a graph: a shortest way of edges and redirects from a root, and what is reached only over it or one of its edges, as the
second program has them, or by a search here in a graph that the library built."""
import collections
import json
import os

from parts import faults, report
from parts.bundles import shown
from parts.words import Wrong


# The kinds of edges that name a place, those that lead to no types, and the media types of modules with types: by these a graph of a
# kind follows edges (docs/RESOLUTION.md).
PLACES = ("require-resolve", "address")
UNTYPED = (*PLACES, "import-source", "dynamic-source", "require", "worker")
TYPED = ("TypeScript", "Mts", "Cts", "Tsx", "Dts", "Dmts", "Dcts")


def is_followed(entry, edge, kind):
    """Whether a graph of a kind follows an edge of an entry."""
    if kind == "types" and entry.kind() == "module":
        return entry.label() in TYPED and edge.kind not in UNTYPED
    return edge.kind not in PLACES and not (kind == "code" and report.is_type_only(edge))


def starts_of(graph):
    return list(dict.fromkeys([*graph.roots, *(edge.target for _, edge in graph.referrers if edge.target)]))


def reached(graph, kind=None, without=None):
    """How each entry is first reached, by its specifier: the entry and the edge before it, or None where it is a start; by edges that
    a graph of the kind follows, the nearest first. without: the specifier of an entry, or that of a module and the number of its edge."""
    came = {specifier: None for specifier in starts_of(graph) if specifier in graph.entries and specifier != without}
    waiting = collections.deque(came)
    while waiting:
        entry = graph.entries[waiting.popleft()]
        for number, edge in enumerate(entry.edges):
            is_there = edge.target in graph.entries and edge.target not in came
            if is_there and is_followed(entry, edge, kind) and without not in (edge.target, (entry.specifier, number)):
                came[edge.target] = (entry, edge)
                waiting.append(edge.target)
    return came


def named(graph, name, front=""):
    """The entry that a name means: its specifier, its path from here or from the folder, or a package of node_modules; or None."""
    path = os.path.relpath(name) if os.path.exists(name) else name
    for specifier in (name, "file:///" + name, "file:///" + path.removeprefix(front)):
        if specifier in graph.entries:
            return graph.entries[specifier]
    for entry in graph.entries.values():
        if shown(entry.specifier) == name or front + shown(entry.specifier) == path:
            return entry
    of_package = [entry for entry in graph.entries.values() if f"/node_modules/{name}/" in entry.specifier or entry.state.startswith(("package npm " + json.dumps(name), "package jsr " + json.dumps(name)))]
    return min(of_package, key=lambda entry: (entry.depth, entry.specifier), default=None)


def place_of(bundle, entry, edge):
    """The line and the column of an edge in its module, or None where it has no place there."""
    source = bundle.source(entry.specifier) if edge.range != "-" and entry.kind() == "module" and "Wasm" not in entry.state else None
    return source.place(faults.range_of(edge)[0]) if source else None


def edge_named(bundle, entry, name):
    """The number of the edge of a module that a name means: its specifier, its line, or its line and column."""
    places = [place_of(bundle, entry, edge) or () for edge in entry.edges]
    found = [number for number, edge in enumerate(entry.edges) if report.value_of(edge) == name]
    found = found or [number for number, place in enumerate(places) if name in (":".join(map(str, place)), *map(str, place[:1]))]
    if len(found) == 1:
        return found[0]
    if found:
        raise Wrong(f"{name}: {len(found)} edges of {shown(entry.specifier)}: name one by LINE:COLUMN, of " + ", ".join(":".join(map(str, places[number])) for number in found))
    raise Wrong(f"{name}: no edge of {shown(entry.specifier)}")


def searched(graph, entry, number=None, kind=None):
    """The way to an entry, or None where there is none, and what is gone without it, or without its edge with a number."""
    came, kept = reached(graph, kind), reached(graph, kind, entry.specifier if number is None else (entry.specifier, number))
    way, at = [], entry.specifier
    while came.get(at):
        way.insert(0, came[at])
        at = way[0][0].specifier
    return way if at in came else None, {specifier for specifier in came if specifier not in kept}


def told(graph, lines, gone_lines):
    """The same, by the lines of the second program for the way, and for what is gone."""
    gone = {line.removeprefix("gone ") for line in gone_lines if line.startswith("gone ")}
    return None if lines[0] == "why none" else [step_of(graph, line) for line in lines if line.startswith("way ")], gone


def step_of(graph, line):
    _, specifier, words = line.split(" ", 2)
    edge = report.EDGE.fullmatch("  " + words)
    return graph.entries[specifier], report.Edge(*edge.groups()) if edge else report.Edge("redirect", "-", '""', "-", words.removeprefix("redirect "), None)


class Reason:
    def __init__(self, graph, entry, lines=None, number=None, gone=None, kind=None):
        """lines: of the second program, or None to search for the way here. number: of an edge of the entry that is left out in its place,
        and gone: the program's lines on that. kind: of the graph."""
        self.graph, self.entry = graph, entry
        self.way, missing = told(graph, lines, lines if number is None else gone) if lines else searched(graph, entry, number, kind)
        self.start = self.way[0][0].specifier if self.way else entry.specifier
        self.edge = None if number is None else entry.edges[number]
        self.alone = [specifier for specifier in graph.entries if specifier in missing and (self.edge or specifier != entry.specifier)]

    def steps(self, bundle):
        """Each edge of the way, and the one that is left out: the module, line and column or None, and the edge."""
        for before, edge in [*(self.way or ()), *([(self.entry, self.edge)] if self.edge else [])]:
            yield before, place_of(bundle, before, edge), edge

    def lines(self, bundle, front=""):
        yield f"{shown(self.start, front)}: {self.said_of_start()}"
        for before, place, edge in self.steps(bundle):
            where = shown(before.specifier, front) + (f":{place[0]}:{place[1]}" if place else "")
            text = "" if edge.kind == "redirect" else f" {json.dumps(report.value_of(edge), ensure_ascii=False)}"
            yield f"{where}: {edge.kind}{text} " + (f"-> {shown(edge.target, front)}" if edge.target else f"! {edge.fault}")
        many = ("entry", "entries") if self.edge else ("other entry", "other entries")
        yield f"without it {report.counted(len(self.alone), *many)} would be gone{':' if self.alone else ''}"
        yield from (f"  {shown(specifier, front)}" for specifier in self.alone)

    def said_of_start(self):
        if self.way is None:
            return "no edge leads to it that has a target"
        return "a root" if self.start in self.graph.roots else "named by a place outside the graph"

    def value(self, bundle):
        steps = []
        for before, place, edge in self.steps(bundle):
            end = {"target": edge.target} if edge.target else {"fault": edge.fault}
            step = {"module": before.specifier, "kind": edge.kind, "specifier": report.value_of(edge), **end}
            steps.append({**step, **(dict(zip(("line", "column"), place)) if place else {})})
        without = {"edge": steps.pop()} if self.edge else {}
        return {"format": "joravelsu-why", "version": 1, "entry": self.entry.specifier, "root": self.start, "way": steps, **without, "alone": self.alone}
