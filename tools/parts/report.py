"""Reports, as docs/REPORT.md describes them, and the graphs that they tell."""
import collections
import json
import re

from parts.words import NoGraph

TEXT = r'"(?:[^"\\]|\\.)*"'
EDGE = re.compile(rf"  (\S+) (\d+-\d+|-) ({TEXT}) (-|\?|{TEXT}) (?:-> (.+)|! (.+))")
STATE = re.compile(rf"(.+) (module \S+ \d+|package \S+ {TEXT} \S.*|redirect \S.*|external|error \S+(?: .*)?)")
REFERRER = re.compile(rf"import (\S+) (\S+) (\d+-\d+|-) ({TEXT}) (-|\?|{TEXT}) (?:-> (.+)|! (.+))")


# The kinds of edges by which a running program takes a module later, if at all.
LATER = ("dynamic", "dynamic-source", "dynamic-defer", "import-defer", "worker", "require-resolve", "address")


class NoReport(NoGraph):
    """Why the input is no report of a graph, in one line."""


Edge = collections.namedtuple("Edge", "kind range text attribute target fault")


def base_kind(kind):
    return kind[: -len("-type")] if kind.endswith("-type") else kind


def is_type_only(edge):
    return edge.kind.endswith("-type") or edge.kind in ("reference-path", "reference-types", "type-import")


def value_of(edge):
    """The text by which an edge names the other module."""
    return json.loads(edge.text)


def place_of(specifier, state):
    """The folder and the name of a specifier."""
    if state.startswith("package ") or specifier.startswith(("npm:", "jsr:")):
        return "packages", specifier
    for scheme in ("data:", "node:"):
        if specifier.startswith(scheme):
            return scheme, specifier[len(scheme):]
    front, _, name = re.split(r"[?#]", specifier, maxsplit=1)[0].rpartition("/")
    folder = re.sub(r"^file:///?", "/", front + "/") if front else specifier
    return folder.replace("//", "/") if folder.startswith("/") else folder, specifier[len(front) + 1:] or name or "/"


class Entry:
    def __init__(self, specifier, state):
        self.specifier = specifier
        self.state = state
        self.edges = []
        self.is_root = False
        self.depth = None
        self.folder, self.name = place_of(specifier, state)

    def kind(self):
        """module, package, redirect, external or error."""
        return self.state.split(" ", 1)[0]

    def label(self):
        """What stands beside the name."""
        words = self.state.split(" ")
        return words[1] if words[0] in ("module", "error", "package") else words[0]

    def is_faulty(self):
        return self.state.startswith("error ")

    def fault(self):
        """The name of the entry's fault, or None."""
        return self.state[len("error "):] if self.is_faulty() else None

    def size(self):
        """The bytes of a module, else None."""
        return int(self.state.rsplit(" ", 1)[1]) if self.kind() == "module" else None


class Graph:
    def __init__(self, lines):
        self.roots = []
        self.entries = {}
        self.referrers = []
        last = None
        for number, line in enumerate(lines, 1):
            last = self.read(number, line, last)
        roots = set(self.roots)
        for entry in self.entries.values():
            entry.is_root = entry.specifier in roots
        self.measure()

    def read(self, number, line, last):
        """One line; the answer is the entry to which the next edges belong."""
        edge = EDGE.fullmatch(line) if line.startswith("  ") else None
        if edge and last:
            last.edges.append(Edge(*edge.groups()))
            return last
        if line.startswith("root "):
            self.roots.append(line[len("root "):])
            return last
        if re.fullmatch(r"entries \d+", line):
            return None
        referrer = REFERRER.fullmatch(line)
        if referrer:
            self.referrers.append((referrer[1], Edge(*referrer.groups()[1:])))
            return None
        state = STATE.fullmatch(line)
        if not state:
            if number == 1 and line.startswith("error "):
                raise NoReport(f"the report is {line!r}, which has no graph")
            raise NoReport(f"line {number} is no line of a report: {line[:60]!r}")
        entry = Entry(state[1], state[2])
        self.entries[entry.specifier] = entry
        if entry.state.startswith("redirect "):
            entry.edges.append(Edge("redirect", "-", '""', "-", entry.state[len("redirect "):], None))
        return entry

    def measure(self):
        """How many steps each entry is away from the roots."""
        starts = self.roots + [edge.target for _, edge in self.referrers if edge.target]
        for specifier in starts:
            if specifier in self.entries:
                self.entries[specifier].depth = 0
        waiting = collections.deque(entry for entry in self.entries.values() if entry.depth == 0)
        while waiting:
            entry = waiting.popleft()
            for edge in entry.edges:
                target = self.entries.get(edge.target)
                if target and target.depth is None:
                    target.depth = entry.depth + 1
                    waiting.append(target)
        for entry in self.entries.values():
            entry.depth = entry.depth or 0

    def edges(self):
        """Each edge that has a target that is an entry, with its two ends."""
        for entry in self.entries.values():
            for edge in entry.edges:
                if edge.target in self.entries:
                    yield entry, edge, self.entries[edge.target]

    def end_of(self, specifier):
        """The entry to which a specifier leads over redirects, or None."""
        for _ in range(12):
            entry = self.entries.get(specifier)
            if not entry or entry.kind() != "redirect":
                return entry
            specifier = entry.edges[0].target
        return None

    def faults(self):
        """Each entry that is an error, and each edge that leads nowhere, in a line."""
        for entry in self.entries.values():
            if entry.is_faulty():
                yield entry, entry.state[len("error "):]
            for edge in entry.edges:
                if edge.fault:
                    yield entry, f"{edge.text} {edge.fault}"

    def counts(self):
        """The counts of the graph, in a line."""
        states = collections.Counter(entry.kind() for entry in self.entries.values())
        edges = [edge for entry in self.entries.values() for edge in entry.edges if edge.kind != "redirect"]
        parts = [counted(len(self.entries), "entry", "entries")]
        for word, one, many in (("module", "module", "modules"), ("package", "package", "packages"), ("redirect", "redirect", "redirects"),
                                ("external", "external", "external"), ("error", "error", "errors")):
            if states[word]:
                parts.append(counted(states[word], one, many))
        parts.append(counted(len(edges), "edge", "edges"))
        faults = sum(1 for edge in edges if edge.fault)
        if faults:
            parts.append(f"{faults:,} of them without target")
        return ", ".join(parts)

    def cycles(self):
        """The cycles: lists of entries of which each reaches each other over edges that load code, the longest first."""
        return sorted((part for part in self.parts() if len(part) > 1 or self.leads_to_itself(part[0])), key=lambda part: (-len(part), part[0].specifier))

    def leads_to_itself(self, entry):
        return any(target is entry for target in self.loaded(entry))

    def loaded(self, entry):
        """The entries to which edges of an entry lead over redirects that aren't only for types; an import() waits, as a deferred import does, and is none."""
        for edge in entry.edges:
            if edge.target in self.entries and not is_type_only(edge) and edge.kind not in LATER and entry.kind() != "redirect":
                target = self.end_of(edge.target)
                if target is not None:
                    yield target

    def parts(self):
        """The strongly connected parts (Tarjan), without recursion."""
        number, low, on, stack, found = {}, {}, set(), [], []
        for start in self.entries.values():
            if start.specifier in number:
                continue
            work = [(start, None)]
            while work:
                entry, rest = work.pop()
                name = entry.specifier
                if rest is None:
                    number[name] = low[name] = len(number)
                    stack.append(entry)
                    on.add(name)
                    rest = iter(list(self.loaded(entry)))
                for target in rest:
                    if target.specifier not in number:
                        work += [(entry, rest), (target, None)]
                        break
                    if target.specifier in on:
                        low[name] = min(low[name], number[target.specifier])
                else:
                    if low[name] == number[name]:
                        part = []
                        while not part or part[-1] is not entry:
                            part.append(stack.pop())
                            on.discard(part[-1].specifier)
                        found.append(part[::-1])
                    if work:
                        above = work[-1][0].specifier
                        low[above] = min(low[above], low[name])
        return found

    def importers(self):
        """The specifiers of the modules of which an edge leads to each entry, over redirects too, in the order of the report."""
        found = {specifier: {} for specifier in self.entries}
        for source in self.entries.values():
            for edge in source.edges if source.kind() != "redirect" else ():
                target = self.entries.get(edge.target)
                for _ in range(12):
                    if target is None:
                        break
                    found[target.specifier][source.specifier] = None
                    target = self.entries.get(target.edges[0].target) if target.kind() == "redirect" else None
        for place, edge in self.referrers:  # one that is an entry says what belongs to it, as its declaration
            if place in self.entries and edge.target in self.entries:
                found[edge.target][place] = None
        return {specifier: list(names) for specifier, names in found.items()}


def counted(count, one, many):
    return f"{count:,} {one if count == 1 else many}"


def lines_in(data):
    try:
        text = data.decode("utf-8")
    except UnicodeDecodeError as error:
        raise NoReport(f"byte {error.start} is no UTF-8") from error
    if not text:
        raise NoReport("it is empty")
    return text.removesuffix("\n").split("\n")


def graph_of(data):
    """The graph that the bytes of a report tell."""
    return Graph(lines_in(data))
