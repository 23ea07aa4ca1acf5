"""Rules on a project's graph (docs/TOOLS.md), of which the second program finds the first thing that breaks one."""
import collections
import json
import re

from parts import report
from parts.words import Wrong, plain, read_regular

VERDICT = re.compile(r"policy (?:kept (\d+)|(?:(forbidden|lacking) (\d+)|not-allowed) (.*))")
EDGE = re.compile(rf"(\S+) (?:\S+) (\d+-\d+|-) ({report.TEXT}) (?:-|\?|{report.TEXT}) (?:->|!) .*")

Breach = collections.namedtuple("Breach", "specifier start end what")
Breach.__doc__ = """specifier: of the module in which it is reported. start, end: bytes of its text, or None. what: one sentence."""


class Policy:
    def __init__(self, path):
        self.path = path
        try:
            self.rules = json.loads(read_regular(path))
        except (ValueError, RecursionError) as error:
            raise Wrong(f"{plain(path)}: no JSON: {error}") from error
        self.kept = self.breach = None

    def ask(self, program, bundle):
        """Takes the verdict on the graph of a bundle: how many entries and edges were looked at, or the first that breaks a rule."""
        status, said = program.policy(bundle, self.rules)
        line = said.decode().rstrip("\n")
        found = VERDICT.fullmatch(line)
        if not found:
            at = re.fullmatch(rf"error Bundle ({report.TEXT})", line)
            raise Wrong(f"{plain(self.path)}: no rules: {json.loads(at[1]).removeprefix('/policy') or '/'}" if status == 2 and at else line)
        if found[1]:
            self.kept = int(found[1])
        else:
            self.breach = self.breach_of(found[2], int(found[3] or 0), found[4])

    def breach_of(self, word, number, told):
        edge = EDGE.fullmatch(told)
        if edge:
            start, end = (None, None) if edge[2] == "-" else map(int, edge[2].split("-"))
            return Breach(edge[1], start, end, f"{edge[3]}: {self.why(word, number, self.rules)}")
        rules = self.rules if word == "lacking" else self.rules.get("modules", {})
        return Breach(report.STATE.fullmatch(told)[1], None, None, self.why(word, number, rules))

    @staticmethod
    def why(word, number, rules):
        """A sentence on the rule that forbids it or whose edge it lacks, or that none allows it."""
        if word is None:
            return "no rule of allowed fits it"
        rule = rules["required" if word == "lacking" else word][number]
        name = json.dumps(rule["name"], ensure_ascii=False) if rule.get("name") else f"rule {number}"
        says = "requires an edge that it lacks" if word == "lacking" else "forbids it"
        return f"{name} {says}" + (f": {plain(rule['comment'])}" if rule.get("comment") else "")

    def line(self):
        return "rules: one is broken" if self.breach else f"rules: {report.counted(self.kept, 'entry or edge', 'entries and edges')} looked at, none breaks one"

    def value(self, where):
        """What is said of it as JSON, where a place is given by a function."""
        return {"breach": {**where, "message": self.breach.what}} if self.breach else {"kept": self.kept}
