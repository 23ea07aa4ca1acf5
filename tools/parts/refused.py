"""What printed declarations keep of a source, and TypeScript refuses in a .d.ts."""
import re
from typing import NamedTuple

TOKEN = re.compile(
    r"""(?P<aside>\s+|//[^\n]*|/\*.*?\*/)
    |(?P<string>"(?:[^"\\]|\\.)*"|'(?:[^'\\]|\\.)*')
    |(?P<template>`(?:[^`\\]|\\.)*`)
    |(?P<big>(?:0[xXoObB])?[0-9][0-9a-fA-F_]*n\b)
    |(?P<word>\#?(?:[\w$\u200c\u200d]|\\u(?:\{[0-9a-fA-F]+\}|[0-9a-fA-F]{4}))+)
    |(?P<sign>\.\.\.|=>|==|[!<>]=|.)""",
    re.S | re.X,
)
OPEN, CLOSE = {"(", "[", "{"}, {")", "]", "}"}
# Words before the name of a parameter that make it a property, and before a member's.
PROPERTY = {"public", "private", "protected", "readonly", "override"}
BEFORE_MEMBER = PROPERTY | {"static", "abstract", "declare", "accessor", "get", "set", "async", "*"}
# What stands before a statement or a member.
BORDERS = {"{", "}", ";"}

SAID = {
    "property": "a parameter that is a property (TS2369)",
    "default": "an expression as the default export (TS2714)",
    "parameter": "a default of a parameter (TS2371)",
    "key": "a key that is a bigint in brackets (TS1170)",
    "using": "using",
    "async": "async (TS1040)",
    "star": "the * of a generator (TS1221)",
}


class Refused(NamedTuple):
    """One such place: what is refused, and its line in the printed text, from 1."""

    what: str
    line: int


class Reading:
    """The tokens of a printed text, and where those that are open began."""

    def __init__(self, text):
        found = [it for it in TOKEN.finditer(text) if it.lastgroup != "aside"]
        self.text = text
        self.tokens = [it[0] for it in found]
        self.kinds = [it.lastgroup for it in found]
        self.starts = [it.start() for it in found]

    def token(self, at):
        return self.tokens[at] if 0 <= at < len(self.tokens) else ""

    def kind(self, at):
        return self.kinds[at] if 0 <= at < len(self.tokens) else ""

    def is_named(self, at):
        """Whether a name, or a pattern, stands there."""
        return self.kind(at) == "word" or self.token(at) in ("{", "[", "...")

    def is_key(self, at):
        """Whether the key of a member begins there."""
        return self.kind(at) in ("word", "string", "big") or self.token(at) == "["

    def begins(self, at):
        """Whether a statement or a member begins there."""
        return at == 0 or self.token(at - 1) in BORDERS

    def begins_member(self, at):
        """The same, words before its name aside."""
        while at > 0 and self.token(at - 1) in BEFORE_MEMBER:
            at -= 1
        return self.begins(at)

    def is_constructor(self, at):
        """Whether the parameters that open there are those of a constructor."""
        return self.token(at - 1) == "constructor" and self.begins_member(at - 1)

    def default_lists(self):
        """Where the parameters of functions that are exported by default open."""
        for at, token in enumerate(self.tokens):
            before = at - 2 if self.token(at - 1) == "async" else at - 1
            if token == "function" and (self.token(before - 1), self.token(before)) == ("export", "default"):
                yield self.behind_parameters_of_types(at)

    def behind_parameters_of_types(self, at):
        """The first round bracket behind a head, outside angle brackets."""
        depth = 0
        while at < len(self.tokens) and not (self.tokens[at] == "(" and depth <= 0):
            depth += {"<": 1, ">": -1}.get(self.tokens[at], 0)
            at += 1
        return at

    def default_export(self, at):
        """Whether what is exported by default there is an expression."""
        head = self.token(at)
        if head in ("function", "class", "interface") or (head in ("abstract", "async") and self.token(at + 1) in ("class", "function")):
            return False
        return not (self.kind(at) == "word" and not head[0].isdigit() and self.token(at + 1) in (";", ""))

    def keeps(self, at, around):
        """What begins at a token and is refused, if something does; around is the list in which it stands."""
        token, behind, before = self.tokens[at], self.token(at + 1), self.token(at - 1)
        if around == "constructor" and before in ("(", ",") and token in PROPERTY and self.is_named(at + 1):
            return "property"
        if around == "default" and token == "=":
            return "parameter"
        if token == "default" and before == "export" and self.begins(at - 1) and self.default_export(at + 1):
            return "default"
        if token == "[" and self.kind(at + 1) == "big" and self.token(at + 2) == "]" and self.begins_member(at):
            return "key"
        if token == "using" and (self.begins(at) or before == "await") and self.kind(at + 1) == "word":
            return "using"
        if token == "async" and (behind == "function" or (self.begins_member(at) and (behind == "*" or self.is_key(at + 1)))):
            return "async"
        if token == "*" and (before == "function" or (self.is_key(at + 1) and self.begins_member(at))):
            return "star"
        return None

    def refused(self):
        """What is refused, in the order of the text."""
        opened, line, last, defaults = [], 1, 0, set(self.default_lists())
        for at, token in enumerate(self.tokens):
            line, last = line + self.text.count("\n", last, self.starts[at]), self.starts[at]
            what = self.keeps(at, opened[-1] if opened else None)
            if what:
                yield Refused(what, line)
            if self.kinds[at] != "sign":
                continue
            if token == "(" and (at in defaults or self.is_constructor(at)):
                opened.append("default" if at in defaults else "constructor")
            elif token in OPEN:
                opened.append(None)
            elif token in CLOSE and opened:
                opened.pop()


def refused_in(text):
    """What TypeScript refuses of a printed text, if it stands in a .d.ts."""
    return list(Reading(text).refused())


def said_of(name, text, it):
    """One line on such a place."""
    return f"{name}: TypeScript refuses in a .d.ts {SAID[it.what]}: {text.split(chr(10))[it.line - 1].strip()}"
