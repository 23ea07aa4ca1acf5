"""Tokens of JavaScript and TypeScript as far as tools need them: where words, literals and brackets stand.

It isn't the lexer of the program, which is proved; it is quick, never fails, and may be wrong where a / can be read as a
division or as a regular expression: behind a } it is taken for a division, as the program takes it.
"""
import re

WORD = r"#?(?:[A-Za-z0-9_$]|[^\x00-\x7f\s\ufeff]|\\u[0-9A-Fa-f]{4}|\\u\{[0-9A-Fa-f]+\})+"
PIECE = re.compile(
    r"(?P<blank>[\s\ufeff]+|//[^\n\r\u2028\u2029]*|/\*[\s\S]*?\*/|(?<![\s\S])#![^\n\r]*)"
    r"|(?P<comment>/\*)"
    r"""|(?P<string>"(?:[^"\\\n\r]|\\\r\n|\\[\s\S])*"|'(?:[^'\\\n\r]|\\\r\n|\\[\s\S])*')"""
    r"""|(?P<quote>["'])"""
    r"|(?P<template>`)"
    r"|(?P<number>(?:0[xXoObB][0-9A-Fa-f_]+|(?:[0-9][0-9_]*\.?[0-9_]*|\.[0-9][0-9_]*)(?:[eE][+-]?[0-9_]+)?)n?)"
    rf"|(?P<word>{WORD})"
    r"|(?P<sign>\?\.(?![0-9])|=>|\.\.\.|===|!==|==|!=|<=|>>>=|>>=|\*\*=|\*\*|\+\+|--|&&=|\|\|=|\?\?=|&&|\|\||\?\?|<<=|<<|[-+*/%&|^]=|[\s\S])"
)
REGEXP = re.compile(r"/(?![*/])(?:\\[^\n\r\u2028\u2029]|\[(?:\\[^\n\r\u2028\u2029]|[^\]\\\n\r\u2028\u2029])*\]|[^/\\\[\n\r\u2028\u2029])+/[A-Za-z0-9_$]*")
TEMPLATE = re.compile(r"(?:[^`\\$]|\\[\s\S]|\$(?!\{))*(`|\$\{)")
# Words behind which an expression begins.
BEFORE = frozenset("""return typeof instanceof in of new delete void throw case do else yield await extends default""".split())
HEADS = frozenset("if while for with".split())
LINE_END = re.compile(r"[\n\r]")
MOST_OPEN = 20
OPENS, CLOSES = {"(": ")", "[": "]", "{": "}"}, {")": "(", "]": "[", "}": "{"}


class Token:
    """kind: word, string, number, regexp, sign, or template (whole), head, middle, tail of one with ${ }."""

    __slots__ = ("kind", "start", "end", "text", "line_before", "mate", "was_operand")

    def __init__(self, kind, start, end, text, line_before, was_operand):
        self.kind, self.start, self.end, self.text, self.line_before = kind, start, end, text, line_before
        self.mate = None  # the number of the bracket that closes or opens this one
        self.was_operand = was_operand  # whether an operand stands in front, so that an operator may follow

    def is_word(self, *words):
        return self.kind == "word" and (not words or self.text in words)

    def is_sign(self, *signs):
        return self.kind == "sign" and self.text in signs


class Scan:
    """The tokens of a text, with the first lexical fault as (what, place), or None."""

    def __init__(self, text):
        self.text = text
        self.tokens = []
        self.fault = None
        self.open = []
        self.heads = []
        self.no_regexps = (0, 0)  # on the line that ends there so many regular expressions had no end
        self.operand = False
        self.read()

    def refuse(self, what, at):
        if self.fault is None:
            self.fault = (what, at)

    def read(self):
        text, at, end, line = self.text, 0, len(self.text), False
        while at < end:
            piece = PIECE.match(text, at)
            kind, stop = piece.lastgroup, piece.end()
            if kind == "blank":
                line = line or any(c in text[at:stop] for c in "\n\r\u2028\u2029")
                at = stop
                continue
            if kind in ("comment", "quote"):
                self.refuse("UnterminatedComment" if kind == "comment" else "UnterminatedString", at)
                if kind == "comment":
                    break
                kind, stop = "string", self.line_end(at)
            elif kind == "template":
                kind, stop = self.template(at, "template", "head")
            elif kind == "sign" and text[at] == "/" and not self.operand:
                found = self.regexp(at)
                if found:
                    kind, stop = "regexp", found
            elif kind == "sign" and text[at] == "}" and self.open and self.tokens[self.open[-1]].kind in ("head", "middle"):
                kind, stop = self.template(at, "tail", "middle")
            self.add(kind, at, stop, line)
            line = False
            at = stop
        for number in self.open:
            self.refuse("Unbalanced", self.tokens[number].start)

    def regexp(self, at):
        """The end of a regular expression, or None; on a line where many have none, none is looked for any more."""
        end, count = self.no_regexps
        if at < end and count > MOST_OPEN:
            return None
        found = REGEXP.match(self.text, at)
        if found:
            return found.end()
        self.no_regexps = (end, count + 1) if at < end else (self.line_end(at), 1)
        return None

    def line_end(self, at):
        found = LINE_END.search(self.text, at)
        return found.start() if found else len(self.text)

    def template(self, at, whole, part):
        found = TEMPLATE.match(self.text, at + 1)
        if not found:
            self.refuse("UnterminatedTemplate", at)
            return whole, len(self.text)
        return (whole if found[1] == "`" else part), found.end()

    def add(self, kind, start, stop, line):
        text = self.text[start:stop]
        token = Token(kind, start, stop, text, line, self.operand)
        number = len(self.tokens)
        self.tokens.append(token)
        if kind in ("tail", "middle"):
            self.close(number, token)
        if kind in ("head", "middle"):
            self.open.append(number)
        elif kind == "sign" and text in OPENS:
            self.open.append(number)
            before = self.tokens[number - 1] if number else None
            self.heads.append(text == "(" and before is not None and before.is_word(*HEADS))
        elif kind == "sign" and text in CLOSES:
            self.close(number, token)
            is_head = self.heads.pop() if self.heads else False
            self.operand = not (text == ")" and is_head)
            return
        if kind == "word":
            behind_dot = number and self.tokens[number - 1].is_sign(".", "?.")
            self.operand = behind_dot or text not in BEFORE
        elif kind == "sign":
            self.operand = text in ("++", "--") and self.operand
        else:
            self.operand = kind not in ("head", "middle")

    def close(self, number, token):
        if not self.open:
            self.refuse("Unbalanced", token.start)
            return
        opener = self.tokens[self.open[-1]]
        fits = opener.kind in ("head", "middle") if token.kind in ("tail", "middle") else opener.text == CLOSES.get(token.text)
        if not fits:
            self.refuse("Unbalanced", token.start)
            return
        opener.mate, token.mate = number, self.open.pop()


def bytes_before(text, at):
    """How many bytes stand before a character."""
    return at if text.isascii() else len(text[:at].encode("utf-8", "surrogatepass"))


def byte_places(text, places):
    """How many bytes stand before each of these characters; each part of the text is looked at once."""
    found, last, count = {}, 0, 0
    for at in sorted(set(places)):
        count += len(text[last:at].encode("utf-8", "surrogatepass"))
        found[at], last = count, at
    return found
