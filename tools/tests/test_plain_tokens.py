"""Tests of tools/plain-tokens: rows of docs/TOKENS.md worked by hand."""
import importlib.machinery
import importlib.util
import os
import unittest

TOOL = os.path.join(os.path.dirname(os.path.dirname(os.path.abspath(__file__))), "plain-tokens")
LOADER = importlib.machinery.SourceFileLoader("plain_tokens", TOOL)
SPEC = importlib.util.spec_from_loader("plain_tokens", LOADER)
plain_tokens = importlib.util.module_from_spec(SPEC)
LOADER.exec_module(plain_tokens)


class Rows(unittest.TestCase):
    def row(self, text, want):
        self.assertEqual(plain_tokens.line_of(text), want)

    def test_goals_of_a_slash(self):
        self.row("x = /[/]/g;", "Name 0-1, Equal 2-3, RegExp 4-10, Semicolon 10-11, ")
        self.row("a/b/c", "Name 0-1, Slash 1-2, Name 2-3, Slash 3-4, Name 4-5, ")
        self.row("if (a) /b/", "IfWord 0-2, OpenParen 3-4=3, Name 4-5, CloseParen 5-6=1, RegExp 7-10, ")

    def test_templates(self):
        self.row("`a${b}c`", "TemplateHead 0-4=2, Name 4-5, TemplateTail 5-8=0, ")

    def test_lines_and_comments(self):
        self.row("a\u2028b//\n", "Name 0-1, *Name 4-5, line 5-7, ")

    def test_faults(self):
        self.row('"\\x4"', "InvalidEscape at byte 1")
        self.row("a\\u0020", "InvalidEscape at byte 1")
        self.row("(]", "Unbalanced at byte 1")
        self.row("(", "Unbalanced at byte 1")
        self.row("1a", "InvalidChar at byte 1")
