"""Bundles, as docs/REPORT.md describes them: the texts of their modules, and places in these."""
import base64
import binascii
import json
import re
import sys
from bisect import bisect_right
from urllib.parse import unquote, unquote_to_bytes

from parts import urls
from parts.words import NoGraph, plain, read_regular

MARK = b"\xef\xbb\xbf"
# How many bytes on each side of a place are looked at to show its line.
NEAR = 2_000


class NoBundle(NoGraph):
    """Why the input is no bundle, in one line."""


def has_content(module):
    """Whether a module of a bundle has its content, as text, as base64, or as the bytes of a file, which may be read later."""
    return "bytes" in module or "path" in module or "text" in module or "base64" in module


class Bundle:
    def __init__(self, data):
        try:
            value = json.loads(data)
            modules = value["modules"]
            self.modules = {}
            for module in modules:
                self.modules[url_of(module["specifier"])] = module
        except (ValueError, KeyError, TypeError) as error:
            raise NoBundle("the bundle can't be read; tools/check-bundle says what is wrong with it") from error
        self.sources = {}

    @classmethod
    def of_contents(cls, contents):
        """The bundle of these contents, by specifier."""
        made = cls.__new__(cls)
        made.modules, made.sources = contents, {}
        return made

    def bytes_of(self, specifier):
        """The bytes that a module has, or None."""
        if specifier.startswith("data:"):
            return held_by(specifier)
        module = self.modules.get(specifier, {})
        if "bytes" in module:
            return module["bytes"]
        if "path" in module:
            return read_again(module["path"], module["row"])
        if "text" in module:
            return module["text"].encode("utf-8", "surrogatepass")
        if "base64" in module:
            try:
                return base64.b64decode(module["base64"])
            except binascii.Error:
                return None
        return None

    def source(self, specifier):
        """The text of a module, as places count it, or None."""
        if specifier not in self.sources:
            data = self.bytes_of(specifier)
            self.sources[specifier] = None if data is None else Source(data)
        return self.sources[specifier]


def read_again(path, row):
    """The bytes of a file whose row in the records is this one."""
    from parts import records

    data = read_regular(path, sys.maxsize - 1)
    if records.Records.key(path, {"bytes": data}) != row[0]:
        raise NoBundle(f"{plain(path)}: it has changed")
    return data


def held_by(url):
    """The bytes that a data: URL holds, or None, by the rules of crates/data_specifier."""
    front, comma, body = url[len("data:"):].partition("#")[0].partition(",")
    data = unquote_to_bytes(body)
    if not re.search(r"; *base64 *$", front, re.IGNORECASE):
        return data if comma else None
    digits = re.sub(rb"[\t\n\f\r ]", b"", data)
    if len(digits) % 4 == 0:
        digits = re.sub(rb"={1,2}$", b"", digits)
    try:
        return base64.b64decode(digits + b"=" * (-len(digits) % 4), validate=True)
    except binascii.Error:
        return None


def url_of(text):
    try:
        return urls.url_of(text)
    except urls.NoUrl:
        return text


class Source:
    """Bytes as UTF-8 without one byte order mark, and where their lines begin."""

    def __init__(self, data):
        self.data = data.removeprefix(MARK)
        self.mark = len(data) - len(self.data)
        self.starts = None
        self.last = (0, 0, 0)  # of the last place that was asked for: the line's start, the byte, the characters between

    def text(self):
        return self.data.decode("utf-8", "replace")

    def no_utf8(self):
        """The first byte that is no UTF-8, or None; the mark isn't counted."""
        try:
            self.data.decode("utf-8")
        except UnicodeDecodeError as error:
            return error.start
        return None

    def lines(self):
        if self.starts is None:
            self.starts = [0]
            at = 0
            for line in self.data.splitlines(keepends=True):  # of bytes: at \n, \r and \r\n
                at += len(line)
                if line.endswith((b"\n", b"\r")):
                    self.starts.append(at)
        return self.starts

    def place(self, at):
        """The line and the column of a byte, both from 1; a column counts characters."""
        starts = self.lines()
        line = bisect_right(starts, at)
        start, byte, count = self.last
        if start != starts[line - 1] or byte > at:
            start, byte, count = starts[line - 1], starts[line - 1], 0
        count += len(self.data[byte:at].decode("utf-8", "replace"))
        self.last = start, at, count
        return line, count + 1

    def line(self, number, near=None):
        """The text of a line, from 1, and the byte with which it begins: of a long one what is near a byte of it."""
        starts = self.lines()
        start = starts[number - 1]
        end = starts[number] if number < len(starts) else len(self.data)
        if near is not None:
            start, end = max(start, near - NEAR), min(end, near + NEAR)
            while start < near and self.data[start] & 0xC0 == 0x80:
                start += 1
        return self.data[start:end].decode("utf-8", "replace").rstrip("\r\n"), start


def shown(specifier, front=""):
    """A specifier as a person reads it: a file's path, or the URL."""
    if not specifier.startswith("file:///"):
        return plain(specifier)
    return plain(front + unquote(specifier[len("file:///"):], errors="replace"))
