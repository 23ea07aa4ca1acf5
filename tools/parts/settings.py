"""Files of settings in folders of strangers: package.json, tsconfig.json, deno.json. Each is read in linear time, with limits
on its size and its depth."""
import json
import re

from parts.words import Wrong, plain, read_regular

# How many brackets may stand within each other.
DEEPEST = 200
KINDS = {dict: "an object", list: "a list", str: "a text"}
# Each alternative goes on to the end of the text where its own end isn't there, so that no part is looked at twice.
PIECE = re.compile(r'"(?:[^"\\]|\\[\s\S]?)*(?:"|\Z)|//[^\n]*|/\*[\s\S]*?(?:\*/|\Z)|[,\[\]{}]|[^"/,\[\]{}]+|/')


class BadFile(Wrong):
    """A file of settings that can't be read, in one line."""


def without_comments(text):
    """A text of JSON without comments, and without commas before a bracket that closes."""
    made, comma = [], None
    for piece in PIECE.findall(text):
        if piece.startswith(("//", "/*")):
            made.append(" ")
            continue
        if piece in "]}" and comma is not None:
            made[comma] = " "
        if piece == ",":
            comma = len(made)
        elif not piece.isspace():
            comma = None
        made.append(piece)
    return "".join(made)


def depth_of(text):
    """How many brackets of a text of JSON stand within each other."""
    depth = most = 0
    for piece in PIECE.findall(text):
        if piece in ("[", "{"):
            depth += 1
            most = max(most, depth)
        elif piece in ("]", "}"):
            depth -= 1
    return most


def json_of(path, has_comments=False):
    """The value of a file of JSON, with comments and commas at the end where a tsconfig may have them."""
    try:
        data = read_regular(path)
    except Wrong as error:
        raise BadFile(str(error)) from error
    try:
        text = data.decode("utf-8-sig")
        text = without_comments(text) if has_comments else text
        if depth_of(text) > DEEPEST:
            raise BadFile(f"{plain(path)}: more than {DEEPEST} nested brackets")
        return json.loads(text)
    except (ValueError, RecursionError) as error:
        raise BadFile(f"{plain(path)}: not JSON: {plain(str(error))}") from error


def of_shape(file, value, kind, name):
    """A value of a file, where it is of this kind."""
    if not isinstance(value, kind):
        raise BadFile(f"{plain(file)}: {name} isn't {KINDS[kind]}")
    return value
