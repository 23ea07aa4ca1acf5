"""Outlines: short texts with the same sites as long ones. A graph depends on a text by its sites alone, so that a graph of outlines
is that of the texts, but for sizes and places, which are put back; and a text whose outline is known isn't read again."""
import collections
import json

from parts.sites import Site

Outline = collections.namedtuple("Outline", "data size places sites")
Outline.__doc__ = """data: the bytes that stand for those of a text. size: how many bytes the text has, without a byte order mark. places:
of each site in turn its first byte in the outline, its first byte in the text, and the byte behind it there; None if the outline is
the text itself. sites: what the text names, each once."""

# A text of so few bytes is its own outline.
SHORT = 400
MARK = b"\xef\xbb\xbf"
# Kinds that may be only for types.
TYPED = ("import", "export", "import-equals")
# Of each kind of a site, and whether it is only for types, a text that has it: of a literal, and of an attribute behind it.
FORMS = {
    ("import", False): "import {} from %s%s;\n", ("import", True): "import type {} from %s%s;\n",
    ("export", False): "export * from %s%s;\n", ("export", True): "export type * from %s%s;\n",
    ("import-source", False): "import source a from %s%s;\n", ("import-defer", False): "import defer * as a from %s%s;\n",
    ("import-equals", False): "import a = require(%s%s);\n", ("import-equals", True): "import type a = require(%s%s);\n",
    ("dynamic", False): "import(%s%s);\n", ("dynamic-source", False): "import.source(%s%s);\n", ("dynamic-defer", False): "import.defer(%s%s);\n",
    ("reference-path", True): "/// <reference path=%s%s />\n", ("reference-types", True): "/// <reference types=%s%s />\n",
}


def named(found):
    """A site, or an edge, as parts.sites has it."""
    return Site(f"{found.kind}-type" if found.type_only and found.kind in TYPED else found.kind, found.value)


def without_sites(data):
    """The outline of a file that is no source: it is empty where that is a text."""
    try:
        data.decode()
    except UnicodeDecodeError:
        return of_no_utf8()
    return Outline(b"", size_of(data), [], [])


def of_no_utf8():
    return Outline(b"\xff", 0, [], [])


def of_no_program():
    return Outline(b"(", 0, [], [])


def size_of(data):
    return len(data) - len(MARK) * data.startswith(MARK)


def outline_of(data, found, read, unknown):
    """The outline of a text with these sites, or None where no text of these forms has them. read: the sites of another text."""
    names = list(dict.fromkeys(map(named, found)))
    if len(data) <= SHORT:
        return Outline(data, size_of(data), None, names)
    text = text_with(found, unknown)
    again = read(text.encode()) if text is not None else None
    if again is None or list(map(without_place, again)) != list(map(without_place, found)):
        return None
    places = [byte for other, site in zip(again, found) for byte in (other.start, site.start, site.end)]
    return Outline(text.encode(), size_of(data), places, names)


def without_place(site):
    return site.kind, site.type_only, site.value, site.attribute


def text_with(found, unknown):
    """A text that has these sites, or None."""
    parts = []
    for site in found:
        form = FORMS.get((site.kind, site.type_only))
        if form is None:
            return None
        literal = f'"{site.value}"' if site.kind.startswith("reference-") else json.dumps(site.value, ensure_ascii=False)
        parts.append(form % (literal, attribute_of(site, unknown)))
    return "".join(parts)


def attribute_of(site, unknown):
    if site.attribute is None:
        return ""
    if site.attribute is unknown:  # comments and import-equals have no other one
        return ", a" if site.kind.startswith("dynamic") else ""
    table = f"{{ type: {json.dumps(site.attribute, ensure_ascii=False)} }}"
    return f", {{ with: {table} }}" if site.kind.startswith("dynamic") else f" with {table}"


# ---- as rows of parts.records


def row_of(key, outline):
    text = None if outline == of_no_utf8() else outline.data.decode()
    return [key, text, outline.size, outline.places, [word for site in outline.sites for word in site]]


def of_row(row):
    return Outline(data_of_row(row), row[2], row[3], sites_of_row(row))


def data_of_row(row):
    return of_no_utf8().data if row[1] is None else row[1].encode()


def sites_of_row(row):
    words = iter(row[4])
    return list(map(Site._make, zip(words, words)))


def size_of_row(row):
    return row[2]


def spans_of_row(row):
    """The places of the sites in the text, as a report has them, each with its first byte in the outline."""
    return {at: f"{start}-{end}" for at, start, end in zip(row[3][::3], row[3][1::3], row[3][2::3])}


def is_apart(row):
    """Whether an outline isn't the text itself."""
    return row[3] is not None
