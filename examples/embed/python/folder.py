#!/usr/bin/env python3
"""The graph of some files by a resolution of its own: folder.py FILE..

A relative specifier is a file as it is written, with .ts, .tsx, .js or .mjs after it, or the index of a folder; a bare one is looked up
in the folders node_modules above. Each line is a file, or an edge of it with its line and column, and what that resolves to.
"""
import os
import sys
import urllib.parse
import urllib.request

import joravelsu

ENDINGS = ("", ".ts", ".tsx", ".js", ".mjs", "/index.ts", "/index.js")


def path_of(specifier):
    return urllib.request.url2pathname(urllib.parse.urlsplit(specifier).path)


def url_of(path):
    return "file://" + urllib.request.pathname2url(path)


def resolve(specifier, referrer):
    """The URL of the file, or None if there is none."""
    if ":" in specifier:
        return specifier
    at = os.path.dirname(path_of(referrer))
    folders = [at]
    if not specifier.startswith((".", "/")):
        while os.path.dirname(at) != at:
            at = os.path.dirname(at)
            folders.append(at)
        folders = [os.path.join(folder, "node_modules") for folder in folders]
    for folder in folders:
        path = os.path.normpath(os.path.join(folder, specifier))
        for ending in ENDINGS:
            if os.path.isfile(path + ending):
                return url_of(path + ending)
    return None


def load(specifier):
    if not specifier.startswith("file:"):
        return joravelsu.EXTERNAL
    try:
        with open(path_of(specifier), "rb") as file:
            return file.read()
    except FileNotFoundError:
        return joravelsu.ABSENT


def lines(graph):
    for entry in graph.entries:
        yield f"{entry.specifier} {entry.fault or entry.state}"
        for edge in entry.edges:
            line, column = graph.place(entry, edge.start)
            yield f"  {line}:{column} {edge.value} {edge.fault or '-> ' + edge.target_specifier}"


def main(paths):
    for line in lines(joravelsu.Graph.build([url_of(os.path.abspath(path)) for path in paths], load, resolver=resolve)):
        print(line)


if __name__ == "__main__":
    main(sys.argv[1:])
