#!/usr/bin/env python3
"""Keeps the graph of some files up to date: watch.py FILE..

It keeps what it has read, looks at the files' times every second, and reads again only what has changed. Each line is + or - and
a specifier that came into the graph or left it, or ! and one that isn't a module.
"""
import os
import sys
import time
import urllib.parse
import urllib.request

import joravelsu


def path_of(specifier):
    return urllib.request.url2pathname(urllib.parse.urlsplit(specifier).path)


def stamp_of(path):
    """The file's time and size, or None if there is no such file."""
    try:
        found = os.stat(path)
    except (FileNotFoundError, NotADirectoryError):
        return None
    return found.st_mtime_ns, found.st_size


class Files:
    """What was read, by specifier, with the file's time and size. `reads` counts the files that were read."""

    def __init__(self):
        self.kept = {}
        self.reads = 0

    def load(self, specifier):
        """The file's bytes, of which only a changed file is read again."""
        try:
            stamp = stamp_of(path_of(specifier))
            if stamp is None:
                self.kept[specifier] = None, joravelsu.ABSENT
            elif self.kept.get(specifier, (None,))[0] != stamp:
                with open(path_of(specifier), "rb") as file:
                    self.kept[specifier] = stamp, file.read()
                self.reads += 1
        except OSError:
            self.kept[specifier] = None, joravelsu.FAILED
        return self.kept[specifier][1]

    def changed(self):
        """Whether a file that was asked for has another time or size, has come, or has gone."""
        try:
            return any(stamp != stamp_of(path_of(specifier)) for specifier, (stamp, _) in self.kept.items())
        except OSError:
            return False


def lines(before, graph):
    """What has changed since the entries before."""
    now = {entry.specifier: entry.fault for entry in graph.entries}
    said = [f"- {specifier}" for specifier in before if specifier not in now]
    said += [f"+ {specifier}" for specifier in now if specifier not in before]
    said += [f"! {specifier} {fault}" for specifier, fault in now.items() if fault and before.get(specifier) != fault]
    return now, said


def main(paths):
    files, before = Files(), {}
    roots = ["file://" + urllib.request.pathname2url(os.path.abspath(path)) for path in paths]
    while True:
        before, said = lines(before, joravelsu.Graph.build(roots, files.load))
        for line in said:
            print(line, flush=True)
        while not files.changed():
            time.sleep(1)


if __name__ == "__main__":
    try:
        main(sys.argv[1:])
    except KeyboardInterrupt:
        sys.exit(130)
