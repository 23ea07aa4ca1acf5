"""The paths, the baseUrl and the rootDirs of a tsconfig, as places in the folder."""
import os

from parts.resolve import Patterns, joined
from parts.settings import BadFile, json_of, of_shape
from parts.words import plain

# How many files may extend each other.
MOST_FILES = 100


def extended(file, name):
    """The file that a tsconfig extends by this name; None for one of a package that isn't installed."""
    if name.startswith((".", "/")):
        path = os.path.normpath(os.path.join(os.path.dirname(file), name))
        return path if path.endswith(".json") or os.path.isfile(path) else path + ".json"
    folder = os.path.dirname(os.path.abspath(file))
    while True:
        place = os.path.join(folder, "node_modules", name)
        for path in (place, place + ".json", os.path.join(place, "tsconfig.json")):
            if os.path.isfile(path):
                return path
        if folder == os.path.dirname(folder):
            return None
        folder = os.path.dirname(folder)


def files_of(file):
    """The files that a tsconfig extends, and behind them it, each with its value."""
    found, begun, waiting = [], set(), [(file, None)]
    while waiting:
        at, value = waiting.pop()
        if value is not None:
            found.append((at, value))
            continue
        if os.path.realpath(at) in begun:
            continue
        begun.add(os.path.realpath(at))
        if len(begun) > MOST_FILES:
            raise BadFile(f"{plain(file)}: extends leads over more than {MOST_FILES} files")
        value = of_shape(at, json_of(at, has_comments=True), dict, "the file")
        extends = value.get("extends", [])
        names = [extends] if isinstance(extends, str) else of_shape(at, extends, list, "extends")
        others = [extended(at, of_shape(at, name, str, "extends")) for name in names]
        waiting += [(at, value), *((other, None) for other in reversed(others) if other)]
    return found


class Paths:
    """What a tsconfig and those that it extends say of paths; what leads out of the folder is passed over."""

    def __init__(self, folder, file):
        self.folder = folder
        self.base = None
        self.targets = {}
        self.root_dirs = []
        for at, value in files_of(file):
            self.take(at, value)
        self.patterns = Patterns(self.targets, least=0)

    def place(self, where, path):
        """A path from a place, or an absolute one, as a place; None where it is none of the folder."""
        if os.path.isabs(path):
            where, path = "", os.path.relpath(os.path.realpath(path), self.folder.real_root).replace(os.sep, "/")
        return joined(where, path)

    def take(self, file, value):
        options = of_shape(file, value.get("compilerOptions", {}), dict, "compilerOptions")
        where = os.path.relpath(os.path.realpath(os.path.dirname(file) or "."), self.folder.real_root).replace(os.sep, "/")
        base = of_shape(file, options.get("baseUrl", "."), str, "baseUrl")
        if "baseUrl" in options:
            self.base = self.place(where, base)
        if "paths" in options:
            at, rows = self.place(where, base), of_shape(file, options["paths"], dict, "paths")
            self.targets = {pattern: [(at, of_shape(file, target, str, "paths")) for target in of_shape(file, targets, list, "paths")]
                            for pattern, targets in rows.items()}
        if "rootDirs" in options:
            roots = [self.place(where, of_shape(file, path, str, "rootDirs")) for path in of_shape(file, options["rootDirs"], list, "rootDirs")]
            self.root_dirs = [root for root in roots if root is not None]

    def file_of(self, specifier, ways):
        """The file to which a bare specifier leads, or None."""
        pattern, star = self.patterns.row_of(specifier)
        for at, target in self.targets[pattern] if pattern is not None else ():
            found = self.folder.file_at(joined(at, target.replace("*", star)), ways) if at is not None else None
            if found:
                return found
        return self.folder.file_at(joined(self.base, specifier), ways) if self.base is not None else None

    def in_root_dirs(self, place, ways):
        """The file for a place below one of the rootDirs that stands at the same place below another one."""
        for root in sorted(self.root_dirs, key=lambda root: -len(root)):
            rest = place if root == "" else place[len(root) + 1:] if place.startswith(root + "/") else None
            if rest is None:
                continue
            for other in self.root_dirs:
                found = self.folder.file_at(joined(other, rest), ways) if other != root else None
                if found:
                    return found
            return None
        return None
