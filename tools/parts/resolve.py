"""Where a specifier leads in a folder, as Node and TypeScript's resolution for bundlers have it: endings, index files and
packages. Places are paths from the folder, with / between names; nothing outside the folder is looked at.
"""
import collections
import fnmatch
import os
import posixpath
import re

from parts.settings import BadFile, json_of
from parts.words import plain

ENDINGS = (".ts", ".tsx", ".mts", ".cts", ".d.ts", ".js", ".mjs", ".cjs", ".jsx", ".json")
DECLARATIONS = (".d.ts", ".d.mts", ".d.cts")
TYPES = (".ts", ".tsx", ".mts", ".cts", ".d.ts")
# What stands for a file of JavaScript: the source of which it is made, or its declaration.
KIN = {".js": (".ts", ".tsx", ".d.ts"), ".mjs": (".mts", ".d.mts"), ".cjs": (".cts", ".d.cts"), ".jsx": (".tsx", ".d.ts")}
CONDITIONS = ("import", "module", "default")
# By which Node leads a call of require, and the endings that it tries first.
REQUIRED = ("require", "node", "default")
REQUIRED_ENDINGS = (".js", ".json", ".cjs")
# A longer specifier is no path of a file.
LONGEST = 4096
BUILTINS = frozenset("""assert assert/strict async_hooks buffer child_process cluster console constants crypto
    dgram diagnostics_channel dns dns/promises domain events fs fs/promises http http2 https inspector inspector/promises
    module net os path path/posix path/win32 perf_hooks process punycode querystring readline readline/promises repl
    stream stream/consumers stream/promises stream/web string_decoder sys timers timers/promises tls trace_events tty url
    util util/types v8 vm wasi worker_threads zlib""".split())
# Why what stands at a place is no file of the folder.
NO_FILE = {"out": "a symbolic link that leads out of the folder; --links-out takes it", "loop": "a symbolic link to itself",
           "nothing": "a link to nothing", "other": "not a file"}


def joined(folder, path):
    """A path from a place in the folder, or None where it leads out of it."""
    place = posixpath.normpath(posixpath.join(folder, path))
    return None if place.startswith(("../", "/")) or place == ".." else "" if place == "." else place


class Ways:
    """By what a specifier becomes a file: the conditions of packages, the field `browser`, and whether types come first."""

    def __init__(self, conditions=(), browser=False, types_first=False, requires=False):
        """requires: of a call of require, and not of an import."""
        own = REQUIRED if requires else CONDITIONS
        self.asked = frozenset(conditions)
        self.conditions = self.asked | frozenset(own) | (frozenset(["browser"]) if browser else frozenset())
        self.browser = browser
        self.types_first = types_first
        self.requires = requires
        types = ("types", "typings")
        code = ("browser",) * browser + (("main", "module") if requires else ("module", "main"))
        self.fields, self.later = (types + code, ()) if types_first else (code, types)  # before an index, and after it
        self.endings = ENDINGS if types_first else sorted(ENDINGS, key=lambda ending: ending in DECLARATIONS)
        if requires and not types_first:
            self.endings = [*REQUIRED_ENDINGS, *(ending for ending in self.endings if ending not in REQUIRED_ENDINGS)]
        self.takes = None  # of what endings files are, where not any

    def of_types(self):
        """The same for files of TypeScript alone."""
        found = Ways(self.asked, self.browser, self.types_first, self.requires)
        found.takes = found.endings = tuple(ending for ending in ENDINGS if ending in TYPES)
        return found

    def turned(self, types_first):
        """The same with types first, or code."""
        return Ways(self.asked, self.browser, types_first, self.requires)

    def of_require(self):
        """The same of a call of require."""
        return self if self.requires else Ways(self.asked, self.browser, self.types_first, True)


class Folder:
    """A folder on the disk; what is asked once is known from then on."""

    def __init__(self, root, links_out=False):
        self.root = root
        self.front = os.path.join("" if root == "." else root, "")
        self.real_root = os.path.realpath(root)
        self.links_out = links_out
        self.names = {}
        self.folders = set()  # those that were seen to be folders of the folder
        self.packages = {}
        self.tables = {}

    def path(self, place):
        return self.front + place or "."

    def names_in(self, place):
        """The names that stand in a folder, each with what it is, or None of a link, until what that leads to is asked for."""
        if place not in self.names:
            try:
                with os.scandir(self.path(place)) as items:
                    self.names[place] = {item.name: kind_of(item) for item in items}
            except PermissionError as error:
                raise BadFile(f"{plain(self.path(place))}: {error.strerror}") from error
            except (OSError, ValueError):  # it isn't there, its name is too long, or none
                self.names[place] = {}
        return self.names[place]

    def kind_in(self, place, name):
        """What a name in a folder is, or None: file, folder, other, or of a link that isn't taken: out, nothing, loop."""
        names = self.names_in(place)
        kind = names.get(name)
        if kind is None and name in names:
            kind = names[name] = self.kind_of_link(self.path(f"{place}/{name}" if place else name))
        return kind

    def kind_of_link(self, path):
        """What a link leads to, which it counts as."""
        try:
            real = os.path.realpath(path)
            if not os.path.lexists(real):
                return "nothing"
            if os.path.islink(real):
                return "loop"
            if not self.links_out and not is_below(real, self.real_root):
                return "out"
            return "folder" if os.path.isdir(path) else "file" if os.path.isfile(path) else "other"
        except OSError:
            return "loop"

    def what(self, place):
        """What stands at a place, or None: each folder on the way is one of the folder."""
        front, _, last = place.rpartition("/")
        if front in self.folders and last not in ("", ".", ".."):
            return self.kind_in(front, last)
        kind, at = "folder", ""
        for name in place.split("/") if place else ():
            if kind != "folder" or name in ("", ".", ".."):
                return kind if kind in NO_FILE else None
            kind = self.kind_in(at, name)
            self.folders.add(at)
            at = f"{at}/{name}" if at else name
        return kind

    def is_file(self, place):
        return self.what(place) == "file"

    def is_folder(self, place):
        return self.what(place) == "folder"

    def why_none(self, place):
        """Why what stands at a place is taken for no file, or None where nothing stands there."""
        return None if place is None else NO_FILE.get(self.what(place))

    def package(self, place):
        """The package.json of a folder, or {}."""
        if place not in self.packages:
            file = posixpath.join(place, "package.json")
            value = json_of(self.path(file)) if self.is_file(file) else {}
            self.packages[place] = value if isinstance(value, dict) else {}
        return self.packages[place]

    # ---- files

    def file_at(self, place, ways):
        """The file for which a place stands: itself, with an ending, as a folder, or with the ending of its kin."""
        if place is None:
            return None
        kin = self.kin_of(place, DECLARATIONS if ways.types_first else ())
        return kin or self.file_with_ending(place, ways) or self.in_folder(place, ways) or self.kin_of(place)

    def file_with_ending(self, place, ways):
        if place and self.is_file(place) and (ways.takes is None or place.endswith(ways.takes)):
            return place
        for ending in ways.endings if place else ():
            if self.is_file(place + ending):
                return place + ending
        return None

    def in_folder(self, place, ways):
        """The file for which a folder stands: that of its package.json, or its index; with types first one of TypeScript."""
        if not self.is_folder(place):
            return None
        if ways.types_first and ways.takes is None:
            return self.in_folder(place, ways.of_types()) or self.in_folder_by(place, ways)
        return self.in_folder_by(place, ways)

    def in_folder_by(self, place, ways):
        return self.by_fields(place, ways.fields, ways) or self.index_of(place, ways) or self.by_fields(place, ways.later, ways)

    def by_fields(self, place, fields, ways):
        package = self.package(place)
        for key in fields:
            path = package.get(key)
            if isinstance(path, str) and path and joined(place, path) not in (None, place):
                found = self.main_of(place, key, joined(place, path), ways)
                if found:
                    return found
        return None

    def main_of(self, place, key, target, ways):
        """What a field of a package.json names: a file, or a folder with an index, whose own package.json says nothing."""
        found = self.file_with_ending(target, ways) or (self.index_of(target, ways) if self.is_folder(target) else None) or self.kin_of(target)
        if ways.takes and not found:
            return None
        if not found and self.is_folder(target) and self.leads_back(place, target, ways):
            raise BadFile(f"{plain(self.path(posixpath.join(place, 'package.json')))}: {key} leads to {plain(target)}, and from there back")
        return found

    def leads_back(self, place, target, ways):
        """Whether fields of package.json lead from a folder to one where they led before."""
        seen = {place}
        while target is not None and target not in seen:
            seen.add(target)
            paths = [self.package(target).get(key) for key in (*ways.fields, *ways.later)] if self.is_folder(target) else []
            target = next((joined(target, path) for path in paths if isinstance(path, str)), None)
        return target is not None

    def index_of(self, place, ways):
        for ending in ways.endings:
            if self.is_file(posixpath.join(place, "index" + ending)):
                return posixpath.join(place, "index" + ending)
        return None

    def kin_of(self, place, among=None):
        front, ending = posixpath.splitext(place)
        for other in KIN.get(ending, ()):
            if (among is None or other in among) and self.is_file(front + other):
                return front + other
        return None

    def declaration_of(self, place):
        """The declaration beside a file of JavaScript, or None."""
        front, ending = posixpath.splitext(place)
        for other in KIN.get(ending, ()):
            if other in DECLARATIONS and self.is_file(front + other):
                return front + other
        return None

    # ---- packages

    def in_packages(self, folder, specifier, ways, asked=()):
        """The file to which a bare specifier leads from a folder, and why there is none; False where a package has none for it."""
        name, sub = package_name(specifier)
        if not name:
            return None, "it isn't the name of a package"
        own = self.scope_of(folder)
        if specifier.startswith("#"):
            return self.in_imports(own, specifier, ways, asked)
        if own is not None and self.package(own).get("name") == name and "exports" in self.package(own):
            return self.in_exports(own, sub, ways)
        why = f"no node_modules has {name}"
        for at in above(folder):
            if posixpath.basename(at) == "node_modules":
                continue
            place = posixpath.join(at, "node_modules", name)
            if self.is_folder(place):
                found, why = self.in_package(self.real(place), sub, ways)
                if found or found is False:
                    return found, None
            elif self.why_none(place):
                why = f"{place}: {self.why_none(place)}"
        return None, why

    def real(self, place):
        """A package without the links on its way, where they don't lead out of the folder."""
        path = os.path.realpath(self.path(place))
        return os.path.relpath(path, self.real_root).replace(os.sep, "/") if is_below(path, self.real_root) else place

    def scope_of(self, folder):
        """The closest folder above with a package.json."""
        for at in above(folder):
            if self.is_file(posixpath.join(at, "package.json")):
                return at
        return None

    def in_package(self, place, sub, ways):
        package = self.package(place)
        if package.get("exports") is not None:
            return self.in_exports(place, sub, ways)
        found = self.in_folder(place, ways) if sub == "." else self.file_at(joined(place, sub), ways)
        return found, None if found else f"{place} has no {sub}" if sub != "." else f"{place} names no file"

    def in_exports(self, place, sub, ways):
        exports = self.package(place)["exports"]
        if not isinstance(exports, dict) or not any(key.startswith(".") for key in exports):
            exports = {".": exports}
        return self.target_of(place, exports, sub, "exports", ways)

    def in_imports(self, place, specifier, ways, asked):
        if place is not None and specifier in asked:
            raise BadFile(f"{plain(self.path(posixpath.join(place, 'package.json')))}: imports leads from {plain(specifier)} back to it")
        imports = self.package(place).get("imports") if place is not None else None
        if not isinstance(imports, dict):
            return None, "no package.json above has imports"
        return self.target_of(place, imports, specifier, "imports", ways, (*asked, specifier))

    def target_of(self, place, table, sub, key, ways, asked=()):
        """The file of a row of exports or imports; a * stands for any text, and the longest front counts."""
        patterns = self.tables.get((place, key))
        if patterns is None:
            patterns = self.tables[place, key] = Patterns(table)
        pattern, star = patterns.row_of(sub)
        where = f"{place or '.'}/package.json"
        if pattern is None:
            return None, f"{where}: {key} has no {sub}"
        if any(name in ("..", ".", "node_modules") for name in star.split("/")):
            return None, f"{where}: what {key} has for {sub} leads out of the package"
        for path in paths_of(table[pattern], ways):
            path = path.replace("*", star)
            if path.startswith("./"):
                found = self.file_at(joined(place, path), ways)
            elif key == "imports" and len(asked) < 100:
                found = "node:" + path.removeprefix("node:") if path.removeprefix("node:") in BUILTINS else self.in_packages(place, path, ways, asked)[0]
            else:
                found = None
            if found:
                return found, None
        return None, f"{where}: what {key} has for {sub} is no file"

    # ---- the field browser

    def browser_files(self, place):
        """What the field `browser` of a package.json has in the place of files: another file, or False for none."""
        if (place, "browser") not in self.tables:
            rows, table, ways = {}, self.package(place).get("browser"), Ways(browser=True)
            for key, value in table.items() if isinstance(table, dict) else ():
                file = self.file_at(joined(place, key), ways) if key.startswith(".") else key
                if file and value is False:
                    rows[file] = False
                elif file and isinstance(value, str):
                    rows[file] = self.file_at(joined(place, value), ways) if value.startswith(".") else self.in_packages(place, value, ways)[0]
            self.tables[place, "browser"] = rows
        return self.tables[place, "browser"]

    def instead(self, folder, name, ways):
        """What the field `browser` has in the place of a file or a package, seen from a folder; the name itself where it has nothing."""
        place = self.scope_of(folder) if ways.browser else None
        found = self.browser_files(place).get(name, name) if place is not None else name
        return name if found is None else found


def kind_of(item):
    """What stands in a folder: file, folder, other, or None of a link."""
    try:
        return None if item.is_symlink() else "folder" if item.is_dir() else "file" if item.is_file() else "other"
    except OSError:
        return "other"


class Patterns:
    """The keys of exports or imports, so that the one for a text is found without looking at each."""

    def __init__(self, table, least=1):
        self.least = least  # characters for which a * stands
        self.exact = frozenset(table)
        self.fronts = collections.defaultdict(list)
        for key in table:
            if key.count("*") == 1:
                front, _, back = key.partition("*")
                self.fronts[front].append((back, key))
        for rows in self.fronts.values():
            rows.sort(key=lambda row: -len(row[0]))

    def row_of(self, text):
        """The key for a text, and what its * stands for, or None."""
        if text in self.exact and "*" not in text:
            return text, ""
        for count in range(len(text), -1, -1):
            for back, key in self.fronts.get(text[:count], ()):
                if text.endswith(back) and len(text) >= count + len(back) + self.least:
                    return key, text[count:len(text) - len(back)]
        return None, ""


def is_below(path, root):
    return path == root or path.startswith(root.rstrip(os.sep) + os.sep)


def paths_of(value, ways):
    """The paths of a value of exports, by the conditions, in the order of the package, as Node has it; types are last, or first."""
    found = list(paths_by(value, ways.conditions - {"types"}))
    types = list(paths_by(value, ways.conditions | {"types"}, "types"))
    return types + found if ways.types_first else found + types


def paths_by(value, conditions, needed=None):
    """The paths behind these conditions; where one is needed, those alone behind it."""
    waiting = [(value, needed is None)]
    while waiting:
        item, is_wanted = waiting.pop()
        if isinstance(item, str) and is_wanted:
            yield item
        elif isinstance(item, list):
            waiting += [(it, is_wanted) for it in reversed(item)]
        elif isinstance(item, dict):
            waiting += [(item[name], is_wanted or name == needed) for name in reversed(item) if name in conditions]


def package_name(specifier):
    """The package that a bare specifier names, and the rest as ./a, or . where there is none."""
    found = re.match(r"(@[^/]+/[^/]+|[^@/.][^/]*)(/.*)?$", specifier, re.DOTALL)
    if not found:
        return None, None
    return found[1], "." + (found[2] or "") if found[2] not in (None, "/") else "."


def types_name(name):
    """The package of the types of a package."""
    return "@types/" + (name[1:].replace("/", "__", 1) if name.startswith("@") else name)


def above(folder):
    """The folder and those above it, the closest first."""
    while True:
        yield folder
        if not folder:
            return
        folder = posixpath.dirname(folder)


# ---- names


def is_like(text, globs):
    return any(fnmatch.fnmatchcase(text, glob) for glob in globs)


def is_left_out(place, globs):
    """Whether a path fits one of the globs: the whole of it, or one of its names where the glob has no /."""
    parts = place.split("/")
    for glob in globs:
        bare = glob.strip("/").removeprefix("./")
        if "/" not in bare and is_like_any(parts, bare):
            return True
        if any(fnmatch.fnmatchcase("/".join(parts[:count]), bare) for count in range(1, len(parts) + 1)):
            return True
    return False


def is_like_any(names, glob):
    return any(fnmatch.fnmatchcase(name, glob) for name in names)
