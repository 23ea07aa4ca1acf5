"""The folder of a project, its settings, and its roots where none is named."""
import os
import posixpath

from parts import import_maps, resolve, urls
from parts.settings import json_of
from parts.words import Wrong, plain

# What stands in the folder of a project.
MARKS = ("package.json", "tsconfig.json", "deno.json", "deno.jsonc", "jsconfig.json", ".git", "node_modules")
# What makes a folder one of several packages.
OF_WORKSPACES = ("pnpm-workspace.yaml", "lerna.json", "rush.json")
TSCONFIGS = ("tsconfig.json", "jsconfig.json")
DENO = ("deno.json", "deno.jsonc")
# The files that are a package's root where nothing else is named.
USUAL = ("index", "src/index", "src/main", "main", "mod", "src/mod", "src/app", "app")


def chain_of(common):
    """A folder and those above it, up to one with a .git."""
    at = os.path.abspath(common)
    while True:
        yield at
        if os.path.exists(os.path.join(at, ".git")) or os.path.dirname(at) == at:
            return
        at = os.path.dirname(at)


def has(folder, names):
    return any(os.path.exists(os.path.join(folder, name)) for name in names)


def is_of_workspaces(folder):
    """Whether a folder says that those below are packages of one workspace."""
    if has(folder, OF_WORKSPACES):
        return True
    for name, key in (("package.json", "workspaces"), ("deno.json", "workspace"), ("deno.jsonc", "workspace")):
        path = os.path.join(folder, name)
        if os.path.isfile(path):
            value = json_of(path, has_comments=name != "package.json")
            if isinstance(value, dict) and key in value:
                return True
    return False


def folders_of(paths):
    """The folders of a project that has these files, the smallest first: that of its workspace, the highest with node_modules,
    or the closest with a mark; then that of its repository."""
    common = os.path.commonpath([os.path.abspath(path) for path in paths]) if paths else os.getcwd()
    chain = [at for at in chain_of(common) if os.path.dirname(at) != at]
    closest = next((at for at in chain if has(at, MARKS)), common)
    marked = [at for at in chain if is_of_workspaces(at)] + [at for at in chain if os.path.isdir(os.path.join(at, "node_modules"))]
    first = min([closest, *marked], key=len)
    widest = chain[-1] if chain and has(chain[-1], (".git",)) else first
    return [first] if len(widest) >= len(first) else [first, widest]


def settings_above(common, folder, names):
    """The closest file of one of these names from a folder up to another, or None."""
    at = os.path.abspath(common)
    while True:
        for name in names:
            if os.path.isfile(os.path.join(at, name)):
                return os.path.join(at, name)
        if at == os.path.abspath(folder) or os.path.dirname(at) == at:
            return None
        at = os.path.dirname(at)


# ---- roots


def named_above(at):
    """The closest folder from one on upwards with a package.json or a deno.json, else the folder itself."""
    found = settings_above(at, os.sep, ("package.json", *DENO))
    return os.path.dirname(found) if found else at


def path_of(root):
    """A root as a path of the disk, or None where it is a URL of something else."""
    if os.path.exists(root) or not urls.URL.match(root):
        return os.path.abspath(root)
    if root.startswith("file:"):
        place = urls.to_file(root)
        if place is not None and os.path.exists("/" + place):
            return "/" + place
    return None


def roots_in(at, ways):
    """The files that a folder's package.json or deno.json names, else the usual ones, and what names them."""
    folder = resolve.Folder(at)
    for name in DENO:
        paths = import_maps.deno_roots(folder, name) if folder.is_file(name) else []
        if paths:
            return those_there(folder, paths, name, ways), name
    if folder.is_file("package.json"):
        for key, paths in named_by(folder.package(""), ways):
            found = those_there(folder, paths, f"package.json: {key}", ways)
            if found:
                return found, f"package.json: {key}"
    for front in USUAL:
        found = folder.file_with_ending(front, ways)
        if found:
            return [os.path.join(at, found)], "its usual name"
    raise Wrong(f"{plain(at)}: no ROOT, and neither package.json nor deno.json names one")


def named_by(package, ways):
    """The fields of a package.json that name files, each with them."""
    exports = package.get("exports")
    if exports is not None:
        rows = exports if isinstance(exports, dict) and any(key.startswith(".") for key in exports) else {".": exports}
        yield "exports", [list(resolve.paths_of(value, ways)) for key, value in rows.items() if "*" not in key]
    for key in (*ways.fields, *ways.later):
        if isinstance(package.get(key), str):
            yield key, [package[key]]
    programs = package.get("bin")
    if programs:
        yield "bin", [programs] if isinstance(programs, str) else [path for path in programs.values() if isinstance(path, str)] if isinstance(programs, dict) else []


def those_there(folder, paths, what, ways):
    """The files for which paths stand; of a list of paths the first that is there."""
    found, missing = [], []
    for path in paths:
        choices = path if isinstance(path, list) else [path]
        files = [folder.file_at(resolve.joined("", choice), ways) for choice in choices]
        first = next((file for file in files if file), None)
        if first:
            found.append(os.path.join(folder.root, first))
        elif choices:
            missing.append(choices[0])
    if missing and not found:
        raise Wrong(f"{plain(posixpath.join(folder.root, 'package.json' if what.startswith('package') else what))}: {what.partition(': ')[2] or 'exports'} names {plain(missing[0])}, which isn't there; name a ROOT")
    return list(dict.fromkeys(found))
