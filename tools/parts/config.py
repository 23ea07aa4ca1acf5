"""The file joravelsu.json: the options of a project (docs/config.schema.json)."""
import os

from parts.settings import BadFile, json_of, of_shape
from parts.words import plain

NAME = "joravelsu.json"
# The keys, each with the option that it stands for, and its shape: a text, a list of texts, or whether.
KEYS = {
    "roots": ("roots", list), "folder": ("folder", str), "kind": ("kind", str), "tsconfig": ("tsconfig", str), "deno": ("deno", str), "also": ("also", list),
    "exclude": ("exclude", list), "external": ("external", list), "conditions": ("conditions", list), "failOn": ("fail_on", list), "policy": ("policy", str), "all": ("all", bool),
    "allow": ("allow", list), "host": ("host", bool), "strict": ("strict", bool), "packages": ("packages", bool), "browser": ("browser", bool), "commonJs": ("commonjs", bool), "allForms": ("all_forms", bool), "linksOut": ("links_out", bool),
    "typeImports": ("type_imports", bool), "workers": ("workers", bool), "addresses": ("addresses", bool),
}
# Options whose values are paths from the file's folder.
PATHS = ("roots", "folder", "tsconfig", "deno", "policy")


def file_above(at):
    """The closest joravelsu.json from a folder up to one with .git, or None."""
    at = os.path.abspath(at)
    while True:
        path = os.path.join(at, NAME)
        if os.path.isfile(path):
            return path
        if os.path.exists(os.path.join(at, ".git")) or os.path.dirname(at) == at:
            return None
        at = os.path.dirname(at)


def options_of(path, choices):
    """The options that a file has, by their names. choices: of an option the words that it takes."""
    value = of_shape(path, json_of(path, has_comments=True), dict, "the file")
    found = {}
    for key, item in value.items():
        if key == "$schema":
            continue
        if key not in KEYS:
            raise BadFile(f"{plain(path)}: {plain(key)} isn't one of {', '.join(KEYS)}")
        name, shape = KEYS[key]
        if shape is bool and not isinstance(item, bool):
            raise BadFile(f"{plain(path)}: {key} is neither true nor false")
        of_shape(path, item, shape, key) if shape is not bool else None
        for one in item if shape is list else [item]:
            of_shape(path, one, str, key) if shape is not bool else None
            if name in choices and one not in choices[name]:
                raise BadFile(f"{plain(path)}: {key}: {plain(one)} isn't one of {', '.join(choices[name])}")
        found[name] = [placed(path, name, one) for one in item] if shape is list else placed(path, name, item)
    return found


def placed(path, name, item):
    """A path of the file as one from here."""
    is_path = name in PATHS and item != "none" and "://" not in item
    return os.path.relpath(os.path.join(os.path.dirname(path), item)) if is_path else item


def take(asked, path, choices):
    """Takes from a file what the command line doesn't say."""
    for name, value in options_of(path, choices).items():
        if hasattr(asked, name) and getattr(asked, name) in (None, [], False):
            setattr(asked, name, value)
