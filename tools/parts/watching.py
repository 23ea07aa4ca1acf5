"""Runs a command anew each time that a file it read has changed."""
import copy
import os
import time

from parts.report import counted
from parts.words import Wrong, plain, say

SECONDS = 0.3
SETTINGS = ("package.json", "tsconfig.json", "jsconfig.json", "deno.json", "deno.jsonc", "joravelsu.json")


def above(path, folder):
    """The folders of a path, from its own up to this one."""
    path = os.path.dirname(path)
    while path not in ("", os.curdir) and path != folder:
        yield path
        path = os.path.dirname(path)
    yield folder


def watched(files, folder):
    """What says that something has changed: the files, their folders, in which others may come or go, and settings."""
    folders = dict.fromkeys(it for path in files for it in above(path, folder))
    return [*files, *folders, *(os.path.join(it, name) for it in folders for name in SETTINGS)]


def stamp(path):
    try:
        found = os.stat(path)
    except OSError:
        return None
    return found.st_mtime_ns, found.st_size, found.st_ino


def changed_since(begun, files, out):
    """The first file that was written while the command ran."""
    now = time.time_ns()
    for path in files:
        found = stamp(path)
        if found and begun <= found[0] <= now and not (out and os.path.exists(out) and os.path.samefile(path, out)):
            return path
    return None


def change(stamps):
    """Waits for the first that changes."""
    while True:
        time.sleep(SECONDS)
        for path, old in stamps.items():
            if stamp(path) != old:
                return path


def repeat(asked, act):
    """Runs the command until a signal ends it."""
    files = []
    while True:
        run, begun = copy.deepcopy(asked), time.time_ns()
        try:
            act(run)
        except Wrong as error:
            say("joravelsu", str(error))
        files = getattr(run, "files", None) or files or [root for root in asked.roots if os.path.exists(root)]
        stamps = {path: stamp(path) for path in watched(files, getattr(run, "folder", None) or os.curdir)}
        say("joravelsu", f"{counted(len(files), 'file is', 'files are')} watched")
        found = changed_since(begun, files, asked.out) or change(stamps)
        say("joravelsu", f"{plain(os.path.normpath(found))} has changed")
