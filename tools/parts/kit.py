"""The toolchain, the crates of the repository, and the folder where what was built is kept."""
import functools
import os
import sys
import time

from parts.words import NoGraph

# A start of ./joravelsu needs little of this module, so that what is large is imported where it is needed.
ROOT = os.path.dirname(os.path.dirname(os.path.dirname(os.path.abspath(__file__))))


def kept_folder():
    """The user's cache folder, or one of the system's temporary folder where nothing can be written there."""
    place = os.path.join(os.environ.get("XDG_CACHE_HOME") or os.path.expanduser("~/.cache"), "joravelsu")
    try:
        os.makedirs(place, mode=0o700, exist_ok=True)
    except OSError:
        pass
    if os.access(place, os.W_OK):
        return place
    import tempfile

    return os.path.join(tempfile.gettempdir(), f"joravelsu-{os.getuid()}")


KEPT = kept_folder()
# The version of the tools, the program and the library.
VERSION = "0.1.0"
# What a release has in the place of sources and a toolchain, in a file of this name.
RELEASE = os.path.join(ROOT, "RELEASE")
# What a copy of a crate does without.
LEFT_OUT = ("out", "must-fail", "edits")
# The toolchain's rt, where it is called for many crates.
RT = (sys.executable, os.path.join(os.path.dirname(os.path.abspath(__file__)), "rt.py"))
# The versions of the toolchain with which the gate was run.
TRIED = ("rattle-kit-13b", "rattle-kit-13f")


class NoKit(NoGraph):
    """The toolchain isn't there."""


def kit():
    """The folder of the toolchain."""
    commands = (os.path.join(folder, "rt") for folder in os.get_exec_path())
    command = next((path for path in commands if os.path.isfile(path) and os.access(path, os.X_OK)), None)
    if not command:
        raise NoKit("the toolchain's command rt isn't on the path")
    return os.path.dirname(os.path.dirname(os.path.realpath(command)))


def version():
    """The name of the toolchain's version, as rattle-kit-13f."""
    import subprocess

    ran = subprocess.run(["rt", "version"], capture_output=True, text=True, check=False)
    return (ran.stdout.split() or ["unknown"])[0]


def other_version():
    """A line where the toolchain's version is none of those that were tried, else None."""
    found = version()
    if found in TRIED:
        return None
    return f"the toolchain is {found}, and the gate was run with {' and '.join(TRIED)}"


def side_by_side(bytes_each):
    """How many processes that take so much memory may run at a time."""
    import re

    with open("/proc/meminfo", encoding="ascii") as file:
        free = int(re.search(r"MemAvailable: *(\d+)", file.read())[1]) * 1024
    return max(1, min(len(os.sched_getaffinity(0)), free // bytes_each))


def listed_crates():
    """What each crate of crates.txt names: other crates, libraries of the toolchain, and whether it is a static library."""
    with open(os.path.join(ROOT, "crates.txt"), encoding="utf-8") as file:
        rows = [line.split("#")[0].partition(":") for line in file]
    return {head.split()[0]: words.split() + head.split()[1:2] for head, _, words in rows if head.strip()}


def keeps_proofs():
    """Whether this toolchain's rt ci keeps what it proved for the next one, and takes names of crates."""
    import subprocess

    said = subprocess.run(["rt", "help"], capture_output=True, text=True, check=False)
    return "What a run passed is kept" in said.stdout + said.stderr


def copy_crates(root, crates, to):
    """Copies these crates of a repository, with their lines of crates.txt and HANDLES, without mutants and without what was built."""
    import shutil

    for crate in crates:
        at = f"{root}/crates/{crate}"
        # of the crate's own folder alone: a proof may be in proofs/rewrite/edits/
        shutil.copytree(at, f"{to}/crates/{crate}", ignore=lambda folder, _, at=at: LEFT_OUT if folder == at else ())
    with open(f"{root}/crates.txt", encoding="utf-8") as file:
        lines = [line for line in file if line.split("#")[0].partition(":")[0].split()[:1] and line.split()[0].rstrip(":") in crates]
    with open(f"{to}/crates.txt", "w", encoding="utf-8") as file:
        file.writelines(lines)
    if os.path.exists(f"{root}/HANDLES"):
        shutil.copyfile(f"{root}/HANDLES", f"{to}/HANDLES")


def crates_below(name, listed):
    """The repository's crates that the crate stands on, and the crate itself."""
    found, waiting = set(), [name]
    while waiting:
        crate = waiting.pop()
        if crate not in found and crate in listed:
            found.add(crate)
            waiting += listed[crate]
    return found


def sources_of(crate):
    """The files that a compiler without proofs reads of a crate."""
    folder = os.path.join(ROOT, "crates", crate, "src")
    return sorted(os.path.join(at, name) for at, _, names in os.walk(folder) for name in names)


def kept(name):
    """Where a file of this name is kept, if it is there and this user's."""
    place = os.path.join(KEPT, name)
    if not os.path.exists(place) or any(os.stat(it).st_uid != os.getuid() for it in (KEPT, place)):
        return None
    return place


def keep(made, name, ending, most=6):
    """Keeps a file under its name, and of all that have the ending the latest. The answer is where it is kept."""
    import shutil

    os.makedirs(KEPT, mode=0o700, exist_ok=True)
    if os.stat(KEPT).st_uid != os.getuid():
        raise OSError(f"{KEPT} is another user's")
    place = os.path.join(KEPT, name)
    shutil.copyfile(made, f"{place}.{os.getpid()}")
    shutil.copymode(made, f"{place}.{os.getpid()}")
    os.replace(f"{place}.{os.getpid()}", place)
    latest = sorted((it for it in os.scandir(KEPT) if it.name.endswith(ending)), key=lambda it: it.stat().st_mtime)
    for it in latest[:-most]:
        os.unlink(it)
    return place


def keep_data(place, data, most):
    """Writes a file of the cache in one step; of all that have its ending those that were written last stay."""
    os.makedirs(KEPT, mode=0o700, exist_ok=True)
    made = f"{place}.{os.getpid()}"
    with open(made, "wb") as file:
        file.write(data)
    os.replace(made, place)
    ending = os.path.splitext(place)[1]
    latest = sorted((it for it in os.scandir(KEPT) if it.name.endswith(ending)), key=lambda it: it.stat().st_mtime)
    for it in latest[:-most]:
        os.unlink(it)


def seconds_in_times():
    """The seconds of a processor that bench/times has for the proof of each crate, of its latest day."""
    found = {}
    with open(os.path.join(ROOT, "bench", "times"), encoding="utf-8") as file:
        for words in sorted((line.split() for line in file if not line.startswith("#")), key=lambda it: it[1:2]):
            if len(words) >= 10:
                found[words[0]] = int(words[4])
    return found


@functools.lru_cache(None)
def tool(name):
    """A tool of tools/ as a module of Python."""
    import importlib.machinery
    import importlib.util

    path = os.path.join(ROOT, "tools", name)
    loader = importlib.machinery.SourceFileLoader(name.replace("-", "_"), path)
    module = importlib.util.module_from_spec(importlib.util.spec_from_loader(loader.name, loader))
    keeps_no_code = sys.dont_write_bytecode  # a tool that is run by itself sets it
    try:
        loader.exec_module(module)
    finally:
        sys.dont_write_bytecode = keeps_no_code
    return module


def is_newest(place):
    """Whether a file is there and no source is newer."""
    if not os.path.isfile(place):
        return False
    made = os.stat(place).st_mtime
    files = [os.path.join(ROOT, "crates.txt")]
    for crate in os.listdir(os.path.join(ROOT, "crates")):
        files += sources_of(crate)
    return all(os.stat(file).st_mtime <= made for file in files)


def release():
    """Of a release its version, whether its programs are proved, and the paths of these and of its library; else None."""
    import json

    try:
        with open(RELEASE, encoding="utf-8") as file:
            found = json.load(file)
        return {**found, **{key: os.path.join(ROOT, found[key]) for key in ("program", "second", "library")}}
    except FileNotFoundError:
        return None
    except (OSError, ValueError, KeyError, TypeError) as error:
        raise NoKit(f"{RELEASE} can't be read: {error}") from error


def proved_program(name="graph_tool"):
    """The path of a proved program, or None where it isn't built or a source is newer."""
    found = release()
    if found:
        return found["program" if name == "graph_tool" else "second"] if found.get("proved") else None
    place = os.path.join(ROOT, "crates", name, "out", name)
    return place if os.access(place, os.X_OK) and is_newest(place) else None


def is_quiet():
    """Whether nothing is to be said of compiling and of proofs."""
    return bool(os.environ.get("JORAVELSU_QUIET")) or sys.stderr is None


def say_unproved(told):
    """That the program is the unproved one, once a day."""
    place = os.path.join(KEPT, "unproved.told")
    try:
        if is_quiet() or time.time() - os.stat(place).st_mtime < 86_400:
            return
    except OSError:
        pass
    print(f"{told}: this is the unproved program; ./graph_tool prove proves and builds it, once, in about an hour (docs/TIMES.md)", file=sys.stderr, flush=True)
    try:
        with open(place, "w", encoding="utf-8"):
            pass
    except OSError:
        pass
