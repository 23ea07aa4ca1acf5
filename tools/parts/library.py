"""The C library, for tools that ask it: the one that JORAVELSU_LIBRARY names, or one that is made of these sources, once."""
import os

from parts import kit as kits
from parts import sums
from parts.words import NoGraph

NAME = sums.LIBRARY
MODULE = os.path.join(kits.ROOT, "examples", "embed", "python", "joravelsu.py")
# How many libraries are kept.
MOST_KEPT = 6


class NoLibrary(NoGraph):
    """The library isn't there and can't be made; why, in a line."""

    hint = "; --scan does without it"


def is_proved():
    """Whether the archive of the proved library is built here, and no source is newer, as tools/build-library has it."""
    return kits.is_newest(os.path.join(kits.ROOT, "crates", NAME, "out", f"lib{NAME}.a"))


def name_of():
    return f"{NAME}-{sums.sum_of(NAME)}.{'proved' if is_proved() else 'unproved'}.so"


def place():
    """Where the library is, or None where it isn't yet."""
    try:
        return os.environ.get("JORAVELSU_LIBRARY") or (kits.release() or {}).get("library") or kits.kept(name_of())
    except (kits.NoKit, OSError):
        return None


def made():
    """Where the library is, made where it isn't yet."""
    found = place()
    if found:
        return found
    from parts import unproved

    try:
        with unproved.alone("libjoravelsu", "joravelsu"):
            return place() or built()
    except OSError as failed:
        raise NoLibrary(f"the library can't be kept: {failed}") from failed


def built():
    import subprocess
    import tempfile

    how = [] if is_proved() else ["--unproved"]
    with tempfile.TemporaryDirectory(prefix="joravelsu-") as room:
        words = [os.path.join(kits.ROOT, "tools", "build-library"), *how, room]
        ran = subprocess.run(words, stdin=subprocess.DEVNULL, stdout=subprocess.PIPE, check=False, errors="replace")
        if ran.returncode:
            raise NoLibrary("the library can't be made: " + " ".join(ran.stdout.split()[-30:]))
        try:
            return kits.keep(os.path.join(room, "lib", "libjoravelsu.so"), name_of(), ".so", MOST_KEPT)
        except (kits.NoKit, OSError) as failed:
            raise NoLibrary(f"the library can't be kept: {failed}") from failed


def loaded(path):
    """The module of Python over the library at a path."""
    import importlib.util

    before = os.environ.get("JORAVELSU_LIBRARY")
    os.environ["JORAVELSU_LIBRARY"] = path
    spec = importlib.util.spec_from_file_location("joravelsu", MODULE)
    module = importlib.util.module_from_spec(spec)
    try:
        spec.loader.exec_module(module)
    except (ImportError, AttributeError) as failed:
        raise NoLibrary(f"{failed}") from failed
    finally:
        if before is None:
            del os.environ["JORAVELSU_LIBRARY"]
        else:
            os.environ["JORAVELSU_LIBRARY"] = before
    return module
