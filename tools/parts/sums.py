"""Checksums of the sources of which the program and the library are made: by them it is known what is kept of the same sources."""
import os

from parts import kit as kits

PROGRAM = "graph_tool"
# The second program: compiled with the first, it runs where the program is called by its name.
SECOND = "joravelsu_tool"
LIBRARY = "graph_c"


def times_of(crate):
    """The times and sizes of all that the compiled crate is made of, as lines: quick to make."""
    compiler = os.path.join(os.path.dirname(os.path.abspath(__file__)), "unproved.py")
    rows = [row_of(path, os.stat(path)) for path in (os.path.join(kits.kit(), "KIT-ID"), os.path.join(kits.ROOT, "crates.txt"), compiler)]
    for name in sorted(kits.crates_below(crate, kits.listed_crates())):
        rows += sorted(rows_below(os.path.join(kits.ROOT, "crates", name, "src")))
    return "".join(rows)


def row_of(path, it):
    return f"{path} {it.st_size} {it.st_mtime_ns} {it.st_ctime_ns} {it.st_ino}\n"


def rows_below(folder):
    """The rows of the files of a folder and of those below it."""
    with os.scandir(folder) as items:
        for item in items:
            if item.is_dir():
                yield from rows_below(item.path)
            else:
                yield row_of(item.path, item.stat())


def sum_of(crate):
    """A checksum of all that the compiled crate is made of; it is made again only where a time or a size is another."""
    times, place = times_of(crate), os.path.join(kits.KEPT, f"{crate}.sum")
    try:
        with open(place, encoding="utf-8") as file:
            found, known = file.readline().rstrip("\n"), file.read()
        if known == times and os.stat(place).st_uid == os.getuid():
            return found
    except (OSError, ValueError):
        pass
    found = sum_anew(crate)
    try:
        os.makedirs(kits.KEPT, mode=0o700, exist_ok=True)
        with open(f"{place}.{os.getpid()}", "w", encoding="utf-8") as file:
            file.write(f"{found}\n{times}")
        os.replace(f"{place}.{os.getpid()}", place)
    except (OSError, ValueError):
        pass
    return found


def sum_anew(crate):
    import hashlib

    from parts import unproved

    found = hashlib.sha256()
    listed = kits.listed_crates()
    with open(os.path.join(kits.kit(), "KIT-ID"), "rb") as file:
        found.update(file.read())
    found.update(repr((unproved.HOW, unproved.COMPILER, {LIBRARY: unproved.CALLS, SECOND: unproved.IS_SECOND}.get(crate, ""))).encode())
    for name in sorted(kits.crates_below(crate, listed)):
        found.update(repr((name, listed[name])).encode())
        for path in kits.sources_of(name):
            with open(path, "rb") as file:
                found.update(repr((os.path.relpath(path, kits.ROOT), file.read())).encode())
    return found.hexdigest()[:40]


def name_of_programs():
    return f"{PROGRAM}-{sum_of(PROGRAM)[:20]}-{sum_of(SECOND)[:20]}.unproved"


def name_of_library():
    return f"{LIBRARY}-{sum_of(LIBRARY)}.unproved.o"
