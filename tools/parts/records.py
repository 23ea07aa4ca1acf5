"""What the program or the library said of the texts of a folder, kept between calls: it depends on a file's extension and its
bytes alone. The records are in the cache's folder, in a file for each folder and program, which is written in one step."""
import json
import os
import stat
import time
import zlib

from parts import kit
from parts.sites import Site, ending_of

# Records of more texts, or more bytes, aren't kept; nor of more folders.
MOST = 100_000
MOST_BYTES = 64_000_000
MOST_FOLDERS = 16
# A file that was written so shortly before, in nanoseconds, may be written again without getting another time.
SHORTLY = 2_000_000_000


class Records:
    """A row is a list: the key of a text, and what is kept of it."""

    def __init__(self, program, folder=os.curdir, choices=()):
        """The records of a folder, of a program, which is known by its file, and of what is chosen."""
        found = os.stat(program.path)
        self.known = [os.path.realpath(program.path), found.st_size, found.st_mtime_ns, os.path.realpath(folder), *choices]
        self.path = os.path.join(kit.KEPT, f"sites-{zlib.crc32(repr(self.known).encode()):08x}.records")
        self.begun = time.time_ns()
        self.rows, self.files = self.loaded()
        self.by_key = None
        self.stamps = {}  # of each file that was looked at its size and times
        self.is_new = False

    def loaded(self):
        """The rows, and of each file the number of its row, its size and its times."""
        try:
            if os.stat(self.path).st_uid != os.getuid() or os.stat(self.path).st_size > MOST_BYTES:
                return [], {}
            with open(self.path, "rb") as file:
                found = json.loads(file.read())
            rows, files = found["rows"], found["files"]
            is_whole = found["known"] == self.known and isinstance(rows, list) and isinstance(files, dict)
            return (rows, files) if is_whole else ([], {})
        except (OSError, ValueError, RecursionError, KeyError, TypeError):
            return [], {}

    # ---- by the file

    def of_file(self, place, path):
        """The row that a file's text had, or None, and whether the file has the size and the times that it had."""
        kept = self.files.get(place)
        row = self.rows[kept[0]] if kept else None
        try:
            found = os.stat(path)
        except (OSError, ValueError):
            return row, False
        stamp = self.stamps[place] = [found.st_size, found.st_mtime_ns, found.st_ctime_ns, found.st_ino]
        return row, kept is not None and kept[1:] == stamp and stat.S_ISREG(found.st_mode)

    # ---- by the content

    @staticmethod
    def key(place, content):
        import hashlib

        kind, value = next(iter(content.items()))
        data = value if isinstance(value, bytes) else value.encode("utf-8", "surrogatepass")
        return hashlib.blake2b(f"{ending_of(place)}\n{kind}\n".encode() + data, digest_size=20).hexdigest()

    def of_key(self, key):
        """The row with this key, or None."""
        if self.by_key is None:
            self.by_key = {row[0]: number for number, row in enumerate(self.rows)}
        number = self.by_key.get(key)
        return None if number is None else self.rows[number]

    def keep(self, place, row):
        """Keeps a row, and that it is the one of a file, which is as it was looked at."""
        self.of_key(row[0])
        number = self.by_key.setdefault(row[0], len(self.rows))
        if number == len(self.rows):
            self.rows.append(row)
        stamp = self.stamps.get(place)
        if stamp and max(stamp[1], stamp[2]) + SHORTLY < self.begun:
            self.files[place] = [number, *stamp]
        self.is_new = True

    def get(self, place, content):
        """The sites of a text, or None where nothing is kept of it."""
        row = self.of_key(self.key(place, content))
        return None if row is None else [Site(*site) for site in row[1:]]

    def put(self, place, content, sites):
        self.keep(place, [self.key(place, content), *map(list, sites)])

    def save(self):
        """Writes what is kept, if something is new; of too many the oldest go."""
        if not self.is_new:
            return
        gone = max(len(self.rows) - MOST, 0)
        files = {place: [number - gone, *stamp] for place, (number, *stamp) in self.files.items() if number >= gone} if gone else self.files
        value = {"known": self.known, "rows": self.rows[gone:], "files": files}
        try:
            kit.keep_data(self.path, json.dumps(value, ensure_ascii=False, separators=(",", ":")).encode(), MOST_FOLDERS)
        except (OSError, ValueError):
            pass
