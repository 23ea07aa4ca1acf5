"""The declarations of files, as the C library gives them."""
import os
import sys

from parts import builder, bundles, faults, library, refused, resolve, sites
from parts.words import Wrong, plain, plain_lines, read_regular, write

# The file that is read where a specifier has no name of its own.
STANDARD_INPUT = "standard-input"
# The extension of a declaration file, by that of the source.
ENDINGS = {".mts": ".d.mts", ".mjs": ".d.mts", ".cts": ".d.cts", ".cjs": ".d.cts"}
SAID = {
    "type": "unable to infer type from expression or declaration",
    "any": "unable to infer type, falling back to any type",
    "property": "unable to infer type from object property, skipping",
    "spread": "unable to infer type from spread, skipping",
    "using": "cannot infer type from using, skipping",
}


class File:
    """The declarations of one file, or why it isn't read."""

    def __init__(self, path, asked, api):
        """asked: comments, and the extension as which it is read, or None."""
        self.name, self.path = (path, path) if path != "-" else (STANDARD_INPUT, STANDARD_INPUT)
        data = sys.stdin.buffer.read() if path == "-" else read_regular(path)
        self.ending = asked.language or (sites.ending_of(path) if path != "-" else ".ts")
        if self.ending not in (*sites.SOURCES, *resolve.DECLARATIONS):
            raise Wrong(f"{plain(path)}: a file with this extension has no declarations; --as .ts reads it as TypeScript")
        self.source = bundles.Source(data)
        self.text, self.found, self.unread = "", [], None
        try:
            declared = api.declarations_of(self.source.data, builder.MEDIA_TYPES[self.ending], asked.comments)
            self.text, self.found = declared.text, sorted(declared.diagnostics, key=lambda it: it.start)
        except api.SourceError as error:
            self.unread = error

    def lines(self):
        """What is reported: each diagnostic by its place, with its line, then what TypeScript refuses; or that the file isn't read."""
        if self.unread:
            place = self.unread.place
            yield f"{self.name}{'' if place is None else ':%d:%d' % self.source.place(place)}: isn't read: {self.unread}"
        for it in self.found:
            line, column = self.source.place(it.start)
            yield f"{self.name}:{line}:{column}: {self.said_of(it)}"
            yield from faults.excerpt(self.source, line, faults.Fault(it.kind, None, it.start, it.end, ""))
        yield from (refused.said_of(self.name, self.text, it) for it in refused.refused_in(self.text))

    def said_of(self, it):
        text = self.source.data[it.start:it.end].decode("utf-8", "replace")
        return SAID[it.kind] + (f": write the type of {text}" if it.kind == "any" and text.isidentifier() else "")

    def place_in(self, folder):
        """Where its declarations are written: its path from the current folder, or its name alone where it isn't below that."""
        way = os.path.relpath(self.path)
        if way.startswith(os.pardir + os.sep):
            way = os.path.basename(way)
        is_declaration = self.ending in resolve.DECLARATIONS
        return os.path.join(folder, way if is_declaration else os.path.splitext(way)[0] + ENDINGS.get(self.ending, ".d.ts"))


def written(files, folder):
    """Writes the declarations of files below a folder."""
    places = {}
    for file in files:
        place = file.place_in(folder)
        if place in places:
            raise Wrong(f"{plain(places[place].name)} and {plain(file.name)} would both be {plain(place)}")
        places[place] = file
    for place, file in places.items():
        os.makedirs(os.path.dirname(place) or ".", exist_ok=True)
        write(file.text.encode(), place)


def shown(files):
    """The declarations of files as one text: of several each after its name."""
    return "".join((f"// {plain(file.name)}\n" if len(files) > 1 else "") + file.text for file in files)


def declare(asked):
    """The status: 1 where a file isn't read, and with --check where a type couldn't be determined."""
    api = library.loaded(library.made())
    files = [File(path, asked, api) for path in asked.files]
    read = [file for file in files if not file.unread]
    if asked.out and not asked.check:
        try:
            written(read, asked.out)
        except OSError as error:
            raise Wrong(f"{plain(error.filename or asked.out)}: {error.strerror}") from error
    elif not asked.check:
        write(shown(read).encode())
    sys.stdout.flush()
    sys.stderr.write(plain_lines(line for file in files for line in file.lines()).decode("utf-8", "replace"))
    is_found = asked.check and any(file.found for file in files)
    return 1 if is_found or len(read) < len(files) else 0
