"""The options that several commands have, and the words that they take."""
import argparse

# What a run may fail on, of a report; `check` may on calls that are unread, and on what modules mention, too.
FAIL_ON = ("missing", "parse", "fault", "cycle", "unreached")
CHECKED = (*FAIL_ON, "unread", "mention")
KINDS = ("all", "code", "types")


def words_of(text, known=FAIL_ON):
    words = [word.strip() for word in text.split(",") if word.strip()]
    unknown = [word for word in words if word not in known]
    if unknown:
        raise argparse.ArgumentTypeError(f"{unknown[0]!r} is none of {', '.join(known)}")
    return words


def names_in(text):
    return [name for name in text.split(",") if name]


def add_allowed(parser):
    """The options that choose what modules may mention."""
    parser.add_argument("--host", action="store_true", help="allow names of hosts that load nothing, such as console")
    parser.add_argument("--allow", type=names_in, action="extend", default=[], metavar="NAME,..", help="allow these names too")
    parser.add_argument("--strict", action="store_true", help="list also what may reach the makers of code by a property")


def add_options(parser):
    """The options that choose what is packed."""
    add = parser.add_argument
    add("--also", action="append", default=[], metavar="EXTENSION", help="take files with this extension too, such as .css; * takes any file")
    add("--all", action="store_true", help="take all of the folder, reached or not")
    add("--exclude", action="append", default=[], metavar="GLOB", help="leave out what has this path or name, such as dist or 'src/*.test.ts'")
    add("--external", action="append", default=[], metavar="GLOB", help="what these specifiers name is external, such as 'https://*' or react")
    add("--packages", action="store_true", help="read packages of node_modules, by their package.json")
    add("--conditions", type=names_in, default=[], metavar="NAME,..", help="conditions of packages, besides import, module and default")
    add("--commonjs", action="store_true", help="calls of require are imports too, and resolve as in Node")
    add("--type-imports", action="store_true", help='types import("a") are imports too')
    add("--workers", action="store_true", help='new Worker(new URL("a", import.meta.url)) is an import too')
    add("--addresses", action="store_true", help='new URL("a", import.meta.url) and import.meta.resolve("a") are edges too')
    add("--all-forms", action="store_true", help="forms are read too that the specification leaves out: <T>a in TypeScript")
    add("--browser", action="store_true", help="use the condition and the field browser of packages")
    add("--tsconfig", metavar="FILE", help="use paths, baseUrl and rootDirs of this file")
    add("--deno", metavar="FILE", help="use imports, scopes or importMap of this deno.json, a path from FOLDER")
    add("--kind", choices=KINDS, help="the kind of graph; with types a .d.ts is preferred to the .js next to it")
    add("--links-out", action="store_true", help="take files to which symbolic links lead out of the folder")
