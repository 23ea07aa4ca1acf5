"""Bundles of folders: which files the graph of some roots has, and where each of their specifiers leads."""
import collections
import functools
import json
import os
import posixpath
import re
import time

from parts import import_maps, resolve, sites, tsconfig, urls
from parts.words import MOST_BYTES, Wrong, plain, say

ENDINGS = sites.SOURCES + (".json", ".wasm")
USUAL_LIMIT = 10_000
# How many lines tell what was left out, and what leads nowhere.
MOST_TOLD = 40
LARGEST = 10
# A path of plain characters in which no name begins with a dot.
PLAIN_PATH = re.compile(r"[A-Za-z0-9_@$+~-][A-Za-z0-9_.@$+~-]*(?:/[A-Za-z0-9_@$+~-][A-Za-z0-9_.@$+~-]*)*")

Lead = collections.namedtuple("Lead", "place url external reason note", defaults=(None, None, None, None, None))
Lead.__doc__ = """Where a specifier leads. place: a file of the folder. url: what else it is mapped to. external: whether that is
no part of the sources. reason: why it leads nowhere. note: what is told of it all the same."""


Led = collections.namedtuple("Led", "key target files said leads", defaults=(None, None, (), None, True))
Led.__doc__ = """What follows of a site for each file of a folder that has it. key, target: a row of the import map. files: those to which the
graph leads. said: the lead, if something is to be said of it. leads: whether it leads somewhere."""


@functools.lru_cache(sites.MOST_NAMES)
def folder_of(place):
    return posixpath.dirname(place)


class Progress:
    """How many files were read, on a terminal alone, and not before half a second has passed."""

    def __init__(self, stream):
        self.stream = stream if stream.isatty() else None
        self.next = time.monotonic() + 0.5
        self.shown = False

    def tell(self, count, size):
        if self.stream and time.monotonic() >= self.next:
            self.next = time.monotonic() + 0.2
            self.shown = True
            self.stream.write(f"\r\033[Kpack: {count:,} files, {size:,} bytes")
            self.stream.flush()

    def end(self):
        if self.shown:
            self.stream.write("\r\033[K")
            self.stream.flush()
            self.shown = False


def is_utf8(name):
    try:
        name.encode("utf-8")
    except UnicodeEncodeError:
        return False
    return True


def in_order(place):
    """A key by which the files of a folder come before its folders."""
    *folders, name = place.split("/")
    return [*((1, folder) for folder in folders), (0, name)]


def is_beside(site):
    """Whether the text of a site may be a URL from its file, though it has no ./"""
    return site.kind in sites.ADDRESSES and not site.value.startswith(("./", "../", "/")) and not urls.URL.match(site.value)


class Resolver:
    """Where the specifiers in the files of a folder lead, as asked."""

    def __init__(self, asked, folder):
        self.asked = asked
        self.folder = folder
        self.paths = tsconfig.Paths(folder, asked.tsconfig) if asked.tsconfig else None
        self.map, self.told = import_maps.of_deno(folder, asked.deno) if asked.deno else (None, None)
        self.ways = resolve.Ways(asked.conditions, asked.browser, asked.kind == "types")
        self.commonjs = getattr(asked, "commonjs", False)
        # Whether a relative path to a file leads there, whatever the settings are.
        self.is_direct = not (self.map or asked.external or asked.browser)
        self.known = {}
        self.urls = {}  # of a folder and a specifier

    def url(self, place, specifier):
        """The URL that a specifier of a file is read as, NoUrl where it can't be; None for a bare one."""
        key = folder_of(place), specifier
        if key not in self.urls:
            try:
                if specifier.startswith(("./", "../", "/")):
                    self.urls[key] = urls.joined(urls.of_file(place), specifier)
                else:
                    self.urls[key] = urls.url_of(specifier) if urls.URL.match(specifier) else None
            except urls.NoUrl as error:
                self.urls[key] = error
        return self.urls[key]

    def lead(self, place, site, ways=None):
        """Where a site of a file leads."""
        folder, ways = folder_of(place), ways or self.ways
        found = self.direct(folder, site.value, ways)
        if found:
            return found
        if self.commonjs and site.kind in sites.REQUIRES:
            ways = ways.of_require()
        if is_beside(site):
            beside = self.lead(place, site._replace(value="./" + site.value), ways)
            if beside.place:
                return beside
        reference = site.kind if site.kind.startswith("reference-") else None
        key = folder, site.value, reference, ways.types_first, ways.requires
        if key not in self.known:
            self.known[key] = self.found(place, site.value, reference, ways)
        return self.known[key]

    def direct(self, folder, specifier, ways):
        """The lead of a relative path of plain characters to a file that is there as written; None where more is to be looked at."""
        if not specifier.startswith(("./", "../")) or not self.is_direct or ways.types_first:
            return None
        asked, rest = folder, specifier.removeprefix("./")
        while rest.startswith("../") and folder:
            folder, rest = folder_of(folder), rest[3:]
        if not PLAIN_PATH.fullmatch(rest):
            return None
        place = f"{folder}/{rest}" if folder else rest
        if not self.folder.is_file(place):
            return None
        self.urls[asked, specifier] = urls.of_file(place)
        return Lead(place)

    def found(self, place, specifier, reference, ways):
        if len(specifier) > resolve.LONGEST:
            return Lead(reason=f"it has more than {resolve.LONGEST:,} characters: no file has such a path")
        if self.map:
            found = self.map.resolve(specifier, urls.of_file(place))
            if found is False:
                return Lead(reason="the import map of deno.json refuses it")
            if found is not None:
                return self.at_url(found, specifier, ways)._replace(url=found)
        if specifier.startswith(("./", "../", "/")):
            return self.at_path(place, specifier, ways)
        if urls.URL.match(specifier):
            return self.at_url(specifier, specifier, ways)
        return self.at_name(place, specifier, reference, ways)

    def at_path(self, place, specifier, ways):
        if resolve.is_like(specifier, self.asked.external):
            return Lead(external=True)
        if resolve.joined(posixpath.dirname(place), specifier.split("?")[0].split("#")[0]) is None and not specifier.startswith("/"):
            return Lead(reason="it leads out of the folder")
        url = self.url(place, specifier)
        if isinstance(url, urls.NoUrl):
            return Lead(reason=str(url))
        lead = self.at_file(url, ways)
        return self.in_this_folder(lead, "a path that starts with / is relative to the folder") if specifier.startswith("/") else lead

    @staticmethod
    def in_this_folder(lead, why):
        """A lead of what names a place of the disk, and is taken for one of the folder."""
        return lead._replace(note=why) if lead.place else lead._replace(reason=f"{lead.reason}; {why}")

    def at_url(self, specifier, written, ways):
        try:
            url = urls.url_of(specifier)
        except urls.NoUrl as error:
            return Lead(reason=str(error))
        if url.startswith("node:") or resolve.is_like(written, self.asked.external) or resolve.is_like(url, self.asked.external):
            return Lead(external=True)
        if url.startswith(("http:", "https:")):
            return Lead(reason=f"nothing is fetched: --external '{url.partition(':')[0]}://*' makes it external")
        if not url.startswith("file:"):
            return Lead()
        lead = self.at_file(url, ways)
        return self.in_this_folder(lead, "a file: URL is relative to the folder") if specifier is written else lead

    def at_file(self, url, ways):
        path = urls.to_file(url)
        if path is None:
            return Lead(reason="it has an encoded / or .., and names no file")
        at = posixpath.normpath("/" + path.lstrip("/"))[1:]
        found = self.folder.file_at(at, ways) or (self.paths.in_root_dirs(at, ways) if self.paths else None)
        if not found:
            return Lead(reason=self.folder.why_none(at) or "no such file: as written, with an extension, or as a folder")
        return self.instead_of(found, ways)

    def instead_of(self, found, ways):
        """A file, or what the field `browser` of its package has in its place."""
        other = self.folder.instead(posixpath.dirname(found), found, ways)
        return Lead(other) if other else Lead(external=True)

    def at_name(self, place, specifier, reference, ways):
        """A bare specifier, which only an import map makes lead somewhere."""
        folder = posixpath.dirname(place)
        if resolve.is_like(specifier, self.asked.external):
            return Lead(external=True)
        if specifier in (".", "..") or reference == "reference-path":
            found = self.folder.file_at(resolve.joined(folder, specifier), ways)
            return Lead(found, reason=None if found else "there is no such file")
        found = self.paths.file_of(specifier, ways) if self.paths else None
        if found:
            return Lead(found)
        if self.asked.packages:
            lead = self.in_packages(folder, specifier, reference, ways)
            if lead.place or lead.external or specifier not in resolve.BUILTINS:
                return lead
        if specifier in resolve.BUILTINS:
            return Lead(url="node:" + specifier, external=True)
        return Lead(reason="packages are read with --packages")

    def in_packages(self, folder, specifier, reference, ways):
        other = self.folder.instead(folder, specifier, ways)
        if other is False:
            return Lead(external=True)
        if other != specifier:
            return Lead(other)
        name, _ = resolve.package_name(specifier)
        types = name and (reference == "reference-types" or ways.types_first)
        if specifier in resolve.BUILTINS:
            typed = self.folder.in_packages(folder, "@types/" + specifier, ways)[0] if types else None
            return Lead(typed) if typed and sites.is_declaration(typed) else Lead()
        found, why = self.folder.in_packages(folder, specifier, ways)
        if types and not (found and (sites.is_typescript(found) or reference)):
            typed, _ = self.folder.in_packages(folder, resolve.types_name(name) + specifier[len(name):], ways)
            found = typed or found
        if found and found.startswith("node:"):
            return Lead(url=found, external=True)
        return self.instead_of(found, ways) if found else Lead(reason=why)


class Packer:
    """The bundle as it grows."""

    def __init__(self, asked, reader, errors):
        self.asked = asked
        self.reader = reader
        self.errors = errors
        self.folder = resolve.Folder(asked.folder, asked.links_out)
        self.resolver = Resolver(asked, self.folder)
        self.endings = ENDINGS + tuple("." + ending.lstrip(".").lower() for ending in asked.also)
        self.takes_any = "*" in asked.also
        self.choices = choices_of(asked)
        self.has_choices = bool(self.choices)
        reader.choices = {key: True for key in self.choices if key in OF_SOURCES}
        self.contents = {}  # what the bundle would have for each file that was read
        self.sizes = {}
        self.why = {}
        self.sites = {}
        self.taken = set()  # the files of the bundle
        self.of_data = set()  # the data: URLs that were walked
        self.led = {}  # what follows of sites, by folders and ways
        # Of a specifier, or a URL that is no file's: its URL by the file that names it, by a call of require, and otherwise.
        self.maps, self.requires = collections.defaultdict(dict), collections.defaultdict(dict)
        self.unled = {True: set(), False: set()}  # the files and texts that lead nowhere, by a call of require, and otherwise
        self.beside = collections.defaultdict(dict)  # of a file: what its addresses without ./ lead to
        self.twofold = {}  # of a file and a text: two URLs to which it leads there, by two forms
        self.redirects = {}
        self.external = {}
        self.types = {}  # from a file of JavaScript to its declaration
        self.left_out = {}
        self.notes = {}
        self.nowhere = collections.defaultdict(list)  # specifiers that lead nowhere: where, and why
        self.reasons = {}  # why a URL or a bare specifier leads nowhere
        self.leads_out = None  # the first place at which a specifier leads out of the folder

    # ---- files

    def why_left_out(self, place):
        """Why a file is no module of the bundle, or None."""
        if place not in self.why:
            self.why[place] = self.found_why_left_out(place)
        return self.why[place]

    def found_why_left_out(self, place):
        if not (place.isascii() or is_utf8(place)):
            return "its name is no UTF-8"
        if self.asked.exclude and resolve.is_left_out(place, self.asked.exclude):
            return "excluded"
        if not (self.takes_any or place.lower().endswith(self.endings)):
            return "its extension"
        return None

    def load(self, place):
        """Reads a file, where that wasn't done yet."""
        if place in self.contents:
            return
        self.contents[place], self.sizes[place] = self.reader.load(place, self.folder.path(place))

    def take(self, places):
        """Packs these files and all to which the graph leads from them."""
        progress, waiting, size, most = Progress(self.errors), list(places), 0, self.reader.most
        try:
            while waiting:
                new = [place for place in dict.fromkeys(waiting) if place not in self.taken]
                for place in new:
                    self.load(place)
                    self.taken.add(place)
                    size += self.sizes[place]
                    if size > most:
                        self.refuse_size(size, most)
                    progress.tell(len(self.taken), size)
                self.read_sites(new)
                waiting = [found for place in new for found in self.named_by(place)]
        finally:
            progress.end()

    def read_sites(self, places):
        """The sites of these files, and of those that they likely lead to."""
        unread = [place for place in places if place not in self.sites]
        if not unread:
            return
        for place in unread:
            self.sites[place] = ()
        self.sites.update(self.reader.read({place: self.contents[place] for place in [*unread, *self.likely_below(unread)]}))

    def likely_below(self, places):
        """The files that these likely lead to, and so on, which are read now; their sites aren't known yet."""
        ahead, size = list(places) if self.reader.reads_ahead else [], sum(self.sizes.values())
        while ahead and size <= MOST_BYTES:
            place = ahead.pop()
            for value in sites.hints_in(self.contents[place].get("text", ""), self.resolver.commonjs) if sites.is_source(place) else ():
                found = self.likely(place, value)
                if found and found not in self.sites and self.why_left_out(found) is None and self.may_load(found):
                    self.sites[found] = ()
                    size += self.sizes[found]
                    ahead.append(found)
                    yield found

    def likely(self, place, value):
        """The file that a text in a file likely names; what is wrong with it counts only where the program says that it is an import."""
        try:
            return self.resolver.lead(place, sites.Site(sites.REQUIRES[0] if self.resolver.commonjs else "import", value)).place
        except Wrong:
            return None

    def may_load(self, place):
        try:
            self.load(place)
        except Wrong:
            return False
        return True

    def named_by(self, place):
        """The files to which a file leads."""
        at, found = (folder_of(place), sites.is_declaration(place), sites.is_typescript(place)), []
        for site in self.sites[place]:
            led = self.led.get((at, site))
            if led is None:
                led = self.led[at, site] = self.led_by(place, site)
            if led.key is not None:
                self.put(place, site, led.key, led.target)
            elif not led.leads:
                self.unled[site.kind in sites.CALLS].add((place, site.value))
            if led.said:
                self.say_of(place, site, led.said)
            found += led.files
        return found

    def led_by(self, place, site):
        """What follows of a site of a file, and so of each file of its folder that is read as it is."""
        lead = self.lead(place, site)
        key, target = self.row_of(place, site, lead)
        files = list(self.named_by_data(place, site.value)) if site.value.startswith("data:") else []
        leads = bool(lead.place or lead.url or lead.external)
        if not sites.is_followed(self.asked.kind, place, site):
            return Led(key, target, files, None, leads)
        return Led(key, target, [*files, *self.files_of(place, lead)], lead if lead.reason or lead.note else None, leads)

    def say_of(self, place, site, lead):
        if lead.reason:
            self.leads_nowhere(place, site, lead)
        if lead.note:
            self.notes.setdefault(site.value, (place, lead))

    def lead(self, place, site):
        """Where a site leads: from a declaration first to declarations, but in a graph of code."""
        if sites.is_declaration(place) and self.asked.kind != "code":
            return self.resolver.lead(place, site, self.resolver.ways.turned(True))
        return self.resolver.lead(place, site)

    def files_of(self, place, lead):
        """The file of a lead, where it is packed, and the declaration beside it where the graph has types too."""
        found = lead.place
        if not found:
            return
        reason = self.why_left_out(found)
        if reason is None:
            yield found
        else:
            self.is_left_out(found, reason)
        if self.asked.kind in (None, "all") and sites.is_typescript(place) and "node_modules" not in found.split("/"):
            declaration = self.folder.declaration_of(found)
            if declaration and reason is None and self.why_left_out(declaration) is None:
                self.types[found] = declaration
                yield declaration

    def is_left_out(self, found, reason):
        if reason != "its extension":
            self.left_out[found] = reason
        ending = posixpath.splitext(found)[1]
        hint = f"--also {ending or '*'} takes it, --external '*{ending}' leaves it out" if reason == "its extension" else reason
        self.reasons[urls.of_file(found)] = f"the file is there, and isn't packed: {hint}"

    def named_by_data(self, place, url):
        """The files that a data: URL names by URLs of their own."""
        waiting = [url]
        while waiting:
            at = waiting.pop()
            if at in self.of_data:
                continue
            self.of_data.add(at)
            for site in self.reader.sites_of_data(at):
                if site.value.startswith("data:"):
                    waiting.append(site.value)
                elif urls.URL.match(site.value):
                    lead = self.resolver.lead("", site)
                    key, target = self.row_of(place, site, lead)
                    if key is not None:
                        self.rows_of(site)[key][place] = target
                    yield from self.files_of("", lead)

    # ---- what the program is told of a specifier

    def row_of(self, place, site, lead):
        """The row of the import map that makes a specifier lead where it does, or None of each: there is none, or it is a redirect; and
        that what it leads to is external."""
        value = site.value
        if not (lead.place or lead.url or lead.external) or not (value.isascii() or is_utf8(value)):
            return None, None
        url = self.resolver.url(place, value)
        if isinstance(url, urls.NoUrl):
            return None, None
        target = urls.of_file(lead.place) if lead.place else lead.url or url or "external:" + value
        if url is None and lead.place and value.endswith("/"):
            self.redirects[target + "/"] = target  # such a key of a map stands for what is below a URL that ends so
            target += "/"
        if lead.external:
            self.external[target] = None
        if url is not None and url != target and url.endswith("/"):
            self.redirects[url] = target  # the key of a map that ends with / stands for what is below it
            return None, None
        return value if url is None else url, target

    def put(self, place, site, key, target):
        """Writes a row of the import map for a file; that of an address without ./ is of this file alone."""
        if is_beside(site) and self.resolver.lead(place, site._replace(value="./" + site.value)).place:
            self.beside[place][key] = target
            return
        rows = self.rows_of(site)
        known = rows[key].setdefault(place, target)
        if known != target:
            self.twofold[place, site.value] = known, target
            rows[key][place] = target

    def rows_of(self, site):
        return self.requires if site.kind in sites.CALLS else self.maps

    def leads_nowhere(self, place, site, lead):
        value = site.value
        url = self.resolver.url(place, value)
        if isinstance(url, str):
            self.reasons[url] = lead.reason
        self.reasons.setdefault(value, lead.reason)
        if lead.url:
            self.reasons.setdefault(lead.url, lead.reason)
        if lead.reason == "it leads out of the folder":
            self.leads_out = self.leads_out or (place, value)
            self.left_out[f"{place}: {value}"] = lead.reason
        elif not value.startswith(("./", "../", "/")) and not urls.URL.match(value):
            self.nowhere[value].append((place, lead.reason))
        elif lead.reason in resolve.NO_FILE.values():
            self.left_out[f"{place}: {value}"] = lead.reason

    def has_two_maps(self):
        """Whether one text of one file leads elsewhere by a call of require than by another form."""
        requires, others = self.requires, self.maps
        if any(others[key].get(place, url) != url for key in requires.keys() & others.keys() for place, url in requires[key].items()):
            return True
        return any(place in rows.get(value, ()) for rows, unled in ((others, self.unled[True]), (requires, self.unled[False])) for place, value in unled)

    def import_maps(self):
        """The import maps of the bundle, by their keys: one of calls of require too, where one map can't say both."""
        requires, others = self.requires, self.maps
        if self.has_two_maps():
            found = {"importMap": self.import_map(others, self.beside), "requireMap": self.import_map(requires, {})}
        else:
            both = {key: {**others.get(key, {}), **requires.get(key, {})} for key in {**others, **requires}}
            found = {"importMap": self.import_map(both, self.beside)}
        return {key: {"base": "file:///", "map": rows} for key, rows in found.items() if key == "requireMap" or rows["imports"] or "scopes" in rows}

    @staticmethod
    def import_map(maps, beside):
        """What stands in an import map: what most files mean, and for each folder, or file, that means something else that."""
        imports, scopes = {}, {}
        for key, meanings in sorted(maps.items()):
            found = set(meanings.values())
            if len(found) == 1:
                if key not in found:
                    imports[key] = found.pop()
                continue
            counted = collections.Counter(meanings.values())
            imports[key] = usual = max(counted, key=lambda url: (counted[url], url))
            by_folder = collections.defaultdict(dict)
            for place, url in meanings.items():
                by_folder[posixpath.dirname(place)][place] = url
            of_folder = {folder: next(iter(rows.values())) for folder, rows in by_folder.items()}
            for folder, url in sorted(of_folder.items()):
                if url != usual or any(of_folder.get(at, usual) != usual for at in resolve.above(folder)):
                    scopes.setdefault(urls.of_file(folder + "/" if folder else ""), {})[key] = url
                for place, own in sorted(by_folder[folder].items()):
                    if own != url:
                        scopes.setdefault(urls.of_file(place), {})[key] = own
        for place, rows in sorted(beside.items()):
            scopes.setdefault(urls.of_file(place), {}).update(rows)
        return {"imports": imports, **({"scopes": scopes} if scopes else {})}

    # ---- the whole

    @functools.cached_property
    def by_specifier(self):
        """What the bundle has for each module, by its specifier, in the order of paths, once all is taken."""
        return {urls.of_file(place): self.contents[place] for place in sorted(self.taken, key=in_order)}

    def modules(self):
        """The modules of the bundle."""
        taken = self.by_specifier if self.reader.reads_ahead else {urls.of_file(place): content for place, content in self.contents.items()}
        modules = [{"specifier": specifier, **content} for specifier, content in taken.items()]
        modules += [{"specifier": url, "redirect": to} for url, to in sorted(self.redirects.items()) if url not in taken]
        return modules + [{"specifier": url, "external": True} for url in sorted(self.external) if url not in taken]

    def settings(self, roots, count):
        """What else the bundle has, beside so many modules."""
        value = {"roots": roots}
        if self.asked.kind:
            value["kind"] = self.asked.kind
        value.update(self.choices)
        if count > USUAL_LIMIT // 2:
            value["limit"] = min(1_000_000, 100 * count)
        if self.types:
            value["imports"] = [{"referrer": urls.of_file(code), "imports": ["./" + urls.of_file(types).rpartition("/")[2]]}
                                for code, types in sorted(self.types.items())]
        return {**value, **self.import_maps()}

    def bundle(self, roots):
        modules = self.modules()
        return text_of(self.settings(roots, len(modules)), modules)

    def tell(self):
        """What was left out, and which bare specifiers lead nowhere: of very many those that most files name."""
        if self.resolver.told:
            say("pack", self.resolver.told)
        for value, (place, lead) in sorted(self.notes.items())[:MOST_TOLD]:
            say("pack", f"{shown(value)} in {plain(place)} is taken for {plain(lead.place)} of the folder: {lead.note}")
        for (place, value), (first, last) in sorted(self.twofold.items())[:MOST_TOLD]:
            say("pack", f"{shown(value)} in {plain(place)} is {plain(first)} by one form and {plain(last)} by another: the graph has the latter")
        for path, reason in sorted(self.left_out.items())[:MOST_TOLD]:
            say("pack", f"{plain(path)}: left out: {reason}")
        self.tell_more(len(self.left_out), "is left out", "are left out")
        most = sorted(self.nowhere, key=lambda specifier: (-len(self.nowhere[specifier]), specifier))[:MOST_TOLD]
        for specifier in sorted(most):
            count, (place, why) = len(self.nowhere[specifier]), self.nowhere[specifier][0]
            more = f" and {count - 1} more" if count > 1 else ""
            say("pack", f"{shown(specifier)} in {plain(place)}{more} doesn't resolve: {plain(why)}")
        self.tell_more(len(self.nowhere), "doesn't resolve", "don't resolve")

    @staticmethod
    def tell_more(count, one, many):
        if count > MOST_TOLD:
            say("pack", f"{count - MOST_TOLD:,} more {one if count == MOST_TOLD + 1 else many}")

    def refuse_size(self, size, most=MOST_BYTES):
        if size <= most:
            return
        largest = sorted(self.taken, key=lambda place: -self.sizes[place])[:LARGEST]
        rows = "".join(f"\n  {self.sizes[place]:>12,}  {plain(place)}" for place in largest)
        raise Wrong(f"too large: {size:,} bytes, and the program reads at most {most:,}; --exclude leaves out; the largest of {len(self.taken):,} files:{rows}")


# The keys of a bundle that the second program alone knows, each with its option; those that say how a source is read.
CHOICES = {"jsonWithoutAttribute": "json_without_attribute", **sites.FORMS, "allForms": "all_forms"}
OF_SOURCES = (*sites.FORMS, "allForms")


def choices_of(asked):
    """The choices that are asked for."""
    return {key: True for key, name in CHOICES.items() if getattr(asked, name, False)}


def text_of(value, modules):
    """The text of a bundle, laid out as json.dumps does with an indent of 1, whose encoder is a slow one."""
    head = json.dumps(value, indent=1, ensure_ascii=False)[:-2]
    rows = ",\n".join("  {\n" + ",\n".join(f'   "{key}": {json.dumps(item, ensure_ascii=False)}' for key, item in module.items()) + "\n  }" for module in modules)
    return f'{head},\n "modules": [' + (f"\n{rows}\n ]" if rows else "]") + "\n}\n"


def shown(specifier):
    """A specifier in quotes, cut where it is long."""
    return json.dumps(specifier if len(specifier) <= 200 else specifier[:198] + "..", ensure_ascii=False)


# ---- roots


def path_of_root(folder, root):
    """The path of a root from the folder."""
    if not os.path.isabs(root):
        return os.path.normpath(root).replace(os.sep, "/")
    for below in (os.path.abspath(folder), os.path.realpath(folder)):
        path = os.path.relpath(root, below)
        if path.split(os.sep)[0] != os.pardir:
            return path.replace(os.sep, "/")
    raise Wrong(f"{plain(root)}: not below {plain(folder)}")


def root_of(packer, root):
    """The specifier of a root, and the file that it is, or None."""
    path = path_of_root(packer.asked.folder, root)
    named = plain(os.path.relpath(root) if os.path.isabs(root) else root)
    if packer.folder.is_file(path) and not path.startswith("../"):
        if not is_utf8(path):
            raise Wrong(f"{named}: its name is no UTF-8")
        return urls.of_file(path), path
    if packer.folder.is_folder("" if path == "." else path):
        raise Wrong(f"{named}: a folder, and a root is a file")
    if urls.URL.match(root):
        return root, None
    why = packer.folder.why_none(path)
    raise Wrong(f"{named}: {why}" if why else f"{named}: no such file below {plain(packer.asked.folder)}")


def all_below(packer):
    """The files of the folder, whether they are reached or not; hidden ones and node_modules aren't looked at."""
    waiting = [""]
    while waiting:
        at = waiting.pop(0)
        for name in sorted(packer.folder.names_in(at)):
            place, kind = f"{at}/{name}" if at else name, packer.folder.kind_in(at, name)
            if name.startswith(".") or name == "node_modules":
                continue
            if kind == "folder" and os.path.islink(packer.folder.path(place)):
                packer.left_out[place] = "a link to a folder"
            elif not is_utf8(name):
                packer.left_out[place] = "its name is no UTF-8"
            elif kind == "folder":
                waiting.append(place)
            elif packer.takes_any or name.lower().endswith(packer.endings):
                reason = resolve.NO_FILE.get(kind) or packer.why_left_out(place)
                if reason:
                    packer.left_out[place] = reason
                else:
                    yield place


def packed(asked, reader, errors):
    """The packer of a folder, all of whose files are taken, and the roots' specifiers."""
    if not os.path.isdir(asked.folder):
        raise Wrong(f"{plain(asked.folder)}: {'no folder' if os.path.exists(asked.folder) else 'no such folder'}")
    packer = Packer(asked, reader, errors)
    roots = [root_of(packer, root) for root in asked.roots]
    packer.take([place for _, place in roots if place] + (list(all_below(packer)) if asked.all else []))
    return packer, [specifier for specifier, _ in roots]
