"""The last report of some roots, kept beside the records. It depends on the settings, which say where specifiers lead, and on the
texts of the modules: of a text that has changed and has the sites that it had, only its size and places are replaced."""
import hashlib
import json
import os
import re
import zlib

from parts import kit, outlines

# Of so many texts that have changed the places are replaced; of more the graph is built.
MOST_CHANGED = 100
MOST_KEPT = 16
EDGE = r"(  \S+ )(\d+-\d+)( .*)"


class Reports:
    def __init__(self, records, sites_of, unknown):
        """records: those of the folder. sites_of: the sites of a text at a specifier. unknown: the attribute that no text says."""
        self.records, self.sites_of, self.unknown = records, sites_of, unknown

    def report(self, settings, modules, build):
        """The status and the report of a graph: what is kept, or what is built."""
        name = zlib.crc32(repr((self.records.known, settings["roots"], settings.get("kind"))).encode())
        path = os.path.join(kit.KEPT, f"graph-{name:08x}.report")
        known, report = loaded(path)
        now = self.sum_of(settings, modules, key_of)
        if known == now:
            return 0, report
        changed = [module for module in modules if old_key_of(module) != key_of(module)]
        if len(changed) <= MOST_CHANGED and known == self.sum_of(settings, modules, old_key_of) and all(map(self.has_same_sites, changed)):
            status, report = 0, self.with_places(report.decode(), changed).encode()
        else:
            status, report = build(settings, modules)
        if status == 0:
            kit.keep_data(path, now.encode() + b"\n" + report, MOST_KEPT)
        return status, report

    def sum_of(self, settings, modules, key):
        """A checksum of all on which a report depends, by the keys of the texts."""
        told = json.dumps([self.records.known, settings]) + "".join(f"\n{module['specifier']} {key(module)}" for module in modules)
        return hashlib.blake2b(told.encode("utf-8", "surrogatepass"), digest_size=20).hexdigest()

    def has_same_sites(self, module):
        return "row" in module and self.signature(module, module["was"]) == self.signature(module, module["row"])

    def signature(self, module, row):
        """What a graph takes of a text but for its places: a text that has the same sites; True where that is no UTF-8."""
        if outlines.is_apart(row):
            return True if row[1] is None else row[1]
        text = outlines.text_with(self.sites_of(module["specifier"], row[1].encode()), self.unknown)
        return object() if text is None else text

    def with_places(self, report, changed):
        """The report with the sizes and the places of texts that have changed."""
        for module in changed:
            start = report.find(f"\n{module['specifier']} module ") + 1
            if start:
                lines = block_at(report, start)
                spans = {old: new for old, new in zip(*(self.spans(module, module[key]) for key in ("was", "row")))}
                made = [f"{lines[0].rpartition(' ')[0]} {outlines.size_of_row(module['row'])}"]
                made += [re.sub(EDGE, lambda found: f"{found[1]}{spans[found[2]]}{found[3]}", line) for line in lines[1:]]
                report = report[:start] + "\n".join(made) + report[start + len("\n".join(lines)):]
        return report

    def spans(self, module, row):
        """The places of a text's sites, as a report has them."""
        if outlines.is_apart(row):
            return list(outlines.spans_of_row(row).values())
        return [f"{site.start}-{site.end}" for site in self.sites_of(module["specifier"], row[1].encode())]


def block_at(report, start):
    """The lines of the entry that begins at a place of a report."""
    end = report.index("\n", start)
    while report.startswith("  ", end + 1):
        end = report.index("\n", end + 1)
    return report[start:end].split("\n")


def key_of(module):
    """What says of a module which it is."""
    if "row" in module:
        return module["row"][0]
    return hashlib.blake2b(module["bytes"]).hexdigest() if "bytes" in module else json.dumps(module)


def old_key_of(module):
    """What said it when the records were written."""
    return module["was"][0] if "was" in module else key_of(module)


def loaded(path):
    """The checksum of a graph, and its report, or None of each."""
    try:
        if os.stat(path).st_uid != os.getuid():
            return None, None
        with open(path, "rb") as file:
            return file.readline().decode().rstrip("\n"), file.read()
    except (OSError, ValueError):
        return None, None
