"""Import maps, by the rules of the HTML Standard, and the one that a deno.json has. URLs are those of the folder that is packed."""
import posixpath

from parts import urls
from parts.settings import BadFile, json_of, of_shape

# Schemes of packages, whose name stands for what is below it too, as Deno has it.
OF_PACKAGES = ("npm:", "jsr:")


class ImportMap:
    """A map as JSON tells it, read at the URL of its file."""

    def __init__(self, file, value, base):
        self.base = base
        of_shape(file, value, dict, "the import map")
        self.imports = self.rows(of_shape(file, value.get("imports", {}), dict, "imports"))
        scopes = of_shape(file, value.get("scopes", {}), dict, "scopes")
        found = {scope_of(key, base) or key: self.rows(of_shape(file, rows, dict, "a scope")) for key, rows in scopes.items()}
        self.scopes = sorted(found.items(), key=lambda row: -len(row[0]))

    def rows(self, table):
        """The keys, each with its address as a URL, or None for the null address."""
        return {url_like(key, self.base) or key: self.address(key, value) for key, value in sorted(table.items()) if key}

    def address(self, key, value):
        found = url_like(value, self.base, is_address=True) if isinstance(value, str) else None
        return None if found is None or (key.endswith("/") and not found.endswith("/")) else found

    def resolve(self, specifier, referrer):
        """The URL to which the map leads from a referrer; None where it says nothing, False where it refuses."""
        name = url_like(specifier, referrer) or specifier
        for scope, rows in self.scopes:
            if scope == referrer or (scope.endswith("/") and referrer.startswith(scope)):
                found = looked_up(rows, name)
                if found is not None:
                    return found
        return looked_up(self.imports, name)


def url_like(text, base, is_address=False):
    """The URL that a text is read as, a relative one at a base; None for a bare specifier."""
    if is_address and text in (".", ".."):
        text += "/"
    try:
        if text.startswith(("./", "../", "/")):
            return urls.joined(base, text)
        return urls.url_of(text) if urls.URL.match(text) else None
    except urls.NoUrl:
        return None


def scope_of(key, base):
    """The URL of a scope's key: one that isn't absolute is joined to the base."""
    try:
        return urls.url_of(key) if urls.URL.match(key) else urls.joined(base, key)
    except urls.NoUrl:
        return None


def looked_up(rows, name):
    """What the longest key for a name has: a URL, or False for the null address; None where there is no key."""
    if name in rows:
        return rows[name] or False
    at = name.rfind("/")
    while at >= 0:
        key = name[:at + 1]
        if key in rows:
            return rows[key] + name[at + 1:] if rows[key] else False
        at = name.rfind("/", 0, at)
    return None


def with_packages(table):
    """The imports of a deno.json, in which the name of a package stands for what is below it too."""
    found = dict(table)
    for key, value in table.items():
        if isinstance(value, str) and value.startswith(OF_PACKAGES) and not key.endswith("/"):
            scheme, _, rest = value.partition(":")
            found.setdefault(key + "/", f"{scheme}:/{rest.lstrip('/').rstrip('/')}/")
    return found


def of_deno(folder, place):
    """The import map of a deno.json at a place of the folder, and a line where it has one that isn't read."""
    file = folder.path(place)
    value = of_shape(file, json_of(file, has_comments=True), dict, "the file")
    at = value.get("importMap")
    if isinstance(at, str) and "imports" not in value and "scopes" not in value:
        url = url_like(at if urls.URL.match(at) else "./" + at, urls.of_file(place))
        other = urls.to_file(url) if url else None
        if other is None or not folder.is_file(other):
            return None, f"{file}: the importMap {at} isn't in the folder, and isn't read"
        return ImportMap(folder.path(other), json_of(folder.path(other), has_comments=True), urls.of_file(other)), None
    imports = of_shape(file, value.get("imports", {}), dict, "imports")
    return ImportMap(file, {"imports": with_packages(imports), "scopes": value.get("scopes", {})}, urls.of_file(place)), None


def deno_roots(folder, place):
    """The files that the exports of a deno.json name."""
    file = folder.path(place)
    value = of_shape(file, json_of(file, has_comments=True), dict, "the file")
    exports = value.get("exports")
    paths = [exports] if isinstance(exports, str) else list(exports.values()) if isinstance(exports, dict) else []
    return [posixpath.normpath(posixpath.join(posixpath.dirname(place), path)) for path in paths if isinstance(path, str)]


__all__ = ["BadFile", "ImportMap", "deno_roots", "of_deno"]
