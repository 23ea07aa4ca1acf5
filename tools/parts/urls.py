"""URLs, by the rules of the URL Standard; hosts that are not ASCII pass as they are."""
import functools
import re

PORTS = {"ftp": "21", "file": None, "http": "80", "https": "443", "ws": "80", "wss": "443"}
KEPT = "!$&'()*+,/:;=@[]|%\\"
# What the path of a URL that is made of a file's path keeps; a % and a \ would be read as something else.
KEPT_OF_FILE = "!$&'()*+,/:;=@[]|"
OF_HOST = re.compile(r'[\x00-\x20"#%/:<>?@\[\\\]^`{|}\x7f]')
URL = re.compile(r"[A-Za-z][A-Za-z0-9+.-]*:")
BLANKS = "".join(map(chr, range(0x21)))
# Characters that a URL has as they are, and that mean nothing in it but / and the dots.
PLAIN = re.compile(r"[A-Za-z0-9_./@$+~-]*")
# Of so many paths it is known which URLs they have.
MOST_PATHS = 100_000


def quote(text, safe):
    """A text in which characters that are neither letters, digits nor one of _.-~ and these are percent-encoded."""
    from urllib import parse  # most paths are plain

    return parse.quote(text, safe=safe)


def unquote(text, errors="replace"):
    from urllib import parse

    return parse.unquote(text, errors=errors)


class NoUrl(Exception):
    """Why a text is no URL."""


def path_of(text, special):
    """The path with its dots taken away."""
    if special:
        text = text.replace("\\", "/")
    kept = []
    segments = text.split("/")[1:]
    for number, segment in enumerate(segments):
        dots = segment.lower().replace("%2e", ".")
        if dots == "..":
            if kept:
                kept.pop()
        elif dots != ".":
            kept.append(segment)
            continue
        if number == len(segments) - 1:
            kept.append("")
    return "".join("/" + quote(segment, safe=KEPT) for segment in kept)


def number_in(part):
    """A part of an IPv4 address: decimal, octal behind a 0, hexadecimal behind 0x."""
    digits, base = (part[2:] or "0", 16) if part[:2].lower() == "0x" else (part, 8 if part[:1] == "0" else 10)
    if not re.fullmatch(r"[0-9A-Fa-f]+", digits):
        raise ValueError
    return int(digits, base)


def special_host(host):
    """The host of a URL of a special scheme as it is written: a name in lower case, or an address."""
    import ipaddress

    if host.startswith("["):
        return f"[{ipaddress.IPv6Address(host[1:-1])}]"
    host = unquote(host).lower()
    if OF_HOST.search(host):
        raise ValueError
    parts = host.removesuffix(".").split(".")
    if not re.fullmatch(r"[0-9]+|0x[0-9a-f]*", parts[-1]):
        return host
    numbers = [number_in(part) for part in parts]
    if len(numbers) > 4 or any(number > 255 for number in numbers[:-1]):
        raise ValueError
    high = sum(number << (24 - 8 * place) for place, number in enumerate(numbers[:-1]))
    if numbers[-1] >= 256 ** (5 - len(numbers)):
        raise ValueError
    return str(ipaddress.IPv4Address(high + numbers[-1]))


def host_of(authority, scheme):
    """The authority as a URL writes it."""
    user, at, rest = authority.rpartition("@")
    found = re.fullmatch(r"(\[[^\]]*\]|[^:]*)(?::(.*))?", rest)
    if not found:
        raise NoUrl(f"{rest!r} is no host")
    host, port = found.groups()
    if scheme == "file" and (at or port is not None):
        raise NoUrl("a file URL has no user and no port")
    if not host and scheme in PORTS and scheme != "file":
        raise NoUrl("it has no host")
    try:
        if host and scheme in PORTS:
            host = special_host(host)
        elif not host.startswith("[") and OF_HOST.search(host.replace("%", "")):
            raise ValueError
    except ValueError as error:
        raise NoUrl(f"{host!r} is no host") from error
    if port and (not re.fullmatch(r"[0-9]+", port) or int(port) > 65535):
        raise NoUrl(f"{port!r} is no port")
    if scheme == "file" and host == "localhost":
        host = ""
    port = str(int(port)) if port else ""
    return (user + at if user else "") + host + (":" + port if port and port != PORTS.get(scheme) else "")


def plain(text):
    """A text without what the URL Standard takes away before it reads; half of a pair stands for no character."""
    return re.sub("[\ud800-\udfff]", "\ufffd", re.sub(r"[\t\n\r]", "", text.strip(BLANKS)))


def url_of(text):
    """The URL that an absolute URL's text is read as, or NoUrl."""
    found = re.match(r"([A-Za-z][A-Za-z0-9+.-]*):([^?#]*)(\?[^#]*)?(#.*)?$", plain(text), re.DOTALL)
    if not found:
        raise NoUrl("it isn't absolute: a URL begins with its scheme, as file:///a.ts or https://example.com/a.ts")
    scheme, rest, query, fragment = found[1].lower(), found[2], found[3] or "", found[4] or ""
    special = scheme in PORTS
    slashes = rest.replace("\\", "/") if special else rest
    if special and scheme != "file":
        slashes = "//" + slashes.lstrip("/")
    if slashes.startswith("//"):
        authority, slash, path = slashes[2:].partition("/")
        front = "//" + host_of(authority, scheme)
        path = path_of(slash + path, special) or ("/" if special else "")
    elif special or slashes.startswith("/"):
        front = "//" if special else ""
        path = path_of("/" + slashes.lstrip("/") if special else slashes, special)
    else:
        front, path = "", quote(slashes, safe="".join(map(chr, range(0x20, 0x7F))))
    return scheme + ":" + front + path + quote(query, safe=KEPT + "?`{}^") + quote(fragment, safe=KEPT + "#?{}^")


def joined(base, reference):
    """The URL that a relative or rooted reference in a file: module leads to."""
    if PLAIN.fullmatch(reference) and PLAIN.fullmatch(base, len("file:")) and not reference.startswith("//"):
        path = reference if reference.startswith("/") else base[len("file://"):base.rindex("/") + 1] + reference
        return "file://" + (without_dots(path) if "/." in path else path)
    return joined_by_the_rules(base, reference)


def without_dots(path):
    """A path of plain characters without . and .. in it."""
    kept, names = [], path.split("/")[1:]
    for name in names:
        if name == "..":
            del kept[-1:]
        elif name != ".":
            kept.append(name)
    if names[-1] in (".", ".."):
        kept.append("")
    return "/" + "/".join(kept)


def joined_by_the_rules(base, reference):
    found = re.match(r"([^?#]*)(\?[^#]*)?(#.*)?$", plain(reference).replace("\\", "/"), re.DOTALL)
    path, rest = found[1], (found[2] or "") + (found[3] or "")
    if path.startswith("//"):
        return url_of("file:" + path + rest)
    if not path.startswith("/"):
        path = re.split(r"[?#]", base, maxsplit=1)[0].removeprefix("file://").rpartition("/")[0] + "/" + path
    return url_of("file://" + path + rest)


@functools.lru_cache(MOST_PATHS)
def of_file(path):
    """The URL of a path from the folder that is packed."""
    return "file:///" + (path if PLAIN.fullmatch(path) else quote(path, safe=KEPT_OF_FILE))


def to_file(url):
    """The path from that folder of a file: URL without a host, or None; its query and its fragment don't count. None where a
    name has an encoded / or leads up, as Node has it."""
    if not url.startswith("file:///"):
        return None
    if PLAIN.fullmatch(url, len("file:///")) and "/." not in url:
        return url[len("file:///"):]
    names = re.split(r"[?#]", url[len("file:///"):], maxsplit=1)[0].split("/")
    try:
        names = [unquote(name, errors="strict") for name in names]
    except UnicodeDecodeError:
        return None
    if any("/" in name or "\0" in name or name in (".", "..") for name in names):
        return None
    return "/".join(names)
