"""How the tools read their words and files, what they write, and how they end."""
import argparse
import os
import re
import stat
import sys

# The most bytes that the program reads, and so the most of one file.
MOST_BYTES = 16_777_216


class Wrong(Exception):
    """What is wrong, in one line."""


class NoGraph(Exception):
    """Why there is no graph, or nothing that says one; in one line."""

    hint = ""  # what to do then


class Version(argparse.Action):
    """Prints the version of a command."""

    def __call__(self, parser, *_):
        from parts import version

        print(version.of(parser.prog.split(" ")[0]))
        parser.exit(0)


class Words(argparse.ArgumentParser):
    """Words of a command line; where they are wrong the status is 64."""

    def __init__(self, usage, doc, **more):
        super().__init__(usage=usage, description=doc, formatter_class=argparse.RawDescriptionHelpFormatter, **more)
        self.add_argument("--version", action=Version, nargs=0, help="print the version")

    def error(self, message):
        self.exit(64, f"{self.format_usage()}{self.prog}: {message}\n")


# ---- names on a terminal


def escaped(character):
    """A character that a terminal may act on, as an escape: a control character, a direction mark, half of a pair, a byte
    of a name that is no UTF-8."""
    code = ord(character)
    return f"\\x{code - 0xDC00:02x}" if 0xDC80 <= code <= 0xDCFF else repr(character)[1:-1]


def plain(text, keeps=""):
    """A text on one line, each character that can't be seen as an escape."""
    text = os.fsdecode(text) if isinstance(text, bytes) else text
    return text if text.isprintable() else "".join(c if c.isprintable() or c in keeps else escaped(c) for c in text)


def plain_lines(lines):
    """The bytes of lines for a terminal: nothing in a line ends it or does something else there."""
    return "".join(plain(line, "\t") + "\n" for line in lines).encode("utf-8", "backslashreplace")


def has_colours(stream):
    """Whether a stream is a terminal that shows colours, and NO_COLOR isn't set."""
    return stream is not None and stream.isatty() and not os.environ.get("NO_COLOR") and os.environ.get("TERM") != "dumb"


BOLD, RED, GREEN = "\033[1m", "\033[31m", "\033[32m"
COLOURS = (
    (r"(?m)^(\S.*?:\d+:\d+:)(?= )", BOLD), (r"(?m)^ +(\^~*)$", RED),
    (r"(?m)^(no faults.*; status 0)$", GREEN), (r"(?m)^(.*; status 1)$", RED),
    (r"(?m)^((?:missing|not read|other faults|cycles): [\d,]+)$", RED),
)


def coloured(data):
    """Lines of a check with colours: places bold, carets and what is wrong red."""
    text = data.decode("utf-8")
    for pattern, colour in COLOURS:
        text = re.sub(pattern, lambda found, colour=colour: found[0].replace(found[1], f"{colour}{found[1]}\033[0m", 1), text)
    return text.encode("utf-8")


def say(who, text):
    """Lines on standard error."""
    if sys.stderr is not None:
        sys.stderr.write("".join(plain(line, "\t") + "\n" for line in f"{who}: {text}".split("\n")))
        sys.stderr.flush()


# ---- files


def read_regular(path, most=MOST_BYTES):
    """The bytes of a regular file of at most so many; nothing else is read, and nothing waits."""
    try:
        number = os.open(path, os.O_RDONLY | os.O_NONBLOCK | os.O_CLOEXEC)
        try:
            found = os.fstat(number)
            if not stat.S_ISREG(found.st_mode):
                raise Wrong(f"{plain(path)}: {'Is a directory' if stat.S_ISDIR(found.st_mode) else 'not a regular file'}")
            data = read_through(number, found.st_size, most) if found.st_size <= most else b""
        finally:
            os.close(number)
    except OSError as error:
        raise Wrong(f"{plain(path)}: {error.strerror}") from error
    except ValueError as error:  # a name with a null character
        raise Wrong(f"{plain(path)}: {error}") from error
    if found.st_size > most or len(data) > most:
        raise Wrong(f"{plain(path)}: too large: {max(found.st_size, len(data)):,} bytes, and at most {most:,} are read")
    return data


def read_through(number, size, most):
    """The bytes of an open file that has so many, and at most one byte more than the most."""
    data = os.read(number, size + 1)
    if len(data) == size:
        return data
    parts, count = [data], len(data)  # it has changed, or so many aren't read at once
    while data and count <= most:
        data = os.read(number, min(most + 1 - count, 1 << 20))
        parts.append(data)
        count += len(data)
    return b"".join(parts)


def bytes_of(path):
    """The bytes of a file, or of standard input where the path is -."""
    try:
        if path == "-":
            return sys.stdin.buffer.read()
        with open(path, "rb") as file:
            return file.read()
    except OSError as error:
        raise Wrong(f"{path}: {error.strerror}") from error


def write(data, path=None):
    """Writes bytes to standard output, or to a file, whole or not at all."""
    try:
        if path and path != "-":
            with open(f"{path}.part", "wb") as file:
                file.write(data)
            os.replace(f"{path}.part", path)
            return
        if sys.stdout is None:
            raise Wrong("standard output was closed")
        sys.stdout.buffer.write(data)
        sys.stdout.buffer.flush()
    except BrokenPipeError as error:
        raise Wrong("standard output was closed") from error
    except OSError as error:
        raise Wrong(f"{path or 'standard output'}: {error.strerror}") from error


def stop(_number, _frame):
    """A signal ends what was started, and then this program."""
    raise KeyboardInterrupt


def heed_signals():
    """Has a signal end what was started, but for one that is ignored, as nohup has it."""
    import signal
    import threading

    if threading.current_thread() is threading.main_thread():
        for number in (signal.SIGINT, signal.SIGTERM, signal.SIGHUP):
            if signal.getsignal(number) != signal.SIG_IGN:
                signal.signal(number, stop)


def run(name, main, wrong=1):
    """Runs a tool's main over its words, and ends with its status."""
    try:
        sys.exit(main(sys.argv[1:]))
    except (Wrong, NoGraph) as error:
        say(name, str(error))
        status = wrong
    except BrokenPipeError:
        say(name, "standard output was closed")
        status = wrong
    except KeyboardInterrupt:
        say(name, "stopped")
        status = 130
    except MemoryError:
        say(name, "memory ran out")
        status = wrong
    if sys.stdout is not None:
        os.dup2(os.open(os.devnull, os.O_WRONLY), 1)  # what is still to be written when Python ends
    sys.exit(status)
