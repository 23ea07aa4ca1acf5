#!/usr/bin/env python3
"""What sources may load that isn't allowed: permissions.py PREFIX.. -- FILE..

A specifier is allowed if it begins by one of the prefixes. Each line is FILE:BYTE: KIND "SPECIFIER" of one that isn't; or
FILE:BYTE: mentions and what no specifier shows: a name that the text doesn't declare and that is no usual one, such as eval, an
import() of no literal, import.meta or with; or why a file isn't read. The exit status is 1 if there is a line. What an empty
list doesn't say is in docs/TOOLS.md, "mentions".
"""
import os
import sys

import joravelsu

MEDIA_TYPES = {".ts": joravelsu.TYPESCRIPT, ".mts": joravelsu.MTS, ".cts": joravelsu.CTS, ".tsx": joravelsu.TSX,
               ".js": joravelsu.JAVASCRIPT, ".mjs": joravelsu.MJS, ".cjs": joravelsu.CJS, ".jsx": joravelsu.JSX}
MARK = b"\xef\xbb\xbf"


def refusals(text, media_type, allowed):
    """What the text may load that isn't allowed: a place and words for each, in the order of the places."""
    found = [(site.start, f'{site.kind} "{site.value}"') for site in joravelsu.imports_of(text, media_type)
             if not site.type_only and not site.value.startswith(tuple(allowed))]
    # Places count from the byte after a byte order mark.
    read = text[len(MARK):] if text.startswith(MARK) else text
    names = (*joravelsu.ECMASCRIPT, *joravelsu.HOST)
    found += [(it.start, f"mentions {read[it.start:it.end].decode()}") for it in joravelsu.mentions_in(text, media_type, names)]
    return sorted(found)


def main(words):
    if "--" not in words:
        print("usage: permissions.py PREFIX.. -- FILE..", file=sys.stderr)
        return 64
    at = words.index("--")
    status = 0
    for path in words[at + 1:]:
        with open(path, "rb") as file:
            text = file.read()
        try:
            lines = refusals(text, MEDIA_TYPES.get(os.path.splitext(path)[1], joravelsu.JAVASCRIPT), words[:at])
        except joravelsu.SourceError as error:
            lines = [(error.place or 0, str(error))]
        for place, said in lines:
            print(f"{path}:{place}: {said}")
            status = 1
    return status


if __name__ == "__main__":
    sys.exit(main(sys.argv[1:]))
