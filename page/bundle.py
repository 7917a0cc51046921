#!/usr/bin/env python3
"""Makes one script of modules that import each other: bundle.py FILE

Each module stands in the script once, below those that it imports, without its imports and exports. So what modules declare at their top
has names of its own: one name twice is a fault of the script, which a browser and `node --check` tell. Lines that are comments are left
out, so no text of several lines may have a line that looks like one.
"""
import os
import re
import sys

IMPORT = re.compile(r'^import (?:\{[^}]*\} from )?"(\.\.?/[\w./]+)";\n', re.MULTILINE)
EXPORT = re.compile(r"^export (?=(?:async )?(?:function|class|const|let)\b)", re.MULTILINE)
COMMENT = re.compile(r"^[ \t]*(?://.*|/\*\*(?:[^*]|\*(?!/))*\*/)\n", re.MULTILINE)


def in_order(path, found):
    """Appends the module at this path, and before it those that it imports, to those that were found."""
    if path in found:
        return
    found[path] = None
    with open(path, encoding="utf-8") as file:
        text = file.read()
    for other in IMPORT.findall(text):
        in_order(os.path.normpath(os.path.join(os.path.dirname(path), other)), found)
    del found[path]
    found[path] = text


def bundle(path):
    """The script of a module and of all that it imports."""
    found = {}
    in_order(os.path.normpath(path), found)
    return "".join(EXPORT.sub("", COMMENT.sub("", IMPORT.sub("", text))).strip() + "\n" for text in found.values())


if __name__ == "__main__":
    sys.stdout.write(bundle(sys.argv[1]))
