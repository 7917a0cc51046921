#!/usr/bin/env python3
"""Fills in the page.

fill.py MODULE FILE   with a module that was linked just now, the style, the code and the examples
fill.py --same FILE   with the module that page/wanzoche.html has, and all else as it is now
fill.py --check       says whether the module of page/wanzoche.html was linked from the sources as they are now
fill.py --crates      lists the crates of these sources
fill.py --module FILE writes the module of page/wanzoche.html to a file

The module is linked for 64-bit memory, which is all that Rattle builds. `wasm-opt` lowers it to 32-bit memory, which every browser has.
"""
import base64
import gzip
import hashlib
import json
import os
import re
import subprocess
import sys
import tempfile

from bundle import bundle

HERE = os.path.dirname(os.path.realpath(__file__))
TOP = os.path.dirname(HERE)
PAGE = os.path.join(HERE, "wanzoche.html")
STYLES = ["picture.css", "page.css"]
LOWERING = ["wasm-opt", "--enable-memory64", "--enable-bulk-memory", "--enable-sign-ext", "--memory64-lowering"]
# The most bytes that the page may have.
MOST = 320000
MODULE = re.compile(r'<script id="module" type="text/plain" data-sources="(\w+)">([^<]*)</script>')


def read(*path):
    with open(os.path.join(*path), encoding="utf-8") as file:
        return file.read()


def crates():
    """The crates of this repository that the module is made of: path_page, and all below it."""
    listed = {line.split()[0].rstrip(":"): line.partition(":")[2].split() for line in read(TOP, "crates.txt").splitlines() if line}
    found = ["path_page"]
    for name in found:
        found += [below for below in listed[name] if below in listed and below not in found]
    return sorted(found)


def sum_of_sources():
    """The checksum of the sources that the module is made of."""
    digest = hashlib.sha256()
    for crate in crates():
        for folder, _, names in sorted(os.walk(os.path.join(TOP, "crates", crate, "src"))):
            for name in sorted(names):
                digest.update(repr((os.path.relpath(folder, TOP), name, read(folder, name))).encode())
    return digest.hexdigest()


def text_of(example, name):
    """A file of an example, or nothing."""
    path = os.path.join(TOP, "examples", example, name)
    return read(path) if os.path.isfile(path) else ""


def shown_instead():
    """What the page shows in another way than the folder of an example: the caption, or attempts where the folder has a script."""
    found = json.loads(read(HERE, "shown.json"))
    for example in found.values():
        if "attempts" in example:
            example["attempts"] = "".join(line + "\n" for line in example["attempts"])
    return found


def examples():
    """The examples with a declaration, in the order of the table of examples/README.md, each with what it shows, by the table or by
    shown.json."""
    rows = re.findall(r"^\| `(\w+)` \| (.+) \|$", read(TOP, "examples", "README.md"), re.MULTILINE)
    texts = ("declaration", "attempts", "journal", "script")
    found = [{"name": name, "shows": shows.replace("`", ""), **{it: text_of(name, it) for it in texts}} for name, shows in rows]
    instead = shown_instead()
    return [{**example, **instead.get(example["name"], {})} for example in found if example["declaration"]]


def number_at(module, at):
    """The number in a module that begins there, and where it ends."""
    number = shift = 0
    while True:
        byte = module[at]
        number, shift, at = number | (byte & 127) << shift, shift + 7, at + 1
        if byte < 128:
            return number, at


def without_names(module):
    """A module without its custom sections: the names of its functions, and what made it. No engine needs them."""
    kept, at = module[:8], 8
    while at < len(module):
        size, begin = number_at(module, at + 1)
        end = begin + size
        if module[at] != 0:
            kept += module[at:end]
        at = end
    return kept


def lowered(module):
    """A module for 64-bit memory as one for 32-bit memory, by Debian's binaryen."""
    with tempfile.TemporaryDirectory() as folder:
        before, after = (os.path.join(folder, name) for name in ("64.wasm", "32.wasm"))
        with open(before, "wb") as file:
            file.write(without_names(module))
        try:
            subprocess.run([*LOWERING, before, "-o", after], check=True)
        except FileNotFoundError:
            sys.exit("page/build needs wasm-opt, which Debian's package binaryen has")
        with open(after, "rb") as file:
            return without_names(file.read())


def packed(module):
    """A module as the page has it: by gzip and base64. What the page has already stays as it is, whichever gzip made it."""
    had = MODULE.search(read(PAGE))
    if had and unpacked(had[2]) == module:
        return had[2]
    return base64.b64encode(gzip.compress(module, 9, mtime=0)).decode()


def unpacked(text):
    """The module that a text of the page has."""
    return gzip.decompress(base64.b64decode(text))


def allowed(texts):
    """The sources of a Content-Security-Policy that allow these elements, and no others."""
    digests = [hashlib.sha256(text.encode()).digest() for text in texts]
    return " ".join(f"'sha256-{base64.b64encode(digest).decode()}'" for digest in digests)


def languages():
    """The languages of copies.js, as options."""
    found = re.findall(r'^  (\w+): \{ name: "([^"]+)"', read(HERE, "copies.js"), re.MULTILINE)
    return '<option value=""></option>' + "".join(f'<option value="{key}">{name}</option>' for key, name in found)


def fill(sources, module, to):
    """Writes the page with this module, as it is packed, which was linked from these sources."""
    code, worker = (bundle(os.path.join(HERE, name)) for name in ("page.js", "worker.js"))
    styles = {name: read(HERE, name) for name in STYLES}
    values = {
        **styles,
        "page.js": code,
        "worker.js": worker,
        "MODULE": module,
        "SOURCES": sources,
        "EXAMPLES": json.dumps(examples(), ensure_ascii=False).replace("</", "<\\/"),
        "LANGUAGES": languages(),
        "VERSION": read(TOP, "VERSION").strip(),
        "SCRIPT_HASHES": allowed([code]),
        "STYLE_HASHES": allowed(styles.values()),
    }
    page = re.sub(r"@([A-Za-z_.]+)@", lambda found: values[found[1]], read(HERE, "page.html"))
    size = len(page.encode())
    if size > MOST:
        sys.exit(f"the page would have {size:,} bytes, and {MOST:,} are the most")
    with open(to, "w", encoding="utf-8") as file:
        file.write(page)
    print(f"{to}: {size:,} bytes, {len(unpacked(module)):,} of them the module before it was packed")


def main(first, to=None):
    if first == "--crates":
        print("\n".join(crates()))
    elif first == "--same":
        fill(*MODULE.search(read(PAGE)).groups(), to)
    elif first == "--module":
        with open(to, "wb") as file:
            file.write(unpacked(MODULE.search(read(PAGE))[2]))
    elif first == "--check":
        if MODULE.search(read(PAGE))[1] != sum_of_sources():
            sys.exit("page/wanzoche.html has a module of other sources: run page/build")
    else:
        with open(first, "rb") as file:
            fill(sum_of_sources(), packed(lowered(file.read())), to)


main(*sys.argv[1:])
