#!/usr/bin/env python3
"""Runs the page's checks of its module in jsc, the engine of Safari, which Debian's package libjavascriptcoregtk-4.0-bin has.

jsc_test.py EXAMPLES
"""
import json
import os
import subprocess
import sys
import tempfile

from bundle import bundle

HERE = os.path.dirname(os.path.realpath(__file__))


def files(folder):
    """The texts of a folder, by their names."""
    found = {}
    for name in sorted(os.listdir(folder)):
        path = os.path.join(folder, name)
        if os.path.isfile(path):
            with open(path, encoding="utf-8") as file:
                found[name] = file.read()
    return found


def module_of_page():
    """The bytes of the module in page/wanzoche.html."""
    with tempfile.NamedTemporaryFile() as file:
        subprocess.run([sys.executable, os.path.join(HERE, "fill.py"), "--module", file.name], check=True)
        return file.read()


def main(examples):
    names = [name for name in sorted(os.listdir(examples)) if os.path.isfile(os.path.join(examples, name, "declaration"))]
    texts = {name: files(os.path.join(examples, name)) for name in names}
    given = f"globalThis.MODULE = {list(module_of_page())};\nglobalThis.EXAMPLES = {json.dumps(texts)};\n"
    script = bundle(os.path.join(HERE, "tests", "shims.js")) + given + bundle(os.path.join(HERE, "tests", "jsc.js"))
    with tempfile.NamedTemporaryFile("w", suffix=".mjs", encoding="utf-8") as file:
        file.write(script)
        file.flush()
        ended = subprocess.run(["jsc", "-m", file.name], check=False, capture_output=True, text=True, timeout=3000)
    sys.stdout.write(ended.stdout)
    sys.stderr.write(ended.stderr)
    if ended.returncode or ", 0 failed" not in ended.stdout:
        sys.exit("page/jsc_test.py failed")


main(*sys.argv[1:])
