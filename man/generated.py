"""Files that are made of others and committed."""

from __future__ import annotations

import difflib
import os
from typing import Dict


def difference(top: str, path: str, text: str) -> str:
    """How a file differs from the text that is made for it; nothing if it doesn't. A file that isn't there has no lines."""
    there = ""
    if os.path.exists(os.path.join(top, path)):
        with open(os.path.join(top, path), encoding="utf-8") as file:
            there = file.read()
    return "".join(difflib.unified_diff(there.splitlines(True), text.splitlines(True), path, path + ", as it is made"))


def check(top: str, files: Dict[str, str], command: str) -> int:
    """Shows how the files below `top` differ from these texts, and which command makes them anew. Returns the exit status: 1 if one differs."""
    changes = {path: difference(top, path, text) for path, text in files.items()}
    for path, change in changes.items():
        if change:
            print("{} isn't what is made; run {}\n{}".format(path, command, change), end="")
    return 1 if any(changes.values()) else 0


def write(top: str, files: Dict[str, str]) -> int:
    """Writes the files, and returns the exit status."""
    for path, text in files.items():
        with open(os.path.join(top, path), "w", encoding="utf-8") as file:
            file.write(text)
    return 0
