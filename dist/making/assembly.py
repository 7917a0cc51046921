"""Gives the assembly that clang writes names that every assembler can read, and that stay the same where something else changes.

clang quotes a function's name with signs that old assemblers can't read in an operand, and numbers labels through the whole file, so
that one new function renames thousands. Here a function's name has no signs but points, a label in a function is called by the
function, and a constant by what it holds. Only names of what is local to the file change, so the object file stays the same but for
these: `objects` compares it.
"""

from __future__ import annotations

import hashlib
import re
from typing import Dict, List

_NUMBERED = re.compile(r"\.L(?:BB|CPI|JTI)(\d+)_")
_FUNCTION = re.compile(r'^("[^"\n]+"|[A-Za-z_][\w.$]*):\n(.*?)^\t\.size\t', re.MULTILINE | re.DOTALL)
_CONSTANT = re.compile(r"^\.Lstatic\.(\d+):\n(.*?)^\t\.size\t", re.MULTILINE | re.DOTALL)


def with_plain_names(text: str) -> str:
    """The same assembly under plain names."""
    for step in (_without_marks, _with_labels_of_functions, _with_names_of_constants, _with_names_of_functions):
        text = step(text)
    return text


def _without_marks(text: str) -> str:
    """Without what GNU as doesn't know, and without the labels that only tell a function's size."""
    text = re.sub(r"^\t\.addrsig.*\n", "", text, flags=re.MULTILINE)
    return re.sub(r"^\.Lfunc_end\d+:\n(\t\.size\t.*, )\.Lfunc_end\d+(-.*)$", r"\1.\2", text, flags=re.MULTILINE)


def _with_labels_of_functions(text: str) -> str:
    """A label's number is that of its function in the file; now it is a sum of the function's name."""
    owners = {number: name for name, body in _FUNCTION.findall(text) for number in _NUMBERED.findall(body)}
    labels = _told_apart({number: _sum(name) for number, name in owners.items()})
    return re.sub(r"(\.L(?:BB|CPI|JTI))(\d+)_", lambda it: f"{it[1]}.{labels[it[2]]}_", text)


def _with_names_of_constants(text: str) -> str:
    """A constant's number is its place in the file; now it is a sum of what it holds."""
    held = {number: _sum(re.sub(r"\.Lstatic\.\d+", ".Lstatic", body)) for number, body in _CONSTANT.findall(text)}
    names = _told_apart(held)
    return re.sub(r"\.Lstatic\.(\d+)\b", lambda it: f".Lstatic.{names.get(it[1], it[1])}", text)


def _with_names_of_functions(text: str) -> str:
    """A quoted name, and that of its section, without the signs. Strings stay as they are."""
    quoted = sorted(set(re.findall(r'^("[^"\n]+"):', text, re.MULTILINE)))
    plain = _told_apart({name: re.sub(r"\W+", ".", name).strip(".") for name in quoted})
    names = {**plain, **{f'".text.{name[1:]}': f".text.{short}" for name, short in plain.items()}}
    return "".join(_renamed(line, names) for line in text.splitlines(True))


def _renamed(line: str, names: Dict[str, str]) -> str:
    if line.startswith(("\t.ascii", "\t.asciz")):
        return line
    return re.sub(r'"[^"\n]*"', lambda it: names.get(it[0], it[0]), line)


def _sum(text: str) -> str:
    return hashlib.sha256(text.encode()).hexdigest()[:8]


def _told_apart(names: Dict[str, str]) -> Dict[str, str]:
    """The same names, but one that several keys have is numbered from its second key on."""
    keys: Dict[str, List[str]] = {}
    for key, name in names.items():
        keys.setdefault(name, []).append(key)
    return {key: name if at == 0 else f"{name}.{at}" for name, them in keys.items() for at, key in enumerate(them)}
