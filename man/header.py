"""The public items of a C header, read from its text: each comment with what it speaks of.

A comment that begins with a line `/*` and has `**` before each other line is public, and what stands behind it up to the next comment
belongs to it. The first one is about the whole header. Other comments, and what stands behind them, are private.
"""

from __future__ import annotations

import re
from typing import Iterator, List, NamedTuple, Tuple

_FOR_CPP = re.compile(r"^#ifdef __cplusplus\n.*?^#endif\n", re.MULTILINE | re.DOTALL)
_COMMENT = re.compile(r"/\*.*?\*/", re.DOTALL)
_DIRECTIVE = re.compile(r"#.*")
_PUBLIC = re.compile(r"/\*\n\*\* ")
_CONSTANT = re.compile(r"^ +(\w+) = (\d+),?(?: +/\* (.*) \*/)?$")
_GROUP = re.compile(r"^ +/\* (.*) \*/$")
_TITLE = re.compile(r"^([A-Z]{2}[A-Z ]*)\. ")


class Item(NamedTuple):
    """What one public comment says, and of which declarations. Both are lines as in the header, without the comment's marks."""

    text: List[str]
    declarations: List[str]


class Section(NamedTuple):
    """A part of a comment, with the title that it begins with in capitals, or none."""

    title: str
    paragraphs: List[List[str]]


class Constants(NamedTuple):
    """Constants of an enum that stand together: what is said of them all, and each with its number and what is said of it."""

    text: str
    rows: List[Tuple[str, str, str]]


def _declaration(text: str, at: int) -> int:
    """Where the declaration that begins here ends: behind a `;`, or behind the body of a function."""
    depth = 0
    for mark in re.compile(r"/\*.*?\*/|[{};]", re.DOTALL).finditer(text, at):
        depth += {"{": 1, "}": -1}.get(mark.group(), 0)
        is_body = mark.group() == "}" and not text.startswith(";", mark.end()) and not re.match(r" \w+;", text[mark.end() :])
        if depth == 0 and (mark.group() == ";" or is_body):
            return mark.end()
    raise ValueError("a declaration doesn't end: " + text[at : at + 60])


def _pieces(text: str) -> Iterator[str]:
    """Comments, directives and declarations, in order."""
    at = 0
    while at < len(text):
        piece = _COMMENT.match(text, at) or _DIRECTIVE.match(text, at)
        if text[at].isspace():
            at += 1
            continue
        end = piece.end() if piece else _declaration(text, at)
        yield text[at:end]
        at = end


def _comment_lines(comment: str) -> List[str]:
    """The lines of a public comment."""
    return [re.sub(r"^\*\* ?", "", line) for line in comment.splitlines()[1:-1]]


def _is_declared(piece: str) -> bool:
    """Whether a piece declares something, as `#include` and the guards don't."""
    return not piece.startswith("#") or re.match(r"#define \w+ ", piece) is not None


def items_of(header: str) -> List[Item]:
    """The public comments of a header with their declarations, in order. The first has none."""
    items: List[Item] = []
    is_public = False
    for piece in _pieces(_FOR_CPP.sub("", header)):
        if piece.startswith("/*"):
            is_public = _PUBLIC.match(piece) is not None
            if is_public:
                items.append(Item(_comment_lines(piece), []))
        elif is_public and _is_declared(piece):
            items[-1].declarations.append(piece)
    return items


def paragraphs_of(lines: List[str]) -> List[List[str]]:
    """The paragraphs of a comment: lines between empty ones."""
    paragraphs: List[List[str]] = [[]]
    for line in lines:
        if line:
            paragraphs[-1].append(line)
        else:
            paragraphs.append([])
    return [paragraph for paragraph in paragraphs if paragraph]


def sections_of(lines: List[str]) -> List[Section]:
    """The sections of the comment on a whole header. What stands before the first title has none."""
    sections = [Section("", [])]
    for paragraph in paragraphs_of(lines):
        title = _TITLE.match(paragraph[0])
        if title:
            sections.append(Section(title.group(1), []))
            paragraph = [paragraph[0][title.end() :], *paragraph[1:]]
        sections[-1].paragraphs.append(paragraph)
    return sections


def constants_of(enum: str) -> List[Constants]:
    """The constants of an enum, in groups: each begins behind an empty line, or with a comment in a line of its own."""
    groups = [Constants("", [])]
    for line in enum.splitlines():
        row, group = _CONSTANT.match(line), _GROUP.match(line)
        if row:
            groups[-1].rows.append((row.group(1), row.group(2), row.group(3) or ""))
        elif group or not line:
            groups.append(Constants(group.group(1) if group else "", []))
    return [group for group in groups if group.rows]


def prototype_of(declaration: str) -> str:
    """The prototype of a function in one line, or nothing if it declares none."""
    head = " ".join(declaration.split("{")[0].rstrip(" ;\n").split())
    if head.startswith(("typedef", "enum", "struct", "#")) or not head.endswith(")"):
        return ""
    return re.sub(r"^(WANZOCHE_CHECKED )?(static inline )?", "", head) + ";"


def name_in(prototype: str) -> str:
    """The name of the function of a prototype."""
    return prototype.split("(")[0].split()[-1].lstrip("*")


def shown_struct(declaration: str, text: List[str]) -> List[str]:
    """A struct as the header has it; where its comment says that the fields are private, without those that the comment doesn't name."""
    said = " ".join(text)
    if "ields are private" not in said:
        return declaration.splitlines()
    named = re.findall(r"`(\w+)`", said)
    head, *fields, end = declaration.splitlines()
    shown = [field for field in fields if any(re.search(r"\b{}\b[;)]".format(name), field) for name in named)]
    return [head, *shown, "    /* .. */", end]
