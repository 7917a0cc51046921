"""wanzoche(3): what the comments of the two headers say, for the man macros."""

from __future__ import annotations

import re
from typing import List, Tuple

from header import (
    Constants,
    Item,
    constants_of,
    items_of,
    name_in,
    paragraphs_of,
    prototype_of,
    sections_of,
    shown_struct,
)
from roff import bold, code, example, prose, tagged, wrapped

# The names of codes that an item of a list of answers begins with: `A`, `A, B` or `A .. B`.
_ANSWERS = re.compile(r"^(WANZOCHE_\w+(?:(?:,| \.\.) WANZOCHE_\w+)*)[;,]? *")
_COLUMNS = 68
# A space at which no line ends.
_FIXED = "\0"


class Library:
    """The headers of the library, by their names, and the calls that they declare."""

    def __init__(self, headers: "dict[str, str]") -> None:
        self.items = {name: items_of(text) for name, text in headers.items()}
        self.calls = [name_in(it) for items in self.items.values() for item in items for it in prototypes_of(item)]

    def names(self, title: str = "wanzoche.h") -> List[str]:
        """The line NAME: the library, each call, and the first line of this header's first comment."""
        what = self.items[title][0].text[0].split(": ", 1)[1].rstrip(".")
        return wrapped(", ".join(["wanzoche", *self.calls]) + r" \- " + what)

    def introduction(self, header: str) -> List[str]:
        """What a header's first comment says before its first section. A line that is only the header's title is left out."""
        paragraphs = sections_of(self.items[header][0].text)[0].paragraphs
        is_title = len(paragraphs[0]) == 1
        return self._paragraphs(paragraphs[1:] if is_title else paragraphs)

    def sections(self, header: str, macro: str) -> List[str]:
        """The sections of a header's first comment, each below this macro."""
        lines = []
        for section in sections_of(self.items[header][0].text)[1:]:
            title = section.title if macro == ".SH" else section.title.capitalize()
            lines += [macro + " " + title, *self._paragraphs(section.paragraphs)]
        return lines

    def types(self, header: str) -> List[str]:
        """The types and constants of a header, with what is said of each."""
        lines = []
        for item in self.items[header][1:]:
            if not prototypes_of(item):
                lines += [*self._paragraphs(paragraphs_of(item.text)), *self._declared(item)]
        return lines

    def prototypes(self, header: str) -> List[str]:
        """The calls of a header, each with its prototype and what is said of it."""
        lines = []
        for item in self.items[header]:
            calls = prototypes_of(item)
            if calls:
                lines += [".SS " + ", ".join(name_in(it) for it in calls), ".nf"]
                lines += [line for it in calls for line in _shown(it)]
                lines += [".fi", *self._paragraphs(paragraphs_of(item.text))]
        return lines

    def _declared(self, item: Item) -> List[str]:
        """The types, the constants and the macros of an item."""
        types = [it for it in item.declarations if it.startswith(("typedef", "struct"))]
        macros = [it for it in item.declarations if it.startswith("#")]
        groups = [group for it in item.declarations if it.startswith("enum") for group in constants_of(it)]
        lines = [line for it in types for line in example(shown_struct(it, item.text))]
        lines += [line for group in groups for line in self._constants(group)]
        return lines + (example(macros) if macros else [])

    def _constants(self, group: Constants) -> List[str]:
        """The constants of a group as a list without gaps, whose texts stand behind the names."""
        lines = [".PP", *prose(group.text + ".", self.calls)] if group.text else []
        widest = max(len("{} = {}".format(name, number)) for name, number, _ in group.rows)
        for n, (name, number, said) in enumerate(group.rows):
            tag = r"{} = {}".format(bold(name), number)
            lines += [".PD 0"] if n == 1 else []
            lines += tagged(tag, prose(said, self.calls), "{}n".format(widest + 2))
        return [*lines, ".PD"]

    def _paragraphs(self, paragraphs: List[List[str]]) -> List[str]:
        """Paragraphs of a comment: code, which is indented, a list of answers, or prose."""
        lines: List[str] = []
        for paragraph in paragraphs:
            if paragraph[0].startswith("    "):
                lines += example(line[4:] for line in paragraph)
            elif _ANSWERS.match(paragraph[0]):
                lines += [line for answer in answers_in(paragraph) for line in self._answer(*answer)]
            else:
                lines += [".PP", *prose(" ".join(paragraph), self.calls)]
        return lines

    def _answer(self, names: str, said: str) -> List[str]:
        """An item of a list of answers. Where nothing is said of it, it stands alone; what is said in brackets loses them."""
        said = said[1:-1] if said.startswith("(") and said.endswith(")") else said
        return tagged(re.sub(r"WANZOCHE_\w+", lambda name: bold(name.group()), names), prose(said, self.calls) if said else [])


def prototypes_of(item: Item) -> List[str]:
    """The prototypes that a comment speaks of."""
    return [it for it in map(prototype_of, item.declarations) if it]


def answers_in(paragraph: List[str]) -> List[Tuple[str, str]]:
    """The items of a list of answers: the names of their codes, and what is said of these. A line that doesn't begin with a code, or
    follows a comma, goes on with the item before."""
    joined: List[str] = []
    for line in paragraph:
        if line.startswith("WANZOCHE_") and not (joined and joined[-1].endswith(",")):
            joined.append(line)
        else:
            joined[-1] += " " + line.strip()
    return [_answer_of(line) for line in joined]


def _answer_of(line: str) -> Tuple[str, str]:
    """One item: the names, and what is said."""
    names = _ANSWERS.match(line)
    if not names:
        raise ValueError("no answer: " + line)
    return names.group(1), line[names.end() :]


def _shown(prototype: str) -> List[str]:
    """A prototype in lines of a page's width: bold, with the names of what goes in italic."""
    head, _, words = prototype.partition("(")
    whole = words.replace(", ", ",\n").replace(" ", _FIXED).replace("\n", " ")
    lines = [line.replace(_FIXED, " ") for line in wrapped(whole, _COLUMNS - len(head))]
    margin = " " * (len(head) + 1)
    return [_in_fonts((margin if n else head + "(") + line) for n, line in enumerate(lines)]


def _in_fonts(line: str) -> str:
    """A line of a prototype: bold, and italic before a comma or the last bracket."""
    return r"\fB" + re.sub(r"(?<=[ *])(\w+)(?=[,)])", r"\\fI\1\\fB", code(line)) + r"\fP"
