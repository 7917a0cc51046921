"""Text as the man macros want it."""

from __future__ import annotations

import re
import textwrap
from typing import Callable, Iterable, List, Match

_MARK = re.compile(
    r"`(?P<code>[^`]+)`"
    r"|(?P<call>\bwanzoche_\w+\b)(?P<header>\.h)?"
    r"|(?P<constant>\bWANZOCHE_[A-Z_0-9]+\b)"
    r"|(?P<option>(?<![\w-])--[a-z][a-z-]*)"
    r"|(?P<page>\bdocs/\w+\.md\b)"
    r"|(?P<minus>(?<![\w-])-(?=\d))"
)
_SENTENCE = re.compile(r"(?<=[^.][.?!]) +(?=[A-Z0-9`-])")
_IN_CODE = {"\\": r"\e", "-": r"\-", "'": r"\(aq", "`": r"\(ga", "^": r"\(ha", "~": r"\(ti"}


def code(text: str) -> str:
    """Text in which each byte counts, as it has to be typed."""
    return "".join(_IN_CODE.get(letter, letter) for letter in text)


def bold(text: str) -> str:
    """Words of a program, as they are typed."""
    return r"\fB" + code(text) + r"\fP"


def italic(text: str) -> str:
    """What stands for a word, or the name of a page."""
    return r"\fI" + code(text) + r"\fP"


def _quoted(text: str) -> str:
    """Words of a program in prose: bold, and in quotation marks where one wouldn't see where they begin or end."""
    if text == text.strip() and any(letter.isalnum() for letter in text):
        return bold(text)
    return r"\(lq" + bold(text).replace(" ", r"\~") + r"\(rq"


def _marked(calls: Iterable[str]) -> Callable[[Match[str]], str]:
    """What becomes of a mark, where these names are calls."""
    names = frozenset(calls)

    def marked(mark: Match[str]) -> str:
        kind, text = mark.lastgroup, mark.group(0)
        if kind == "minus":
            return r"\-"
        if kind == "page":
            return italic(text)
        if kind == "code":
            return _quoted(mark.group("code"))
        return bold(text) + ("()" if text in names else "")

    return marked


def inline(text: str, calls: Iterable[str] = ()) -> str:
    """Prose in one line: what stands in backquotes, options and names of the library bold, pages italic, a call with `()`."""
    return _MARK.sub(_marked(calls), text.replace("\\", r"\e"))


def safe(line: str) -> str:
    """A line that isn't taken for a request, although it may begin like one."""
    return r"\&" + line if line[:1] in (".", "'") else line


def wrapped(text: str, columns: int = 79, later: str = "") -> List[str]:
    """The lines of a text, cut at spaces; those behind the first begin with `later`."""
    return textwrap.wrap(text, columns, subsequent_indent=later, break_long_words=False, break_on_hyphens=False)


def prose(text: str, calls: Iterable[str] = ()) -> List[str]:
    """The lines of a paragraph. Each sentence begins one, as the macros space them then."""
    sentences = _SENTENCE.split(" ".join(text.split()))
    return [safe(line) for sentence in sentences for line in wrapped(inline(sentence, calls))]


def example(lines: Iterable[str]) -> List[str]:
    """Lines that are shown as they are, two columns further in."""
    return [".PP", ".RS 2", ".nf", *(safe(code(line)) for line in lines), ".fi", ".RE"]


def tagged(tag: str, text: List[str], width: str = "") -> List[str]:
    """An item of a list: a tag, and lines behind or below it. The tag is roff already."""
    return [(".TP " + width).strip(), safe(tag), *(text or [r"\&"])]
