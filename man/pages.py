"""Blocks and tables of the pages in docs/, for the man macros. Headings and columns are given as their words joined by hyphens."""

from __future__ import annotations

import re
from itertools import dropwhile, takewhile
from typing import List

from roff import bold, example, prose, tagged

_LINK = re.compile(r" ?\[([^]]*)\]\([^)]*\)| \(\[[^)]*\)\)")


def _below(page: str, heading: str) -> List[str]:
    """The lines below a heading, up to the next one. Raises ValueError if there is no such heading."""
    lines = page.splitlines()
    titles = [re.sub(r"^#+ ", "", line).replace(" ", "-") if re.match(r"#+ ", line) else None for line in lines]
    if heading not in titles:
        raise ValueError("the page has no heading " + heading)
    first = titles.index(heading) + 1
    later = [at for at, title in enumerate(titles) if title is not None and at >= first]
    return lines[first : later[0] if later else len(lines)]


def block_of(page: str, heading: str) -> List[str]:
    """The first fenced block below a heading."""
    lines = _below(page, heading)
    begins = next(at for at, line in enumerate(lines) if line.startswith("```"))
    return example(lines[begins + 1 : lines.index("```", begins + 1)])


def _is_row(line: str) -> bool:
    """Whether a line is one of a table."""
    return line.startswith("|")


def _cells(row: str) -> List[str]:
    """The cells of a row of a table, without links."""
    return [_LINK.sub(r"\1", cell).strip() for cell in row.strip("|").split("|")]


def table_of(page: str, heading: str, tag: str, text: str) -> List[str]:
    """The first table below a heading as a list: the column `tag` is what its items are called, and `text` what is said of each."""
    rows = [_cells(line) for line in takewhile(_is_row, dropwhile(lambda line: not _is_row(line), _below(page, heading)))]
    at_tag, at_text = (rows[0].index(column.replace("-", " ")) for column in (tag, text))
    return [line for row in rows[2:] for line in tagged(_tag(row[at_tag]), prose(row[at_text]))]


def _tag(cell: str) -> str:
    """What stands in backquotes, bold; words between them as they are."""
    return re.sub(r"`([^`]*)`", lambda code: bold(code.group(1)), cell)
