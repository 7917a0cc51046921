"""Compares two object files by all that a linker takes from them, but for the names of what is local.

An object file is read as the ELF format for 64-bit processors has it: sections with what they hold, places in them that the linker
fills in, and the names that are shared with other files.
"""

from __future__ import annotations

import struct
from typing import Any, Dict, List, NamedTuple, Optional, Sequence, Tuple

SYMBOLS, STRINGS, FILLED_IN, NO_BYTES, ADDRESS_MARKS = 2, 3, 4, 8, 0x6FFF4C03


class Head(NamedTuple):
    """The head of a section, with the fields of ELF."""

    name: int
    kind: int
    flags: int
    address: int
    offset: int
    size: int
    link: int
    info: int
    alignment: int
    entry_size: int


class Section(NamedTuple):
    """A section that ends up in what is linked."""

    kind: int
    flags: int
    alignment: int
    entry_size: int
    held: Any  # its bytes, or how many there are if all are zero


class Place(NamedTuple):
    """A place that the linker fills in, and with what: a shared name or a distance into a section, and a number to add."""

    section: int
    offset: int
    how: int
    name: Optional[bytes]
    leads_to: Tuple[int, ...]
    addend: Optional[int]


class Shared(NamedTuple):
    """A name that other files can see, or that this one asks them for."""

    name: bytes
    info: int
    visibility: int
    section: int
    value: int
    size: int


class ObjectFile(NamedTuple):
    """All that a linker takes from an object file, but for local names."""

    sections: List[Section]
    places: List[Place]
    shared: List[Shared]


def read_object(data: bytes) -> ObjectFile:
    """Reads an object file for a 64-bit processor, low bytes first. Raises ValueError if it isn't one."""
    if data[:6] != b"\x7fELF\x02\x01":
        raise ValueError("this is no 64-bit ELF object")
    return _Reader(data).read()


def difference(one: bytes, other: bytes) -> Optional[str]:
    """The first thing in which two object files differ, in words, or None if a linker takes the same from both."""
    first, second = read_object(one), read_object(other)
    missing = {it.name for it in second.shared} - {it.name for it in first.shared}
    if missing:
        return "it has no " + ", ".join(sorted(name.decode() for name in missing))
    rows: Tuple[Tuple[str, Sequence[Any], Sequence[Any]], ...] = (
        ("sections", first.sections, second.sections),
        ("places to fill in", first.places, second.places),
        ("shared names", first.shared, second.shared),
    )
    return next(filter(None, (_first_other(*row) for row in rows)), None)


def _first_other(what: str, here: Sequence[Any], there: Sequence[Any]) -> Optional[str]:
    if len(here) != len(there):
        return f"it has {len(here)} {what}, and {len(there)} are wanted"
    for at, (mine, wanted) in enumerate(zip(here, there)):
        if mine != wanted:
            return f"number {at} of its {what} is another"
    return None


class _Reader:
    """An object file while it is read."""

    def __init__(self, data: bytes) -> None:
        (begin,) = struct.unpack_from("<Q", data, 40)
        each, count = struct.unpack_from("<HH", data, 58)
        self.data = data
        self.heads = [Head(*struct.unpack_from("<IIQQQQIIQQ", data, begin + at * each)) for at in range(count)]
        dropped = (SYMBOLS, STRINGS, FILLED_IN, ADDRESS_MARKS)
        wanted = [at for at, head in enumerate(self.heads) if head.kind not in dropped]
        self.numbers: Dict[int, int] = {at: number for number, at in enumerate(wanted)}
        self.symbols: Dict[Tuple[int, int], Shared] = {}

    def read(self) -> ObjectFile:
        for at, head in enumerate(self.heads):
            if head.kind == SYMBOLS:
                self._read_symbols(at, head)
        shared = sorted(it for it in self.symbols.values() if it.name)
        sections = [self._section(self.heads[at]) for at in self.numbers]
        places = [place for head in self.heads if head.kind == FILLED_IN for place in self._places(head)]
        return ObjectFile(sections, places, shared)

    def _bytes(self, head: Head) -> bytes:
        return self.data[head.offset : head.offset + head.size]

    def _section(self, head: Head) -> Section:
        held: Any = head.size if head.kind == NO_BYTES else self._bytes(head)
        return Section(head.kind, head.flags, head.alignment, head.entry_size, held)

    def _read_symbols(self, at: int, head: Head) -> None:
        strings = self._bytes(self.heads[head.link])
        for number, (name, info, other, section, value, size) in enumerate(struct.iter_unpack("<IBBHQQ", self._bytes(head))):
            is_shared = info >> 4 != 0
            shown = strings[name : strings.index(b"\0", name)] if is_shared else b""
            self.symbols[at, number] = Shared(shown, info, other, self.numbers.get(section, section), value, size)

    def _places(self, head: Head) -> List[Place]:
        """A local place may be told as a symbol or as its section with the distance, so both are read as the latter."""
        found = []
        for offset, info, addend in struct.iter_unpack("<QQq", self._bytes(head)):
            symbol, section = self.symbols[head.link, info >> 32], self.numbers[head.info]
            how = info & 0xFFFFFFFF
            if symbol.name:
                found.append(Place(section, offset, how, symbol.name, (symbol.section, symbol.value), addend))
            else:
                found.append(Place(section, offset, how, None, (symbol.section, symbol.value + addend), None))
        return found
