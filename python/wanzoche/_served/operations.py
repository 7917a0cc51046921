"""What a declaration says of its operations: which of them share a path."""

from __future__ import annotations

from typing import Dict, List, Optional, Sequence, Set

from .._texts import Path


class Operations:
    """The operations of a declaration, by their numbers. It stays as it is, so any thread may ask it."""

    def __init__(self, paths: Sequence[Path], numbers: Dict[str, int]) -> None:
        self.names = {op: name.encode() for name, op in numbers.items()}
        self.rivals = _rivals(paths, numbers)
        """Of each operation those that its finish may let start: the operations of its paths."""
        self.touches = [_touches(rivals, self.names) for rivals in self.rivals]
        """The names of those, as an array; None if they are all that there are, as nothing goes behind a line of theirs."""
        self._told = {b"%d" % op: op for op in numbers.values()}

    def of_notice(self, notice: bytes) -> Optional[int]:
        """For which operation a notification wakes somebody; None if it says none."""
        return self._told.get(notice.partition(b"\n")[0].partition(b" ")[0])


def _touches(rivals: Set[int], names: Dict[int, bytes]) -> Optional[bytes]:
    return None if len(rivals) == len(names) else b"{%b}" % b",".join(b'"%b"' % names[op] for op in sorted(rivals))


def _rivals(paths: Sequence[Path], numbers: Dict[str, int]) -> List[Set[int]]:
    found: List[Set[int]] = [set() for _ in numbers]
    for path in paths:
        own = {numbers[name] for name in path.operations}
        for op in own:
            found[op] |= own
    return found
