"""Passes: an operation that begins and ends with nothing done in it, so that the paths go on to what stands behind it."""

from __future__ import annotations

from typing import Optional, cast

from ._entries import Entry
from ._filed import StoredEntry
from ._store import Store
from ._stored import StoredPaths


def pass_at_once(paths: StoredPaths, operation: str, behind: Optional[Entry] = None) -> Optional[int]:
    """Makes a pass of an operation if it is admitted now: its number in the journal, or None if a path forbids it. `behind` is an entry in
    progress, which ends before that in any case.

    Over a file that is one hold of the turn: no line of another comes between. Over a server others may append between, so the pass comes
    directly behind. Raises `Lost` if others have ended the entry, and then makes no pass; `OutOfRoom`, and `StoreError`, after which the
    entry may be in progress still, or over without the pass.
    """
    if isinstance(paths._store, Store):
        return paths._file.pass_at_once(paths._number(operation), None if behind is None else cast(StoredEntry, behind)._begun)
    if behind is not None:
        behind.leave()
    entry = paths.try_enter(operation)
    if entry is None:
        return None
    number = entry.token
    entry.leave()
    return number


def make_pass(paths: StoredPaths, operation: str, timeout: Optional[float]) -> int:
    """Makes a pass of an operation when it is admitted: its number in the journal. Waits so many seconds at most, without a number as long
    as it takes. Raises `Timeout` where a path forbids it all that time, and else what `pass_at_once` does."""
    entry = paths(operation, timeout)
    number = pass_at_once(paths, operation)
    if number is None:
        with entry:
            number = entry.token
    return number
