"""Who is in its own way: which operations can't begin while a worker has in progress what it has, whatever others do."""

from __future__ import annotations

from typing import Collection, Dict, List, NamedTuple, Optional, Sequence, Set

from ._texts import Path, Report


class Braces(NamedTuple):
    """Braces of a path."""

    number: int
    """From left to right, from 0."""
    bound: Optional[int]


def braces_of(path: Path) -> Dict[str, Braces]:
    """The braces in which each operation of the path stands; those that stand outside of braces are left out."""
    found: Dict[str, Braces] = {}
    inside: List[str] = []
    words, number, is_open = path.text.split(), 0, False
    for word in words:
        if word == "{":
            is_open, inside = True, []
        elif word == "}":
            bound = int(inside.pop()) if inside[-1].isdigit() else None
            found.update(dict.fromkeys(inside, Braces(number, bound)))
            number, is_open = number + 1, False
        elif is_open and word[0].isalnum():
            inside.append(word)
    return found


def _excludes(path: Path, own: Sequence[str], operation: str) -> bool:
    """Whether the path never lets the operation begin while these are in progress: what stands outside of braces, an operation or braces,
    is alone, and no more are in progress in braces than their bound."""
    if operation not in path.operations:
        return False
    beside = [each for each in own if each in path.operations]
    if not beside:
        return False
    braces = braces_of(path)
    shared = braces.get(operation)
    if shared is None or any(braces.get(each) != shared for each in beside):
        return True
    return shared.bound is not None and len(beside) >= shared.bound


def _never_begin(paths: Sequence[Path], report: Report, own: Sequence[str], ending: Collection[str]) -> Set[str]:
    """The operations that can't begin while these of one's own are in progress, where of all others in progress each may end.

    An operation is one of them if some path excludes it beside the own ones; or if the path that forbids it now stays as it is, since none
    of its operations ends, and all of them are of this kind. The first of them to begin would break one of these, so none ever does.
    """
    never = {each for each in report.blocked if any(_excludes(path, own, each) for path in paths)}
    stays = set(report.blocked)
    moved = True
    while moved:
        moving = {each for each in stays - never if not stays.issuperset(paths[report.blocked[each]].operations)}
        moving |= {each for each in stays - never if not set(ending).isdisjoint(paths[report.blocked[each]].operations)}
        stays -= moving
        moved = bool(moving)
    return stays


def held_up(paths: Sequence[Path], report: Report, workers: Collection[str]) -> Set[str]:
    """The operations that can't begin while these workers have in progress what they have, whatever others do; but could if it ended."""
    own = [each.operation for each in report.live if each.worker in workers]
    if not own:
        return set()
    others = [each.operation for each in report.live if each.worker not in workers]
    return _never_begin(paths, report, own, others) - _never_begin(paths, report, [], others + own)
