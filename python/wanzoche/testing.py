"""For tests of programs with paths: a test that leaves something in progress, or somebody waiting, fails and says why.

In pytest it is a fixture, for each test that asks for it. The file conftest.py has:

    pytest_plugins = ["wanzoche.testing"]

and `@pytest.mark.usefixtures("nothing_left_of_paths")` where it is wanted, or `usefixtures = nothing_left_of_paths` in `pytest.ini` for all
tests. Elsewhere: `with nothing_left():` around what is tested.
"""

from __future__ import annotations

import contextlib
import importlib
from typing import Dict, Iterator, List, Sequence, Tuple

from ._errors import Closed, StoreError
from ._forks import all_paths
from ._paths import Paths
from ._texts import Live

__all__ = ["nothing_left"]

_Found = Dict[Tuple[int, int], str]


@contextlib.contextmanager
def nothing_left(*paths: Paths) -> Iterator[None]:
    """A block at whose end nothing of these paths may be in progress that wasn't at its begin, and nobody may wait: else it raises
    `AssertionError`, which says what, by whom, and why those wait. Without paths it is about all that this process has open. Of paths over a
    store only what this process does counts. Paths that are closed, or whose store can't be asked, are left out. A block that raises has its
    own exception."""
    before = _in_progress(paths or all_paths())
    yield
    over = paths or all_paths()
    left = [told for key, told in _in_progress(over).items() if key not in before] + _waiting(over)
    if left:
        raise AssertionError("the paths aren't left as they were:\n" + "\n".join("  " + each for each in left))


def _in_progress(paths: Sequence[Paths]) -> _Found:
    """What of them is in progress, by whose it is and its number, in words."""
    return {(id(each), live.activation): _told(live) for each in paths for live in _live_of(each)}


def _live_of(paths: Paths) -> List[Live]:
    own = getattr(paths, "worker", None)
    return [live for live in _all_live(paths) if own is None or live.worker == own]


def _all_live(paths: Paths) -> Sequence[Live]:
    try:
        return paths.report().live
    except (Closed, StoreError):
        return ()


def _told(live: Live) -> str:
    return "{} is in progress, begun by {}".format(live.operation, live.worker.told)


def _waiting(paths: Sequence[Paths]) -> List[str]:
    """Who waits for them, in words."""
    return [told for each in paths for told in _waits_of(each)]


def _waits_of(paths: Paths) -> List[str]:
    try:
        return ["{} wait: {}".format(count, paths.why(name) or name) for name, count in paths._waiting_here().items()]
    except (Closed, StoreError):
        return []


def nothing_left_of_paths() -> Iterator[None]:
    """The fixture."""
    with nothing_left():
        yield


try:
    _pytest = importlib.import_module("pytest")
except ImportError:
    pass
else:
    nothing_left_of_paths = _pytest.fixture(nothing_left_of_paths)
