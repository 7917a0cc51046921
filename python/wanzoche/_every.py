"""`exec --every`: a command runs at most once in some time, over all that ask. When it last began is kept in the cell of the operation's
resource, in milliseconds since 1970, so the journal has it, and whoever opens the store next knows it."""

from __future__ import annotations

import time
from typing import Optional

from . import _native as native
from ._entries import Entry
from ._errors import WanzocheError
from ._paths import Paths
from ._served.asking import Asked
from ._served.paths import ServedPaths
from ._stored import StoredPaths
from ._texts import device_of

EARLIEST = 1_500_000_000_000
"""A number before this one (of 2017) isn't a time that was kept here."""
CLOCK = Asked(b"clock", "select floor(1000 * extract(epoch from clock_timestamp()))::bigint")

def check_every(paths: Paths, operation: str) -> None:
    """Raises WanzocheError if this operation of paths that were just opened isn't one that may run at most once in some time: its resource
    has a cell, it is one at a time, and the paths are behind it as they were before."""
    before = paths.report()
    resource, law = device_of(paths._text_of(native.declaration), operation)
    if law != "cell":
        raise WanzocheError("--every keeps a time in a cell, and {} is a {}".format(resource, law))
    told = "--every ends the operation also where it runs no command, and so wants one at a time, behind which nothing else is: {} "
    if operation not in before.startable:
        raise WanzocheError(told.format(operation) + "comes behind another")
    with paths(operation):
        if paths.can_start(operation):
            raise WanzocheError(told.format(operation) + "may run beside itself")
    if paths.report()[:2] != before[:2]:
        raise WanzocheError(told.format(operation) + "lets others begin")


def seconds_since(paths: StoredPaths, entry: Entry, seconds: int) -> Optional[float]:
    """Within an operation: how many seconds ago it was due, if that is less than these; None if it is due now, which is kept. Raises
    WanzocheError if the cell has what isn't a time, and `StoreError`."""
    now, last = _now(paths), entry.look()
    if last and last < EARLIEST:
        raise WanzocheError("the cell has {}, which isn't a time: --every wants a resource of its own".format(last))
    if last and abs(now - last) < 1000 * seconds:
        return (now - last) / 1000
    entry.put(now)
    return None


def _now(paths: StoredPaths) -> int:
    """Milliseconds since 1970: over a server by its clock, so that all machines ask the same one."""
    if not isinstance(paths, ServedPaths):
        return time.time_ns() // 1_000_000
    served = paths.served
    return served.ask(lambda: int(CLOCK.rows(served.log)[0][0]))
