"""Path expressions for threads and tasks: a declaration says in which order operations may run, and they wait for their turn.

>>> from wanzoche import Paths
>>> paths = Paths("resource slot cell operation deposit, remove path deposit ; remove end end")
>>> with paths("deposit") as entry:
...     entry.put(7)
0
>>> print(paths.why("deposit"))
deposit is blocked: path 0 of slot: deposit ; remove; in progress: nothing of it; may begin next: remove
"""

from ._auditing import audit
from ._entries import AsyncEntry, Entry
from ._errors import (
    Blocked,
    Closed,
    CorruptStore,
    DeclarationError,
    Forked,
    JournalError,
    Lost,
    NoJournal,
    NotInProgress,
    OtherDeclaration,
    OutOfRoom,
    ScriptError,
    StoreError,
    StoreInUse,
    StoreLate,
    Timeout,
    UnknownOperation,
    UseRefused,
    WanzocheError,
)
from ._exploring import Exploration, explore
from ._metrics import Histogram, Metrics
from ._paths import Paths
from ._stored import StoredPaths
from ._texts import Live, Path, Report, Verdict, Waiting, Worker

__all__ = [
    "AsyncEntry",
    "Blocked",
    "Closed",
    "CorruptStore",
    "DeclarationError",
    "Entry",
    "Exploration",
    "Forked",
    "Histogram",
    "JournalError",
    "Live",
    "Lost",
    "Metrics",
    "NoJournal",
    "NotInProgress",
    "OtherDeclaration",
    "OutOfRoom",
    "Path",
    "Paths",
    "Report",
    "ScriptError",
    "StoreError",
    "StoreInUse",
    "StoreLate",
    "StoredPaths",
    "Timeout",
    "UnknownOperation",
    "UseRefused",
    "Verdict",
    "Waiting",
    "WanzocheError",
    "Worker",
    "audit",
    "explore",
]
__version__ = "0.1.0"
