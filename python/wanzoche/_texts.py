"""What the library's texts say."""

from __future__ import annotations

import re
from typing import Callable, Dict, List, NamedTuple, Optional, Tuple

TASKS = 1 << 31
"""Tasks have the workers' numbers from here on, threads those below."""


def worker_name(worker: int) -> str:
    """`thread 3` or `task 3`: threads and tasks are counted from 1, as they come to the paths."""
    return "task {}".format(worker - TASKS) if worker > TASKS else "thread {}".format(worker)


_GENERIC = re.compile(r"(MainThread|Thread-\d+( \(.*\))?|Dummy(Thread)?-\d+|Green(let|Thread)-\d+|Task-\d+)?")


class Worker(str):
    """Who has something in progress, as `thread 3`, with what is known of it."""

    name: Optional[str]
    """The name of the thread or the task; None if that isn't known, as where it has ended."""
    pid: Optional[int]
    """The number of its process, as that counts itself; None if that isn't known."""
    host: Optional[str]
    """The name of its machine, likewise."""

    def __new__(cls, text: str, name: Optional[str] = None, pid: Optional[int] = None, host: Optional[str] = None) -> "Worker":
        worker = super().__new__(cls, text)
        worker.name, worker.pid, worker.host = name, pid, host
        return worker

    @property
    def told(self) -> str:
        """`thread 3 (indexer)`: the text, and the name if the program gave one."""
        return str(self) if _GENERIC.fullmatch(self.name or "") else "{} ({})".format(self, self.name)


class Live(NamedTuple):
    """An operation in progress."""

    activation: int
    worker: Worker
    operation: str


class Waiting(NamedTuple):
    """One who waits."""

    operation: str
    """What it waits for."""
    worker: Worker
    priority: int
    waited: float
    """For how many seconds it has waited up to now."""


class Report(NamedTuple):
    """What can happen next. `str` gives its text."""

    startable: Tuple[str, ...]
    """The operations that can be started now, in the order of the text."""
    blocked: Dict[str, int]
    """Each other operation, with the first path that forbids it."""
    live: Tuple[Live, ...]
    """What is in progress, in the order of the starts."""
    frozen: bool
    """Whether nothing is in progress and nothing can ever be started again."""
    text: str
    lost: Tuple[Live, ...] = ()
    """What of it dead workers have in progress: over a store, and where paths go on behind a journal."""

    def __str__(self) -> str:
        return self.text


def read_report(text: str, name: Callable[[int], Worker]) -> Report:
    """The report in a text of the library, with these names of workers."""
    startable: Tuple[str, ...] = ()
    blocked: Dict[str, int] = {}
    live: List[Live] = []
    frozen = False
    for line in text.splitlines():
        word, *rest = line.split()
        if word == "startable":
            startable = tuple(rest)
        elif word == "blocked":
            blocked[rest[0]] = int(rest[1])
        elif word == "live":
            live.append(Live(int(rest[0]), name(int(rest[1])), rest[2]))
        else:
            frozen = rest[0] == "yes"
    return Report(startable, blocked, tuple(live), frozen, text)


def without_marks(journal: str) -> str:
    """A journal of version 3, up to its last line feed, as one of version 2; any other as it is."""
    if not journal.startswith("journal 3 "):
        return journal
    head, feed, lines = journal[: journal.rfind("\n") + 1].partition("\n")
    return head.replace("3", "2", 1) + feed + lines[lines.startswith("+") :].replace("\n+", "\n")


class Path(NamedTuple):
    """One path of a declaration."""

    resource: str
    text: str
    operations: Tuple[str, ...]


def read_declaration(text: str) -> Tuple[Dict[str, int], List[Path]]:
    """The operations with their numbers, and the paths, of a declaration as the library writes it."""
    operations: Dict[str, int] = {}
    paths: List[Path] = []
    words = re.findall(r"[A-Za-z][A-Za-z0-9_]*|[0-9]+|[^\sA-Za-z0-9]", text)
    resource, path, naming = "", None, False  # type: str, Optional[List[str]], bool
    for before, word in zip([""] + words, words):
        if path is not None:
            if word == "end":
                names = tuple(each for each in path if each[0].isalpha())
                paths.append(Path(resource, " ".join(path), names))
                path = None
            else:
                path.append(word)
        elif before == "resource":
            resource = word
        elif word == "operation":
            naming = True
        elif word == "path":
            path, naming = [], False
        elif word in ("resource", "end"):
            naming = False
        elif naming and word != ",":
            operations[word] = len(operations)
    return operations, paths


def device_of(text: str, operation: str) -> Tuple[str, str]:
    """The resource of an operation, and its law, in a declaration as the library writes it."""
    for resource, law, names in re.findall(r"resource (\w+) (cell|tally|queue \d+) operation ((?:\w+, )*\w+)", text):
        if operation in names.split(", "):
            return resource, law
    raise LookupError(operation)


class Verdict(NamedTuple):
    """What an audit says: true if the journal is sound. `str` gives `sound` or `wrong line N`."""

    wrong_line: Optional[int]
    """The first line whose reply wasn't owed, from 0; None if there is none."""

    @property
    def sound(self) -> bool:
        """Whether each reply was owed by the lines before it."""
        return self.wrong_line is None

    def __bool__(self) -> bool:
        return self.wrong_line is None

    def __str__(self) -> str:
        return "sound" if self.wrong_line is None else "wrong line {}".format(self.wrong_line)
