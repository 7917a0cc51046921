"""A pool of three connections, and a maintenance window that comes although queries overlap all the time.

Who wants to query passes a door first, `admit`. Maintenance closes it, `announce`, and begins when the queries that are inside are over.
"""

import threading
from contextlib import contextmanager
from typing import Iterator, List

from wanzoche import Paths, Timeout

paths = Paths(
    """
    resource pool cell
    operation query, maintain, admit, announce
    path { query : 3 } , maintain end
    path admit , announce end
    end
    """
)
answers: List[int] = []
answering = threading.Lock()


@contextmanager
def connection(timeout: float = 60) -> Iterator[None]:
    """One of three, for a `with` statement. Raises `Timeout` if there is none in time."""
    with paths("admit", timeout=timeout):
        query = paths.enter("query", timeout)
    try:
        yield
    finally:
        query.leave()


def query(number: int) -> None:
    with connection(), answering:
        answers.append(number * number)


def maintain() -> None:
    with paths("announce"), paths("maintain"):
        assert [each.operation for each in paths.report().live] == ["announce", "maintain"]
        try:
            with connection(timeout=0.01):
                pass
        except Timeout as error:
            print("{} has to wait: {}".format(error.operation, error.text))


threads = [threading.Thread(target=query, args=(n,)) for n in range(40)]
threads.insert(20, threading.Thread(target=maintain))
for thread in threads:
    thread.start()
for thread in threads:
    thread.join()
print("{} answers, journal {}".format(len(answers), paths.audit()))
