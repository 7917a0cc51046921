"""Workers in four processes and a backup, under one pool that they share: at most three query at once, and the backup is alone."""

import multiprocessing
import os
import tempfile
import time

from wanzoche import Paths

POOL = """
    resource pool cell
    operation query, backup
    path { query : 3 } , backup end
    end
"""


def queries(store, inside):
    """What a worker does. It opens the store itself: a child of a fork has no part in its parent's paths."""
    most = 0
    with Paths(POOL, store=store) as paths:
        for _ in range(10):
            with paths("query"):
                name = os.path.join(inside, str(os.getpid()))
                open(name, "w").close()
                most = max(most, len(os.listdir(inside)))
                time.sleep(0.002)
                os.unlink(name)
    return most


def backup(store, inside):
    with Paths(POOL, store=store) as paths, paths("backup"):
        return len(os.listdir(inside))


def main():
    with tempfile.TemporaryDirectory() as folder:
        store, inside = os.path.join(folder, "pool.log"), os.path.join(folder, "inside")
        os.mkdir(inside)
        with multiprocessing.get_context("spawn").Pool(5) as pool:
            workers = [pool.apply_async(queries, (store, inside)) for _ in range(4)]
            saved = pool.apply_async(backup, (store, inside))
            most, beside = max(each.get(600) for each in workers), saved.get(600)
        with Paths(POOL, store=store) as paths:
            starts = [line.split()[2].rstrip(":") for line in paths.journal().splitlines() if " start " in line]
            print("{} queries, {} backup".format(starts.count("query"), starts.count("backup")))
            print("never more than three at once: {}".format(most <= 3))
            print("queries beside the backup: {}".format(beside))
            print("the journal of all processes: {}".format(paths.audit()))


if __name__ == "__main__":
    main()
