"""Web workers that are forked, as a server does that forks before it serves, and a maintenance window: it waits until all requests of all
workers are over, and holds the next ones up until it has ended."""

import os
import tempfile
import time

from wanzoche import Paths

SITE = """
    resource site cell
    operation request, maintain
    path { request } , maintain end
    end
"""
WORKERS, REQUESTS = 4, 40


def version(folder):
    with open(os.path.join(folder, "version")) as file:
        return file.read()


def serve(folder):
    """What a worker does: how many of its requests saw the site change. It opens the store itself, behind the fork."""
    changed = 0
    with Paths(SITE, store=os.path.join(folder, "site.log"), sync=False) as paths:
        for _ in range(REQUESTS):
            with paths("request"):
                before = version(folder)
                time.sleep(0.001)
                changed += version(folder) != before
    return changed


def forked(folder):
    """Begins a worker: its process."""
    child = os.fork()
    if child == 0:
        os._exit(serve(folder))
    return child


def maintain(folder):
    """Changes the site in two steps, between which nobody may see it."""
    with Paths(SITE, store=os.path.join(folder, "site.log")) as paths, paths("maintain", timeout=600):
        for text in ("half", "new"):
            with open(os.path.join(folder, "version"), "w") as file:
                file.write(text)
            time.sleep(0.01)


def main():
    with tempfile.TemporaryDirectory() as folder:
        with open(os.path.join(folder, "version"), "w") as file:
            file.write("old")
        workers = [forked(folder) for _ in range(WORKERS)]
        time.sleep(0.02)
        maintain(folder)
        changed = sum(os.WEXITSTATUS(os.waitpid(worker, 0)[1]) for worker in workers)
        with Paths(SITE, store=os.path.join(folder, "site.log")) as paths:
            starts = [line.split()[2].rstrip(":") for line in paths.journal().splitlines() if " start " in line]
            print("{} requests, {} maintenance".format(starts.count("request"), starts.count("maintain")))
            print("requests that saw the site change: {}".format(changed))
            print("the site: {}".format(version(folder)))
            print("the journal of all processes: {}".format(paths.audit()))


if __name__ == "__main__":
    main()
