"""A migration that waits for the queries of every process. Each of four services has three threads that query a table; while it gets its new
form, in two steps, nobody may read it. What the services have begun they end, and what comes later waits for the new form."""

import os
import tempfile
import threading
import time

from wanzoche import Paths

TABLE = """
    resource table cell
    operation query, migrate
    path { query } , migrate end
    end
"""
SERVICES, THREADS, QUERIES = 4, 3, 6


class Service:
    """One process. Its first query of each thread lasts until it is told to go on."""

    def __init__(self, folder, ready, go):
        self.folder, self.ready, self.go = folder, ready, go
        self.torn = 0

    def run(self):
        """How many queries saw half of the migration. The store is opened here, behind the fork."""
        with Paths(TABLE, store=os.path.join(self.folder, "table.log")) as self.paths:
            threads = [threading.Thread(target=self.query) for _ in range(THREADS)]
            for thread in threads:
                thread.start()
            for thread in threads:
                thread.join()
        return self.torn

    def query(self):
        for number in range(QUERIES):
            with self.paths("query"):
                columns = read(self.folder, "columns").count(",")
                if number == 0:
                    os.write(self.ready, b"x")
                    os.read(self.go, 1)
                self.torn += read(self.folder, "row").count(",") != columns


def read(folder, name):
    with open(os.path.join(folder, name)) as file:
        return file.read()


def write(folder, name, text):
    with open(os.path.join(folder, name), "w") as file:
        file.write(text)


def migrate(paths, folder):
    """Between its two steps the columns don't fit the row."""
    with paths("migrate", timeout=600):
        write(folder, "columns", "first, last")
        write(folder, "row", "Ada, Lovelace")


def main():
    with tempfile.TemporaryDirectory() as folder:
        write(folder, "columns", "name")
        write(folder, "row", "Ada Lovelace")
        (ready, says), (waits, go) = os.pipe(), os.pipe()
        services = []
        for _ in range(SERVICES):
            services.append(os.fork())
            if services[-1] == 0:
                os._exit(Service(folder, says, waits).run())
        for _ in range(SERVICES * THREADS):
            os.read(ready, 1)
        with Paths(TABLE, store=os.path.join(folder, "table.log")) as paths:
            running = paths.why("migrate").in_progress
            print("the migration waits for {} queries of {} processes".format(len(running), len({worker for _, worker in running})))
            migration = threading.Thread(target=migrate, args=(paths, folder))
            migration.start()
            while not paths.waiting():
                time.sleep(0.001)
            os.write(go, b"x" * (SERVICES * THREADS))
            migration.join()
            torn = sum(os.WEXITSTATUS(os.waitpid(service, 0)[1]) for service in services)
            starts = [line.split()[2].rstrip(":") for line in paths.journal().splitlines() if " start " in line]
            print("{} queries, {} migration".format(starts.count("query"), starts.count("migrate")))
            print("queries that saw half of it: {}".format(torn))
            print("the table has {}".format(read(folder, "columns")))
            print("the journal of all processes: {}".format(paths.audit()))


if __name__ == "__main__":
    main()
