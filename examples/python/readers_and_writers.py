"""Readers together, a writer alone: no reader sees a half-written book."""

import threading

from wanzoche import Paths

paths = Paths("resource book cell operation read, write path { read } , write end end")
book = {"title": "", "pages": 0}
torn = []


@paths.guards("write")
def write(pages: int) -> None:
    book["title"] = "of {} pages".format(pages)
    book["pages"] = pages


@paths.guards("read")
def read() -> None:
    if book["title"] != "of {} pages".format(book["pages"]):
        torn.append(dict(book))


def work(number: int) -> None:
    for n in range(1000):
        if n % 10 == number:
            write(n)
        else:
            read()


write(0)
threads = [threading.Thread(target=work, args=(n,)) for n in range(8)]
for thread in threads:
    thread.start()
for thread in threads:
    thread.join()
print("torn pages: {}; in progress: {}; journal {}".format(len(torn), len(paths.report().live), paths.audit()))
