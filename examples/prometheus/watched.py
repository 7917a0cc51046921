"""A service whose paths are watched by Prometheus: which metrics its page has after three queries, of which the last had to wait."""

import threading

from prometheus_client import CollectorRegistry, generate_latest

import wanzoche.prometheus
from wanzoche import Paths

paths = Paths("resource database cell operation query, backup path { query : 2 } , backup end end")
registry = CollectorRegistry()  # a service has one already: `prometheus_client.REGISTRY`, and needs none here
wanzoche.prometheus.register(paths, "database", registry)


def query() -> None:
    with paths("query"):
        pass


def show(*begins: str) -> None:
    """Some lines of the page."""
    print(*(line for line in generate_latest(registry).decode().splitlines() if line.startswith(begins)), sep="\n")


for _ in range(2):
    query()
with paths("backup"):
    thread = threading.Thread(target=query)
    thread.start()
    while not paths.waiting():
        pass
    print("while a backup runs:")
    show("wanzoche_waiting{", "wanzoche_in_progress{")
thread.join()
print("afterwards:")
show("wanzoche_entries_total{", "wanzoche_wait_seconds_count{")
