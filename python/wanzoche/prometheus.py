"""The metrics of paths for prometheus_client, which has to be installed: Debian's python3-prometheus-client, or pip's prometheus_client.

    import wanzoche.prometheus
    wanzoche.prometheus.register(paths, "pool")

| Name | Kind | What |
|---|---|---|
| `wanzoche_entries_total` | counter | how often the operation was begun |
| `wanzoche_wait_seconds` | histogram | how long those waited for it that had to, admitted or not; its count is how many these were |
| `wanzoche_waiting` | gauge | how many threads and tasks wait for it |
| `wanzoche_in_progress` | gauge | how often it is in progress |

Each has the labels `paths`, the name given to `register`, and `operation`. All are of this process, also over a store.
"""

from __future__ import annotations

import importlib
import itertools
import weakref
from typing import Any, Dict, Iterator, List, Tuple

from ._errors import Closed
from ._metrics import Histogram, Metrics
from ._paths import Paths

__all__ = ["Collector", "register"]

_LABELS = ("paths", "operation")


def _client() -> Any:
    try:
        return importlib.import_module("prometheus_client")
    except ImportError as error:
        told = "wanzoche.prometheus needs prometheus_client, as Debian's python3-prometheus-client ({})"
        raise ImportError(told.format(error)) from error


class Collector:
    """What a registry of prometheus_client collects of paths: `register` makes one. It keeps no paths alive, and paths that are closed or
    gone have no metrics. Raises `ImportError` where prometheus_client isn't installed."""

    def __init__(self) -> None:
        self._families = importlib.import_module(_client().__name__ + ".core")
        self._paths: Dict[str, "weakref.ref[Paths]"] = {}

    def add(self, paths: Paths, name: str) -> None:
        """From now on it collects these paths, too, by this name, in the place of others that had it."""
        self._paths[name] = weakref.ref(paths)

    def describe(self) -> List[Any]:
        """Which metrics there are, for a registry."""
        return self._new_families()

    def collect(self) -> Iterator[Any]:
        """The metrics as they are now."""
        families = self._new_families()
        for name, operation, metrics in self._found():
            _add(families, [name, operation], metrics)
        return iter(families)

    def _new_families(self) -> List[Any]:
        core = self._families
        return [
            core.CounterMetricFamily("wanzoche_entries", "How often the operation was begun.", labels=_LABELS),
            core.HistogramMetricFamily("wanzoche_wait_seconds", "How long those waited that had to.", labels=_LABELS),
            core.GaugeMetricFamily("wanzoche_waiting", "How many threads and tasks wait for the operation.", labels=_LABELS),
            core.GaugeMetricFamily("wanzoche_in_progress", "How often the operation is in progress.", labels=_LABELS),
        ]

    def _found(self) -> Iterator[Tuple[str, str, Metrics]]:
        """The paths that are open, by their names, with each operation."""
        for name, paths in sorted(self._paths.items()):
            for operation, metrics in _metrics_of(paths()).items():
                yield name, operation, metrics


def _metrics_of(paths: Any) -> Dict[str, Metrics]:
    try:
        return {} if paths is None else dict(paths.metrics())
    except Closed:
        return {}


def _add(families: List[Any], labels: List[str], metrics: Metrics) -> None:
    entries, waited, waiting, in_progress = families
    entries.add_metric(labels, metrics.entries)
    waited.add_metric(labels, buckets=_buckets(metrics.waited), sum_value=metrics.waited.seconds)
    waiting.add_metric(labels, metrics.waiting)
    in_progress.add_metric(labels, metrics.in_progress)


def _buckets(waited: Histogram) -> List[Tuple[str, int]]:
    """How many waits took at most so long, for each bound, as prometheus_client counts them."""
    bounds = [*map(str, waited.bounds), "+Inf"]
    return list(zip(bounds, itertools.accumulate(waited.counts)))


_collectors: "weakref.WeakKeyDictionary[Any, Collector]" = weakref.WeakKeyDictionary()


def register(paths: Paths, name: str, registry: Any = None) -> Collector:
    """Adds paths, by a name, to what a registry collects, which is that of the process if none is given: the collector of that registry.
    Raises `ImportError` where prometheus_client isn't installed."""
    registry = _client().REGISTRY if registry is None else registry
    collector = _collectors.get(registry)
    if collector is None:
        collector = _collectors[registry] = Collector()
        registry.register(collector)
    collector.add(paths, name)
    return collector
