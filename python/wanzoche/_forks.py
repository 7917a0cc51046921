"""All paths of this process: each is told of a fork, in the child."""

from __future__ import annotations

import os
import weakref
from typing import TYPE_CHECKING, Sequence

if TYPE_CHECKING:
    from ._paths import Paths
    from ._service import Service

_all: "weakref.WeakSet[Service]" = weakref.WeakSet()


def remember(paths: "Service") -> None:
    """They are told, as long as somebody holds them."""
    _all.add(paths)


def all_paths() -> "Sequence[Paths]":
    """All that this process has open, or had and still holds."""
    return [each for each in list(_all) if not each._forked]  # type: ignore[misc]


def _forget_all() -> None:
    for paths in list(_all):
        paths._after_fork()


if hasattr(os, "register_at_fork"):
    os.register_at_fork(after_in_child=_forget_all)
