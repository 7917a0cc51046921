"""Which form what is quick has: that in C, the module `_core`, or that in Python over ctypes, which does the same.

The variable WANZOCHE_CORE chooses: `none` is the form in Python, and anything else is the path of the module.
"""

from __future__ import annotations

import importlib
import importlib.machinery
import importlib.util
import os
import sys
from typing import Any, Optional

_NAME = __package__ + "._core"


def _may_have_core() -> bool:
    """Whether this is a Python that the module can be built for: CPython with its lock."""
    return sys.implementation.name == "cpython" and "t" not in sys.abiflags


def _loaded_from(path: str) -> Any:
    """The module at this path."""
    if not _may_have_core():
        raise ImportError("this Python can't use {}, which WANZOCHE_CORE names".format(path))
    if not os.path.exists(path):
        raise ImportError("WANZOCHE_CORE names {}, which isn't there".format(path))
    loader = importlib.machinery.ExtensionFileLoader(_NAME, path)
    spec = importlib.util.spec_from_file_location(_NAME, path, loader=loader)
    assert spec is not None
    module = importlib.util.module_from_spec(spec)
    loader.exec_module(module)
    return module


def _loaded() -> Optional[Any]:
    wanted = os.environ.get("WANZOCHE_CORE")
    if wanted == "none":
        return None
    if wanted:
        return _loaded_from(wanted)
    try:
        return importlib.import_module(_NAME) if _may_have_core() else None
    except ImportError:
        return None  # it wasn't built, or serves no interpreter like this one


core = _loaded()
"""The module, or None for the form in Python."""
