"""What `inspect.signature` and `help` tell of paths, which the core makes and calls, and of which it tells nothing."""

from __future__ import annotations

import inspect
import types
from typing import Any, Optional


class Signature:
    """For a class, as its `__signature__`: of the class what makes one, and of one what its call takes."""

    def __init__(self, called: Any) -> None:
        """`called` is a function that takes what a call takes."""
        self._called = called

    def __get__(self, instance: Optional[Any], owner: Any) -> inspect.Signature:
        if instance is None:
            return _without_self(owner.__init__).replace(return_annotation=inspect.Signature.empty)
        call = owner.__call__
        return _without_self(call if isinstance(call, types.FunctionType) else self._called)


def _without_self(function: Any) -> inspect.Signature:
    signature = inspect.signature(function)
    return signature.replace(parameters=list(signature.parameters.values())[1:])
