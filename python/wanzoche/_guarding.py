"""Functions whose calls are operations."""

from __future__ import annotations

import functools
import inspect
from typing import TYPE_CHECKING, Any, Awaitable, Callable, Optional, TypeVar, cast

if TYPE_CHECKING:
    from ._paths import Paths

Call = TypeVar("Call", bound=Callable[..., Any])


def guarding(paths: "Paths", operation: str, timeout: Optional[float], priority: int) -> Callable[[Call], Call]:
    """What makes each call of a function this operation. Raises TypeError where a function is given in place of the operation, and
    `UnknownOperation`."""
    if callable(operation):
        raise TypeError("name the operation: `@paths.guards(..)` with one of {}".format(", ".join(paths._operations)))
    paths._number(operation)

    def guarded(function: Call) -> Call:
        if inspect.isgeneratorfunction(function) or inspect.isasyncgenfunction(function):
            raise TypeError("{} is a generator: write `with paths({!r})` in its body".format(function.__name__, operation))
        if inspect.iscoroutinefunction(function):

            @functools.wraps(function)
            async def waits(*args: Any, **named: Any) -> Any:
                async with paths.aio(operation, timeout, priority):
                    return await cast(Awaitable[Any], function(*args, **named))

            return cast(Call, waits)

        @functools.wraps(function)
        def calls(*args: Any, **named: Any) -> Any:
            with paths(operation, timeout, priority):
                return function(*args, **named)

        return cast(Call, calls)

    return guarded
