"""A pipeline of three stages as asyncio tasks: each job is fetched, then parsed, then stored, and at most two are between the ends."""

import asyncio
from typing import List

from wanzoche import Paths

paths = Paths(
    """
    resource line queue 2
    operation fetch, parse, store
    path { fetch ; parse ; store : 2 } end
    path fetch end
    path parse end
    path store end
    end
    """
)
fetched: List[int] = []
parsed: List[int] = []
stored: List[int] = []


async def stage(operation: str, source: List[int], goal: List[int]) -> None:
    for _ in range(100):
        async with paths.aio(operation):
            goal.append(source.pop(0))
            await asyncio.sleep(0)


async def main() -> None:
    jobs = list(range(100))
    await asyncio.gather(stage("store", parsed, stored), stage("parse", fetched, parsed), stage("fetch", jobs, fetched))


asyncio.run(main())
print("stored in order: {}; journal {}".format(stored == list(range(100)), paths.audit()))
