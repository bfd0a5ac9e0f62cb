"""64 x 64 tasks with three sleeps each, under Trio's clock that jumps. Prints the seconds that the run took, without imports."""

import time

import trio
import trio.testing


async def leaf():
    for _ in range(3):
        await trio.sleep(1)


async def branch():
    async with trio.open_nursery() as nursery:
        for _ in range(64):
            nursery.start_soon(leaf)


async def root():
    async with trio.open_nursery() as nursery:
        for _ in range(64):
            nursery.start_soon(branch)


begin = time.perf_counter()
trio.run(root, clock=trio.testing.MockClock(rate=0, autojump_threshold=0))
print(time.perf_counter() - begin)
