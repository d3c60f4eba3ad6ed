"""A service without an end: requests of four threads, each with two temporaries, and an analysis in a branch.

The memory stays what it is, and the result of the branch comes back.
"""

from __future__ import annotations

from concurrent.futures import ThreadPoolExecutor

from trowelheath import Pass, Store, Vector

WORKERS = 4
REQUESTS = 20_000
FIRST = 1000
SIZE = 16

MOST_GROWTH = 16_384
"""How many pages of memory the process may grow between its first thousand requests and its last."""


def resident() -> int:
    """The pages of the process that are not given back."""
    with open("/proc/self/statm", encoding="ascii") as file:
        return int(file.read().split()[1])


def serve(counts: Vector, own: int, times: int) -> None:
    """So many requests: what is counted there, one more than before each, by way of two temporaries.

    These end by themselves.
    """
    for _ in range(times):
        one, total = counts.pass_.vector(SIZE), counts.pass_.vector(SIZE)
        one[own] = 1
        counts.ewise_add(one, "plus", out=total)
        counts[own] = total[own]


def publish(p: Pass, counts: Vector, squares: Vector) -> None:
    """The squares of the counts, found in a branch while the store goes on, and brought back."""
    with p.branch(counts, room=10) as apart:
        counts.clear()
        there = counts.using(apart.main)
        squares.build_from(there.ewise_mult(there, "times"))


def main() -> None:
    with Store(passes=WORKERS) as store, ThreadPoolExecutor(WORKERS) as threads:
        p = store.main
        counts, squares = p.vector(SIZE), p.vector(SIZE)
        serve(counts, WORKERS, FIRST)
        before = resident()
        served = [
            threads.submit(serve, counts.using(pass_), own, REQUESTS // WORKERS)
            for own, pass_ in enumerate(store.passes)
        ]
        for each in served:
            each.result()
        if resident() > before + MOST_GROWTH:
            raise SystemExit("the memory does not stay what it is")
        print(f"{counts.reduce('plus')} requests are counted")
        if p.generation() < 20 or p.go_on() or p.is_full():
            raise SystemExit("the generations did not go on")
        publish(p, counts, squares)
        print(f"their squares are {squares.using(store.passes[1]).reduce('plus')}")


if __name__ == "__main__":
    main()
