"""Shortest and widest paths from vertex 0 of a directed graph, by products over two semirings."""

from __future__ import annotations

import heapq
from typing import Callable, Dict, List, Tuple

import drawn
from trowelheath import Matrix, Store

VERTICES = 1000
ARCS = 5000
MOST_LENGTH = 100
SEED = 7
WIDEST = 2**64 - 1

Arcs = Dict[Tuple[int, int], int]


def paths(arcs: Arcs, start: int, value: int, semiring: str) -> Dict[int, int]:
    """The best value of a path to each vertex that is reached, where `value` stands at the start: by the store.

    The monoid of the semiring chooses among paths, and its operator goes along them.
    """
    monoid = semiring.split(".")[0]
    rows, columns = zip(*arcs)
    with Store(room=VERTICES + 10) as store:
        p = store.main
        graph = Matrix.from_lists(p, VERTICES, VERTICES, rows, columns, arcs.values())
        best = p.vector(VERTICES)
        best[start] = value
        before: Dict[int, int] = {}
        found = best.to_dict()
        while found != before:
            # Each path grows by an arc, and the better one of old and new stays.
            best.vxm(graph, semiring, accum=monoid, out=best)
            before, found = found, best.to_dict()
    return found


def plain_paths(arcs: Arcs, start: int, value: int, extend: Callable[[int, int], int], sign: int) -> Dict[int, int]:
    """The same by Dijkstra's algorithm. A `sign` of 1 looks for the least value, and -1 for the greatest."""
    targets: Dict[int, List[Tuple[int, int]]] = {}
    for (i, j), length in arcs.items():
        targets.setdefault(i, []).append((j, length))
    found: Dict[int, int] = {}
    heap = [(sign * value, start)]
    while heap:
        key, vertex = heapq.heappop(heap)
        if vertex not in found:
            found[vertex] = sign * key
            for target, length in targets.get(vertex, []):
                heapq.heappush(heap, (sign * extend(sign * key, length), target))
    return found


def plain_distances(arcs: Arcs) -> Dict[int, int]:
    """The lengths of shortest paths."""
    return plain_paths(arcs, 0, 0, lambda distance, length: distance + length, 1)


def plain_widths(arcs: Arcs) -> Dict[int, int]:
    """The widths of widest paths, where a path is as wide as its narrowest arc."""
    return plain_paths(arcs, 0, WIDEST, min, -1)


def report(arcs: Arcs, distances: Dict[int, int], widths: Dict[int, int]) -> None:
    """Prints what was found."""
    farthest = max(distances, key=lambda vertex: (distances[vertex], -vertex))
    narrowest = min(widths, key=lambda vertex: (widths[vertex], vertex))
    print(f"{VERTICES} vertices, {len(arcs)} arcs")
    print(f"{len(distances)} are reached from vertex 0")
    print(f"the farthest is vertex {farthest}, at a distance of {distances[farthest]}")
    print(f"all distances add up to {sum(distances.values())}")
    print(f"the narrowest is vertex {narrowest}, at a width of {widths[narrowest]}")
    print(f"all widths but that of vertex 0 add up to {sum(widths.values()) - WIDEST}")


def main() -> None:
    arcs = drawn.arcs(VERTICES, ARCS, MOST_LENGTH, SEED)
    distances = paths(arcs, 0, 0, "min.plus")
    widths = paths(arcs, 0, WIDEST, "max.min")
    if distances != plain_distances(arcs) or widths != plain_widths(arcs):
        raise SystemExit("the store and the plain search differ")
    report(arcs, distances, widths)


if __name__ == "__main__":
    main()
