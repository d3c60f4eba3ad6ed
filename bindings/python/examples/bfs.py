"""Breadth-first search: how many steps each vertex of a directed graph is away from vertex 0."""

from __future__ import annotations

from typing import Collection, Dict, List, Tuple

import drawn
from trowelheath import Matrix, Store

VERTICES = 1000
ARCS = 2500
SEED = 5


def levels(arcs: Collection[Tuple[int, int]], start: int) -> Dict[int, int]:
    """The number of steps to each vertex that is reached: by the store."""
    rows, columns = zip(*arcs)
    found = {start: 0}
    with Store(room=2 * VERTICES + 10) as store:
        p = store.main
        graph = Matrix.from_lists(p, VERTICES, VERTICES, rows, columns, True, dtype=bool)
        front = p.vector(VERTICES, bool)
        seen = p.vector(VERTICES, bool)
        front[start] = True
        seen[start] = True
        level = 0
        while len(front) > 0:
            level += 1
            # The front goes along the arcs, and what was seen before is left out.
            front.vxm(graph, mask=seen, structure=True, complement=True, replace=True, out=front)
            seen.ewise_add(front, "lor", out=seen)
            found.update((vertex, level) for vertex in front.keys())
        if sorted(seen.keys()) != sorted(found):
            raise SystemExit("the vertices that were seen are not those of the fronts")
    return found


def plain_levels(arcs: Collection[Tuple[int, int]], start: int) -> Dict[int, int]:
    """The same by a queue."""
    targets: Dict[int, List[int]] = {}
    for i, j in arcs:
        targets.setdefault(i, []).append(j)
    found = {start: 0}
    queue = [start]
    for vertex in queue:
        for target in targets.get(vertex, []):
            if target not in found:
                found[target] = found[vertex] + 1
                queue.append(target)
    return found


def report(arcs: Collection[Tuple[int, int]], found: Dict[int, int]) -> None:
    """Prints what was found."""
    print(f"{VERTICES} vertices, {len(arcs)} arcs")
    print(f"{len(found)} are reached from vertex 0")
    for level in range(max(found.values()) + 1):
        print(f"{level:2} steps: {list(found.values()).count(level)}")


def main() -> None:
    arcs = drawn.arcs(VERTICES, ARCS, 1, SEED)
    found = levels(arcs, 0)
    if found != plain_levels(arcs, 0):
        raise SystemExit("the store and the plain search differ")
    report(arcs, found)


if __name__ == "__main__":
    main()
