"""Threads help with a dear product, and two passes that read it at the same time make it together."""

from __future__ import annotations

from concurrent.futures import ThreadPoolExecutor
from typing import Tuple

from trowelheath import Matrix, Pass, Store

SIDE = 128
VERTICES = 256
READERS = 2
HELPERS = 3
ROUNDS = 8

# In a graph with all edges each three vertices are a triangle.
TRIANGLES = VERTICES * (VERTICES - 1) * (VERTICES - 2) // 6


def square(helpers: int) -> Tuple[int, int]:
    """Ones times ones, one at each place: the least value of the product, and the greatest."""
    with Store(helpers=helpers) as store:
        rows = [i for i in range(SIDE) for _ in range(SIDE)]
        ones = Matrix.from_lists(store.main, SIDE, SIDE, rows, list(range(SIDE)) * SIDE, 1)
        product = ones @ ones
        found = product.reduce("min"), product.reduce("max")
        if len(product) != SIDE * SIDE or (store.main.blocks() > 0) != (helpers > 0):
            raise SystemExit("a place is empty, or blocks are made where there is one pass alone")
        return found


def full_graph(pass_: Pass) -> Matrix:
    """A graph with all edges, below the diagonal."""
    edges = [(i, j) for i in range(VERTICES) for j in range(i)]
    return Matrix.from_lists(pass_, VERTICES, VERTICES, [i for i, _ in edges], [j for _, j in edges], 1)


def count(graph: Matrix) -> int:
    """How often all triangles are counted, each time in a matrix of its own."""
    right = 0
    for _ in range(ROUNDS):
        right += graph.mxm(graph, mask=graph, structure=True).reduce("plus") == TRIANGLES
    return right


def count_together() -> int:
    """How many rounds of two threads were right, which count the same at the same time, while others help."""
    with Store(passes=READERS, helpers=HELPERS) as store, ThreadPoolExecutor(READERS) as threads:
        graph = full_graph(store.main)
        return sum(threads.map(count, [graph.using(pass_) for pass_ in store.passes]))


def main() -> None:
    for helpers in 0, HELPERS:
        least, greatest = square(helpers)
        if (least, greatest) != (SIDE, SIDE):
            raise SystemExit("the product of ones is wrong")
        print(f"{helpers} helpers: from {least} to {greatest} at each of {SIDE * SIDE} places")
    right = count_together()
    if right != READERS * ROUNDS:
        raise SystemExit("a count is wrong")
    print(f"{READERS} passes, {HELPERS} helpers: {TRIANGLES} triangles in each of {right} rounds")


if __name__ == "__main__":
    main()
