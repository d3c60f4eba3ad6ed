"""A store of little room takes the edges of a graph. Each time it is full, a successor goes on."""

from __future__ import annotations

from typing import Dict, Tuple

import drawn
from trowelheath import Matrix, OrderFull, Store, UninitializedObject

VERTICES = 1000
EDGES = 500
ROOM = 100
SEED = 8


def go_on(store: Store, graph: Matrix) -> Store:
    """A successor of the store, which is full and closed then."""
    edges = len(graph)
    if not store.main.is_full():
        raise SystemExit("the store is not full")
    successor = store.main.succeed(room=ROOM, passes=2)
    facts = successor.main.facts()
    print(f"full with {edges} edges; a successor begins with {facts.known} changes")
    if facts.room_left != ROOM:
        raise SystemExit("what makes the objects takes none of the room")

    # The new passes see the same graph, but no object has a status yet. The old store goes on to answer.
    there = graph.using(successor.passes[1])
    if there.last_info is not None or len(there) != edges or len(graph) != edges:
        raise SystemExit("the two stores differ")
    store.close()
    return successor


def is_gone(matrix: Matrix) -> bool:
    """Whether the matrix was freed."""
    try:
        return len(matrix) < 0
    except UninitializedObject:
        return True


def fill(arcs: Dict[Tuple[int, int], int]) -> None:
    """Adds the arcs by two passes in turn, and tells what the last store has."""
    store = Store(room=ROOM, passes=2)
    graph = store.main.matrix(VERTICES, VERTICES)
    gone = store.main.matrix(1, 1, bool)
    gone.free()
    for at, (place, length) in enumerate(arcs.items()):
        try:
            graph.using(store.passes[at % 2])[place] = length
        except OrderFull:
            store = go_on(store, graph)
            graph, gone = graph.using(store.main), gone.using(store.main)
            graph.using(store.passes[at % 2])[place] = length
    print(f"{len(graph)} edges of weight {graph.reduce('plus')} in the last store")
    if graph.to_dict() != arcs:
        raise SystemExit("the store and the plain graph differ")

    # A freed matrix stays freed, and its number is not given again.
    made = store.main.matrix(1, 1)
    print("the next matrix has the number", made.number)
    if not is_gone(gone) or made.number != gone.number + 1:
        raise SystemExit("a freed number was given again")
    store.close()


def main() -> None:
    fill(drawn.arcs(VERTICES, EDGES, 100, SEED))


if __name__ == "__main__":
    main()
