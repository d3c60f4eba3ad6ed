"""A first program: a vector, a matrix, a product, a mask, two passes, and what a refusal looks like."""

from __future__ import annotations

from typing import Dict, Tuple

from trowelheath import InvalidIndex, Matrix, Store

# The roads of four towns: where a road begins, where it ends, and its length.
ROADS = {(0, 1): 5, (0, 2): 2, (1, 3): 4, (2, 3): 3, (3, 0): 9}


def plain_two_roads() -> Dict[Tuple[int, int], int]:
    """The lengths of the shortest ways of two roads, without the store."""
    ways: Dict[Tuple[int, int], int] = {}
    for (i, k), first in ROADS.items():
        for (k_too, j), second in ROADS.items():
            if k == k_too:
                ways[i, j] = min(ways.get((i, j), first + second), first + second)
    return ways


def main() -> None:
    with Store(room=100, passes=2) as store:
        p, q = store.passes

        # A vector of five indices, of which one stores a value.
        v = p.vector(5)
        v[2] = 7
        print("v[2] is", v[2])
        print("v[3] is", v.get(3))
        print("v stores", len(v), "entry")

        # A matrix of the roads: a row for where they begin, a column for where they end.
        begins, ends = zip(*ROADS)
        roads = Matrix.from_lists(p, 4, 4, begins, ends, ROADS.values())
        print(roads)
        for (start, end), length in roads.items():
            print(f"  from {start} to {end}: {length}")

        # The shortest ways of two roads: lengths are added along a way, and the least is taken over all ways.
        two = roads.mxm(roads, "min.plus")
        print("from 0 to 3 by two roads:", two[0, 3])
        if two.to_dict() != plain_two_roads():
            raise SystemExit("the store and the plain computation differ")

        # The same where no single road goes from one town to the other.
        farther = roads.mxm(roads, "min.plus", mask=roads, structure=True, complement=True)
        print("pairs of towns with two roads and not one:", list(farther.keys()))

        # How far all roads together go, and those that begin in each town.
        print("all roads:", roads.reduce("plus"))
        print("by town:", roads.reduce_rows("plus").to_dict())

        # The other pass sees the same store.
        print("by the other pass:", two.using(q)[0, 3])

        # A call that is refused does nothing, and says why.
        try:
            roads[4, 0] = 1
        except InvalidIndex as refusal:
            print(type(refusal).__name__, "-", refusal)
        print("still", len(roads), "roads")


if __name__ == "__main__":
    main()
