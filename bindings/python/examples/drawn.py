"""Graphs that the examples draw, the same on every machine."""

from __future__ import annotations

from typing import Dict, List, Set, Tuple


class Draws:
    """Numbers of a linear congruential generator, with the constants of Knuth's MMIX."""

    def __init__(self, seed: int) -> None:
        self._state = seed

    def below(self, bound: int) -> int:
        """The next number, from 0 and below `bound`, which is at most 2**31."""
        self._state = (6364136223846793005 * self._state + 1442695040888963407) % 2**64
        return (self._state >> 33) % bound


def edges(vertices: int, count: int, seed: int) -> List[Tuple[int, int]]:
    """So many edges of an undirected graph without loops, each once, as (i, j) with i > j, in rising order."""
    draws = Draws(seed)
    drawn: Set[Tuple[int, int]] = set()
    while len(drawn) < count:
        i, j = draws.below(vertices), draws.below(vertices)
        if i != j:
            drawn.add((max(i, j), min(i, j)))
    return sorted(drawn)


def arcs(vertices: int, count: int, most_length: int, seed: int) -> Dict[Tuple[int, int], int]:
    """So many arcs of a directed graph without loops, each with a length from 1 to `most_length`."""
    draws = Draws(seed)
    drawn: Dict[Tuple[int, int], int] = {}
    while len(drawn) < count:
        i, j = draws.below(vertices), draws.below(vertices)
        length = 1 + draws.below(most_length)
        if i != j:
            drawn.setdefault((i, j), length)
    return dict(sorted(drawn.items()))
