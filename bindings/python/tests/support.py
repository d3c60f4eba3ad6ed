"""What the tests have in common."""

from __future__ import annotations

import unittest
from typing import Any

from trowelheath import Matrix, Pass, Store, Vector
from trowelheath._life import Life
from trowelheath.operators import domain_of

MOST_NUMBER = 2**64 - 1
MOST_DIMENSION = 2**32 - 1


class StoreCase(unittest.TestCase):
    """A test with a store of its own: `self.p` and `self.q` are two of its passes."""

    room = 4096
    passes = 2

    def setUp(self) -> None:
        self.store = Store(self.room, self.passes)
        self.addCleanup(self.store.close)
        self.p: Pass = self.store.main
        self.q: Pass = self.store.passes[-1]


class Draws:
    """Numbers of a linear congruential generator."""

    def __init__(self, seed: int) -> None:
        self._state = seed

    def below(self, bound: int) -> int:
        """The next number, from 0 and below `bound`."""
        self._state = (6364136223846793005 * self._state + 1442695040888963407) % 2**64
        return (self._state >> 33) % bound


def name_of(pass_: Pass, sort: str, number: int, dtype: type = int) -> Any:
    """A name of the object of this number, also where there is none, or it is of another dtype."""
    kind: Any = Matrix if sort == "matrix" else Vector
    return kind._named(pass_, number, domain_of(dtype), Life(None))
