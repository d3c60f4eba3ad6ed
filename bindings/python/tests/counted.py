"""What tests of how many calls are made have in common."""

from __future__ import annotations

import unittest
from typing import Any, Tuple

from trowelheath import Pass, Store


class CountedCase(unittest.TestCase):
    """A test of how many calls of the history each read makes. An object is read by the pass that it is of."""

    def opened(self, room: int, passes: int = 3) -> Tuple[Pass, ...]:
        """The passes of a new store, which is closed after the test."""
        store = Store(room, passes)
        self.addCleanup(store.close)
        return store.passes

    def reads(self, item: Any, place: Any, value: int, made: int, why: Any) -> None:
        """The object stores this value there, and so many calls are made to read it."""
        found = item[place]
        self.assertEqual((found, item.pass_.facts().made), (value, made), why)

    def counts(self, item: Any, nvals: int, made: int, why: Any) -> None:
        """The object has so many entries, and so many calls are made to count them."""
        found = len(item)
        self.assertEqual((found, item.pass_.facts().made), (nvals, made), why)

    def waits(self, item: Any, mode: str, made: int, settled: int, why: str) -> None:
        """A wait by the object makes so many calls, and so many are settled then."""
        item.wait(mode)
        facts = item.pass_.facts()
        self.assertEqual((facts.made, facts.settled), (made, settled), why)

    def prepares(self, pass_: Pass, told: int, made: int, why: str) -> None:
        """The pass prepares: `made` calls are made, and no answer makes one of its first `told` calls any more."""
        self.assertEqual((pass_.prepare(), pass_.facts().made), (told, made), why)

    def meets(self, pass_: Pass, other: Pass, calls: int) -> None:
        """The pass meets another one: it makes nothing for that, and knows so many calls then."""
        pass_.meet(other)
        self.has_made(pass_, 0, "a meeting makes nothing")
        self.knows(pass_, calls)

    def adopts(self, pass_: Pass, other: Pass, calls: int) -> None:
        """The same, and it keeps also what the other has evaluated."""
        pass_.adopt(other)
        self.has_made(pass_, 0, "an adoption makes nothing")
        self.knows(pass_, calls)

    def has_made(self, pass_: Pass, made: int, why: Any) -> None:
        """The last call of the pass, whatever it was, made so many calls."""
        self.assertEqual(pass_.facts().made, made, why)

    def knows(self, pass_: Pass, calls: int) -> None:
        """The pass knows so many calls, and has learnt as many places of the order."""
        facts = pass_.facts()
        self.assertEqual((facts.known, facts.words), (calls, calls))
