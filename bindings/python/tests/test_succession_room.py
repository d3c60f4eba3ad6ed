"""The room of stores that go on: it is beside the calls that make a store anew, however many, and no change is lost."""

from __future__ import annotations

import unittest
from typing import List

from rows import DONE, FULL, GONE, NO_VALUE, ROOM, WAYS, RowCase, Step, matrix, vector

V = vector(0)
NEXT = vector(1, bool)

FILLED: List[Step] = [
    ("is_full", (), False),
    ("new", (int, 9), V),
    ("set", (V, 0, 10), DONE),
    ("set", (V, 1, 11), DONE),
    ("set", (V, 2, 12), DONE),
    ("set", (V, 3, 13), DONE),
    ("remove", (V, 1), DONE),
    ("set", (V, 4, 14), DONE),
    ("known", (), 7),
    ("is_full", (), False),
    ("set", (V, 0, 20), DONE),
    ("known", (), 8),
    ("is_full", (), True),
    ("set", (V, 5, 15), FULL),
    ("new", (bool, 1), FULL),
]

# What both stores answer.
KEPT: List[Step] = [
    ("size", (V,), 9),
    ("nvals", (V,), 4),
    ("get", (V, 0), 20),
    ("get", (V, 1), NO_VALUE),
    ("get", (V, 2), 12),
    ("get", (V, 3), 13),
    ("get", (V, 4), 14),
    ("get", (V, 5), NO_VALUE),
    ("reduce", (V, "plus"), 59),
]

# The new store takes what the full one refused.
TAKEN: List[Step] = [
    ("known", (), 2),
    ("is_full", (), False),
    ("set", (V, 5, 15), DONE),
    ("new", (bool, 1), NEXT),
    ("reduce", (V, "plus"), 74),
    ("known", (), 4),
]

W = vector(0, bool)
THIRD = vector(2, bool)
FOURTH = vector(3, bool)
# The next number after four that were freed.
FIFTH = vector(4)

# Nothing is left of what a store of eight calls had.
ALL_FREED: List[Step] = [
    ("new", (bool, 1), W),
    ("free", (W,), DONE),
    ("new", (bool, 1), NEXT),
    ("free", (NEXT,), DONE),
    ("new", (bool, 1), THIRD),
    ("free", (THIRD,), DONE),
    ("new", (bool, 1), FOURTH),
    ("free", (FOURTH,), DONE),
    ("is_full", (), True),
    ("new", (bool, 1), FULL),
]

# Each freed number takes two calls, and there is room for three more.
ROOMY: List[Step] = [
    ("known", (), 8),
    ("is_full", (), False),
    ("size", (THIRD,), GONE),
    ("new", (int, 2), FIFTH),
    ("set", (FIFTH, 0, 1), DONE),
    ("set", (FIFTH, 1, 2), DONE),
    ("is_full", (), True),
    ("free", (FIFTH,), FULL),
    ("reduce", (FIFTH, "plus"), 3),
]

# Without the freed numbers no call makes the store, and there is room for three.
EMPTY_STORE: List[Step] = [
    ("known", (), 0),
    ("new", (int, 2), V),
    ("set", (V, 0, 1), DONE),
    ("is_full", (), False),
    ("set", (V, 1, 2), DONE),
    ("is_full", (), True),
]

A = matrix(0)
FREED = vector(0)
EMPTY = vector(1, bool)
# The first vector where the freed number is none of the store's.
EMPTY_ALONE = vector(0, bool)

# A matrix is made anew by two calls, a freed number by two, and an object with no entry by one.
NEEDED = 5
# The freed number needs none where it is left out.
NEEDED_LIVE = 3

LOADED: List[Step] = [
    ("new", (int, 2, 2), A),
    ("set", (A, 0, 0, 1), DONE),
    ("set", (A, 1, 1, 2), DONE),
    ("new", (int, 2), FREED),
    ("set", (FREED, 1, 3), DONE),
    ("free", (FREED,), DONE),
    ("new", (bool, 6), EMPTY),
]

# A store that goes on with room for one call.
JUST: List[Step] = [
    ("known", (), NEEDED),
    ("is_full", (), False),
    ("reduce", (A, "plus"), 3),
    ("size", (EMPTY,), 6),
    ("set", (A, 0, 0, 8), DONE),
    ("is_full", (), True),
    ("set", (A, 0, 0, 9), FULL),
]

# The same of the objects that are there.
JUST_LIVE: List[Step] = [
    ("known", (), NEEDED_LIVE),
    ("is_full", (), False),
    ("reduce", (A, "plus"), 3),
    ("size", (EMPTY_ALONE,), 6),
    ("set", (A, 0, 0, 8), DONE),
    ("is_full", (), True),
    ("set", (A, 0, 0, 9), FULL),
]

# The old store, whatever was refused and whatever went on from it.
LOADED_STILL: List[Step] = [
    ("known", (), 7),
    ("get", (A, 1, 1), 2),
    ("size", (FREED,), GONE),
    ("set", (A, 0, 0, 4), DONE),
    ("reduce", (A, "plus"), 6),
    ("known", (), 8),
]


class Room(RowCase):
    def test_a_full_store_goes_on_with_each_change_that_was_answered(self) -> None:
        self.tell([(0, FILLED, KEPT), (2, KEPT, TAKEN)], room=8)

    def test_a_full_store_of_freed_numbers_goes_on_with_its_room(self) -> None:
        old = self.begin(8)
        self.make(old.main, ALL_FREED)
        for way in WAYS:
            with self.subTest(way=way):
                self.make(self.have(getattr(old.main, way)(3), 8).main, ROOMY)
        self.make(self.have(old.main.branch([], [], 3), 0).main, EMPTY_STORE)

    def test_a_room_that_no_history_has_makes_no_store_and_a_small_one_does(self) -> None:
        old = self.begin(ROOM)
        self.make(old.main, LOADED)
        # No history has more than 268,435,456 calls times its passes. Here one call makes each of so many objects.
        many = self.have(old.main.branch([], [EMPTY.number] * 1_044_482, 1), 1_044_482)
        for way in WAYS:
            with self.subTest(way=way):
                self.refuse(getattr(many.main, way)(4_095, 256), 1_044_482)
                go_on = getattr(old.main, way)
                for largest in (65_536, 1), (4_096, 256):
                    self.have(go_on(*largest), NEEDED).close()
                self.make(self.have(go_on(1), NEEDED).main, JUST)
        with self.subTest(way="a branch of what is there"):
            there = [A.number], [EMPTY.number]
            for largest in (65_536, 1), (4_096, 256):
                self.have(old.main.branch(*there, *largest), NEEDED_LIVE).close()
            self.make(self.have(old.main.branch(*there, 1), NEEDED_LIVE).main, JUST_LIVE)
        self.make(old.main, LOADED_STILL)


if __name__ == "__main__":
    unittest.main()
