"""Stores that go on: each new one has what the old store had, and none sees what another one does later.

They go on in both ways that keep all numbers: by a successor, and by a branch of all objects.
"""

from __future__ import annotations

import unittest
from typing import List

from rows import DONE, GONE, NEW, NO_VALUE, OLD, ROOM, WAYS, Row, RowCase, Step, matrix, vector
from trowelheath import Info

A = matrix(0)
FLAGS = vector(0, bool)

LOADED: List[Step] = [
    ("new", (int, 3, 3), A),
    ("build", (A, [(0, 0, 1), (2, 1, 2)], "plus"), DONE),
    ("set", (A, 1, 1, 4), DONE),
    ("new", (bool, 2), FLAGS),
    ("set", (FLAGS, 1, True), DONE),
    ("set", (FLAGS, 2, True), Info.INVALID_INDEX),
    ("last_info", (A,), DONE),
    ("last_info", (FLAGS,), Info.INVALID_INDEX),
]

# What each pass of the new store does. No call is to be made for a read.
EACH: List[Step] = [
    ("known", (), 4),
    ("settled", (), 0),
    ("last_info", (A,), None),
    ("last_info", (FLAGS,), None),
    ("nvals", (A,), 3),
    ("made", (), 0),
    ("reduce", (A, "plus"), 7),
    ("made", (), 0),
    ("get", (A, 1, 1), 4),
    ("get", (FLAGS, 1), True),
    ("made", (), 0),
    ("get", (FLAGS, 0), NO_VALUE),
    ("last_info", (FLAGS,), NO_VALUE),
    ("known", (), 4),
]

# What the old pass does then, whose statuses are as they were.
LOADED_STILL: List[Step] = [
    ("last_info", (A,), DONE),
    ("last_info", (FLAGS,), Info.INVALID_INDEX),
    ("known", (), 5),
    ("reduce", (A, "plus"), 7),
    ("get", (FLAGS, 1), True),
]

U = vector(0)
V = vector(1, bool)
# A dup of V in the new store, and another vector in the old one.
COPY = vector(2, bool)
OTHER = vector(2)

# Before the stores part. The vectors are not evaluated then.
ONE: List[Step] = [
    ("new", (int, 3, 3), A),
    ("build", (A, [(0, 0, 1), (2, 1, 2)], "plus"), DONE),
    ("get", (A, 2, 1), 2),
    ("new", (int, 4), U),
    ("set", (U, 1, 5), DONE),
    ("new", (bool, 4), V),
    ("set", (V, 3, False), DONE),
    ("is_full", (), False),
]

# Both change all objects in turn.
TWO: List[Row] = [
    (OLD, "set", (A, 0, 0, 10), DONE),
    (NEW, "get", (A, 0, 0), 1),
    (NEW, "set", (A, 0, 0, 20), DONE),
    (OLD, "get", (A, 0, 0), 10),
    (NEW, "remove", (A, 2, 1), DONE),
    (OLD, "get", (A, 2, 1), 2),
    (OLD, "nvals", (A,), 2),
    (NEW, "nvals", (A,), 1),
    (OLD, "set", (A, 1, 1, 11), DONE),
    (NEW, "get", (A, 1, 1), NO_VALUE),
    (NEW, "get", (A, 0, 0), 20),
    (OLD, "set", (U, 1, 15), DONE),
    (NEW, "get", (U, 1), 5),
    (NEW, "set", (U, 2, 25), DONE),
    (OLD, "get", (U, 2), NO_VALUE),
    (OLD, "get", (U, 1), 15),
    (NEW, "resize", (U, 2), DONE),
    (OLD, "size", (U,), 4),
    (OLD, "nvals", (U,), 1),
    (NEW, "nvals", (U,), 1),
    (NEW, "get", (U, 1), 5),
    (OLD, "free", (V,), DONE),
    (NEW, "get", (V, 3), False),
    (NEW, "dup", (V,), COPY),
    (OLD, "get", (OTHER, 3), GONE),
    (OLD, "new", (int, 1), OTHER),
    (NEW, "get", (COPY, 3), False),
    (NEW, "free", (U,), DONE),
    (OLD, "get", (U, 1), 15),
    (OLD, "get", (V, 3), GONE),
]

# Set anew, and longer, in each store.
ENTRIES = vector(0)
# In each store as many ones are added to it as there are.
COUNTS = vector(1)
ONES = vector(2)
# Made in the second store, and freed in the third.
PASSING = vector(3, bool)
NO_VECTOR = vector(4, bool)
# Made in the third store, and smaller in the fourth.
LATE = matrix(0)

FIRST: List[Step] = [
    ("new", (int, 8), ENTRIES),
    ("new", (int, 2), COUNTS),
    ("new", (int, 2), ONES),
    ("build", (ONES, [(0, 1), (1, 1)], "plus"), DONE),
    ("set", (ENTRIES, 0, 1), DONE),
    ("set", (ENTRIES, 1, 1), DONE),
    ("ewise_add", (COUNTS, "plus", COUNTS, ONES), DONE),
    ("get", (PASSING, 0), GONE),
]

SECOND: List[Step] = [
    ("set", (ENTRIES, 1, 2), DONE),
    ("set", (ENTRIES, 2, 2), DONE),
    ("remove", (ENTRIES, 0), DONE),
    ("ewise_add", (COUNTS, "plus", COUNTS, ONES), DONE),
    ("new", (bool, 3), PASSING),
    ("set", (PASSING, 2, True), DONE),
]

THIRD: List[Step] = [
    ("set", (ENTRIES, 2, 3), DONE),
    ("set", (ENTRIES, 3, 3), DONE),
    ("ewise_add", (COUNTS, "plus", COUNTS, ONES), DONE),
    ("get", (PASSING, 2), True),
    ("free", (PASSING,), DONE),
    ("new", (int, 2, 2), LATE),
    ("set", (LATE, 1, 1, 3), DONE),
]

FOURTH: List[Step] = [
    ("set", (ENTRIES, 4, 4), DONE),
    ("ewise_add", (COUNTS, "plus", COUNTS, ONES), DONE),
    ("nvals", (ENTRIES,), 4),
    ("get", (ENTRIES, 0), NO_VALUE),
    ("get", (ENTRIES, 1), 2),
    ("get", (ENTRIES, 2), 3),
    ("get", (ENTRIES, 3), 3),
    ("get", (ENTRIES, 4), 4),
    ("get", (COUNTS, 0), 4),
    ("reduce", (COUNTS, "plus"), 8),
    ("get", (PASSING, 2), GONE),
    ("get", (LATE, 1, 1), 3),
    ("resize", (LATE, 1, 2), DONE),
    ("size", (LATE,), (1, 2)),
    ("nvals", (LATE,), 0),
    ("new", (bool, 1), NO_VECTOR),
    ("free", (ONES,), DONE),
    ("get", (ONES, 0), GONE),
]

# What each store has besides, when those after it have done what they do.
FIRST_AGAIN: List[Step] = [
    ("nvals", (ENTRIES,), 2),
    ("get", (ENTRIES, 0), 1),
    ("get", (ENTRIES, 1), 1),
    ("reduce", (COUNTS, "plus"), 2),
    ("reduce", (ONES, "plus"), 2),
    ("get", (LATE, 1, 1), GONE),
    ("new", (bool, 1), PASSING),
]

SECOND_AGAIN: List[Step] = [
    ("nvals", (ENTRIES,), 2),
    ("get", (ENTRIES, 1), 2),
    ("get", (ENTRIES, 2), 2),
    ("reduce", (COUNTS, "plus"), 4),
    ("get", (PASSING, 2), True),
    ("get", (LATE, 1, 1), GONE),
]

THIRD_AGAIN: List[Step] = [
    ("nvals", (ENTRIES,), 3),
    ("get", (ENTRIES, 1), 2),
    ("get", (ENTRIES, 2), 3),
    ("get", (ENTRIES, 3), 3),
    ("reduce", (COUNTS, "plus"), 6),
    ("get", (PASSING, 2), GONE),
    ("get", (LATE, 1, 1), 3),
]


class Succession(RowCase):
    def test_each_new_pass_reads_the_same_at_once_and_has_no_status(self) -> None:
        for way in WAYS:
            with self.subTest(way=way):
                old = self.begin(ROOM)
                self.make(old.main, LOADED)
                new = self.have(getattr(old.main, way)(ROOM, 3), 4)
                for pass_ in reversed(new.passes):
                    self.make(pass_, EACH)
                self.make(old.main, LOADED_STILL)

    def test_neither_of_two_stores_sees_what_the_other_does(self) -> None:
        for way in WAYS:
            with self.subTest(way=way):
                old = self.begin(ROOM)
                self.make(old.main, ONE)
                new = self.have(getattr(old.main, way)(ROOM), 6)
                self.play(TWO, {OLD: old.main, NEW: new.main})

    def test_the_last_of_four_stores_has_the_changes_of_all_and_each_other_its_own(self) -> None:
        # Two calls for each object, a freed one too.
        self.tell([(0, FIRST, FIRST_AGAIN), (6, SECOND, SECOND_AGAIN), (8, THIRD, THIRD_AGAIN), (10, FOURTH, [])])


if __name__ == "__main__":
    unittest.main()
