"""Branches: stores of their own that begin with chosen objects of another one.

A branch has the objects in the order in which they were chosen, and keeps their moment. Only what was chosen is
evaluated, its room is counted beside the calls that begin it, and a result comes back by one call.
"""

from __future__ import annotations

import unittest
from typing import List

from rows import DONE, FULL, GONE, NEW, NO_VALUE, OLD, ROOM, Row, RowCase, Step, matrix, vector

A = matrix(0)
# The square of the first, which nobody has read.
SQUARE = matrix(1)
V = vector(0)
# What a branch finds out.
SUMS = vector(1)

LOADED: List[Step] = [
    ("new", (int, 3, 3), A),
    ("build", (A, [(0, 0, 1), (2, 1, 2)], "plus"), DONE),
    ("new", (int, 3, 3), SQUARE),
    ("mxm", (SQUARE, "plus.times", A, A), DONE),
    ("new", (int, 3), V),
    ("set", (V, 1, 5), DONE),
    ("new", (int, 3), SUMS),
]

# The product was not made for the branch: it is made now, and the build that it reads. Of the output the product needs
# the shape alone, and the empty matrix was made when the build was entered, which asked whether it was empty.
LOADED_STILL: List[Step] = [
    ("get", (V, 1), 5),
    ("made", (), 0),
    ("nvals", (SQUARE,), 1),
    ("made", (), 2),
]

# Two calls begin the branch: room for three more is left, and for no fourth.
ROOM_OF_THREE: List[Step] = [
    ("known", (), 2),
    ("set", (V, 0, 1), DONE),
    ("set", (V, 2, 2), DONE),
    ("is_full", (), False),
    ("new", (int, 1), vector(1)),
    ("is_full", (), True),
    ("set", (V, 0, 9), FULL),
]

# The sums of the rows of the matrix, which was chosen alone.
SUMMED: List[Step] = [
    ("new", (int, 3), V),
    ("reduce_rows", (V, "plus", A), DONE),
    ("get", (V, 2), 2),
    ("get", (SQUARE, 0, 0), GONE),
]

# What the store then has of them. The build has made the vector that it fills, so it alone is made.
PUBLISHED: List[Step] = [
    ("known", (), 8),
    ("nvals", (SUMS,), 2),
    ("made", (), 1),
    ("get", (SUMS, 0), 1),
    ("made", (), 0),
    ("reduce", (SUMS, "plus"), 3),
]

# Objects of another store. Of three vectors the first is freed.
B = matrix(1, bool)
FREED = vector(0)
U = vector(1)
EMPTY = vector(2, bool)

# What is chosen, one matrix that was never made among them, and one vector twice.
MATRICES = [1, 0, 7]
VECTORS = [2, 0, 1, 1]

# The same objects in the branch, by their places in the lists.
B_THERE = matrix(0, bool)
A_THERE = matrix(1)
NO_MATRIX = matrix(2)
EMPTY_THERE = vector(0, bool)
NO_VECTOR = vector(1)
U_THERE = vector(2)
SAME_THERE = vector(3)

# Two calls for each object, one where no entry is stored.
BEGINNING = 13

# Before they part. Most is not evaluated then.
ONE: List[Step] = [
    ("new", (int, 3, 3), A),
    ("build", (A, [(0, 0, 1), (2, 1, 2)], "plus"), DONE),
    ("new", (int, 5), FREED),
    ("free", (FREED,), DONE),
    ("new", (bool, 2, 4), B),
    ("set", (B, 1, 3, True), DONE),
    ("new", (int, 4), U),
    ("set", (U, 1, 5), DONE),
    ("get", (U, 1), 5),
    ("new", (bool, 3), EMPTY),
    ("set", (A, 1, 1, 4), DONE),
]

# What a pass of the branch finds.
FOUND: List[Step] = [
    ("known", (), BEGINNING),
    ("settled", (), 0),
    ("get", (B_THERE, 1, 3), True),
    ("nvals", (B_THERE,), 1),
    ("reduce", (A_THERE, "plus"), 7),
    ("size", (NO_MATRIX,), GONE),
    ("size", (EMPTY_THERE,), 3),
    ("nvals", (EMPTY_THERE,), 0),
    ("size", (NO_VECTOR,), GONE),
    ("get", (U_THERE, 1), 5),
    ("get", (SAME_THERE, 1), 5),
    ("is_full", (), False),
]

# Both change objects in turn.
TWO: List[Row] = [
    (OLD, "set", (A, 0, 0, 10), DONE),
    (NEW, "get", (A_THERE, 0, 0), 1),
    (NEW, "set", (A_THERE, 0, 0, 20), DONE),
    (OLD, "get", (A, 0, 0), 10),
    (OLD, "clear", (B,), DONE),
    (OLD, "nvals", (B,), 0),
    (NEW, "get", (B_THERE, 1, 3), True),
    (OLD, "free", (U,), DONE),
    (OLD, "get", (U, 1), GONE),
    (NEW, "get", (U_THERE, 1), 5),
    (NEW, "remove", (U_THERE, 1), DONE),
    (NEW, "get", (U_THERE, 1), NO_VALUE),
    (NEW, "get", (SAME_THERE, 1), 5),
    (NEW, "free", (EMPTY_THERE,), DONE),
    (OLD, "size", (EMPTY,), 3),
    (NEW, "new", (bool, 1, 1), matrix(3, bool)),
    (NEW, "new", (bool, 1), vector(4, bool)),
    (OLD, "size", (matrix(2),), GONE),
    (OLD, "new", (int, 9), vector(3)),
    (NEW, "size", (SAME_THERE,), 4),
    (NEW, "reduce", (A_THERE, "plus"), 26),
    (OLD, "reduce", (A, "plus"), 16),
]


class Branches(RowCase):
    def test_a_branch_makes_what_was_chosen_and_has_its_room_beside(self) -> None:
        own = self.begin(ROOM).main
        self.make(own, LOADED)
        self.make(self.have(own.branch([], [V.number], 3), 2).main, ROOM_OF_THREE)
        # Of the history two calls were made for it.
        self.make(own, [("made", (), 2), *LOADED_STILL])
        # No history has more than 4,194,304 calls, nor more than 268,435,456 times its passes.
        self.refuse(own.branch([], [V.number] * 2_064_385, 65_535), 4_128_770)
        self.refuse(own.branch([], [V.number] * 522_241, 4_095, 256), 1_044_482)
        self.make(self.have(own.branch([], [V.number], 3), 2).main, ROOM_OF_THREE)
        self.make(own, [("made", (), 0)])
        for largest in (65_536, 1), (4_096, 256):
            self.have(own.branch([], [V.number], *largest), 2).close()

    def test_a_result_of_a_branch_comes_back_by_one_call(self) -> None:
        old = self.begin(ROOM)
        self.make(old.main, LOADED)
        new = self.have(old.main.branch([A.number], [], ROOM), 2)
        self.make(new.main, SUMMED)
        self.play([(OLD, "build_from", (SUMS, NEW, V), DONE)], {OLD: old.main, NEW: new.main})
        new.close()
        self.make(old.main, PUBLISHED)

    def test_a_branch_keeps_the_moment_of_the_objects_in_the_order_given(self) -> None:
        old = self.begin(ROOM)
        self.make(old.main, ONE)
        new = self.have(old.main.branch(MATRICES, VECTORS, ROOM, 2), BEGINNING)
        self.make(new.passes[1], FOUND)
        self.play(TWO, {OLD: old.main, NEW: new.main})


if __name__ == "__main__":
    unittest.main()
