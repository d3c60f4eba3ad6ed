"""A store with objects of every kind goes on, with no read and no wait before: what they store, how, and what waits."""

from __future__ import annotations

import unittest
from typing import List

from rows import DONE, GONE, NO_VALUE, RowCase, Step, matrix, vector

# The largest dimension, its last index, and one between.
MOST = 4_294_967_295
LAST = MOST - 1
MIDDLE = 2_147_483_648

# Few entries in as many rows and columns as there may be, in the corners and in the middle, and one of them 0.
VAST = matrix(0)
FREED = matrix(1)
# Truth values, resized after they were built.
TRUTHS = matrix(2, bool)
# Changed after it was built, and not assembled.
CHANGED = matrix(3)
EMPTY = matrix(4, bool)
# A dup of the changed one, changed once more.
DUP = matrix(5)
# The product of the changed one and the dup, not evaluated.
PRODUCT = matrix(6)
NO_MATRIX = matrix(7, bool)

MADE_MATRICES: List[Step] = [
    ("new", (int, MOST, MOST), VAST),
    (
        "build",
        (VAST, [(LAST, LAST, 4), (MIDDLE, 8, 0), (0, LAST, 2), (LAST, 0, 3), (MIDDLE, 7, 5), (0, 0, 1)], "plus"),
        DONE,
    ),
    ("new", (int, 3, 3), FREED),
    ("set", (FREED, 0, 0, 9), DONE),
    ("free", (FREED,), DONE),
    ("new", (bool, 3, 4), TRUTHS),
    ("build", (TRUTHS, [(0, 0, True), (1, 1, False), (2, 3, True)], "lor"), DONE),
    ("resize", (TRUTHS, 2, 6), DONE),
    ("set", (TRUTHS, 1, 5, False), DONE),
    ("resize", (TRUTHS, 9, 6), DONE),
    ("new", (int, 4, 4), CHANGED),
    ("build", (CHANGED, [(0, 0, 10), (1, 1, 11), (2, 2, 12), (3, 3, 13)], "plus"), DONE),
    ("remove", (CHANGED, 1, 1), DONE),
    ("set", (CHANGED, 2, 2, 22), DONE),
    ("set", (CHANGED, 0, 3, 0), DONE),
    ("set", (CHANGED, 3, 0, 30), DONE),
    ("remove", (CHANGED, 3, 0), DONE),
    ("remove", (CHANGED, 0, 1), DONE),
    ("new", (bool, 2, 2), EMPTY),
    ("dup", (CHANGED,), DUP),
    ("set", (DUP, 1, 1, 51), DONE),
    ("new", (int, 4, 4), PRODUCT),
    ("set", (PRODUCT, 1, 1, 1), DONE),
    ("mxm", (PRODUCT, "plus.times", CHANGED, DUP), DONE),
    ("get", (FREED, 0, 0), GONE),
    ("set", (FREED, 0, 0, 1), GONE),
    ("free", (FREED,), GONE),
    ("size", (NO_MATRIX,), GONE),
]

SEEN_MATRICES: List[Step] = [
    ("size", (VAST,), (MOST, MOST)),
    ("nvals", (VAST,), 6),
    ("get", (VAST, 0, 0), 1),
    ("get", (VAST, 0, LAST), 2),
    ("get", (VAST, LAST, 0), 3),
    ("get", (VAST, LAST, LAST), 4),
    ("get", (VAST, MIDDLE, 7), 5),
    ("get", (VAST, MIDDLE, 8), 0),
    ("reduce", (VAST, "plus"), 15),
    ("get", (FREED, 0, 0), GONE),
    ("set", (FREED, 0, 0, 1), GONE),
    ("free", (FREED,), GONE),
    ("size", (NO_MATRIX,), GONE),
    ("size", (TRUTHS,), (9, 6)),
    ("nvals", (TRUTHS,), 3),
    ("get", (TRUTHS, 0, 0), True),
    ("get", (TRUTHS, 1, 1), False),
    ("get", (TRUTHS, 1, 5), False),
    ("get", (TRUTHS, 2, 3), NO_VALUE),
    ("reduce", (TRUTHS, "land"), False),
    ("size", (CHANGED,), (4, 4)),
    ("nvals", (CHANGED,), 4),
    ("get", (CHANGED, 0, 0), 10),
    ("get", (CHANGED, 0, 3), 0),
    ("get", (CHANGED, 2, 2), 22),
    ("get", (CHANGED, 3, 3), 13),
    ("get", (CHANGED, 1, 1), NO_VALUE),
    ("reduce", (CHANGED, "plus"), 45),
    ("size", (EMPTY,), (2, 2)),
    ("nvals", (EMPTY,), 0),
    ("reduce", (EMPTY, "land"), True),
    ("size", (DUP,), (4, 4)),
    ("nvals", (DUP,), 5),
    ("get", (DUP, 0, 0), 10),
    ("get", (DUP, 0, 3), 0),
    ("get", (DUP, 1, 1), 51),
    ("get", (DUP, 2, 2), 22),
    ("get", (DUP, 3, 3), 13),
    ("reduce", (DUP, "plus"), 96),
    ("size", (PRODUCT,), (4, 4)),
    ("nvals", (PRODUCT,), 4),
    ("get", (PRODUCT, 0, 0), 100),
    ("get", (PRODUCT, 0, 3), 0),
    ("get", (PRODUCT, 2, 2), 484),
    ("get", (PRODUCT, 3, 3), 169),
    ("reduce", (PRODUCT, "plus"), 753),
    ("new", (bool, 1, 1), NO_MATRIX),
]

# Each of them is changed in a store that goes on before the old store is asked.
CHANGED_MATRICES: List[Step] = [
    ("set", (VAST, 0, 0, 71), DONE),
    ("remove", (VAST, LAST, LAST), DONE),
    ("resize", (TRUTHS, 1, 1), DONE),
    ("free", (CHANGED,), DONE),
    ("set", (EMPTY, 1, 1, True), DONE),
    ("clear", (DUP,), DONE),
    ("mxm", (PRODUCT, "plus.times", PRODUCT, PRODUCT), DONE),
    ("get", (PRODUCT, 0, 0), 10_000),
    ("reduce", (VAST, "plus"), 81),
    ("nvals", (DUP,), 0),
]

# The first and the last index of as many as there may be; at the first a 0.
LONG = vector(0)
# Truth values, resized after they were built.
FLAGS = vector(1, bool)
FREED_VECTOR = vector(2)
EMPTY_VECTOR = vector(3)
# The sums of the rows of a matrix, not evaluated.
SUMS = vector(4)
# A dup of the flags.
COPY = vector(5, bool)
# The sum of the sums and themselves, not evaluated, and then changed.
DOUBLE = vector(6)
NO_VECTOR = vector(7, bool)

# The matrix whose rows are summed.
ROWS = matrix(0)

MADE_VECTORS: List[Step] = [
    ("new", (int, MOST), LONG),
    ("set", (LONG, LAST, 7), DONE),
    ("set", (LONG, 0, 0), DONE),
    ("new", (bool, 5), FLAGS),
    ("build", (FLAGS, [(4, True), (1, False), (3, True)], "lor"), DONE),
    ("resize", (FLAGS, 3), DONE),
    ("resize", (FLAGS, 8), DONE),
    ("new", (int, 4), FREED_VECTOR),
    ("build", (FREED_VECTOR, [(2, 1)], "plus"), DONE),
    ("free", (FREED_VECTOR,), DONE),
    ("new", (int, 1), EMPTY_VECTOR),
    ("new", (int, 3, 2), ROWS),
    ("build", (ROWS, [(0, 0, 2), (0, 1, 3), (2, 1, 0)], "plus"), DONE),
    ("new", (int, 3), SUMS),
    ("reduce_rows", (SUMS, "plus", ROWS), DONE),
    ("set", (ROWS, 1, 1, 4), DONE),
    ("dup", (FLAGS,), COPY),
    ("set", (FLAGS, 7, True), DONE),
    ("new", (int, 3), DOUBLE),
    ("ewise_add", (DOUBLE, "plus", SUMS, SUMS), DONE),
    ("set", (DOUBLE, 1, 8), DONE),
    ("remove", (DOUBLE, 2), DONE),
    ("get", (FREED_VECTOR, 2), GONE),
    ("remove", (FREED_VECTOR, 2), GONE),
    ("dup", (FREED_VECTOR,), GONE),
    ("size", (NO_VECTOR,), GONE),
]

SEEN_VECTORS: List[Step] = [
    ("size", (LONG,), MOST),
    ("nvals", (LONG,), 2),
    ("get", (LONG, 0), 0),
    ("get", (LONG, LAST), 7),
    ("reduce", (LONG, "plus"), 7),
    ("size", (FLAGS,), 8),
    ("nvals", (FLAGS,), 2),
    ("get", (FLAGS, 1), False),
    ("get", (FLAGS, 7), True),
    ("get", (FLAGS, 3), NO_VALUE),
    ("reduce", (FLAGS, "lor"), True),
    ("get", (FREED_VECTOR, 2), GONE),
    ("remove", (FREED_VECTOR, 2), GONE),
    ("dup", (FREED_VECTOR,), GONE),
    ("size", (NO_VECTOR,), GONE),
    ("size", (EMPTY_VECTOR,), 1),
    ("nvals", (EMPTY_VECTOR,), 0),
    ("reduce", (EMPTY_VECTOR, "times"), 1),
    ("size", (SUMS,), 3),
    ("nvals", (SUMS,), 2),
    ("get", (SUMS, 0), 5),
    ("get", (SUMS, 2), 0),
    ("reduce", (SUMS, "plus"), 5),
    ("get", (ROWS, 1, 1), 4),
    ("nvals", (ROWS,), 4),
    ("size", (COPY,), 8),
    ("nvals", (COPY,), 1),
    ("get", (COPY, 1), False),
    ("reduce", (COPY, "lor"), False),
    ("size", (DOUBLE,), 3),
    ("nvals", (DOUBLE,), 2),
    ("get", (DOUBLE, 0), 10),
    ("get", (DOUBLE, 1), 8),
    ("get", (DOUBLE, 2), NO_VALUE),
    ("reduce", (DOUBLE, "plus"), 18),
    ("new", (bool, 1), NO_VECTOR),
]

# Each of them is changed in a store that goes on before the old store is asked.
CHANGED_VECTORS: List[Step] = [
    ("remove", (LONG, LAST), DONE),
    ("set", (FLAGS, 1, True), DONE),
    ("set", (EMPTY_VECTOR, 0, 1), DONE),
    ("free", (SUMS,), DONE),
    ("resize", (COPY, 1), DONE),
    ("ewise_add", (DOUBLE, "plus", DOUBLE, DOUBLE), DONE),
    ("reduce", (DOUBLE, "plus"), 36),
    ("reduce", (LONG, "plus"), 0),
    ("nvals", (COPY,), 0),
]


class Kinds(RowCase):
    def test_matrices_of_every_kind_go_on(self) -> None:
        # Two calls for each object, one where no entry is stored, and two for a freed one, but in a chain none.
        self.tell([(0, MADE_MATRICES, SEEN_MATRICES), (13, SEEN_MATRICES, CHANGED_MATRICES)])
        self.tell_in_chain(MADE_MATRICES, 11, 13, SEEN_MATRICES, CHANGED_MATRICES)

    def test_vectors_of_every_kind_go_on(self) -> None:
        self.tell([(0, MADE_VECTORS, SEEN_VECTORS), (15, SEEN_VECTORS, CHANGED_VECTORS)])
        self.tell_in_chain(MADE_VECTORS, 13, 15, SEEN_VECTORS, CHANGED_VECTORS)


if __name__ == "__main__":
    unittest.main()
