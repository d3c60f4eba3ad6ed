"""Each function of the library that makes or changes an object or reads it, once."""

from __future__ import annotations

import unittest
from typing import List

from rows import DONE, P, Row, RowCase, matrix, vector

A = matrix(0)
B = matrix(1)
D = matrix(2)
E = matrix(3)
U = vector(0)
W = vector(1)
X = vector(2)

METHODS: List[Row] = [
    (P, "new", (int, 2, 3), A),
    (P, "size", (A,), (2, 3)),
    (P, "build", (A, [(0, 1, 2), (0, 2, 5), (0, 1, 1)], "plus"), DONE),
    (P, "get", (A, 0, 1), 3),
    (P, "set", (A, 1, 0, 4), DONE),
    (P, "remove", (A, 1, 0), DONE),
    (P, "nvals", (A,), 2),
    (P, "reduce", (A, "plus"), 8),
    (P, "dup", (A,), B),
    (P, "resize", (B, 3, 3), DONE),
    (P, "new", (int, 3), U),
    (P, "size", (U,), 3),
    (P, "build", (U, [(1, 9), (2, 1), (1, 1)], "plus"), DONE),
    (P, "get", (U, 1), 10),
    (P, "set", (U, 0, 4), DONE),
    (P, "remove", (U, 0), DONE),
    (P, "nvals", (U,), 2),
    (P, "reduce", (U, "max"), 10),
    (P, "dup", (U,), W),
    (P, "resize", (W, 2), DONE),
    # the least of 3 + 10 and 5 + 1
    (P, "mxv", (W, "min.plus", A, U), DONE),
    (P, "get", (W, 0), 6),
    (P, "reduce_rows", (W, "plus", A), DONE),
    (P, "get", (W, 0), 8),
    (P, "dup", (U,), X),
    # 8 times 3 in the second column
    (P, "vxm", (X, "plus.times", W, A), DONE),
    (P, "get", (X, 1), 24),
    (P, "set", (B, 1, 0, 4), DONE),
    # 3 times 4 in the first column
    (P, "mxm", (A, "plus.times", A, B), DONE),
    (P, "get", (A, 0, 0), 12),
    (P, "ewise_add", (A, "plus", A, A), DONE),
    (P, "get", (A, 0, 0), 24),
    (P, "ewise_mult", (A, "minus", A, A), DONE),
    (P, "get", (A, 0, 0), 0),
    (P, "ewise_add", (U, "plus", U, U), DONE),
    (P, "get", (U, 1), 20),
    (P, "ewise_mult", (U, "times", U, U), DONE),
    (P, "get", (U, 2), 4),
    # 400 and 4 are there
    (P, "select", (U, "valuele", U, 4), DONE),
    (P, "nvals", (U,), 1),
    (P, "apply_first", (U, "minus", 10, U), DONE),
    (P, "get", (U, 2), 6),
    # 6 at (3, 2), of four rows
    (P, "diag", (U, -1), D),
    (P, "size", (D,), (4, 4)),
    (P, "get", (D, 3, 2), 6),
    (P, "transpose", (D, D), DONE),
    (P, "get", (D, 2, 3), 6),
    (P, "apply_second", (D, "minus", D, 2), DONE),
    (P, "get", (D, 2, 3), 4),
    (P, "new", (int, 2, 2), E),
    (P, "set", (E, 1, 0, 4), DONE),
    # 4 at (1, 0) twice: at (3, 0)
    (P, "kronecker", (D, "plus", E, E), DONE),
    (P, "get", (D, 3, 0), 8),
    (P, "select", (D, "triu", D, 0), DONE),
    (P, "nvals", (D,), 0),
    (P, "wait", (A, "complete"), DONE),
    (P, "wait", (U, "materialize"), DONE),
    (P, "clear", (B,), DONE),
    (P, "clear", (W,), DONE),
    (P, "free", (B,), DONE),
    (P, "free", (W,), DONE),
    (P, "get", (U, 2), 6),
]


class Methods(RowCase):
    def test_each_method_is_done(self) -> None:
        for opening in "open", "chain_open":
            with self.subTest(opening=opening):
                self.play(METHODS, {P: self.begin(48, 3, opening).main})


if __name__ == "__main__":
    unittest.main()
