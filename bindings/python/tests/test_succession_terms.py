"""What maps, filters, Kronecker products and diagonals made goes on.

They were entered before the store went on, nobody had read them, and their inputs were changed or freed since.
"""

from __future__ import annotations

import unittest
from typing import List

from rows import DONE, GONE, NO_VALUE, RowCase, Step, matrix, vector
from trowelheath.operators import TRANSPOSE, TRANSPOSE_SECOND

# Two rows and three columns, with 2 and 5 in the first row and 7 in the second.
A = matrix(0)
# Two rows and columns, with 10 above the diagonal and 8 below it; freed.
B = matrix(1)
# A transposed, and A transposed twice.
TRANSPOSED = matrix(2)
AGAIN = matrix(3)
# 9 less each number of A, read transposed.
LESS = matrix(4)
# Each number of A less 1.
LOWERED = matrix(5)
# What A has on the first diagonal above the main one or below it.
PLACED = matrix(6)
# What A has above 4.
LARGE = matrix(7)
# The Kronecker product of B and A by differences, and the same of both read transposed.
CROSSED = matrix(8)
TURNED = matrix(9)
# The vector on the first diagonal above the main one, and on the second below it.
ABOVE = matrix(10)
BELOW = matrix(11)
NO_MATRIX = matrix(12, bool)

# 4 and 6 at the first and the last of three indices; changed later.
U = vector(0)

MADE_MATRICES: List[Step] = [
    ("new", (int, 2, 3), A),
    ("build", (A, [(0, 1, 2), (0, 2, 5), (1, 1, 7)], "plus"), DONE),
    ("new", (int, 2, 2), B),
    ("set", (B, 0, 1, 10), DONE),
    ("set", (B, 1, 0, 8), DONE),
    ("new", (int, 3, 2), TRANSPOSED),
    ("transpose", (TRANSPOSED, A), DONE),
    ("new", (int, 2, 3), AGAIN),
    ("transpose", (AGAIN, A, TRANSPOSE), DONE),
    ("new", (int, 3, 2), LESS),
    ("apply_first", (LESS, "minus", 9, A, TRANSPOSE_SECOND), DONE),
    ("new", (int, 2, 3), LOWERED),
    ("apply_second", (LOWERED, "minus", A, 1), DONE),
    ("new", (int, 2, 3), PLACED),
    ("select", (PLACED, "tril", A, 1), DONE),
    ("new", (int, 2, 3), LARGE),
    ("select", (LARGE, "valuegt", A, 4), DONE),
    ("new", (int, 4, 6), CROSSED),
    ("kronecker", (CROSSED, "minus", B, A), DONE),
    ("new", (int, 6, 4), TURNED),
    ("kronecker", (TURNED, "minus", B, A, TRANSPOSE | TRANSPOSE_SECOND), DONE),
    ("new", (int, 3), U),
    ("build", (U, [(0, 4), (2, 6)], "plus"), DONE),
    ("diag", (U, 1), ABOVE),
    ("diag", (U, -2), BELOW),
    ("set", (A, 0, 1, 20), DONE),
    ("free", (B,), DONE),
    ("free", (U,), DONE),
]

SEEN_MATRICES: List[Step] = [
    ("get", (A, 0, 1), 20),
    ("get", (B, 0, 1), GONE),
    ("nvals", (TRANSPOSED,), 3),
    ("get", (TRANSPOSED, 1, 0), 2),
    ("get", (TRANSPOSED, 1, 1), 7),
    ("get", (TRANSPOSED, 2, 0), 5),
    ("nvals", (AGAIN,), 3),
    ("get", (AGAIN, 0, 1), 2),
    ("reduce", (AGAIN, "plus"), 14),
    ("nvals", (LESS,), 3),
    ("get", (LESS, 1, 0), 7),
    ("get", (LESS, 1, 1), 2),
    ("get", (LESS, 2, 0), 4),
    ("nvals", (LOWERED,), 3),
    ("get", (LOWERED, 0, 1), 1),
    ("get", (LOWERED, 0, 2), 4),
    ("get", (LOWERED, 1, 1), 6),
    ("nvals", (PLACED,), 2),
    ("get", (PLACED, 0, 1), 2),
    ("get", (PLACED, 0, 2), NO_VALUE),
    ("get", (PLACED, 1, 1), 7),
    ("nvals", (LARGE,), 2),
    ("get", (LARGE, 0, 1), NO_VALUE),
    ("get", (LARGE, 0, 2), 5),
    ("get", (LARGE, 1, 1), 7),
    ("nvals", (CROSSED,), 6),
    ("get", (CROSSED, 0, 4), 8),
    ("get", (CROSSED, 0, 5), 5),
    ("get", (CROSSED, 1, 4), 3),
    ("get", (CROSSED, 2, 1), 6),
    ("get", (CROSSED, 2, 2), 3),
    ("get", (CROSSED, 3, 1), 1),
    ("nvals", (TURNED,), 6),
    ("get", (TURNED, 4, 0), 8),
    ("get", (TURNED, 1, 3), 1),
    ("reduce", (TURNED, "plus"), 26),
    ("size", (ABOVE,), (4, 4)),
    ("nvals", (ABOVE,), 2),
    ("get", (ABOVE, 0, 1), 4),
    ("get", (ABOVE, 2, 3), 6),
    ("size", (BELOW,), (5, 5)),
    ("nvals", (BELOW,), 2),
    ("get", (BELOW, 2, 0), 4),
    ("get", (BELOW, 4, 2), 6),
    ("new", (bool, 1, 1), NO_MATRIX),
]

# Each of them is changed in a store that goes on before the old store is asked, some by what they were made of and by
# one another.
CHANGED_MATRICES: List[Step] = [
    ("transpose", (TRANSPOSED, A), DONE),
    ("get", (TRANSPOSED, 1, 0), 20),
    ("clear", (AGAIN,), DONE),
    ("free", (LESS,), DONE),
    ("apply", (LOWERED, "ainv", LOWERED), DONE),
    ("reduce", (LOWERED, "plus"), 2**64 - 11),
    ("transpose", (PLACED, TRANSPOSED), DONE),
    ("reduce", (PLACED, "plus"), 32),
    ("set", (LARGE, 0, 0, 1), DONE),
    ("set", (CROSSED, 0, 4, 0), DONE),
    ("set", (ABOVE, 0, 1, 0), DONE),
]

# 9 less each number of the first vector.
SMALLER = vector(1)
# What stands behind its first index.
LATER = vector(2)
# What is less than 5.
FEW = vector(3)
# The product with the matrix read transposed.
PRODUCT = vector(4)
# Truth values, and their negations.
FLAGS = vector(5, bool)
OPPOSED = vector(6, bool)
NO_VECTOR = vector(7, bool)

# The matrix of the product.
ROWS = matrix(0)
SQUARE = matrix(1)

MADE_VECTORS: List[Step] = [
    ("new", (int, 3), U),
    ("build", (U, [(0, 4), (2, 6)], "plus"), DONE),
    ("new", (int, 3), SMALLER),
    ("apply_first", (SMALLER, "minus", 9, U), DONE),
    ("new", (int, 3), LATER),
    ("select", (LATER, "rowgt", U, 0), DONE),
    ("new", (int, 3), FEW),
    ("select", (FEW, "valuelt", U, 5), DONE),
    ("new", (int, 2, 3), ROWS),
    ("build", (ROWS, [(0, 0, 3), (0, 2, 5), (1, 1, 7)], "plus"), DONE),
    ("new", (int, 2), PRODUCT),
    ("vxm", (PRODUCT, "plus.times", U, ROWS, TRANSPOSE_SECOND), DONE),
    ("new", (bool, 2), FLAGS),
    ("build", (FLAGS, [(0, True), (1, False)], "lor"), DONE),
    ("new", (bool, 2), OPPOSED),
    ("apply", (OPPOSED, "lnot", FLAGS), DONE),
    ("select", (FLAGS, "valuene", FLAGS, False), DONE),
    ("set", (U, 0, 1), DONE),
    ("set", (U, 1, 2), DONE),
    ("set", (ROWS, 1, 0, 1), DONE),
    ("set", (LATER, 0, 11), DONE),
    ("get", (U, 0), 1),
    ("get", (NO_VECTOR, 0), GONE),
    ("free", (NO_VECTOR,), GONE),
]

SEEN_VECTORS: List[Step] = [
    ("reduce", (U, "plus"), 9),
    ("nvals", (SMALLER,), 2),
    ("get", (SMALLER, 0), 5),
    ("get", (SMALLER, 2), 3),
    ("nvals", (LATER,), 2),
    ("get", (LATER, 0), 11),
    ("get", (LATER, 2), 6),
    ("nvals", (FEW,), 1),
    ("get", (FEW, 0), 4),
    ("nvals", (PRODUCT,), 1),
    # 4 * 3 + 6 * 5
    ("get", (PRODUCT, 0), 42),
    ("get", (PRODUCT, 1), NO_VALUE),
    ("nvals", (FLAGS,), 1),
    ("get", (FLAGS, 0), True),
    ("get", (OPPOSED, 0), False),
    ("get", (OPPOSED, 1), True),
    ("get", (NO_VECTOR, 0), GONE),
    ("new", (bool, 1), NO_VECTOR),
]

# Each of them is changed in a store that goes on before the old store is asked.
CHANGED_VECTORS: List[Step] = [
    ("vxm", (PRODUCT, "plus.times", U, ROWS, TRANSPOSE_SECOND), DONE),
    # 1 * 3 + 6 * 5, and 1 * 1 + 2 * 7
    ("get", (PRODUCT, 0), 33),
    ("get", (PRODUCT, 1), 15),
    ("free", (SMALLER,), DONE),
    ("set", (LATER, 2, 0), DONE),
    ("set", (FEW, 1, 8), DONE),
    ("set", (OPPOSED, 0, True), DONE),
    ("diag", (FEW, 0), SQUARE),
]


class Terms(RowCase):
    def test_matrices_that_terms_made_go_on(self) -> None:
        # Two calls for each object, and for a freed one, but in a chain none for that.
        self.tell([(0, MADE_MATRICES, SEEN_MATRICES), (26, SEEN_MATRICES, CHANGED_MATRICES)])
        self.tell_in_chain(MADE_MATRICES, 22, 26, SEEN_MATRICES, CHANGED_MATRICES)

    def test_vectors_that_terms_made_go_on(self) -> None:
        self.tell([(0, MADE_VECTORS, SEEN_VECTORS), (16, SEEN_VECTORS, CHANGED_VECTORS)])
        self.tell_in_chain(MADE_VECTORS, 16, 16, SEEN_VECTORS, CHANGED_VECTORS)


if __name__ == "__main__":
    unittest.main()
