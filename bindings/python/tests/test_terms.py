"""Operations on the entries of one object, Kronecker products, diagonals, and second inputs read transposed."""

from __future__ import annotations

import itertools
import unittest
from typing import Any, Callable, Dict, List, NamedTuple, Optional, Sequence, Tuple

import plain
from choices import Choices
from support import MOST_DIMENSION, MOST_NUMBER, Draws, StoreCase
from trowelheath import (
    DimensionMismatch,
    DomainMismatch,
    InvalidValue,
    Matrix,
    Pass,
    Store,
    UninitializedObject,
    Vector,
)

Entries = Dict[Any, Any]
Calls = List[Tuple[str, Callable[[], Any]]]


class Worked(StoreCase):
    def setUp(self) -> None:
        super().setUp()
        self.a = Matrix.from_lists(self.p, 2, 3, [0, 0, 1], [1, 2, 1], [2, 5, 7])
        self.u = Vector.from_lists(self.p, 5, [0, 1, 3], [10, 11, 13])
        self.truths = Matrix.from_lists(self.p, 2, 2, [0, 1], [1, 0], [True, False], bool)

    def test_all_entries_come_in_rising_order(self) -> None:
        self.assertEqual(self.u.to_lists(), ([0, 1, 3], [10, 11, 13]))
        b = self.p.matrix(2, 2, bool)
        self.assertEqual(b.to_lists(), ([], [], []))
        b.build([1, 0], [0, 1], [False, True], "lor")
        self.assertEqual(b.to_lists(), ([0, 1], [1, 0], [True, False]))
        b.free()
        with self.assertRaises(UninitializedObject):
            b.to_lists()

    def test_a_matrix_is_written_transposed(self) -> None:
        turned = self.a.transpose()
        self.assertEqual((turned.shape, turned.dtype), ((3, 2), int))
        self.assertEqual(turned.to_dict(), {(1, 0): 2, (1, 1): 7, (2, 0): 5})
        self.assertEqual(self.truths.transpose().to_dict(), {(0, 1): False, (1, 0): True})
        twice = self.a.T.transpose()
        self.assertEqual((twice.shape, twice.to_dict()), (self.a.shape, self.a.to_dict()))
        self.assertIs(self.a.transpose(accum="plus", out=turned), turned)
        self.assertEqual(turned.to_dict(), {(1, 0): 4, (1, 1): 14, (2, 0): 10})

    def test_a_function_of_each_value(self) -> None:
        out = self.p.matrix(3, 2)
        a = self.a
        self.assertIs(a.apply("ainv", transpose=True, out=out), out)
        self.assertEqual(out.to_dict(), {(1, 0): 2**64 - 2, (1, 1): 2**64 - 7, (2, 0): 2**64 - 5})
        a.apply("minus", 1, transpose=True, out=out)
        self.assertEqual(out.to_dict(), {(1, 0): 1, (1, 1): 6, (2, 0): 4})
        a.apply("minus", left=9, transpose=True, out=out)
        self.assertEqual(out.to_dict(), {(1, 0): 7, (1, 1): 2, (2, 0): 4})
        with self.assertRaises(DimensionMismatch):
            a.apply("minus", left=9, out=out)
        self.assertEqual(a.T.apply("minus", left=9).to_dict(), out.to_dict())
        self.assertEqual(a.apply("minus", left=9).to_dict(), {(0, 1): 7, (0, 2): 4, (1, 1): 2})

    def test_each_unary_operator(self) -> None:
        self.assertEqual(self.u.apply("identity").to_dict(), {0: 10, 1: 11, 3: 13})
        self.assertEqual(self.u.apply("ainv").to_dict(), {0: 2**64 - 10, 1: 2**64 - 11, 3: 2**64 - 13})
        self.assertEqual(self.u.apply("bnot").to_dict(), {0: 2**64 - 11, 1: 2**64 - 12, 3: 2**64 - 14})
        self.assertEqual(self.truths.apply("identity_bool").to_dict(), {(0, 1): True, (1, 0): False})
        self.assertEqual(self.truths.apply("lnot").to_dict(), {(0, 1): False, (1, 0): True})

    def test_a_value_stands_on_either_side(self) -> None:
        self.assertEqual(self.u.apply("minus", 1).to_dict(), {0: 9, 1: 10, 3: 12})
        self.assertEqual(self.u.apply("minus", right=1).to_dict(), {0: 9, 1: 10, 3: 12})
        self.assertEqual(self.u.apply("minus", left=1).to_dict(), {0: 2**64 - 9, 1: 2**64 - 10, 3: 2**64 - 12})
        self.assertEqual(self.u.apply("first", left=1).to_dict(), {0: 1, 1: 1, 3: 1})
        self.assertEqual(self.u.apply("times", MOST_NUMBER).to_dict(), self.u.apply("ainv").to_dict())
        self.assertEqual(self.u.apply("plus", 0).to_dict(), self.u.to_dict())
        self.assertEqual(self.truths.apply("first_bool", left=False).to_dict(), {(0, 1): False, (1, 0): False})
        self.assertEqual(self.truths.apply("lxor", True).to_dict(), {(0, 1): False, (1, 0): True})

    def test_a_vector_is_filtered_as_a_column(self) -> None:
        u, w = self.u, self.p.vector(5)
        cases: List[Tuple[str, int, Entries]] = [
            ("rowle", 1, {0: 10, 1: 11}),
            ("rowgt", 1, {3: 13}),
            ("colle", 0, {0: 10, 1: 11, 3: 13}),
            ("colgt", 0, {}),
            ("tril", -1, {1: 11, 3: 13}),
            ("triu", -1, {0: 10, 1: 11}),
            ("diag", -3, {3: 13}),
            ("offdiag", 0, {1: 11, 3: 13}),
        ]
        for test, value, wanted in cases:
            with self.subTest(test=test):
                self.assertIs(u.select(test, value, out=w), w)
                self.assertEqual(w.to_dict(), wanted)
                self.assertEqual(u.select(test, value).to_dict(), wanted)

    def test_a_matrix_is_filtered_by_places(self) -> None:
        full = Matrix.from_lists(self.p, 2, 3, [0, 0, 0, 1, 1, 1], [0, 1, 2] * 2, range(6))
        cases: List[Tuple[str, int, List[int]]] = [
            ("tril", 0, [0, 3, 4]),
            ("tril", -1, [3]),
            ("triu", 1, [1, 2, 5]),
            ("diag", 1, [1, 5]),
            ("offdiag", 1, [0, 2, 3, 4]),
            ("rowle", 0, [0, 1, 2]),
            ("rowgt", 0, [3, 4, 5]),
            ("colle", 1, [0, 1, 3, 4]),
            ("colgt", 1, [2, 5]),
            ("rowle", MOST_NUMBER, [0, 1, 2, 3, 4, 5]),
            ("colgt", MOST_NUMBER, []),
            ("tril", MOST_DIMENSION, [0, 1, 2, 3, 4, 5]),
            ("triu", -MOST_DIMENSION, [0, 1, 2, 3, 4, 5]),
        ]
        for test, value, wanted in cases:
            with self.subTest(test=test, value=value):
                self.assertEqual(list(full.select(test, value).values()), wanted)
        for test in "tril", "triu", "diag", "offdiag":
            self.assertEqual(full.select(test).to_dict(), full.select(test, 0).to_dict())
        self.assertEqual(full.T.select("tril", -1).to_dict(), {(1, 0): 1, (2, 0): 2, (2, 1): 5})

    def test_entries_are_filtered_by_values(self) -> None:
        cases: List[Tuple[str, List[int]]] = [
            ("valueeq", [1]),
            ("valuene", [0, 3]),
            ("valuelt", [0]),
            ("valuele", [0, 1]),
            ("valuegt", [3]),
            ("valuege", [1, 3]),
        ]
        for test, wanted in cases:
            with self.subTest(test=test):
                self.assertEqual(list(self.u.select(test, 11).keys()), wanted)
        self.assertEqual(self.truths.select("valuelt", True).to_dict(), {(1, 0): False})
        self.assertEqual(self.truths.select("valueeq", True).to_dict(), {(0, 1): True})
        self.assertEqual(self.a.T.select("valuege", 5).to_dict(), {(1, 1): 7, (2, 0): 5})

    def test_a_kronecker_product(self) -> None:
        a = Matrix.from_lists(self.p, 2, 2, [0, 1], [0, 1], [2, 3])
        b = Matrix.from_lists(self.p, 2, 2, [0, 1], [1, 0], [10, 20])
        c = a.kronecker(b, "times")
        self.assertEqual((c.shape, c.dtype), ((4, 4), int))
        self.assertEqual(c.to_dict(), {(0, 1): 20, (1, 0): 40, (2, 3): 30, (3, 2): 60})
        self.assertEqual(a.kronecker(b).to_dict(), c.to_dict())
        self.assertIs(b.kronecker(a, "minus", out=c), c)
        self.assertEqual(c.to_dict(), {(0, 2): 8, (1, 3): 7, (2, 0): 18, (3, 1): 17})
        both = self.truths.kronecker(self.truths)
        self.assertEqual(both.to_dict(), {(0, 3): True, (1, 2): False, (2, 1): False, (3, 0): False})
        wide = self.a.kronecker(self.a.T, "first")
        self.assertEqual(wide.shape, (6, 6))
        self.assertEqual(self.a.T.kronecker(self.a, "first").shape, (6, 6))
        self.assertEqual(self.a.kronecker(self.a, transpose=True, transpose_second=True).shape, (9, 4))

    def test_a_vector_on_a_diagonal(self) -> None:
        above, below = self.u.diag(1), self.u.diag(-2)
        self.assertEqual((above.shape, above.dtype), ((6, 6), int))
        self.assertEqual(above.to_dict(), {(0, 1): 10, (1, 2): 11, (3, 4): 13})
        self.assertEqual((below.shape, below.to_dict()), ((7, 7), {(2, 0): 10, (3, 1): 11, (5, 3): 13}))
        self.assertEqual(self.u.diag().to_dict(), {(0, 0): 10, (1, 1): 11, (3, 3): 13})
        shown = ["<Matrix 6x6 int, 3 entries>", "  0  1  2 3  4 5", "0 . 10  . .  . ."]
        self.assertEqual(repr(above).split("\n")[:3], shown)
        self.u[0] = 99
        self.assertEqual(above[0, 1], 10)

    def test_the_largest_diagonals(self) -> None:
        v = self.p.vector(MOST_DIMENSION, bool)
        with self.assertRaises(InvalidValue):
            v.diag(1)
        self.assertEqual(v.diag(0).shape, (MOST_DIMENSION, MOST_DIMENSION))
        u = Vector.from_lists(self.p, 1, [0], [3])
        self.assertEqual(u.diag(1 - MOST_DIMENSION).to_dict(), {(MOST_DIMENSION - 1, 0): 3})
        with self.assertRaises(InvalidValue):
            u.diag(MOST_DIMENSION)
        u.free()
        with self.assertRaises(UninitializedObject):
            u.diag(0)

    def test_a_second_input_is_read_transposed(self) -> None:
        a = self.a
        b = Matrix.from_lists(self.p, 2, 3, [0, 1], [2, 1], [3, 4])
        product = a.mxm(b, transpose_second=True)
        self.assertEqual((product.shape, product.to_dict()), ((2, 2), {(0, 0): 15, (0, 1): 8, (1, 1): 28}))
        self.assertEqual(a.mxm(b.T).to_dict(), product.to_dict())
        self.assertEqual(a.mxm(b.T, transpose=True, transpose_second=True).to_dict(), a.T.mxm(b).to_dict())
        turned = b.transpose()
        union = a.ewise_add(turned, "minus", transpose_second=True)
        self.assertEqual(union.to_dict(), {(0, 1): 2, (0, 2): 2, (1, 1): 3})
        self.assertEqual(a.ewise_mult(turned.T, "minus").to_dict(), {(0, 2): 2, (1, 1): 3})
        self.assertEqual(turned.ewise_mult(a.T, "minus").to_dict(), {(1, 1): 2**64 - 3, (2, 0): 2**64 - 2})
        u = Vector.from_lists(self.p, 3, [1, 2], [10, 20])
        row = u.vxm(a, "min.minus", transpose_second=True)
        self.assertEqual((row.size, row.to_dict()), (2, {0: 8, 1: 3}))
        self.assertEqual(u.vxm(a.T, "min.minus").to_dict(), row.to_dict())

    def test_mask_and_accumulator_say_how_it_writes(self) -> None:
        u = self.u
        mask = Vector.from_lists(self.p, 5, [0, 3, 4], [True, False, True], bool)
        old = Vector.from_lists(self.p, 5, range(5), 1)
        out = old.dup()
        u.apply("plus", 1, mask=mask, out=out)
        self.assertEqual(out.to_dict(), {0: 11, 1: 1, 2: 1, 3: 1})
        out = old.dup()
        u.select("valuege", 11, mask=mask, structure=True, accum="plus", replace=True, out=out)
        self.assertEqual(out.to_dict(), {0: 1, 3: 14, 4: 1})
        square = Matrix.from_lists(self.p, 2, 2, [0, 1], [1, 1], [5, 6])
        square.transpose(mask=square, complement=True, out=square)
        self.assertEqual(square.to_dict(), {(0, 1): 5, (1, 0): 5, (1, 1): 6})

    def test_objects_may_be_by_another_pass(self) -> None:
        by_q = self.a.using(self.q)
        self.assertEqual(self.a.mxm(by_q.T).to_dict(), {(0, 0): 29, (0, 1): 14, (1, 0): 14, (1, 1): 49})
        out = self.q.matrix(3, 2)
        self.assertIs(self.a.transpose(out=out), out)
        self.assertEqual(out.to_dict(), by_q.transpose().to_dict())

    def test_each_takes_its_calls_of_the_room(self) -> None:
        known = self.p.facts().known
        kept = [self.u.diag()]
        self.assertEqual(self.p.facts().known, known + 1)
        kept += [self.a.transpose(), self.a.select("tril"), self.a.apply("ainv"), self.a.kronecker(self.a)]
        self.assertEqual(self.p.facts().known, known + 9)


class Refused(StoreCase):
    def setUp(self) -> None:
        super().setUp()
        self.a = Matrix.from_lists(self.p, 2, 3, [0, 0, 1], [1, 2, 1], [2, 5, 7])
        self.b = self.p.matrix(2, 2)
        self.t = self.p.matrix(2, 2, bool)
        self.u = Vector.from_lists(self.p, 5, [0, 1, 3], [10, 11, 13])

    def check(self, kind: type, cases: Calls) -> None:
        """Each of these calls is refused so, and says just that. None of them has entered."""
        known = self.p.facts().known
        for detail, call in cases:
            with self.subTest(detail=detail):
                with self.assertRaises(kind) as caught:
                    call()
                refusal: Any = caught.exception
                self.assertIs(type(refusal), kind)
                self.assertEqual(refusal.detail, detail)
        self.assertEqual(self.p.facts().known, known)

    def test_shapes_that_do_not_fit(self) -> None:
        a, b, u = self.a, self.b, self.u
        six, narrow = self.p.vector(6), self.p.matrix(6, 4)
        self.check(
            DimensionMismatch,
            [
                (
                    "the matrix is 2 x 3, the output is 2 x 3: the rows of the output, 2, are not the columns of the "
                    "matrix, 3",
                    lambda: a.transpose(out=a),
                ),
                (
                    "the matrix is 2 x 3, read transposed, the output is 2 x 2: the columns of the output, 2, are not "
                    "the columns of the matrix, which are read as rows, 3",
                    lambda: a.T.transpose(out=b),
                ),
                (
                    "the matrix is 2 x 3, read transposed, the output is 2 x 3: the rows of the output, 2, are not "
                    "the columns of the matrix, which are read as rows, 3",
                    lambda: a.apply("minus", left=9, transpose=True, out=a),
                ),
                (
                    "the matrix is 2 x 3, the output is 2 x 2: the columns of the output, 2, are not the columns of "
                    "the matrix, 3",
                    lambda: a.select("tril", out=b),
                ),
                (
                    "the vector is of size 5, the output is of size 5, the mask is of size 6: the size of the mask, 6, "
                    "is not the size of the output, 5",
                    lambda: u.apply("ainv", mask=six, out=u),
                ),
                (
                    "the first matrix is 2 x 3, the second matrix is 2 x 2, the output is 2 x 2: the rows of the "
                    "output, 2, are not the rows of the first matrix times the rows of the second matrix, 4",
                    lambda: a.kronecker(b, out=b),
                ),
                (
                    "the first matrix is 2 x 3, the second matrix is 2 x 3, read transposed, the output is 6 x 4: the "
                    "columns of the output, 4, are not the columns of the first matrix times the rows of the second "
                    "matrix, which are read as columns, 6",
                    lambda: a.kronecker(a.T, out=narrow),
                ),
                (
                    "the first matrix is 2 x 3, the second matrix is 2 x 2, read transposed, the output is 2 x 2: the "
                    "columns of the first matrix, 3, are not the columns of the second matrix, which are read as "
                    "rows, 2",
                    lambda: a.mxm(b.T, out=b),
                ),
                (
                    "the first matrix is 2 x 3, the second matrix is 2 x 3, read transposed, the output is 2 x 3: the "
                    "rows of the first matrix, 2, are not the columns of the second matrix, which are read as rows, 3",
                    lambda: a.ewise_add(a.T, "plus", out=a),
                ),
                (
                    "the vector is of size 5, the matrix is 2 x 3, read transposed, the output is of size 5: the size "
                    "of the vector, 5, is not the columns of the matrix, which are read as rows, 3",
                    lambda: u.vxm(a.T, out=u),
                ),
            ],
        )

    def test_domains_that_are_mixed(self) -> None:
        a, b, t, u = self.a, self.b, self.t, self.u
        self.check(
            DomainMismatch,
            [
                (
                    "the matrix and the output are of uint64, the operator lnot is of bool",
                    lambda: a.apply("lnot", out=a),
                ),
                (
                    "the matrix and the output are of bool, the operator bnot is of uint64",
                    lambda: t.apply("bnot", out=t),
                ),
                (
                    "the vector and the output are of uint64, the operator lor is of bool",
                    lambda: u.apply("lor", 1, out=u),
                ),
                ("the matrix is of uint64, the output is of bool", lambda: b.select("tril", out=t)),
                ("the matrix is of bool, the output is of uint64", lambda: t.transpose(out=b)),
                (
                    "the first matrix and the output are of uint64, the second matrix and the operator land are of "
                    "bool",
                    lambda: b.kronecker(t, "land", out=b),
                ),
                (
                    "the vector and the output are of uint64, the accumulator lor is of bool",
                    lambda: u.select("valuege", 1, accum="lor", out=u),
                ),
            ],
        )

    def test_objects_that_were_freed(self) -> None:
        gone, lost = self.p.matrix(2, 2), self.p.vector(5)
        gone.free()
        lost.free()
        b, u = self.b, self.u
        self.check(
            UninitializedObject,
            [
                (f"the matrix, matrix {gone.number}, was freed", lambda: gone.transpose(out=b)),
                (f"the matrix, matrix {gone.number}, was freed", lambda: gone.select("tril", out=b)),
                (f"the output, vector {lost.number}, was freed", lambda: u.apply("ainv", out=lost)),
                (f"the second matrix, matrix {gone.number}, was freed", lambda: b.kronecker(gone.T, out=b)),
                (f"the mask, vector {lost.number}, was freed", lambda: u.select("rowle", 1, mask=lost, out=u)),
                (f"vector {lost.number} was freed", lambda: lost.diag()),
            ],
        )

    def test_dimensions_that_are_too_large(self) -> None:
        tall, long = self.p.matrix(MOST_DIMENSION, 1), self.p.vector(MOST_DIMENSION)
        self.check(
            InvalidValue,
            [
                (
                    "4,294,967,296 x 4,294,967,296 was asked for, by the vector (of size 4,294,967,295, uint64) on the "
                    "diagonal -1",
                    lambda: long.diag(-1),
                ),
                ("8,589,934,590 x 2 was asked for", lambda: tall.kronecker(self.b)),
            ],
        )

    def test_arguments_that_do_not_fit_are_named(self) -> None:
        a, t, u = self.a, self.t, self.u
        wrong_matrix: Any = a
        wrong_vector: Any = u
        known = self.p.facts().known
        cases: List[Tuple[type, str, Callable[[], Any]]] = [
            (ValueError, "^'divide' is no operator; these are: identity_bool", lambda: a.apply("divide", 1)),
            (TypeError, r"^minus is of two values: give right or left, as in A.apply\(", lambda: a.apply("minus")),
            (TypeError, "^minus is of two values: give right or left, not", lambda: u.apply("minus", 1, left=1)),
            (TypeError, "^ainv is of one value: it takes neither right nor left", lambda: u.apply("ainv", 1)),
            (TypeError, "^ainv is of one value", lambda: a.apply("ainv", left=0)),
            (TypeError, "^right: an object of numbers takes whole", lambda: a.apply("plus", wrong_matrix)),
            (OverflowError, "^left: -1 is not from 0 to", lambda: u.apply("plus", left=-1)),
            (TypeError, "^right: an object of dtype bool takes True and False", lambda: t.apply("lor", 1)),
            (ValueError, "^'lower' is no test; these are: tril", lambda: a.select("lower")),
            (TypeError, "^valuege compares with a value: give it, as in A.select", lambda: a.select("valuege")),
            (TypeError, "^rowle compares with a value", lambda: u.select("rowle")),
            (TypeError, "^the value of valueeq: an object of numbers", lambda: a.select("valueeq", wrong_matrix)),
            (OverflowError, "^the value of valuelt: -1 is not from", lambda: u.select("valuelt", -1)),
            (TypeError, "^the value of valuene: an object of dtype bool", lambda: t.select("valuene", 0)),
            (TypeError, "^the value of tril: a diagonal is a whole number", lambda: a.select("tril", wrong_matrix)),
            (ValueError, "^the value of triu: the diagonal 4294967296 is", lambda: a.select("triu", 2**32)),
            (IndexError, "^the value of rowgt: the index -1 is not from", lambda: u.select("rowgt", -1)),
            (TypeError, "^a diagonal is a whole number", lambda: u.diag(wrong_matrix)),
            (ValueError, "^the diagonal -4294967296 is not from", lambda: u.diag(-(2**32))),
            (ValueError, "^'pair' is no operator", lambda: a.kronecker(a, "pair")),
            (TypeError, "^the second input must be a Matrix, not a Vector", lambda: a.kronecker(wrong_vector)),
            (TypeError, "^the second input must be a Matrix, not a Vector", lambda: u.vxm(wrong_vector)),
            (TypeError, "^the output must be a Matrix, not a Vector", lambda: a.transpose(out=wrong_vector)),
            (TypeError, "^the mask must be a Vector, not a Matrix", lambda: u.select("diag", mask=wrong_matrix)),
            (TypeError, "^the mask is not read transposed", lambda: a.select("diag", mask=wrong_matrix.T)),
        ]
        for place, (kind, message, call) in enumerate(cases):
            with self.subTest(place=place), self.assertRaisesRegex(kind, message) as caught:
                call()
            self.assertIs(type(caught.exception), kind)
        self.assertEqual(self.p.facts().known, known)

    def test_objects_of_another_store_are_refused(self) -> None:
        known = self.p.facts().known
        with Store(room=10) as other:
            b, v = other.main.matrix(2, 2), other.main.vector(5)
            calls: List[Callable[[], Any]] = [
                lambda: self.b.kronecker(b),
                lambda: self.b.mxm(b.T),
                lambda: self.b.transpose(out=b),
                lambda: self.b.select("tril", mask=b),
                lambda: self.u.apply("ainv", out=v),
            ]
            for place, call in enumerate(calls):
                with self.subTest(place=place), self.assertRaisesRegex(ValueError, "of another store"):
                    call()
        self.assertEqual(self.p.facts().known, known)

    def test_a_new_output_of_what_is_refused_is_freed(self) -> None:
        known = self.p.facts().known
        with self.assertRaises(DomainMismatch):
            self.a.apply("lnot")
        # The output was made and freed.
        self.assertEqual(self.p.facts().known, known + 2)


class Drawn(StoreCase):
    """Operations on drawn objects, with drawn masks, accumulators and options, by the definitions on dicts."""

    room = 32_768
    OPERATORS: Dict[type, List[str]] = {
        int: ["plus", "times", "min", "max", "minus", "first", "second"],
        bool: ["lor", "land", "lxor", "lxnor", "first_bool", "second_bool"],
    }
    UNARY: Dict[type, List[str]] = {int: ["identity", "ainv", "bnot"], bool: ["identity_bool", "lnot"]}
    SEMIRINGS: Dict[type, List[str]] = {
        int: ["plus.times", "min.minus", "max.first", "plus.second"],
        bool: ["lor.land", "lxor.first_bool", "land.lxnor"],
    }

    def setUp(self) -> None:
        super().setUp()
        self.draws = Draws(8)

    def one_of(self, choices: Sequence[Any]) -> Any:
        return choices[self.draws.below(len(choices))]

    def value(self, dtype: type) -> Any:
        return self.draws.below(2) == 1 if dtype is bool else self.draws.below(5)

    def shape(self, ndim: int) -> Tuple[int, ...]:
        return tuple(2 + self.draws.below(5) for _ in range(ndim))

    def some(self, shape: Tuple[int, ...], dtype: type) -> Tuple[Any, Entries]:
        """An object by the store and as a dict, with about half of all entries."""
        if len(shape) == 1:
            entries: Entries = {i: self.value(dtype) for i in range(shape[0]) if self.draws.below(2) == 0}
            return Vector.from_lists(self.p, *shape, list(entries), list(entries.values()), dtype), entries
        places = [(i, j) for i in range(shape[0]) for j in range(shape[1]) if self.draws.below(2) == 0]
        entries = {place: self.value(dtype) for place in places}
        lists = [i for i, _ in places], [j for _, j in places], list(entries.values())
        return Matrix.from_lists(self.p, shape[0], shape[1], *lists, dtype), entries

    def read(self, shape: Tuple[int, ...], dtype: type, turns: bool) -> Tuple[Any, Entries]:
        """An input that is read with this shape, and transposed where it turns."""
        item, entries = self.some(shape[::-1] if turns else shape, dtype)
        return item, plain.transposed(entries) if turns else entries

    def compare(self, call: Callable[..., Any], computed: Entries, shape: Tuple[int, ...], dtype: type) -> None:
        """Makes the operation into a new output, and into a drawn one, and compares all entries."""
        made = call()
        self.assertEqual((made.shape, made.dtype, made.to_dict()), (shape, dtype, computed))
        output, before = self.some(shape, dtype)
        mask, masking = self.some(shape, self.one_of([int, bool]))
        is_masked = self.draws.below(3) > 0
        accum = self.one_of([None, *self.OPERATORS[dtype]])
        how = {name: self.draws.below(2) == 0 for name in ("structure", "complement", "replace")}
        self.assertIs(call(out=output, mask=mask if is_masked else None, accum=accum, **how), output)
        wanted = plain.written(before, computed, accum, masking if is_masked else None, **how)
        self.assertEqual(output.to_dict(), wanted)

    def draw(self, count: int, one: Callable[[type, bool, bool], None]) -> None:
        """Draws so many operations, each with a dtype, and whether the first and the second input are turned."""
        for number in range(count):
            with self.subTest(number=number):
                one(self.one_of([int, bool]), self.draws.below(2) == 0, self.draws.below(2) == 0)

    def test_transpose(self) -> None:
        def one(dtype: type, turns: bool, _: bool) -> None:
            shape = self.shape(2)
            a, entries = self.read(shape, dtype, turns)
            turned = plain.transposed(entries)
            self.compare(lambda **how: a.transpose(transpose=turns, **how), turned, shape[::-1], dtype)

        self.draw(30, one)

    def test_apply(self) -> None:
        def one(dtype: type, turns: bool, _: bool) -> None:
            shape = self.shape(1 + self.draws.below(2))
            turned = {"transpose": True} if turns and len(shape) == 2 else {}
            a, entries = self.read(shape, dtype, bool(turned))
            side = self.one_of([None, "left", "right"])
            if side is None:
                operator, bound = self.one_of(self.UNARY[dtype]), {}
            else:
                operator, bound = self.one_of(self.OPERATORS[dtype]), {side: self.value(dtype)}
            computed = plain.applied(entries, operator, **bound)
            self.compare(lambda **how: a.apply(operator, **bound, **turned, **how), computed, shape, dtype)

        self.draw(60, one)

    def test_select(self) -> None:
        def one(dtype: type, turns: bool, _: bool) -> None:
            shape = self.shape(1 + self.draws.below(2))
            turned = {"transpose": True} if turns and len(shape) == 2 else {}
            a, entries = self.read(shape, dtype, bool(turned))
            test = self.one_of(list(plain.TESTS))
            if test.startswith("value"):
                x = self.value(dtype)
            else:
                x = self.draws.below(6) if test[:3] in ("row", "col") else self.draws.below(11) - 5
            computed = plain.selected(entries, test, x)
            self.compare(lambda **how: a.select(test, x, **turned, **how), computed, shape, dtype)

        self.draw(60, one)

    def test_kronecker(self) -> None:
        def one(dtype: type, turns: bool, second: bool) -> None:
            (nrows, ncols), inner = self.shape(2), (1 + self.draws.below(3), 1 + self.draws.below(3))
            a, a_entries = self.read((nrows, ncols), dtype, turns)
            b, b_entries = self.read(inner, dtype, second)
            operator = self.one_of(self.OPERATORS[dtype])
            computed = plain.kronecker(a_entries, b_entries, inner, operator)
            shape = nrows * inner[0], ncols * inner[1]
            turned = {"transpose": turns, "transpose_second": second}
            self.compare(lambda **how: a.kronecker(b, operator, **turned, **how), computed, shape, dtype)

        self.draw(20, one)

    def test_diag(self) -> None:
        def one(dtype: type, _: bool, __: bool) -> None:
            size, k = 1 + self.draws.below(5), self.draws.below(9) - 4
            u, entries = self.some((size,), dtype)
            made = u.diag(k)
            wanted = (size + abs(k),) * 2, dtype, plain.on_diagonal(entries, k)
            self.assertEqual((made.shape, made.dtype, made.to_dict()), wanted)

        self.draw(20, one)

    def test_mxm_with_a_second_input_turned(self) -> None:
        def one(dtype: type, turns: bool, second: bool) -> None:
            nrows, inner, ncols = self.shape(3)
            a, a_entries = self.read((nrows, inner), dtype, turns)
            b, b_entries = self.read((inner, ncols), dtype, second)
            semiring = self.one_of(self.SEMIRINGS[dtype])
            computed = plain.mxm(a_entries, b_entries, semiring)
            turned = {"transpose": turns, "transpose_second": second}
            self.compare(lambda **how: a.mxm(b, semiring, **turned, **how), computed, (nrows, ncols), dtype)

        self.draw(20, one)

    def test_ewise_with_a_second_input_turned(self) -> None:
        def one(dtype: type, turns: bool, second: bool) -> None:
            shape = self.shape(2)
            a, a_entries = self.read(shape, dtype, turns)
            b, b_entries = self.read(shape, dtype, second)
            operator = self.one_of(self.OPERATORS[dtype])
            turned = {"transpose": turns, "transpose_second": second}
            union = plain.union(a_entries, b_entries, operator)
            self.compare(lambda **how: a.ewise_add(b, operator, **turned, **how), union, shape, dtype)
            both = plain.intersection(a_entries, b_entries, operator)
            self.compare(lambda **how: a.ewise_mult(b, operator, **turned, **how), both, shape, dtype)

        self.draw(20, one)

    def test_vxm_with_its_matrix_turned(self) -> None:
        def one(dtype: type, _: bool, second: bool) -> None:
            size, ncols = self.shape(2)
            u, u_entries = self.some((size,), dtype)
            a, a_entries = self.read((size, ncols), dtype, second)
            semiring = self.one_of(self.SEMIRINGS[dtype])
            computed = plain.vxm(u_entries, a_entries, semiring)
            turned = {"transpose_second": second}
            self.compare(lambda **how: u.vxm(a, semiring, **turned, **how), computed, (ncols,), dtype)

        self.draw(20, one)


def key(place: Tuple[int, ...]) -> Any:
    """A place as the key of an entry."""
    return place if len(place) == 2 else place[0]


class Term(NamedTuple):
    """An operation on one or two inputs, and how it is called. A vector is read as a column."""

    name: str
    arguments: Tuple[Any, ...]
    bound: Dict[str, Any]
    is_vector: bool
    dtype: type
    mask_dtype: type
    accum: Optional[str]
    options: Dict[str, bool]
    first: Tuple[int, ...]
    second: Tuple[int, ...]

    def is_turned(self) -> bool:
        """Whether the first input is read transposed. That is the second option where a value stands first."""
        option = "transpose_second" if "left" in self.bound else "transpose"
        return self.options[option] and not self.is_vector

    def is_second_turned(self) -> bool:
        return self.options["transpose_second"]

    def output(self) -> Tuple[int, ...]:
        """The dimensions of what it computes."""
        first = self.first[::-1] if self.is_turned() else self.first
        second = self.second[::-1] if self.is_second_turned() else self.second
        if self.name == "transpose":
            return first[::-1]
        if self.name == "kronecker":
            return first[0] * second[0], first[1] * second[1]
        if self.name == "diag":
            return (first[0] + abs(self.arguments[0]),) * 2
        return first

    def computed(self, first: Entries, second: Entries) -> Entries:
        """What it computes of inputs that store these entries."""
        first = plain.transposed(first) if self.is_turned() else first
        if self.name == "transpose":
            return plain.transposed(first)
        if self.name == "apply":
            return plain.applied(first, *self.arguments, **self.bound)
        if self.name == "select":
            return plain.selected(first, *self.arguments)
        if self.name == "diag":
            return plain.on_diagonal(first, *self.arguments)
        if self.is_second_turned():
            return plain.kronecker(first, plain.transposed(second), self.second[::-1], *self.arguments)
        return plain.kronecker(first, second, self.second, *self.arguments)


class SmallDrawn(unittest.TestCase):
    """Operations on small drawn objects, which are often empty or full, with every choice of how they write."""

    CASES = 2_500
    # Four objects of at most 144 entries by sets, and the operation.
    ROOM = 4 * (1 + 144) + 1

    def setUp(self) -> None:
        self.draws = Choices(7)

    def term(self) -> Term:
        draws = self.draws
        dtype = draws.dtype()
        name = ("transpose", "apply", "select", "kronecker", "diag")[draws.below(5)]
        arguments: Tuple[Any, ...] = ()
        bound: Dict[str, Any] = {}
        if name == "apply":
            operator, bound = draws.function(dtype)
            arguments = (operator,)
        elif name == "select":
            arguments = draws.test(dtype)
        elif name == "kronecker":
            arguments = (draws.operator(dtype),)
        elif name == "diag":
            arguments = (draws.diagonal(),)
        is_vector = name == "diag" or name in ("apply", "select") and draws.truth()
        columns = () if is_vector else (draws.below(4) + 1,)
        mask_dtype, accum, options = draws.dtype(), draws.accum(dtype), draws.options()
        first = (draws.below(4) + 1, *columns)
        second = (draws.below(3) + 1, draws.below(3) + 1)
        return Term(name, arguments, bound, is_vector, dtype, mask_dtype, accum, options, first, second)

    def entries(self, dtype: type, shape: Tuple[int, ...]) -> Entries:
        """Entries at none of the places, at some, at most or at all."""
        share = self.draws.below(5)
        entries: Entries = {}
        for place in itertools.product(*map(range, shape)):
            value = self.draws.value(dtype)
            if self.draws.below(4) < share:
                entries[key(place)] = value
        return entries

    def made(self, pass_: Pass, dtype: type, shape: Tuple[int, ...], entries: Entries, is_built: bool) -> Any:
        """An object of these entries, by one build or by sets."""
        item: Any = pass_.matrix(*shape, dtype) if len(shape) == 2 else pass_.vector(*shape, dtype)
        if is_built and entries:
            lists = zip(*entries) if len(shape) == 2 else [entries]
            item.build(*map(list, lists), list(entries.values()))
        elif not is_built:
            for place, value in entries.items():
                item[place] = value
        return item

    def compare(self, term: Term, is_built: bool) -> None:
        """Makes the operation in a new store: then the output is as computed, and the inputs are as before."""
        shape = term.output()
        masking = self.entries(term.mask_dtype, shape) if self.draws.truth() else None
        before = self.entries(term.dtype, shape)
        first_entries = self.entries(term.dtype, term.first)
        second_entries = self.entries(term.dtype, term.second)
        computed = term.computed(first_entries, second_entries)
        with Store(self.ROOM) as store:
            p = store.main
            first = self.made(p, term.dtype, term.first, first_entries, is_built)
            second = self.made(p, term.dtype, term.second, second_entries, is_built)
            if term.name == "diag":
                output, wanted = first.diag(*term.arguments), computed
            else:
                output = self.made(p, term.dtype, shape, before, is_built)
                mask = None if masking is None else self.made(p, term.mask_dtype, shape, masking, is_built)
                how = {name: term.options[name] for name in ("structure", "complement", "replace")}
                wanted = plain.written(before, computed, term.accum, masking, **how)
                arguments = (second, *term.arguments) if term.name == "kronecker" else term.arguments
                turned = {} if term.is_vector else {"transpose": term.is_turned()}
                if term.name == "kronecker":
                    turned["transpose_second"] = term.is_second_turned()
                options = {"mask": mask, "accum": term.accum, "out": output, **how, **turned, **term.bound}
                getattr(first, term.name)(*arguments, **options)
            self.assertEqual((output.shape, output.nvals, output.to_dict()), (shape, len(wanted), wanted), term)
            for place in itertools.product(*map(range, shape)):
                self.assertEqual(output.get(*place), wanted.get(key(place)), (term, place))
            self.assertEqual((first.to_dict(), second.to_dict()), (first_entries, second_entries), term)

    def test_drawn_operations_give_what_plain_loops_do(self) -> None:
        reached = set()
        for turn in range(self.CASES):
            term = self.term()
            words = (each for each in term.arguments if isinstance(each, str))
            reached.add((term.name, *words, *term.bound))
            self.compare(term, turn % 2 == 0)
        # Transpose and diag, 5 unary operators and 13 binary ones on either side, 14 tests, 13 operators of kronecker.
        self.assertEqual(len(reached), 2 + 5 + 2 * 13 + 14 + 13)


if __name__ == "__main__":
    unittest.main()
