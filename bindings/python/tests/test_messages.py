"""What a refusal says of its call: objects, shapes, domains and indices."""

from __future__ import annotations

import pickle
import unittest
from typing import Any, Callable, List, Tuple
from unittest import mock

from support import StoreCase
from trowelheath import (
    DimensionMismatch,
    DomainMismatch,
    IndexOutOfBounds,
    Info,
    InvalidIndex,
    InvalidValue,
    Matrix,
    OrderFull,
    OutputNotEmpty,
    Refusal,
    Store,
    UninitializedObject,
    Vector,
)

Cases = List[Tuple[str, Callable[[], Any]]]


class Messages(StoreCase):
    def check(self, kind: type, cases: Cases) -> None:
        """Each of these calls is refused so, and says just that."""
        for detail, call in cases:
            with self.subTest(detail=detail):
                with self.assertRaises(kind) as caught:
                    call()
                refusal: Any = caught.exception
                self.assertIs(type(refusal), kind)
                self.assertEqual(refusal.detail, detail)
                self.assertEqual(str(refusal), f"{refusal.name}: {detail}. {refusal.hint}")

    def test_shapes_that_do_not_fit(self) -> None:
        a, b, square = self.p.matrix(3, 4), self.p.matrix(3, 4), self.p.matrix(3, 3)
        u, v = self.p.vector(3), self.p.vector(4)
        self.check(
            DimensionMismatch,
            [
                (
                    "the first matrix is 3 x 4, the second matrix is 3 x 4: the columns of the first matrix, 4, are "
                    "not the rows of the second matrix, 3",
                    lambda: a.mxm(b),
                ),
                (
                    "the first matrix is 3 x 4, read transposed, the second matrix is 3 x 4, the output is 3 x 3: "
                    "the rows of the output, 3, are not the columns of the first matrix, which are read as rows, 4",
                    lambda: a.mxm(b, transpose=True, out=square),
                ),
                (
                    "the first matrix is 3 x 4, read transposed, the second matrix is 3 x 4, the mask is 3 x 3: "
                    "the rows of the mask, 3, are not the rows of the output, 4",
                    lambda: a.T.mxm(b, mask=square),
                ),
                (
                    "the matrix is 3 x 4, the vector is of size 3: the columns of the matrix, 4, are not the size of "
                    "the vector, 3",
                    lambda: a @ u,
                ),
                (
                    "the matrix is 3 x 4, the vector is of size 4, the output is of size 4: the size of the output, 4, "
                    "is not the rows of the matrix, 3",
                    lambda: a.mxv(v, out=v),
                ),
                (
                    "the vector is of size 4, the matrix is 3 x 4: the size of the vector, 4, is not the rows of the "
                    "matrix, 3",
                    lambda: v @ a,
                ),
                (
                    "the first vector is of size 3, the second vector is of size 4: the size of the first vector, 3, "
                    "is not the size of the second vector, 4",
                    lambda: u + v,
                ),
                (
                    "the first matrix is 3 x 4, the second matrix is 3 x 3, the output is 3 x 4: the columns of the "
                    "first matrix, 4, are not the columns of the second matrix, 3",
                    lambda: a.ewise_mult(square, "plus", out=a),
                ),
                (
                    "the matrix is 3 x 4, the output is of size 4: the size of the output, 4, is not the rows of the "
                    "matrix, 3",
                    lambda: a.reduce_rows("plus", out=v),
                ),
                (
                    "the first vector is of size 3, the second vector is of size 3, the output is of size 3, the mask "
                    "is of size 4: the size of the mask, 4, is not the size of the output, 3",
                    lambda: u.ewise_add(u, "plus", mask=v, out=u),
                ),
            ],
        )

    def test_a_shape_is_that_of_now(self) -> None:
        a, b = self.p.matrix(3, 4), self.p.matrix(9, 9)
        b.using(self.q).resize(3, 5)
        detail = (
            "the first matrix is 3 x 4, the second matrix is 3 x 5: the columns of the first matrix, 4, are not the "
            "rows of the second matrix, 3"
        )
        self.check(DimensionMismatch, [(detail, lambda: a @ b)])

    def test_domains_that_are_mixed(self) -> None:
        a, b = self.p.matrix(2, 2), self.p.matrix(2, 2, bool)
        v = self.p.vector(2)
        self.check(
            DomainMismatch,
            [
                (
                    "the first matrix, the output, the monoid plus and the operator times are of uint64, the second "
                    "matrix is of bool",
                    lambda: a.mxm(b, out=a),
                ),
                (
                    "the first matrix, the second matrix and the monoid plus are of uint64, the operator land is of "
                    "bool",
                    lambda: a.mxm(a, "plus.land"),
                ),
                (
                    "the first matrix, the second matrix and the output are of bool, the operator plus is of uint64",
                    lambda: b.ewise_add(b, "plus", out=b),
                ),
                (
                    "the matrix and the monoid plus are of uint64, the accumulator lor is of bool",
                    lambda: a.reduce_rows("plus", accum="lor"),
                ),
                ("the matrix (2 x 2, uint64) has no total by lor, which is of bool", lambda: a.reduce("lor")),
                (
                    "the vector (of size 2, uint64) takes no values joined by land, which is of bool",
                    lambda: v.build([0], [1], "land"),
                ),
            ],
        )

    def test_indices_that_are_outside(self) -> None:
        a, v = self.p.matrix(3, 4), self.p.vector(5, bool)
        self.check(
            InvalidIndex,
            [
                ("the matrix (3 x 4, uint64) has no row 3", lambda: a[3, 0]),
                ("the matrix (3 x 4, uint64) has no column 9", lambda: a.__setitem__((0, 9), 1)),
                ("the matrix (3 x 4, uint64) has no column 4", lambda: a.__delitem__((0, 4))),
                ("the matrix (3 x 4, uint64) has no row 7", lambda: a.get(7, 7)),
                ("the vector (of size 5, bool) has no index 5", lambda: v[5]),
                ("the vector (of size 5, bool) has no index 6", lambda: v.__setitem__(6, True)),
            ],
        )
        self.check(
            IndexOutOfBounds,
            [
                (
                    "the matrix (3 x 4, uint64) has no row 3, which is item 1 of the list",
                    lambda: a.build([0, 3, 9], [0, 0, 0], [1, 1, 1]),
                ),
                (
                    "the matrix (3 x 4, uint64) has no column 4, which is item 2 of the list",
                    lambda: a.build([0, 1, 2], [0, 0, 4], 1),
                ),
                (
                    "the vector (of size 5, bool) has no index 8, which is item 0 of the list",
                    lambda: v.build([8], True),
                ),
            ],
        )

    def test_values_that_are_out_of_range(self) -> None:
        a, v = self.p.matrix(3, 4), self.p.vector(5)
        self.check(
            InvalidValue,
            [
                ("0 x 4 was asked for", lambda: self.p.matrix(0, 4)),
                ("of size 4,294,967,296 was asked for", lambda: self.p.vector(2**32)),
                ("3 x 0 was asked for", lambda: a.resize(3, 0)),
                ("the lengths are 1 of rows, 2 of columns and 3 of values", lambda: a.build([0], [0, 1], [1, 2, 3])),
                ("the lengths are 2 of indices and 1 of values", lambda: v.build([0, 1], [1])),
                ("a room of 0 and 1 passes were asked for", lambda: Store(0, 1)),
                ("a room of 65,537 and 1 passes were asked for", lambda: self.p.succeed(65_537)),
            ],
        )

    def test_objects_that_were_freed(self) -> None:
        a, gone = self.p.matrix(2, 2), self.p.matrix(2, 2)
        v, lost = self.p.vector(2), self.p.vector(2)
        gone.using(self.q).free()
        lost.free()
        self.check(
            UninitializedObject,
            [
                ("matrix 1 was freed", lambda: gone[0, 0]),
                ("matrix 1 was freed", lambda: gone.nvals),
                ("vector 1 was freed", lambda: lost.reduce("plus")),
                ("the mask, matrix 1, was freed", lambda: a.mxm(a, mask=gone, out=a)),
                ("the second matrix, matrix 1, was freed", lambda: a.mxm(gone, out=a)),
                ("the vector, vector 1, was freed", lambda: a.mxv(lost, out=v)),
                ("the output, vector 1, was freed", lambda: v.ewise_add(v, "plus", out=lost)),
            ],
        )

    def test_a_build_of_what_has_entries(self) -> None:
        a = Matrix.from_lists(self.p, 2, 2, [0], [0], [1])
        detail = "the matrix (2 x 2, uint64) stores entries already"
        self.check(OutputNotEmpty, [(detail, lambda: a.build([1], [1], [1]))])

    def test_a_full_store(self) -> None:
        with Store(room=2) as store:
            v = store.main.vector(3)
            v[0] = 1
            detail = "the room of the store, 2 calls, is used up"
            self.check(
                OrderFull,
                [
                    (detail, lambda: v.__setitem__(0, 1)),
                    (detail, lambda: store.main.matrix(1, 1)),
                    (detail, lambda: v.ewise_add(v, "plus", out=v)),
                    (detail, v.clear),
                ],
            )
            with self.assertRaises(OrderFull) as caught:
                v.clear()
            hint = "Open its successor, or a store without a room, which goes on by itself. Reads go on."
            self.assertEqual(str(caught.exception), f"OrderFull: {detail}. {hint}")

    def test_a_store_without_an_end_that_is_full(self) -> None:
        # It takes millions of objects to have one: what is said where the library answers so.
        with Store() as store:
            v = store.main.vector(3)
            full = mock.Mock(return_value=Info.ORDER_FULL)
            detail = "the store has no place for one more object, or no next generation"
            hint = "Where objects_left() of the pass is 0, free objects; else go_on() raises why. Reads go on."
            for name, call in (
                ("trb_vector_new", lambda: store.main.vector(3)),
                ("trb_vector_dup", v.dup),
                ("trb_vector_clear", v.clear),
                ("trb_vector_ewise_add", lambda: v.ewise_add(v, "plus", out=v)),
            ):
                with self.subTest(name=name), mock.patch.object(store.main._library, name, full):
                    with self.assertRaises(OrderFull) as caught:
                        call()
                    self.assertEqual(str(caught.exception), f"OrderFull: {detail}. {hint}")

    def test_what_is_said_makes_no_call(self) -> None:
        a, v = self.p.matrix(3, 4), self.p.vector(5)
        for call, info in (lambda: a[9, 9], Info.INVALID_INDEX), (lambda: a.mxm(a, out=a), Info.DIMENSION_MISMATCH):
            with self.assertRaises(Refusal):
                call()
            self.assertEqual(a.last_info, info)
        with self.assertRaises(Refusal):
            v.build([9], [1])
        self.assertEqual(v.last_info, Info.INDEX_OUT_OF_BOUNDS)

    def test_in_a_successor_shapes_are_known(self) -> None:
        a = self.p.matrix(3, 4)
        v = Vector.from_lists(self.p, 3, [0], [1])
        with self.p.succeed(10) as successor:
            there = a.using(successor.main)
            self.check(InvalidIndex, [("the matrix (3 x 4, uint64) has no row 3", lambda: there[3, 0])])
            late = self.p.vector(5)
            with self.assertRaises(UninitializedObject):
                late.using(successor.main)[9]
            self.assertEqual(v.using(successor.main)[0], 1)

    def test_a_refusal_is_the_same_after_pickling(self) -> None:
        a = self.p.matrix(3, 4)
        for call in lambda: a @ a, lambda: a[3, 0], lambda: self.p.succeed(0), lambda: self.p.matrix(0, 0):
            with self.assertRaises(Refusal) as caught:
                call()
            back = pickle.loads(pickle.dumps(caught.exception))
            self.assertIs(type(back), type(caught.exception))
            self.assertEqual((str(back), back.detail), (str(caught.exception), caught.exception.detail))


if __name__ == "__main__":
    unittest.main()
