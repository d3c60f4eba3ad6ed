"""Each refusal: when it comes, which one comes first, and that nothing has changed."""

from __future__ import annotations

import unittest
from typing import Any, Callable, List

from support import MOST_DIMENSION, StoreCase
from trowelheath import (
    DimensionMismatch,
    DomainMismatch,
    IndexOutOfBounds,
    Info,
    InvalidIndex,
    InvalidValue,
    Matrix,
    OrderFull,
    OutOfMemory,
    OutputNotEmpty,
    Panic,
    Refusal,
    UninitializedObject,
    Vector,
)
from trowelheath.errors import InsufficientSpace

Calls = List[Callable[[], Any]]


class Refused(StoreCase):
    def check(self, kind: type, calls: Calls) -> None:
        """Each of these calls is refused so, and none of them has entered."""
        known = self.p.facts().known
        for place, call in enumerate(calls):
            with self.subTest(place=place), self.assertRaises(kind) as caught:
                call()
            self.assertIs(type(caught.exception), kind)
        self.assertEqual(self.p.facts().known, known)

    def test_a_freed_object(self) -> None:
        a, v = self.p.matrix(2, 2), self.p.vector(2)
        gone, lost = self.p.matrix(2, 2), self.p.vector(2)
        gone.free()
        lost.using(self.q).free()
        self.p.meet(self.q)
        self.check(
            UninitializedObject,
            [
                lambda: gone[0, 0],
                lambda: gone.get(0, 0),
                lambda: gone.__setitem__((0, 0), 1),
                lambda: gone.__delitem__((0, 0)),
                lambda: (0, 0) in gone,
                lambda: gone.nvals,
                lambda: gone.shape,
                lambda: gone.reduce("plus"),
                lambda: gone.to_lists(),
                lambda: gone.build([0], [0], [1]),
                lambda: gone.resize(3, 3),
                lambda: gone.using(self.q).nvals,
                gone.clear,
                gone.dup,
                gone.free,
                gone.wait,
                lambda: lost[0],
                lambda: lost.__setitem__(0, 1),
                lambda: lost.__delitem__(0),
                lambda: lost.nvals,
                lambda: lost.size,
                lambda: lost.reduce("plus"),
                lambda: lost.to_lists(),
                lambda: lost.build([0], [1]),
                lambda: lost.resize(3),
                lost.clear,
                lost.dup,
                lost.free,
                lost.wait,
                lambda: a.mxm(gone, out=a),
                lambda: a.mxm(a, mask=gone, out=a),
                lambda: a.mxm(a, out=gone),
                lambda: a.mxv(lost, out=v),
                lambda: lost.vxm(a, out=v),
                lambda: v.ewise_add(lost, "plus", out=v),
                lambda: gone.ewise_mult(a, "plus", out=a),
                lambda: gone.reduce_rows("plus", out=v),
            ],
        )

    def test_a_dimension_out_of_range(self) -> None:
        a, v = self.p.matrix(2, 2), self.p.vector(2)
        self.check(
            InvalidValue,
            [
                lambda: self.p.matrix(0, 1),
                lambda: self.p.matrix(1, 0),
                lambda: self.p.matrix(MOST_DIMENSION + 1, 1),
                lambda: self.p.vector(0),
                lambda: self.p.vector(MOST_DIMENSION + 1),
                lambda: a.resize(0, 1),
                lambda: a.resize(1, 2**64 - 1),
                lambda: v.resize(0),
            ],
        )
        for call in lambda: self.p.matrix(-1, 1), lambda: self.p.vector(2**64), lambda: a.resize(1, -1):
            with self.assertRaises(ValueError):
                call()
        self.assertEqual((a.shape, v.size), ((2, 2), 2))

    def test_lists_of_two_lengths(self) -> None:
        a, v = self.p.matrix(2, 2), self.p.vector(2)
        self.check(
            InvalidValue,
            [
                lambda: a.build([0], [0, 1], [1]),
                lambda: a.build([0], [0], [1, 2]),
                lambda: a.build([], [0], 1),
                lambda: v.build([0], []),
                lambda: v.build([0], [1, 2]),
            ],
        )
        with self.assertRaisesRegex(InvalidValue, "lists of one length"):
            v.build([0], [])

    def test_an_index_that_is_not_below_the_dimension(self) -> None:
        a, v = self.p.matrix(2, 3), self.p.vector(2)
        self.check(
            InvalidIndex,
            [
                lambda: a[2, 0],
                lambda: a[0, 3],
                lambda: a.get(2**64 - 1, 0, 5),
                lambda: a.__setitem__((2, 0), 1),
                lambda: a.__setitem__((0, 3), 1),
                lambda: a.__delitem__((2, 0)),
                lambda: v[2],
                lambda: v.get(2),
                lambda: v.__setitem__(2, 1),
                lambda: v.__delitem__(2**32),
            ],
        )

    def test_truth_values_and_numbers_mixed(self) -> None:
        a, b = self.p.matrix(2, 2), self.p.matrix(2, 2, bool)
        v, w = self.p.vector(2), self.p.vector(2, bool)
        self.check(
            DomainMismatch,
            [
                lambda: a.mxm(b, out=a),
                lambda: a.mxm(a, out=b),
                lambda: a.mxm(a, "lor.land", out=a),
                lambda: a.mxm(a, "plus.land", out=a),
                lambda: a.mxm(a, accum="lor", out=a),
                lambda: a.mxv(w, out=v),
                lambda: v.vxm(b, out=v),
                lambda: a.ewise_add(b, "plus", out=a),
                lambda: a.ewise_add(a, "lor", out=a),
                lambda: w.ewise_mult(w, "first", out=w),
                lambda: a.reduce_rows("lor", out=v),
                lambda: a.reduce_rows("plus", out=w),
                lambda: a.reduce("lor"),
                lambda: b.reduce("plus"),
                lambda: v.reduce("land"),
                lambda: w.reduce("max"),
                lambda: a.build([0], [0], [1], "lor"),
                lambda: b.build([0], [0], [True], "plus"),
                lambda: v.build([0], [1], "land"),
                lambda: w.build([0], [True], "max"),
            ],
        )

    def test_objects_that_do_not_fit_together(self) -> None:
        a, b = self.p.matrix(2, 3), self.p.matrix(3, 2)
        u, v = self.p.vector(2), self.p.vector(3)
        square = self.p.matrix(2, 2)
        self.check(
            DimensionMismatch,
            [
                lambda: a.mxm(a, out=square),
                lambda: a.mxm(b, out=a),
                lambda: a.mxm(b, mask=a, out=square),
                lambda: a.mxm(b, transpose=True, out=square),
                lambda: a.mxv(u, out=u),
                lambda: a.mxv(v, out=v),
                lambda: a.mxv(v, mask=v, out=u),
                lambda: v.vxm(a, out=v),
                lambda: u.vxm(a, out=u),
                lambda: a.ewise_add(b, "plus", out=a),
                lambda: a.ewise_mult(a, "plus", out=b),
                lambda: a.ewise_mult(a, "plus", transpose=True, out=a),
                lambda: u.ewise_add(v, "plus", out=u),
                lambda: u.ewise_mult(u, "plus", mask=v, out=u),
                lambda: a.reduce_rows("plus", out=v),
                lambda: a.reduce_rows("plus", transpose=True, out=u),
            ],
        )

    def test_a_build_of_an_object_with_entries(self) -> None:
        a = Matrix.from_lists(self.p, 2, 2, [0], [0], [1])
        v = Vector.from_lists(self.p, 2, [0], [True], bool)
        calls: Calls = [lambda: a.build([1], [1], [1]), lambda: v.build([], []), lambda: v.build([1], True)]
        self.check(OutputNotEmpty, calls)
        a.clear()
        a.build([1], [1], [2])
        self.assertEqual((a.to_dict(), v.to_dict()), ({(1, 1): 2}, {0: True}))

    def test_an_index_of_a_list_that_is_not_below_the_dimension(self) -> None:
        a, v = self.p.matrix(2, 3), self.p.vector(2)
        self.check(
            IndexOutOfBounds,
            [
                lambda: a.build([0, 2], [0, 0], [1, 1]),
                lambda: a.build([0, 1], [0, 3], [1, 1]),
                lambda: v.build([0, 2**64 - 1], [1, 1]),
            ],
        )
        self.assertEqual((a.nvals, v.nvals), (0, 0))

    def test_the_first_of_several_refusals_is_raised(self) -> None:
        a, b = self.p.matrix(2, 2), self.p.matrix(3, 3, bool)
        gone = self.p.matrix(9, 9, bool)
        gone.free()
        full = Matrix.from_lists(self.p, 2, 2, [0], [0], [1])
        cases: Any = [
            (UninitializedObject, lambda: a.mxm(gone, out=b)),
            (UninitializedObject, lambda: gone.resize(0, 0)),
            (UninitializedObject, lambda: gone.reduce("plus")),
            (UninitializedObject, lambda: gone.mxm(gone, "plus.times", accum="lor", out=gone)),
            # These are shown by the numbers alone.
            (InvalidValue, lambda: gone.build([0], [0, 1], [True])),
            (InvalidValue, lambda: full.build([0], [0, 9], [1], "lor")),
            (DomainMismatch, lambda: a.mxm(gone, "plus.land", out=b)),
            (DomainMismatch, lambda: a.mxm(b, out=a)),
            (UninitializedObject, lambda: gone.transpose(out=a)),
            (UninitializedObject, lambda: a.kronecker(gone, out=a)),
            (DomainMismatch, lambda: b.transpose(out=a)),
            (DomainMismatch, lambda: a.kronecker(b, out=a)),
            (DomainMismatch, lambda: full.build([9], [9], [1], "lor")),
            (OutputNotEmpty, lambda: full.build([9], [9], [1])),
        ]
        for place, (kind, call) in enumerate(cases):
            with self.subTest(place=place), self.assertRaises(kind):
                call()

    def test_a_new_output_is_freed_where_the_operation_is_refused(self) -> None:
        a, b = self.p.matrix(2, 3), self.p.matrix(2, 3, bool)
        for call in lambda: a.mxm(a), lambda: a.mxm(b), lambda: a.ewise_add(b, "plus"), lambda: a.reduce_rows("lor"):
            known = self.p.facts().known
            with self.assertRaises(Refusal):
                call()
            self.assertEqual(self.p.facts().known, known + 2)


class Full(StoreCase):
    room = 5

    def test_changes_are_refused_and_reads_go_on(self) -> None:
        v = self.p.vector(3)
        for i in range(3):
            v[i] = i
        w = v.dup()
        full: Calls = [
            lambda: v.__setitem__(0, 9),
            lambda: v.__delitem__(0),
            lambda: self.p.vector(3),
            lambda: self.p.matrix(3, 3),
            lambda: v.resize(2),
            lambda: v.ewise_add(w, "plus", out=v),
            lambda: v.ewise_add(w, "plus"),
            lambda: v.apply("ainv", out=v),
            lambda: v.apply("minus", left=9, out=v),
            lambda: v.select("rowle", 1, out=v),
            lambda: v.select("valuege", 1),
            v.diag,
            v.clear,
            v.dup,
            v.free,
        ]
        for place, call in enumerate(full):
            with self.subTest(place=place), self.assertRaises(OrderFull):
                call()
        self.assertEqual(v.last_info, Info.ORDER_FULL)
        self.assertEqual((v.to_dict(), w.to_dict()), ({0: 0, 1: 1, 2: 2}, {0: 0, 1: 1, 2: 2}))
        self.assertEqual(v.using(self.q).reduce("plus"), 3)
        v.wait("materialize")
        facts = self.p.facts()
        self.assertEqual((facts.room_left, facts.settled), (0, 5))

    def test_a_refusal_for_another_reason_comes_first(self) -> None:
        v = self.p.vector(3)
        for i in range(3):
            v[i] = i
        v[0] = 5
        with self.assertRaises(InvalidIndex):
            v[3] = 1
        with self.assertRaises(OrderFull):
            v[2] = 1

    def test_the_last_call_may_make_a_new_output_in_vain(self) -> None:
        v = self.p.vector(3)
        for i in range(3):
            v[i] = i
        with self.assertRaises(OrderFull):
            v.ewise_add(v, "plus")
        self.assertEqual(v.to_dict(), {0: 0, 1: 1, 2: 2})


class Answering:
    """A library that answers each call with one status."""

    def __init__(self, status: int) -> None:
        self._status = status

    def __getattr__(self, name: str) -> Any:
        return lambda *arguments: self._status


class Rare(StoreCase):
    """Statuses that a test cannot bring about, by a library that answers them."""

    def answer(self, status: int, call: Callable[[], Any]) -> Any:
        library: Any = self.p._library
        self.p._library = Answering(status)
        try:
            return call()
        finally:
            self.p._library = library

    def test_memory_that_is_refused(self) -> None:
        v = self.p.vector(3)
        with self.assertRaises(MemoryError) as caught:
            self.answer(-102, lambda: v[0])
        self.assertIs(type(caught.exception), OutOfMemory)

    def test_a_record_that_is_not_shown(self) -> None:
        v = self.p.vector(3)
        for call in lambda: v[0], lambda: self.p.meet(self.q), lambda: self.p.adopt(self.q), v.clear:
            with self.assertRaises(Panic):
                self.answer(-101, call)

    def test_a_status_that_is_not_known(self) -> None:
        with self.assertRaisesRegex(RuntimeError, "-77"):
            self.answer(-77, lambda: self.p.vector(3))

    def test_entries_that_come_while_all_are_read(self) -> None:
        a = Matrix.from_lists(self.p, 50, 50, [0], [0], [1])
        other = a.using(self.q)
        library: Any = self.p._library
        short: List[int] = []

        class Adding:
            """The library, by which another pass adds entries just before the entries are read, three times."""

            def __getattr__(self, name: str) -> Any:
                function = getattr(library, name)
                if name != "trb_matrix_tuples_uint64":
                    return function

                def after_others(*arguments: Any) -> Any:
                    if len(short) < 3:
                        for j in range(20):
                            other[len(short) + 1, j] = j
                    status = function(*arguments)
                    if status == InsufficientSpace.code:
                        short.append(status)
                    return status

                return after_others

        self.p._library = Adding()
        self.addCleanup(setattr, self.p, "_library", library)
        found = a.to_dict()
        self.assertEqual(len(short), 3)
        self.assertEqual(found, other.to_dict())
        self.assertEqual(len(found), 61)


if __name__ == "__main__":
    unittest.main()
