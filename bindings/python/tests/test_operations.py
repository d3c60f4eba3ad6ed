"""Operations: worked examples, and drawn ones that are compared with the definitions on dicts."""

from __future__ import annotations

import itertools
import unittest
from typing import Any, Callable, Dict, Iterator, List, NamedTuple, Optional, Tuple

import plain
from choices import Choices, monoid_of, operator_of
from support import MOST_DIMENSION, Draws, StoreCase
from trowelheath import DomainMismatch, Matrix, Pass, Store, Vector

Entries = Dict[Any, Any]


class Worked(StoreCase):
    def test_a_product_of_matrices(self) -> None:
        a = Matrix.from_lists(self.p, 2, 3, [0, 0, 1], [0, 2, 1], [1, 2, 3])
        b = Matrix.from_lists(self.p, 3, 2, [0, 1, 2], [1, 0, 1], [4, 5, 6])
        c = a.mxm(b)
        self.assertEqual((c.shape, c.dtype, c.to_dict()), ((2, 2), int, {(0, 1): 16, (1, 0): 15}))
        self.assertEqual(a.mxm(b, "min.plus").to_dict(), {(0, 1): 5, (1, 0): 8})
        self.assertEqual((a @ b).to_dict(), c.to_dict())

    def test_a_product_of_truth_values(self) -> None:
        a = Matrix.from_lists(self.p, 2, 2, [0, 1], [1, 1], [True, False], bool)
        c = a.mxm(a)
        self.assertEqual((c.dtype, c.to_dict()), (bool, {(0, 1): False, (1, 1): False}))
        self.assertEqual((a @ a).to_dict(), c.to_dict())
        self.assertEqual(a.mxm(a, "lor.lxnor").to_dict(), {(0, 1): False, (1, 1): True})

    def test_a_product_of_a_matrix_and_a_vector(self) -> None:
        a = Matrix.from_lists(self.p, 2, 3, [0, 0, 1], [0, 2, 1], [1, 2, 3])
        u = Vector.from_lists(self.p, 3, [0, 2], [10, 20])
        w = a.mxv(u)
        self.assertEqual((w.size, w.to_dict()), (2, {0: 50}))
        self.assertEqual(a.mxv(u, "min.minus").to_dict(), {0: 2**64 - 18})
        self.assertEqual((a @ u).to_dict(), {0: 50})

    def test_a_product_of_a_vector_and_a_matrix(self) -> None:
        a = Matrix.from_lists(self.p, 2, 3, [0, 0, 1], [0, 2, 1], [1, 2, 3])
        u = Vector.from_lists(self.p, 2, [0], [10])
        w = u.vxm(a)
        self.assertEqual((w.size, w.to_dict()), (3, {0: 10, 2: 20}))
        self.assertEqual(u.vxm(a, "min.minus").to_dict(), {0: 9, 2: 8})
        self.assertEqual((u @ a).to_dict(), {0: 10, 2: 20})

    def test_other_products_have_no_sign(self) -> None:
        a, u = self.p.matrix(2, 2), self.p.vector(2)
        for call in lambda: a @ 2, lambda: u @ u, lambda: 2 @ a:
            with self.assertRaises(TypeError):
                call()

    def test_a_union_and_an_intersection(self) -> None:
        a = Matrix.from_lists(self.p, 2, 2, [0, 1], [0, 1], [7, 2])
        b = Matrix.from_lists(self.p, 2, 2, [0, 1], [0, 0], [5, 9])
        self.assertEqual(a.ewise_add(b, "minus").to_dict(), {(0, 0): 2, (1, 0): 9, (1, 1): 2})
        self.assertEqual(a.ewise_mult(b, "minus").to_dict(), {(0, 0): 2})
        u = Vector.from_lists(self.p, 3, [0, 1], [7, 2])
        v = Vector.from_lists(self.p, 3, [0, 2], [5, 9])
        self.assertEqual(u.ewise_add(v, "minus").to_dict(), {0: 2, 1: 2, 2: 9})
        self.assertEqual(u.ewise_mult(v, "minus").to_dict(), {0: 2})

    def test_a_fold_of_rows_and_of_columns(self) -> None:
        a = Matrix.from_lists(self.p, 3, 2, [0, 0, 2], [0, 1, 1], [1, 2, 3])
        rows, columns = a.reduce_rows("plus"), a.reduce_rows("plus", transpose=True)
        self.assertEqual((rows.size, rows.to_dict()), (3, {0: 3, 2: 3}))
        self.assertEqual((columns.size, columns.to_dict()), (2, {0: 1, 1: 5}))

    def test_the_first_input_is_read_transposed(self) -> None:
        a = Matrix.from_lists(self.p, 2, 3, [0, 1], [2, 0], [5, 7])
        b = Matrix.from_lists(self.p, 2, 2, [0], [1], [3])
        product = a.mxm(b, transpose=True)
        self.assertEqual((product.shape, product.to_dict()), ((3, 2), {(2, 1): 15}))
        u = Vector.from_lists(self.p, 2, [0], [3])
        self.assertEqual(a.mxv(u, transpose=True).to_dict(), {2: 15})
        zeros = Matrix.from_lists(self.p, 3, 2, [0, 1], [0, 1], [0, 0])
        turned = a.ewise_add(zeros, "plus", transpose=True)
        self.assertEqual((turned.shape, turned.to_dict()), ((3, 2), {(0, 0): 0, (0, 1): 7, (1, 1): 0, (2, 0): 5}))
        self.assertEqual(a.ewise_mult(turned, "plus", transpose=True).to_dict(), {(0, 1): 14, (2, 0): 10})
        self.assertEqual(a.to_dict(), {(0, 2): 5, (1, 0): 7})

    def test_a_mask_says_where_it_writes(self) -> None:
        u = Vector.from_lists(self.p, 4, range(4), [1, 2, 3, 4])
        mask = Vector.from_lists(self.p, 4, [0, 1], [1, 0])
        old = Vector.from_lists(self.p, 4, range(4), 9)
        cases: List[Tuple[Dict[str, bool], Entries]] = [
            ({}, {0: 2, 1: 9, 2: 9, 3: 9}),
            ({"structure": True}, {0: 2, 1: 4, 2: 9, 3: 9}),
            ({"complement": True}, {0: 9, 1: 4, 2: 6, 3: 8}),
            ({"structure": True, "complement": True}, {0: 9, 1: 9, 2: 6, 3: 8}),
            ({"replace": True}, {0: 2}),
            ({"structure": True, "complement": True, "replace": True}, {2: 6, 3: 8}),
        ]
        for options, wanted in cases:
            with self.subTest(options=options):
                out = old.dup()
                self.assertIs(u.ewise_add(u, "plus", mask=mask, out=out, **options), out)
                self.assertEqual(out.to_dict(), wanted)

    def test_a_complement_without_a_mask_writes_nowhere(self) -> None:
        u = Vector.from_lists(self.p, 4, [1], [5])
        out = Vector.from_lists(self.p, 4, [2], [6])
        u.ewise_add(u, "plus", complement=True, out=out)
        self.assertEqual(out.to_dict(), {2: 6})
        u.ewise_add(u, "plus", complement=True, replace=True, out=out)
        self.assertEqual(out.to_dict(), {})

    def test_an_accumulator_joins_old_and_new(self) -> None:
        u = Vector.from_lists(self.p, 4, [1, 2], [5, 6])
        out = Vector.from_lists(self.p, 4, [2, 3], [10, 20])
        u.ewise_add(u, "first", accum="minus", out=out)
        self.assertEqual(out.to_dict(), {1: 5, 2: 4, 3: 20})

    def test_a_mask_may_be_of_the_other_domain(self) -> None:
        u = Vector.from_lists(self.p, 4, [1, 2], [5, 6])
        mask = Vector.from_lists(self.p, 4, [1, 2], [False, True], bool)
        self.assertEqual(u.ewise_add(u, "plus", mask=mask).to_dict(), {2: 12})

    def test_one_object_may_be_output_input_and_mask(self) -> None:
        a = Matrix.from_lists(self.p, 2, 2, [0, 0, 1], [0, 1, 0], [1, 2, 3])
        self.assertIs(a.mxm(a, mask=a, out=a), a)
        self.assertEqual(a.to_dict(), {(0, 0): 7, (0, 1): 2, (1, 0): 3})

    def test_other_objects_may_be_by_another_pass(self) -> None:
        a = Matrix.from_lists(self.p, 2, 2, [0, 1], [1, 0], [2, 3])
        by_q = a.using(self.q)
        out = self.q.matrix(2, 2)
        self.assertEqual(a.mxm(by_q).to_dict(), {(0, 0): 6, (1, 1): 6})
        self.assertIs(a.mxm(by_q, mask=by_q, complement=True, out=out), out)
        self.assertEqual(out.to_dict(), {(0, 0): 6, (1, 1): 6})

    def test_objects_of_the_wrong_sort_are_refused(self) -> None:
        a, u = self.p.matrix(2, 2), self.p.vector(2)
        known = self.p.facts().known
        wrong: Any = [
            lambda: a.mxm(u),
            lambda: a.mxv(a),
            lambda: u.vxm(u),
            lambda: a.ewise_add(u, "plus"),
            lambda: u.ewise_mult(a, "plus"),
            lambda: a.mxm(None),
            lambda: a.mxm(a, mask=u),
            lambda: a.mxv(u, mask=a),
            lambda: a.mxm(a, out=u),
            lambda: a.reduce_rows("plus", out=a),
        ]
        for place, call in enumerate(wrong):
            with self.subTest(place=place), self.assertRaisesRegex(TypeError, "must be a"):
                call()
        self.assertEqual(self.p.facts().known, known)

    def test_objects_of_another_store_are_refused(self) -> None:
        a, u = self.p.matrix(2, 2), self.p.vector(2)
        known = self.p.facts().known
        with Store(room=10) as other:
            b, v = other.main.matrix(2, 2), other.main.vector(2)
            calls: List[Callable[[], Any]] = [
                lambda: a.mxm(b),
                lambda: a.mxv(v),
                lambda: u.vxm(b),
                lambda: a.ewise_add(b, "plus"),
                lambda: u.ewise_mult(v, "plus"),
                lambda: a.mxm(a, mask=b),
                lambda: a.mxm(a, out=b),
            ]
            for place, call in enumerate(calls):
                with self.subTest(place=place), self.assertRaisesRegex(ValueError, "of another store"):
                    call()
        self.assertEqual(self.p.facts().known, known)

    def test_unknown_names_are_refused(self) -> None:
        a, u = self.p.matrix(2, 2), self.p.vector(2)
        known = self.p.facts().known
        calls: List[Callable[[], Any]] = [
            lambda: a.mxm(a, "plus"),
            lambda: a.mxm(a, "plus.divide"),
            lambda: a.mxv(u, "minus.plus"),
            lambda: a.ewise_add(a, "plus.times"),
            lambda: u.ewise_mult(u, ""),
            lambda: a.mxm(a, accum="divide"),
            lambda: a.reduce_rows("first"),
            lambda: a.reduce("minus"),
        ]
        for place, call in enumerate(calls):
            with self.subTest(place=place), self.assertRaises(ValueError):
                call()
        self.assertEqual(self.p.facts().known, known)

    def test_operators_may_be_left_out(self) -> None:
        a = Matrix.from_lists(self.p, 2, 3, [0, 1, 1], [2, 0, 2], [5, 7, 0])
        b = Matrix.from_lists(self.p, 2, 3, [0, 0], [1, 2], [1, 2])
        self.assertEqual(a.ewise_add(b).to_dict(), {(0, 1): 1, (0, 2): 7, (1, 0): 7, (1, 2): 0})
        self.assertEqual(a.ewise_mult(b).to_dict(), {(0, 2): 10})
        self.assertEqual(a.T.ewise_add(b.T).to_dict(), {(0, 1): 7, (1, 0): 1, (2, 0): 7, (2, 1): 0})
        self.assertEqual(a.T.ewise_mult(b.T).to_dict(), {(2, 0): 10})
        self.assertEqual((a.reduce_rows().to_dict(), a.T.reduce_rows().to_dict()), ({0: 5, 1: 7}, {0: 7, 2: 5}))
        f = Matrix.from_lists(self.p, 2, 2, [0, 1], [1, 0], [True, False], bool)
        g = Matrix.from_lists(self.p, 2, 2, [0, 1, 1], [1, 0, 1], [False, False, True], bool)
        self.assertEqual(f.ewise_add(g).to_dict(), {(0, 1): True, (1, 0): False, (1, 1): True})
        self.assertEqual(f.ewise_mult(g).to_dict(), {(0, 1): False, (1, 0): False})
        self.assertEqual(g.reduce_rows().to_dict(), {0: False, 1: True})
        v = Vector.from_lists(self.p, 5, [0, 2, 4], [30, 10, 20])
        w = Vector.from_lists(self.p, 5, [0, 1], [2, 3])
        self.assertEqual(v.ewise_add(w).to_dict(), {0: 32, 1: 3, 2: 10, 4: 20})
        self.assertEqual(v.ewise_mult(w).to_dict(), {0: 60})
        self.assertEqual((a.reduce(), v.reduce(), f.reduce()), (12, 60, True))
        self.assertEqual((self.p.vector(3).reduce(), self.p.vector(3, bool).reduce()), (0, False))
        with self.assertRaises(DomainMismatch):
            f.reduce("plus")


class Drawn(StoreCase):
    room = 32_768
    NROWS, NCOLS = 5, 6

    def setUp(self) -> None:
        super().setUp()
        self.draws = Draws(1)

    def value(self, dtype: type) -> Any:
        return self.draws.below(2) == 1 if dtype is bool else self.draws.below(4)

    def matrix(self, nrows: int, ncols: int, dtype: type) -> Tuple[Matrix, Entries]:
        """A matrix by the store and as a dict, with about half of all entries."""
        places = [(i, j) for i in range(nrows) for j in range(ncols) if self.draws.below(2) == 0]
        entries = {place: self.value(dtype) for place in places}
        lists = [i for i, _ in places], [j for _, j in places], list(entries.values())
        return Matrix.from_lists(self.p, nrows, ncols, *lists, dtype), entries

    def vector(self, size: int, dtype: type) -> Tuple[Vector, Entries]:
        """A vector by the store and as a dict, with about half of all entries."""
        entries = {i: self.value(dtype) for i in range(size) if self.draws.below(2) == 0}
        return Vector.from_lists(self.p, size, list(entries), list(entries.values()), dtype), entries

    def compare(
        self,
        call: Callable[..., Any],
        computed: Entries,
        output: Tuple[Any, Entries],
        mask: Tuple[Any, Entries],
        accum: str,
    ) -> None:
        """Makes the operation with each choice of mask, accumulator and options, and compares all entries."""
        old, before = output
        choices = itertools.product([None, mask], [None, accum], *[[False, True]] * 3)
        for chosen, accumulator, structure, complement, replace in choices:
            options = {"structure": structure, "complement": complement, "replace": replace}
            with self.subTest(mask=chosen is not None, accum=accumulator, **options):
                out = old.dup()
                masking: Optional[Entries] = None if chosen is None else chosen[1]
                call(out=out, mask=None if chosen is None else chosen[0], accum=accumulator, **options)
                wanted = plain.written(before, computed, accumulator, masking, structure, complement, replace)
                self.assertEqual(out.to_dict(), wanted)
                out.free()

    def test_mxm(self) -> None:
        cases = (int, "plus.times", "minus"), (int, "min.minus", "max"), (bool, "lor.lxor", "land")
        for dtype, semiring, accum in cases:
            with self.subTest(semiring=semiring):
                a, a_entries = self.matrix(self.NROWS, 4, dtype)
                b, b_entries = self.matrix(4, self.NCOLS, dtype)
                output, mask = self.matrix(self.NROWS, self.NCOLS, dtype), self.matrix(self.NROWS, self.NCOLS, int)
                computed = plain.mxm(a_entries, b_entries, semiring)
                self.assertEqual(a.mxm(b, semiring).to_dict(), computed)
                self.compare(lambda **how: a.mxm(b, semiring, **how), computed, output, mask, accum)
                turned, entries = self.matrix(4, self.NROWS, dtype)
                computed = plain.mxm(plain.transposed(entries), b_entries, semiring)
                self.assertEqual(turned.mxm(b, semiring, transpose=True).to_dict(), computed)

    def test_mxv(self) -> None:
        cases = (int, "max.second", "plus"), (int, "plus.minus", "first"), (bool, "land.lor", "lxnor")
        for dtype, semiring, accum in cases:
            with self.subTest(semiring=semiring):
                a, a_entries = self.matrix(self.NROWS, self.NCOLS, dtype)
                u, u_entries = self.vector(self.NCOLS, dtype)
                output, mask = self.vector(self.NROWS, dtype), self.vector(self.NROWS, bool)
                computed = plain.mxv(a_entries, u_entries, semiring)
                self.assertEqual(a.mxv(u, semiring).to_dict(), computed)
                self.compare(lambda **how: a.mxv(u, semiring, **how), computed, output, mask, accum)
                turned, entries = self.matrix(self.NCOLS, self.NROWS, dtype)
                computed = plain.mxv(plain.transposed(entries), u_entries, semiring)
                self.assertEqual(turned.mxv(u, semiring, transpose=True).to_dict(), computed)

    def test_vxm(self) -> None:
        cases = (int, "times.first", "min"), (int, "min.minus", "second"), (bool, "lxor.second_bool", "lor")
        for dtype, semiring, accum in cases:
            with self.subTest(semiring=semiring):
                u, u_entries = self.vector(self.NROWS, dtype)
                a, a_entries = self.matrix(self.NROWS, self.NCOLS, dtype)
                output, mask = self.vector(self.NCOLS, dtype), self.vector(self.NCOLS, int)
                computed = plain.vxm(u_entries, a_entries, semiring)
                self.assertEqual(u.vxm(a, semiring).to_dict(), computed)
                self.compare(lambda **how: u.vxm(a, semiring, **how), computed, output, mask, accum)

    def test_ewise_of_matrices(self) -> None:
        for dtype, operator, accum in (int, "minus", "times"), (int, "min", "plus"), (bool, "lxnor", "first_bool"):
            with self.subTest(operator=operator):
                shape = self.NROWS, self.NCOLS
                a, a_entries = self.matrix(*shape, dtype)
                b, b_entries = self.matrix(*shape, dtype)
                turned, turned_entries = self.matrix(self.NCOLS, self.NROWS, dtype)
                output, mask = self.matrix(*shape, dtype), self.matrix(*shape, bool)
                union = plain.union(a_entries, b_entries, operator)
                self.assertEqual(a.ewise_add(b, operator).to_dict(), union)
                self.compare(lambda **how: a.ewise_add(b, operator, **how), union, output, mask, accum)
                both = plain.intersection(a_entries, b_entries, operator)
                self.assertEqual(a.ewise_mult(b, operator).to_dict(), both)
                self.compare(lambda **how: a.ewise_mult(b, operator, **how), both, output, mask, accum)
                union = plain.union(plain.transposed(turned_entries), b_entries, operator)
                self.assertEqual(turned.ewise_add(b, operator, transpose=True).to_dict(), union)
                both = plain.intersection(plain.transposed(turned_entries), b_entries, operator)
                self.assertEqual(turned.ewise_mult(b, operator, transpose=True).to_dict(), both)

    def test_ewise_of_vectors(self) -> None:
        for dtype, operator, accum in (int, "second", "minus"), (int, "max", "min"), (bool, "lor", "second_bool"):
            with self.subTest(operator=operator):
                u, u_entries = self.vector(9, dtype)
                v, v_entries = self.vector(9, dtype)
                output, mask = self.vector(9, dtype), self.vector(9, int)
                union = plain.union(u_entries, v_entries, operator)
                self.assertEqual(u.ewise_add(v, operator).to_dict(), union)
                self.compare(lambda **how: u.ewise_add(v, operator, **how), union, output, mask, accum)
                both = plain.intersection(u_entries, v_entries, operator)
                self.assertEqual(u.ewise_mult(v, operator).to_dict(), both)
                self.compare(lambda **how: u.ewise_mult(v, operator, **how), both, output, mask, accum)

    def test_reduce_rows(self) -> None:
        for dtype, monoid, accum in (int, "plus", "minus"), (int, "max", "times"), (bool, "lxor", "land"):
            with self.subTest(monoid=monoid):
                a, entries = self.matrix(self.NROWS, self.NCOLS, dtype)
                output, mask = self.vector(self.NROWS, dtype), self.vector(self.NROWS, bool)
                computed = plain.reduce_rows(entries, monoid)
                self.assertEqual(a.reduce_rows(monoid).to_dict(), computed)
                self.compare(lambda **how: a.reduce_rows(monoid, **how), computed, output, mask, accum)
                computed = plain.reduce_rows(plain.transposed(entries), monoid)
                self.assertEqual(a.reduce_rows(monoid, transpose=True).to_dict(), computed)

    def test_reduce(self) -> None:
        for dtype, monoids in (int, ["plus", "times", "min", "max"]), (bool, ["lor", "land", "lxor", "lxnor"]):
            a, a_entries = self.matrix(self.NROWS, self.NCOLS, dtype)
            u, u_entries = self.vector(9, dtype)
            for monoid in monoids:
                with self.subTest(monoid=monoid):
                    self.assertEqual(a.reduce(monoid), plain.total(a_entries, monoid))
                    self.assertEqual(u.reduce(monoid), plain.total(u_entries, monoid))


class Side(NamedTuple):
    """A dimension by its places, how far apart they stand, and its size."""

    places: int
    stride: int
    size: int


# The one column of a vector.
ONE = Side(1, 1, 1)


class Shape(NamedTuple):
    """The rows and the columns of a matrix, or of a vector, which has one column."""

    is_matrix: bool
    rows: Side
    columns: Side

    def places(self) -> Iterator[Any]:
        """The places at which it may store something, row by row."""
        rows = range(0, self.rows.places * self.rows.stride, self.rows.stride)
        columns = range(0, self.columns.places * self.columns.stride, self.columns.stride)
        return itertools.product(rows, columns) if self.is_matrix else iter(rows)

    def turned(self) -> Shape:
        return Shape(self.is_matrix, self.columns, self.rows)


class Sorts(NamedTuple):
    """Whether the output, the first and the second input of an operation are matrices."""

    output: bool
    first: bool
    second: bool


SORTS = {
    "add_vectors": Sorts(False, False, False),
    "mult_vectors": Sorts(False, False, False),
    "add_matrices": Sorts(True, True, True),
    "mult_matrices": Sorts(True, True, True),
    "mxv": Sorts(False, True, False),
    "vxm": Sorts(False, False, True),
    "mxm": Sorts(True, True, True),
    "reduce_rows": Sorts(False, True, False),
}


class Case(NamedTuple):
    """An operation, the sides of its objects, and the domains of all and of the mask."""

    name: str
    monoid: str
    operator: str
    accum: Optional[str]
    options: Dict[str, bool]
    rows: Side
    inner: Side
    columns: Side
    dtype: type
    mask_dtype: type
    # One object is the output and each other part of its sort.
    is_aliased: bool

    def is_turned(self) -> bool:
        """Whether the first input is read transposed, which is so of matrices alone."""
        return self.options["transpose"] and SORTS[self.name].first

    def is_second_turned(self) -> bool:
        """Whether the second input is."""
        return self.options["transpose_second"] and SORTS[self.name].second

    def shapes(self) -> Tuple[Shape, Shape, Shape]:
        """The shapes of the output, of the first and of the second input. A fold of rows has no second input."""
        sorts = SORTS[self.name]
        output = Shape(sorts.output, self.rows, self.columns)
        if self.name == "vxm":
            first, second = Shape(False, self.inner, ONE), Shape(True, self.inner, self.rows)
        elif self.name in ("mxv", "mxm", "reduce_rows"):
            first = Shape(True, self.rows, self.inner)
            second = Shape(sorts.second, self.inner, self.columns)
        else:
            first = second = output
        return (
            output,
            first.turned() if self.is_turned() else first,
            second.turned() if self.is_second_turned() else second,
        )


class DrawnSizes(unittest.TestCase):
    """Operations on drawn objects of many sizes, by the definitions on dicts.

    The draw reaches each way to compute them: work arrays and ranks of columns, tables and searches of rows, few and
    many words of marks. It also reaches changes that still wait in an input, inputs that are read transposed, and one
    object in several parts.
    """

    # How many operations of each sort are drawn.
    CASES = 1_000
    # Of 3,000 places of a row, how many store something: none, hardly any, some, most or all.
    SHARES = (0, 2, 1_000, 2_000, 3_000)
    # An object of more entries is built; one of fewer may be made by sets, which wait.
    MOST_SETS = 500
    # Four objects by sets, and the operation.
    ROOM = 4 * (1 + MOST_SETS) + 1

    draws: Choices

    def side(self, most: int) -> Side:
        """Up to so many places, side by side, at each 1,000th index, or up to the last index of the largest dimension.

        Where they stand far apart the entries are too few for a work array as long as the dimension.
        """
        places = self.draws.below(most) + 1
        number = self.draws.below(3)
        if number == 0:
            return Side(places, 1, places)
        if number == 1:
            return Side(places, 1_000, places * 1_000)
        return Side(places, (MOST_DIMENSION - 1) // max(places - 1, 1), MOST_DIMENSION)

    def sides(self, is_aliased: bool) -> Tuple[Side, Side, Side]:
        """The rows, the inner side and the columns: one for all where one object is to be in several parts."""
        if is_aliased:
            return (self.side(5),) * 3
        # One of them is wide at times.
        wide = self.draws.below(24)
        most = 200 if wide == 2 else 5, 200 if wide == 3 else 5, 2_000 if wide < 2 else 5
        return self.side(most[0]), self.side(most[1]), self.side(most[2])

    def case(self, name: str, turn: int) -> Case:
        """Each semiring comes in its turn, and all else by chance."""
        dtype = (bool, int)[turn % 2]
        is_aliased = self.draws.below(8) == 0
        rows, inner, columns = self.sides(is_aliased)
        monoid, operator = monoid_of(dtype, turn // 2), operator_of(dtype, turn // 8)
        accum, options = self.draws.accum(dtype), self.draws.options()
        mask_dtype = dtype if is_aliased else self.draws.dtype()
        columns = columns if SORTS[name].output else ONE
        return Case(name, monoid, operator, accum, options, rows, inner, columns, dtype, mask_dtype, is_aliased)

    def entries(self, dtype: type, shape: Shape) -> Entries:
        """Entries of which each row has none, hardly any, some, most or all of its places."""
        entries: Entries = {}
        share, length = 0, max(shape.columns.places, 5)
        for at, place in enumerate(shape.places()):
            if at % length == 0:
                share = self.SHARES[self.draws.below(5)]
            value = self.draws.value(dtype)
            if self.draws.below(3_000) < share:
                entries[place] = value
        return entries

    def made(self, pass_: Pass, dtype: type, shape: Shape, entries: Entries, is_built: bool) -> Any:
        """An object of these entries, by one build, or by sets, whose changes wait."""
        nrows, ncols = shape.rows.size, shape.columns.size
        item: Any = pass_.matrix(nrows, ncols, dtype) if shape.is_matrix else pass_.vector(nrows, dtype)
        if is_built or len(entries) > self.MOST_SETS:
            places = zip(*entries) if shape.is_matrix else [entries]
            lists = [list(indices) for indices in places] or [[], []]
            item.build(*lists, list(entries.values()))
        else:
            for place, value in entries.items():
                item[place] = value
        return item

    def computed(self, case: Case, first: Entries, second: Entries) -> Entries:
        """What the operation computes of its inputs."""
        first = plain.transposed(first) if case.is_turned() else first
        second = plain.transposed(second) if case.is_second_turned() else second
        if case.name.startswith("add"):
            return plain.union(first, second, case.operator)
        if case.name.startswith("mult"):
            return plain.intersection(first, second, case.operator)
        if case.name == "reduce_rows":
            return plain.reduce_rows(first, case.monoid)
        return {"mxv": plain.mxv, "vxm": plain.vxm, "mxm": plain.mxm}[case.name](
            first, second, f"{case.monoid}.{case.operator}"
        )

    def call(self, case: Case, output: Any, mask: Any, first: Any, second: Any) -> None:
        """Makes the operation. A vector is never read transposed."""
        how = {"out": output, "mask": mask, "accum": case.accum, **case.options}
        if not SORTS[case.name].first:
            del how["transpose"]
        if not SORTS[case.name].second:
            del how["transpose_second"]
        if case.name == "reduce_rows":
            first.reduce_rows(case.monoid, **how)
        elif case.name.startswith("add"):
            first.ewise_add(second, case.operator, **how)
        elif case.name.startswith("mult"):
            first.ewise_mult(second, case.operator, **how)
        else:
            getattr(first, case.name)(second, f"{case.monoid}.{case.operator}", **how)

    def compare(self, case: Case) -> None:
        """Makes the operation in a new store: then the output and its total are as computed, the inputs as before."""
        output_shape, first_shape, second_shape = case.shapes()
        before = self.entries(case.dtype, output_shape)
        masking = None if self.draws.truth() else self.entries(case.mask_dtype, output_shape)
        first_entries = self.entries(case.dtype, first_shape)
        second_entries = self.entries(case.dtype, second_shape)
        with Store(self.ROOM) as store:
            output = self.made(store.main, case.dtype, output_shape, before, self.draws.truth())

            def part(shape: Shape, entries: Entries) -> Tuple[Any, Entries]:
                """An input of these entries, or the output where one object is in several parts."""
                if case.is_aliased and shape.is_matrix == output_shape.is_matrix:
                    return output, before
                return self.made(store.main, case.dtype, shape, entries, self.draws.truth()), entries

            mask = None
            if masking is not None:
                is_built = self.draws.truth()
                if case.is_aliased:
                    mask, masking = output, before
                else:
                    mask = self.made(store.main, case.mask_dtype, output_shape, masking, is_built)
            first, first_entries = part(first_shape, first_entries)
            second, second_entries = part(second_shape, second_entries)
            self.call(case, output, mask, first, second)

            computed = self.computed(case, first_entries, second_entries)
            how = {name: case.options[name] for name in ("structure", "complement", "replace")}
            wanted = plain.written(before, computed, case.accum, masking, **how)
            self.assertEqual((output.nvals, output.to_dict()), (len(wanted), wanted), case)
            for place in output_shape.places():
                found = output.get(*place) if output_shape.is_matrix else output.get(place)
                if found != wanted.get(place):
                    self.fail(f"{found} at {place}, not {wanted.get(place)}: {case}")
            self.assertEqual(output.reduce(case.monoid), plain.total(wanted, case.monoid), case)
            for item, entries in (first, first_entries), (second, second_entries):
                if item is not output:
                    self.assertEqual(item.to_dict(), entries, case)

    def draw(self, name: str, seed: int) -> None:
        self.draws = Choices(seed)
        semirings = set()
        with self.subTest(name=name):
            for turn in range(self.CASES):
                case = self.case(name, turn)
                semirings.add((case.monoid, case.operator))
                self.compare(case)
            self.assertEqual(len(semirings), 52)

    def test_element_wise_operations_answer_as_plain_loops_do(self) -> None:
        self.draw("add_vectors", 20_261_123)
        self.draw("mult_vectors", 5_151)
        self.draw("add_matrices", 40_200)
        self.draw("mult_matrices", 1_337)

    def test_products_and_reductions_answer_as_plain_loops_do(self) -> None:
        self.draw("mxv", 7_919)
        self.draw("vxm", 65_537)
        self.draw("mxm", 104_729)
        self.draw("reduce_rows", 31_337)


if __name__ == "__main__":
    unittest.main()
