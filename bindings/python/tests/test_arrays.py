"""numpy arrays and scipy matrices, where numpy and scipy are there."""

from __future__ import annotations

import unittest
from typing import Any

from optional import numpy, sparse
from support import MOST_NUMBER, StoreCase
from trowelheath import InvalidValue, Matrix, Vector
from trowelheath.convert import apart, indices, numbers, truth, truths, values_of
from trowelheath.operators import BOOL, UINT64


@unittest.skipIf(numpy is None, "there is no numpy")
class Arrays(StoreCase):
    def test_a_contiguous_array_of_its_type_is_not_copied(self) -> None:
        items = numpy.array([5, 6, MOST_NUMBER], dtype=numpy.uint64)
        self.assertIs(numbers(items).owner, items)
        self.assertEqual(numbers(items).address, items.ctypes.data)
        self.assertEqual(indices(items).address, items.ctypes.data)
        flags = numpy.array([True, False])
        self.assertIs(truths(flags).owner, flags)
        self.assertIs(values_of(UINT64, items, 3).owner, items)
        self.assertIs(values_of(BOOL, flags, 2).owner, flags)

    def test_other_arrays_are_copied(self) -> None:
        wanted = [1, 2, 3]
        padded = numpy.zeros(25, dtype=numpy.uint8)
        unaligned = padded[1:].view(numpy.uint64)
        unaligned[:] = wanted
        cases = [
            numpy.array(wanted, dtype=numpy.int64),
            numpy.array(wanted, dtype=numpy.int8),
            numpy.array(wanted, dtype=numpy.uint32),
            numpy.array(wanted, dtype=">u8"),
            numpy.array(wanted, dtype=object),
            numpy.array([1, 0, 2, 0, 3, 0], dtype=numpy.uint64)[::2],
            numpy.array([3, 2, 1], dtype=numpy.uint64)[::-1],
            unaligned,
        ]
        for items in cases:
            with self.subTest(dtype=items.dtype, strides=items.strides):
                v = Vector.from_lists(self.p, 5, items, items)
                self.assertEqual(v.to_dict(), {1: 1, 2: 2, 3: 3})

    def test_an_array_may_not_be_written(self) -> None:
        items = numpy.array([1, 2, 3], dtype=numpy.uint64)
        items.flags.writeable = False
        self.assertEqual(Vector.from_lists(self.p, 5, items, items).to_dict(), {1: 1, 2: 2, 3: 3})

    def test_arrays_that_share_memory_are_apart(self) -> None:
        items = numpy.arange(6, dtype=numpy.uint64)
        for lists in (items, items), (items[:4], items[2:]), (items[2:], items[:4]):
            first, second = apart([numbers(part) for part in lists])
            ends = first.address + first.size, second.address + second.size
            self.assertTrue(ends[0] <= second.address or ends[1] <= first.address)
            self.assertEqual([list(first.owner), list(second.owner)], [list(part) for part in lists])
        halves = [numbers(items[:3]), numbers(items[3:])]
        self.assertEqual([part.address for part in apart(halves)], [part.address for part in halves])
        a = Matrix.from_lists(self.p, 6, 6, items, items, items)
        self.assertEqual(a.to_dict(), {(i, i): i for i in range(6)})

    def test_arrays_of_another_type_are_refused(self) -> None:
        for items in numpy.array([1.0]), numpy.array(["1"]), numpy.array([1j]), numpy.array([1.0], dtype=object):
            with self.subTest(dtype=items.dtype):
                with self.assertRaises(TypeError):
                    numbers(items)
                with self.assertRaises(TypeError):
                    truths(items)
        with self.assertRaises(TypeError):
            truths(numpy.array([1, 0]))
        for items in numpy.array([[1, 2]]), numpy.array(5):
            with self.assertRaises(ValueError):
                numbers(items)

    def test_numbers_of_arrays_are_in_range(self) -> None:
        for items in numpy.array([-1]), numpy.array([2**64], dtype=object), numpy.array([-(2**63)], dtype=numpy.int64):
            with self.subTest(items=items):
                with self.assertRaises(OverflowError):
                    numbers(items)
                with self.assertRaises(IndexError):
                    indices(items)

    def test_bytes_behind_truth_values_are_0_or_1(self) -> None:
        strange = numpy.array([0, 1, 2, 255], dtype=numpy.uint8).view(bool)
        self.assertEqual(list(truths(strange).owner.view(numpy.uint8)), [0, 1, 1, 1])

    def test_empty_arrays_build_nothing(self) -> None:
        empty = numpy.array([], dtype=numpy.uint64)
        a = Matrix.from_lists(self.p, 2, 2, empty, empty, empty)
        b = Matrix.from_lists(self.p, 2, 2, empty, empty, numpy.array([], dtype=bool), bool)
        for matrix, dtype in (a, numpy.uint64), (b, numpy.bool_):
            rows, columns, values = matrix.to_numpy()
            self.assertEqual((len(rows), len(columns), len(values)), (0, 0, 0))
            self.assertEqual((rows.dtype, columns.dtype, values.dtype), (numpy.uint64, numpy.uint64, dtype))

    def test_lengths_that_differ_are_refused(self) -> None:
        with self.assertRaises(InvalidValue):
            self.p.matrix(5, 5).build(numpy.arange(3), numpy.arange(3), numpy.arange(2))

    def test_all_entries_come_in_arrays(self) -> None:
        a = Matrix.from_lists(self.p, 3, 4, [2, 0, 1], [1, 3, 0], [7, MOST_NUMBER, 0])
        rows, columns, values = a.to_numpy()
        self.assertEqual((list(rows), list(columns), list(values)), ([0, 1, 2], [3, 0, 1], [MOST_NUMBER, 0, 7]))
        self.assertEqual({array.dtype for array in (rows, columns, values)}, {numpy.dtype(numpy.uint64)})
        v = Vector.from_lists(self.p, 5, [3, 1], [True, False], bool)
        places, flags = v.to_numpy()
        self.assertEqual((list(places), list(flags), flags.dtype), ([1, 3], [False, True], numpy.bool_))

    def test_what_comes_in_arrays_builds_the_same(self) -> None:
        size = 500
        rows = numpy.repeat(numpy.arange(size, dtype=numpy.uint64), 3)
        columns = (rows * 7 + numpy.tile(numpy.arange(3, dtype=numpy.uint64), size)) % size
        a = Matrix.from_lists(self.p, size, size, rows, columns, rows + columns)
        b = Matrix.from_lists(self.p, size, size, *a.to_numpy())
        self.assertEqual(a.to_lists(), b.to_lists())
        self.assertEqual(len(a), len(rows))

    def test_scalars_of_numpy_are_numbers(self) -> None:
        a = self.p.matrix(3, 4)
        a[numpy.int64(1), numpy.uint8(2)] = numpy.uint64(MOST_NUMBER)
        self.assertEqual(a[1, 2], MOST_NUMBER)
        b = self.p.matrix(numpy.int32(3), numpy.int32(4), bool)
        b[0, 0] = numpy.bool_(True)
        self.assertIs(b[0, 0], True)
        self.assertIs(truth(numpy.bool_(False)), False)
        a.clear()
        a.build(numpy.arange(3), numpy.arange(3), numpy.uint64(8))
        self.assertEqual(a.reduce("plus"), 24)
        with self.assertRaises(TypeError):
            a[0, 0] = numpy.float64(1.0)


@unittest.skipIf(sparse is None, "there is no scipy")
class Scipy(StoreCase):
    def matrix(self, dtype: Any) -> Any:
        values = numpy.array([1, 2, 3, 0]).astype(dtype)
        return sparse.coo_matrix((values, ([0, 2, 1, 1], [1, 0, 3, 2])), shape=(3, 4))

    def test_a_matrix_comes_from_each_format(self) -> None:
        for form in "coo", "csr", "csc", "lil", "dok":
            for dtype in numpy.uint64, numpy.int32:
                with self.subTest(form=form, dtype=dtype):
                    a = Matrix.from_scipy(self.p, self.matrix(dtype).asformat(form))
                    entries = {place: x for place, x in a.items() if x != 0}
                    self.assertEqual((a.shape, a.dtype, entries), ((3, 4), int, {(0, 1): 1, (1, 3): 3, (2, 0): 2}))

    def test_a_stored_zero_is_an_entry(self) -> None:
        self.assertEqual(Matrix.from_scipy(self.p, self.matrix(numpy.uint8).tocsr()).get(1, 2), 0)

    def test_truth_values_stay_truth_values(self) -> None:
        a = Matrix.from_scipy(self.p, self.matrix(bool).tocsr())
        self.assertEqual((a.dtype, a.to_dict()), (bool, {(0, 1): True, (1, 2): False, (1, 3): True, (2, 0): True}))

    def test_values_of_one_place_are_added(self) -> None:
        twice = sparse.coo_matrix((numpy.array([5, 7]), ([1, 1], [0, 0])), shape=(2, 2))
        self.assertEqual(Matrix.from_scipy(self.p, twice).to_dict(), {(1, 0): 12})

    def test_other_values_are_refused(self) -> None:
        with self.assertRaises(TypeError):
            Matrix.from_scipy(self.p, self.matrix(numpy.float64))
        with self.assertRaises(OverflowError):
            Matrix.from_scipy(self.p, sparse.coo_matrix(([-1], ([0], [0])), shape=(1, 1)))

    def test_a_matrix_goes_to_scipy_and_comes_back(self) -> None:
        for dtype, value_type in (numpy.uint64, numpy.uint64), (bool, numpy.bool_):
            with self.subTest(dtype=dtype):
                a = Matrix.from_scipy(self.p, self.matrix(dtype).tocsr())
                theirs = a.to_scipy()
                self.assertEqual((theirs.format, theirs.shape, theirs.dtype), ("csr", (3, 4), value_type))
                self.assertEqual(theirs.nnz, 4)
                self.assertEqual(Matrix.from_scipy(self.p, theirs).to_dict(), a.to_dict())

    def test_an_empty_matrix_goes_to_scipy(self) -> None:
        theirs = self.p.matrix(3, 4).to_scipy()
        self.assertEqual((theirs.shape, theirs.nnz), ((3, 4), 0))

    def test_a_product_is_that_of_scipy(self) -> None:
        theirs = sparse.random(60, 60, 0.1, format="csr", random_state=1)
        theirs.data = (theirs.data * 100).astype(numpy.uint64)
        theirs = theirs.astype(numpy.uint64)
        a = Matrix.from_scipy(self.p, theirs)
        self.assertEqual((a.mxm(a).to_scipy() != theirs @ theirs).nnz, 0)


if __name__ == "__main__":
    unittest.main()
