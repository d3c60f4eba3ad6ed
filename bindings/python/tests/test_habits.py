"""What users of numpy, scipy and other packages try: signs, names and dtypes, and what is refused."""

from __future__ import annotations

import copy
import pickle
import threading
import unittest
from concurrent.futures import ThreadPoolExecutor
from typing import Any, Callable, Dict, List

from optional import numpy, sparse
from support import MOST_DIMENSION, StoreCase
from trowelheath import Info, Matrix, OrderFull, Store, StoreClosed, UninitializedObject, Vector
from trowelheath._show import said


class Sample(StoreCase):
    """v is {0: 10, 1: 20, 2: 30}, and A is {(0, 1): 7, (1, 2): 8, (2, 0): 9}."""

    def setUp(self) -> None:
        super().setUp()
        self.v = Vector.from_lists(self.p, 3, [0, 1, 2], [10, 20, 30])
        self.a = Matrix.from_lists(self.p, 3, 3, [0, 1, 2], [1, 2, 0], [7, 8, 9])


@unittest.skipIf(numpy is None, "there is no numpy")
class WithNumpy(Sample):
    def test_numpy_takes_no_object_for_an_array(self) -> None:
        a, v, ones = self.a, self.v, numpy.ones(3)
        calls: Dict[str, Callable[[], Any]] = {
            "asarray of a vector": lambda: numpy.asarray(v),
            "asarray of a matrix": lambda: numpy.asarray(a),
            "array of vectors": lambda: numpy.array([v, v]),
            "sum": lambda: numpy.sum(v),
            "mean": lambda: numpy.mean(a),
            "dot": lambda: numpy.dot(v, ones),
            "dot, the array first": lambda: numpy.dot(ones, a),
            "v @ array": lambda: v @ ones,
            "a @ array": lambda: a @ ones,
            "array @ a": lambda: ones @ a,
            "array * a.T": lambda: ones * a.T,
            "array @ v": lambda: ones @ v,
            "array of a list @ a": lambda: numpy.asarray([1, 2, 3]) @ a,
            "array @ a.T": lambda: ones @ a.T,
            "a.T @ array": lambda: a.T @ ones,
            "scalar * v": lambda: numpy.uint64(5) * v,
            "v * scalar": lambda: v * numpy.uint64(5),
            "v + array": lambda: v + ones,
            "array + v": lambda: ones + v,
            "array - a": lambda: ones - a,
            "array *= v": lambda: numpy.multiply(ones, v, out=ones),
            "v == array": lambda: v == ones,
            "array == v": lambda: ones == v,
            "sqrt": lambda: numpy.sqrt(v),
            "concatenate": lambda: numpy.concatenate([v, ones]),
            "where": lambda: numpy.where(a),
        }
        for name, call in calls.items():
            with self.subTest(name=name), self.assertRaises(TypeError):
                call()
        self.assertEqual(ones.tolist(), [1, 1, 1])

    def test_scalars_of_numpy_are_bound_and_compared_with(self) -> None:
        v = self.v
        self.assertEqual(v.apply("plus", numpy.uint64(5)).to_dict(), {0: 15, 1: 25, 2: 35})
        self.assertEqual(v.apply("minus", left=numpy.int32(30)).to_dict(), {0: 20, 1: 10, 2: 0})
        self.assertEqual(v.select("valuege", numpy.uint64(20)).to_dict(), {1: 20, 2: 30})
        self.assertEqual(v.select("rowle", numpy.int64(0)).to_dict(), {0: 10})
        self.assertEqual(v.diag(numpy.int64(-1)).to_dict(), {(1, 0): 10, (2, 1): 20, (3, 2): 30})
        truths = Vector.from_lists(self.p, 2, [0, 1], [True, False], bool)
        self.assertEqual(truths.apply("lxor", numpy.bool_(True)).to_dict(), {0: False, 1: True})

    def test_numpy_makes_the_same(self) -> None:
        dense = numpy.array([[1, 2, 0, 3], [0, 4, 5, 0], [6, 0, 7, 8]], dtype="uint64")
        a = Matrix.from_coo(self.p, *numpy.nonzero(dense), dense[dense > 0])
        u = Vector.from_lists(self.p, 4, range(4), dense[0] + 1)
        pairs: Dict[str, Any] = {
            "transpose": (a.transpose(), numpy.transpose(dense)),
            "tril": (a.select("tril", -1), numpy.tril(dense, -1)),
            "triu": (a.select("triu", 1), numpy.triu(dense, 1)),
            "kron": (a.kronecker(a.T), numpy.kron(dense, dense.T)),
            "a @ a.T": (a @ a.T, dense @ dense.T),
            "a.T + a.T": (a.T + a.T, dense.T + dense.T),
            "diag": (u.diag(-2), numpy.diag(dense[0] + 1, -2)),
        }
        for name, (item, wanted) in pairs.items():
            with self.subTest(name=name):
                made = numpy.zeros(item.shape, dtype="uint64")
                rows, columns, values = item.to_numpy()
                made[rows, columns] = values
                self.assertEqual(made.tolist(), wanted.tolist())

    def test_the_error_says_to_numpy(self) -> None:
        ones = numpy.ones(3)
        for item in self.a, self.v, self.a.T:
            calls: Dict[str, Callable[[], Any]] = {
                "asarray": lambda: numpy.asarray(item),
                "@ array": lambda: item @ ones,
                "array @": lambda: ones @ item,
                "+ array": lambda: item + ones,
                "* array": lambda: item * ones,
            }
            for name, call in calls.items():
                with self.subTest(item=item, name=name):
                    with self.assertRaisesRegex(TypeError, r"is no array of numpy: to_numpy\(\)"):
                        call()

    def test_an_object_is_no_list_of_a_build(self) -> None:
        for values in self.v, self.a:
            with self.assertRaisesRegex(TypeError, r"is no list of entries: to_lists\(\)"):
                self.p.vector(3).build([0, 1, 2], values)

    def test_a_masked_array_is_refused(self) -> None:
        masked = numpy.ma.masked_array(numpy.array([1, 2, 3], dtype=numpy.uint64), mask=[False, True, False])
        flags = numpy.ma.masked_array([True, False, True], mask=[False, True, False])
        places = numpy.arange(3, dtype=numpy.uint64)
        v, w = self.p.vector(3), self.p.vector(3, bool)
        calls: Dict[str, Callable[[], Any]] = {
            "values": lambda: v.build(places, masked),
            "indices": lambda: v.build(masked, places),
            "truth values": lambda: w.build(places, flags),
            "rows": lambda: self.p.matrix(9, 9).build(masked, places, 1),
            "columns": lambda: Matrix.from_coo(self.p, places, masked, 1),
            "from_coo": lambda: Vector.from_coo(self.p, places, masked),
        }
        for name, call in calls.items():
            with self.subTest(name=name), self.assertRaisesRegex(TypeError, "a masked array is refused"):
                call()
        self.assertEqual((v.nvals, w.nvals), (0, 0))
        v.build(places[~masked.mask], masked.compressed())
        self.assertEqual(v.to_dict(), {0: 1, 2: 3})

    def test_dtypes_have_numpys_names(self) -> None:
        for dtype in "uint64", numpy.uint64, numpy.dtype("uint64"):
            self.assertIs(self.p.vector(3, dtype).dtype, int)
        for dtype in "bool", numpy.bool_, numpy.dtype(bool):
            self.assertIs(self.p.matrix(3, 3, dtype).dtype, bool)
        for dtype in numpy.int64, numpy.float64, numpy.dtype(int), "int64", "float", numpy.ones(3):
            with self.subTest(dtype=dtype), self.assertRaisesRegex(TypeError, "the dtype must be bool or int"):
                self.p.vector(3, dtype)


@unittest.skipIf(sparse is None, "there is no scipy")
class WithScipy(Sample):
    def test_scipy_makes_nothing_of_an_object(self) -> None:
        for name in "csr", "csc", "coo", "bsr", "lil", "dok", "dia":
            for kind in "matrix", "array":
                with self.subTest(name=name, kind=kind), self.assertRaises((TypeError, ValueError)) as caught:
                    getattr(sparse, f"{name}_{kind}")(self.a)
                said = [str(caught.exception), str(caught.exception.__cause__), str(caught.exception.__context__)]
                self.assertTrue(any("to_scipy()" in text for text in said), said)

    def test_signs_with_a_matrix_of_scipy_are_refused(self) -> None:
        theirs = sparse.csr_array(numpy.ones((3, 3)))
        a, v = self.a, self.v
        calls: Dict[str, Callable[[], Any]] = {
            "theirs @ a": lambda: theirs @ a,
            "a @ theirs": lambda: a @ theirs,
            "theirs @ v": lambda: theirs @ v,
            "theirs + a": lambda: theirs + a,
            "a + theirs": lambda: a + theirs,
            "a * theirs": lambda: a * theirs,
        }
        for name, call in calls.items():
            with self.subTest(name=name), self.assertRaises((TypeError, ValueError, NotImplementedError)):
                call()

    def test_many_rows_of_few_entries_are_a_coo_array(self) -> None:
        last = MOST_DIMENSION - 1
        a = Matrix.from_lists(self.p, MOST_DIMENSION, MOST_DIMENSION, [0, last], [last, 5], [7, 8])
        theirs = a.to_scipy()
        self.assertEqual((theirs.format, theirs.shape), ("coo", (MOST_DIMENSION, MOST_DIMENSION)))
        lists = theirs.row.tolist(), theirs.col.tolist(), theirs.data.tolist()
        self.assertEqual(lists, ([0, last], [last, 5], [7, 8]))
        self.assertEqual(Matrix.from_scipy(self.p, theirs).to_dict(), a.to_dict())
        self.assertEqual(self.a.to_scipy().format, "csr")

    def test_what_is_no_matrix_of_scipy_is_refused(self) -> None:
        with self.assertRaisesRegex(TypeError, "a matrix of scipy.sparse is wanted, not a list"):
            Matrix.from_scipy(self.p, [[1]])


class Made(Sample):
    def test_a_class_makes_no_object_and_says_what_does(self) -> None:
        calls: Dict[str, Callable[[], Any]] = {
            "p.matrix(nrows, ncols, dtype)": lambda: Matrix(int, 3, 3),
            "p.vector(size, dtype)": lambda: Vector(int, 3),
            "Matrix.from_lists": lambda: Matrix(),
            "Vector.from_lists": lambda: Vector(self.p, 0, int),
        }
        for message, call in calls.items():
            with self.subTest(message=message), self.assertRaises(TypeError) as caught:
                call()
            self.assertIn(message, str(caught.exception))

    def test_nothing_is_pickled_or_copied_by_python(self) -> None:
        for item in self.a, self.v, self.p, self.store:
            for act in pickle.dumps, copy.copy, copy.deepcopy:
                with self.subTest(item=item, act=act.__name__), self.assertRaisesRegex(TypeError, r"to_lists\(\)"):
                    act(item)

    def test_coordinates_make_objects_and_come_back(self) -> None:
        a = Matrix.from_coo(self.p, [0, 2], [4, 1], [5, 6])
        self.assertEqual((a.shape, a.dtype, a.to_dict()), ((3, 5), int, {(0, 4): 5, (2, 1): 6}))
        b = Matrix.from_coo(self.p, [0, 0], [1, 1], [True, False], nrows=2, ncols=3, dup="land")
        self.assertEqual((b.shape, b.dtype, b.to_dict()), ((2, 3), bool, {(0, 1): False}))
        v = Vector.from_coo(self.p, iter([3, 1]), iter([5, 6]))
        self.assertEqual((v.size, v.dtype, v.to_dict()), (4, int, {1: 6, 3: 5}))
        w = Vector.from_coo(self.p, range(3), 1, "uint64", size=9)
        self.assertEqual((w.size, w.to_dict()), (9, {0: 1, 1: 1, 2: 1}))
        self.assertIs(Vector.from_coo(self.p, [0], True).dtype, bool)
        for call in lambda: Matrix.from_coo(self.p, [], [], []), lambda: Vector.from_coo(self.p, [], []):
            with self.assertRaisesRegex(ValueError, "there is no entry"):
                call()
        self.assertEqual(Matrix.from_coo(self.p, [], [], [], nrows=2, ncols=2).shape, (2, 2))

    @unittest.skipIf(numpy is None, "there is no numpy")
    def test_coordinates_are_arrays_of_numpy(self) -> None:
        rows, columns, values = self.a.to_coo()
        self.assertEqual((rows.tolist(), columns.tolist(), values.tolist()), ([0, 1, 2], [1, 2, 0], [7, 8, 9]))
        back = Matrix.from_coo(self.p, rows, columns, values)
        self.assertTrue(back.isequal(self.a))
        self.assertTrue(Vector.from_coo(self.p, *self.v.to_coo()).isequal(self.v))
        self.assertIs(Vector.from_coo(self.p, rows, values > 7).dtype, bool)


class Places(Sample):
    def test_what_is_no_place_is_not_contained(self) -> None:
        for place in (9, 9), (0, 9), 0, (0,), (0, 1, 2), "ab", None, (-1, 0), (2**64, 0), (0.0, 1), slice(None):
            with self.subTest(place=place):
                self.assertFalse(place in self.a)
        for i in 3, -1, 2**64, "0", 0.0, None, (0, 1), slice(None):
            with self.subTest(i=i):
                self.assertFalse(i in self.v)
        self.assertTrue((0, 1) in self.a and 0 in self.v)
        self.a.free()
        with self.assertRaises(UninitializedObject):
            (0, 1) in self.a

    def test_a_slice_is_named(self) -> None:
        calls: Dict[str, Callable[[], Any]] = {
            "row": lambda: self.a[0, :],
            "column": lambda: self.a[:, 0],
            "all": lambda: self.a[:],
            "set": lambda: self.a.__setitem__((0, slice(None)), 1),
            "removed": lambda: self.a.__delitem__((slice(None), 1)),
            "vector": lambda: self.v[:2],
            "vector, set": lambda: self.v.__setitem__(slice(None), 1),
        }
        for name, call in calls.items():
            with self.subTest(name=name), self.assertRaisesRegex(TypeError, r"a slice, as slice\(.*, is no index"):
                call()

    def test_a_wrong_value_says_what_is_wanted(self) -> None:
        numbers, truths = self.a, self.p.vector(3, bool)
        with self.assertRaisesRegex(TypeError, r"takes whole numbers from 0 to 2\*\*64 - 1, not 1.0, of type float"):
            numbers[0, 0] = 1.0  # type: ignore[assignment]
        with self.assertRaisesRegex(TypeError, "takes True and False, not 1"):
            truths[0] = 1
        with self.assertRaisesRegex(TypeError, "an index is a whole number from 0, not 'x', of type str"):
            truths["x"]  # type: ignore[index]

    @unittest.skipIf(numpy is None, "there is no numpy")
    def test_numbers_of_numpy_are_places_and_values(self) -> None:
        for kind in numpy.uint8, numpy.int32, numpy.int64, numpy.uint64:
            self.a[kind(1), kind(1)] = kind(100)
            self.assertEqual(self.a[kind(1), 1], 100)
            self.v[kind(2)] = kind(101)
            self.assertEqual(self.v[kind(2)], 101)
        with self.assertRaises(IndexError):
            self.a[numpy.int64(-1), 0]
        with self.assertRaises(OverflowError):
            self.a[0, 0] = numpy.int8(-1)
        with self.assertRaises(TypeError):
            self.a[0, 0] = numpy.float64(1)
        self.a[True, False] = True
        self.assertEqual(self.a[1, 0], 1)


class Equal(Sample):
    def test_isequal_compares_what_is_stored(self) -> None:
        a, b = self.a, self.a.dup()
        self.assertTrue(a.isequal(b) and b.isequal(a) and a.isequal(a) and a.isequal(a.using(self.q)))
        b[0, 0] = 1
        self.assertFalse(a.isequal(b))
        del b[0, 0]
        b[0, 1] = 8
        self.assertFalse(a.isequal(b))
        b.resize(3, 4)
        b[0, 1] = 7
        self.assertFalse(a.isequal(b))
        self.assertFalse(a.isequal(self.v))
        self.assertFalse(self.p.vector(3).isequal(self.p.vector(3, bool)))
        with Store(room=10) as other:
            self.assertTrue(a.isequal(a.copy_to(other.main)))
        for other_thing in None, 1, a.to_dict():
            with self.assertRaisesRegex(TypeError, "is compared with a Matrix or a Vector"):
                a.isequal(other_thing)  # type: ignore[arg-type]

    def test_names_of_one_object_are_equal(self) -> None:
        for item in self.a, self.v:
            by_q = item.using(self.q)
            self.assertTrue(item == by_q and not item != by_q)
            self.assertEqual(hash(item), hash(by_q))
            self.assertEqual(len({item, by_q}), 1)
            self.assertEqual({item: 1}[by_q], 1)

    def test_two_objects_are_not_compared_by_a_sign(self) -> None:
        b, w = self.a.dup(), self.v.dup()
        for call in lambda: self.a == b, lambda: self.a != b, lambda: self.v == w, lambda: b in [self.a]:
            with self.assertRaisesRegex(TypeError, r"A.isequal\(B\)"):
                call()
        self.assertNotEqual(hash(self.a), hash(b))
        self.assertEqual(len({self.a, b, self.v, w}), 4)
        self.assertTrue(self.a in [self.a, b])

    def test_what_is_no_object_of_the_sort_is_not_equal(self) -> None:
        for other in None, 0, "a", [], self.p, self.v:
            with self.subTest(other=other):
                self.assertFalse(self.a == other)
                self.assertTrue(self.a != other)
        self.assertEqual(self.a.number, self.v.number)

    def test_objects_of_two_stores_are_two(self) -> None:
        with Store(room=10) as other:
            b = self.a.copy_to(other.main)
            self.assertEqual(b.number, self.a.number)
            self.assertEqual(len({self.a, b}), 2)


class Signs(Sample):
    def test_a_matrix_is_read_transposed(self) -> None:
        a = Matrix.from_lists(self.p, 2, 3, [0, 1], [2, 0], [5, 7])
        turned = {(2, 0): 5, (0, 1): 7}
        self.assertEqual((a.T.shape, a.T.nrows, a.T.ncols, a.T.dtype), ((3, 2), 3, 2, int))
        self.assertIs(a.T.T, a)
        self.assertEqual(a.T.dup().to_dict(), turned)
        self.assertEqual(repr(a.T), "<transposed of <Matrix 2x3 int>, 2 entries>\n  0 1\n0 . 7\n1 . .\n2 5 .")
        b = Matrix.from_lists(self.p, 2, 2, [0], [1], [3])
        self.assertEqual((a.T @ b).to_dict(), {(2, 1): 15})
        self.assertEqual(a.T.mxm(b, "min_plus").to_dict(), {(2, 1): 8})
        u = Vector.from_lists(self.p, 2, [0], [3])
        self.assertEqual((a.T @ u).to_dict(), {2: 15})
        self.assertEqual(a.T.mxv(u, "min.plus").to_dict(), {2: 8})
        zeros = Matrix.from_lists(self.p, 3, 2, [0, 0], [0, 1], [1, 1])
        self.assertEqual((a.T + zeros).to_dict(), {(0, 0): 1, (0, 1): 8, (2, 0): 5})
        self.assertEqual((zeros + a.T).to_dict(), {(0, 0): 1, (0, 1): 8, (2, 0): 5})
        self.assertEqual((a.T * zeros).to_dict(), {(0, 1): 7})
        self.assertEqual((zeros * a.T).to_dict(), {(0, 1): 7})
        self.assertEqual(a.T.ewise_add(zeros, "max").to_dict(), {(0, 0): 1, (0, 1): 7, (2, 0): 5})
        self.assertEqual(a.T.ewise_mult(zeros, "minus").to_dict(), {(0, 1): 6})
        self.assertEqual(a.T.reduce_rows("plus").to_dict(), {0: 7, 2: 5})
        w = Vector.from_lists(self.p, 3, [2], [4])
        self.assertEqual((w @ a.T).to_dict(), {0: 20})
        self.assertEqual(a.to_dict(), {(0, 2): 5, (1, 0): 7})

    def test_truth_values_are_read_transposed(self) -> None:
        a = Matrix.from_lists(self.p, 2, 3, [0, 1], [2, 0], [True, False], bool)
        self.assertEqual(a.T.dup().to_dict(), {(2, 0): True, (0, 1): False})

    def test_a_second_input_is_read_transposed(self) -> None:
        a = Matrix.from_lists(self.p, 2, 3, [0, 0, 1], [0, 2, 1], [1, 5, 7])
        b = Matrix.from_lists(self.p, 3, 2, [0, 2], [0, 1], [2, 3])
        self.assertEqual((a @ a.T).to_dict(), {(0, 0): 26, (1, 1): 49})
        self.assertEqual((a.T @ b.T).to_dict(), {(0, 0): 2, (1, 2): 21, (2, 0): 10})
        self.assertEqual((a.T + a.T).to_dict(), {(0, 0): 2, (1, 1): 14, (2, 0): 10})
        self.assertEqual((a + b.T).to_dict(), {(0, 0): 3, (0, 2): 5, (1, 1): 7, (1, 2): 3})
        self.assertEqual((a * b.T).to_dict(), {(0, 0): 2})
        self.assertEqual(a.mxm(a.T, "min.plus").to_dict(), {(0, 0): 2, (1, 1): 14})
        u = Vector.from_lists(self.p, 3, [1, 2], [10, 20])
        self.assertEqual(u.vxm(a.T, "min.minus").to_dict(), {0: 15, 1: 3})
        self.assertEqual((u @ a.T).to_dict(), {0: 100, 1: 70})

    def test_what_is_no_input_is_not_read_transposed(self) -> None:
        a, v = self.a, self.v
        calls: Dict[str, Callable[[], Any]] = {
            "mask": lambda: a.mxm(a, mask=a.T),
            "out": lambda: a.mxm(a, out=a.T),
            "mask of a fold": lambda: a.reduce_rows("plus", mask=a.T),
            "a vector": lambda: v.ewise_add(a.T, "plus"),
        }
        for name, call in calls.items():
            with self.subTest(name=name), self.assertRaisesRegex(TypeError, r"A.T.dup\(\) makes a Matrix"):
                call()

    def test_signs_of_numbers_are_sum_and_product_by_entries(self) -> None:
        b = Matrix.from_lists(self.p, 3, 3, [0, 0], [0, 1], [1, 2])
        self.assertEqual((self.a + b).to_dict(), {(0, 0): 1, (0, 1): 9, (1, 2): 8, (2, 0): 9})
        self.assertEqual((self.a * b).to_dict(), {(0, 1): 14})
        w = Vector.from_lists(self.p, 3, [1], [3])
        self.assertEqual((self.v + w).to_dict(), {0: 10, 1: 23, 2: 30})
        self.assertEqual((self.v * w).to_dict(), {1: 60})

    def test_signs_of_truth_values_are_refused_with_the_operation(self) -> None:
        b, w = self.p.matrix(3, 3, bool), self.p.vector(3, bool)
        calls: Dict[str, Callable[[], Any]] = {
            r'ewise_add\(B, "lor"\)': lambda: b + b,
            r'\* is of numbers.*ewise_mult\(B, "land"\)': lambda: b * b,
            r'\+ is of numbers': lambda: w + w,
            r'in A.ewise_mult\(B, "land"\)': lambda: b.T * b,
        }
        for message, call in calls.items():
            with self.subTest(message=message), self.assertRaisesRegex(TypeError, message):
                call()

    def test_other_signs_are_no_signs(self) -> None:
        a, v = self.a, self.v
        sums: Any = [lambda: a + 1, lambda: 1 + a, lambda: a + v, lambda: a - a]
        products: Any = [lambda: a * 2, lambda: 2 * v, lambda: v * a]
        for place, call in enumerate([*sums, *products]):
            with self.subTest(place=place), self.assertRaisesRegex(TypeError, "unsupported operand"):
                call()

    def test_semirings_have_a_dot_or_an_underscore(self) -> None:
        for name in "min.plus", "min_plus":
            self.assertEqual(self.a.mxm(self.a, name).to_dict(), {(0, 2): 15, (1, 0): 17, (2, 1): 16})
        b = Matrix.from_lists(self.p, 2, 2, [0], [0], [True], bool)
        self.assertEqual(b.mxm(b, "lor_second_bool").to_dict(), {(0, 0): True})


class Said(StoreCase):
    """What a message says of an object, without a call, and `repr` where it makes none."""

    def test_it_makes_no_call(self) -> None:
        a, v = self.p.matrix(3, 4), self.p.vector(5, bool)
        self.p._library = _NoLibrary()
        self.assertEqual((said(a), said(v)), ("<Matrix 3x4 int>", "<Vector 5 bool>"))
        self.assertEqual(said(a.T), "<transposed of <Matrix 3x4 int>>")
        self.p._library = self.p._core.library

    def test_it_waits_for_nobody(self) -> None:
        a = self.p.matrix(3, 4)
        held, over = threading.Event(), threading.Event()
        was_in_time: List[bool] = []

        def hold() -> None:
            with self.p._lock:
                held.set()
                was_in_time.append(over.wait(10))

        thread = threading.Thread(target=hold)
        thread.start()
        held.wait()
        self.assertEqual((repr(a), said(a)), ("<Matrix 3x4 int>", "<Matrix 3x4 int>"))
        over.set()
        thread.join()
        self.assertEqual(was_in_time, [True])

    def test_it_leaves_the_last_status(self) -> None:
        a = self.p.matrix(3, 4)
        a.get(0, 0)
        said(a)
        self.assertEqual(a.last_info, Info.NO_VALUE)

    def test_in_a_successor_a_shape_is_that_of_before(self) -> None:
        a = self.p.matrix(3, 4)
        with self.p.succeed(10) as successor:
            there = a.using(successor.main)
            self.assertEqual(said(there), "<Matrix 3x4 int>")
            there.resize(7, 8)
            self.assertEqual(said(a.using(successor.main)), "<Matrix 7x8 int>")
            self.assertEqual((said(there), said(a)), ("<Matrix 7x8 int>", "<Matrix 3x4 int>"))


class _NoLibrary:
    """A library whose functions may not be called."""

    def __getattr__(self, name: str) -> Callable[..., Any]:
        def called(*arguments: Any) -> Any:
            raise AssertionError(name)

        return called


class Ends(StoreCase):
    room = 40

    def known(self) -> int:
        """How many calls the pass knows."""
        return self.p.facts().known

    def test_what_is_let_go_is_freed_before_the_next_change(self) -> None:
        a, v = self.p.matrix(3, 3), self.p.vector(3)
        del a
        self.assertEqual(self.known(), 2)
        v[0] = 1
        self.assertEqual(self.known(), 4)
        self.assertEqual(v.to_dict(), {0: 1})

    def test_each_change_frees(self) -> None:
        w = self.p.vector(3)
        changes: Dict[str, Callable[[], Any]] = {
            "set": lambda: w.__setitem__(0, 1),
            "remove": lambda: w.__delitem__(0),
            "clear": w.clear,
            "build": lambda: w.build([0], [1]),
            "resize": lambda: w.resize(3),
            "operation": lambda: w.ewise_add(w, "plus", out=w),
        }
        for name, change in changes.items():
            with self.subTest(name=name):
                self.p.vector(3)
                known = self.known()
                change()
                self.assertEqual(self.known(), known + 2)

    def test_a_read_frees_nothing(self) -> None:
        v = self.p.vector(3)
        self.p.vector(3)
        v.get(0), v.nvals, v.size, v.to_lists()
        self.assertEqual(self.known(), 2)

    def test_only_the_last_name_frees(self) -> None:
        v, w = self.p.vector(3), self.p.vector(3)
        by_q = v.using(self.q)
        del v
        w[0] = 1
        by_q[0] = 5
        again = by_q.using(self.p)
        del by_q
        w[1] = 1
        self.assertEqual(again.to_dict(), {0: 5})
        known = self.known()
        del again
        w[2] = 1
        self.assertEqual(self.known(), known + 2)

    def test_another_pass_may_free(self) -> None:
        v, w = self.p.vector(3), self.q.vector(3)
        del v
        w[0] = 1
        self.assertEqual(self.q.facts().known, 4)

    def test_what_is_in_use_is_not_freed(self) -> None:
        a = Matrix.from_lists(self.p, 2, 2, [0, 1], [1, 0], [2, 3])
        self.assertEqual((((a @ a) @ a) @ a).to_dict(), {(0, 0): 36, (1, 1): 36})
        entries = (a @ a).items()
        a[0, 0] = 1
        self.assertEqual(list(entries), [((0, 0), 6), ((1, 1), 6)])

    def test_what_was_freed_is_not_freed_again(self) -> None:
        v, w = self.p.vector(3), self.p.vector(3)
        v.free()
        del v
        w[0] = 1
        self.assertEqual(self.known(), 4)

    def test_what_is_kept_is_not_freed(self) -> None:
        v, w = self.p.vector(3), self.p.vector(3)
        self.assertIs(v.keep(), v)
        del v
        w[0] = 1
        self.assertEqual(self.known(), 3)

    def test_an_object_of_the_store_before_is_not_freed(self) -> None:
        v = self.p.vector(3)
        with self.p.succeed(10) as successor:
            there, w = v.using(successor.main), successor.main.vector(3)
            del there
            w[0] = 1
            self.assertEqual(successor.main.facts().known, 3)
            v.using(successor.main)[0] = 5
            self.assertEqual(v.using(successor.main).to_dict(), {0: 5})

    def test_without_room_it_stays(self) -> None:
        v = self.p.vector(3)
        for k in range(38):
            v[0] = k
        w = self.p.vector(3)
        del w
        with self.assertRaises(OrderFull):
            v[0] = 1
        self.assertEqual((v[0], self.known()), (37, 40))

    def test_threads_that_let_go_free_nothing_of_others(self) -> None:
        with Store(room=20_000, passes=4) as store:

            def work(number: int) -> None:
                p = store.passes[number]
                kept = [p.vector(5) for _ in range(20)]
                for k in range(200):
                    made = p.vector(5)
                    made[k % 5] = number
                    kept[k % 20][k % 5] = number
                    del made
                for vector in kept:
                    self.assertEqual(set(vector.values()), {number})

            with ThreadPoolExecutor(4) as threads:
                for done in [threads.submit(work, number) for number in range(4)]:
                    done.result()

    def test_a_block_frees_what_was_made_in_it(self) -> None:
        a = Matrix.from_lists(self.p, 2, 2, [0, 1], [1, 0], [2, 3])
        with self.p.temporary() as block:
            b = a @ a
            kept = block.keep(b @ a)
            always = (b + b).keep()
            b.dup()
            self.assertEqual(b.to_dict(), {(0, 0): 6, (1, 1): 6})
        with self.assertRaisesRegex(UninitializedObject, "matrix 1 was freed"):
            b.nvals
        self.assertEqual(repr(b)[:12], "<Matrix 1: G")
        self.assertEqual((kept.nvals, always.nvals, a.nvals), (2, 2, 2))
        known = self.known()
        del kept, always
        a[0, 0] = 1
        self.assertEqual(self.known(), known + 2)

    def test_a_block_ends_where_it_fails(self) -> None:
        with self.assertRaises(ZeroDivisionError):
            with self.p.temporary():
                v = self.p.vector(3)
                raise ZeroDivisionError
        with self.assertRaises(UninitializedObject):
            v.nvals

    def test_blocks_stand_in_one_another(self) -> None:
        with self.p.temporary():
            outer = self.p.vector(3)
            with self.p.temporary():
                inner = self.p.vector(3)
            late = self.p.vector(3)
            with self.assertRaises(UninitializedObject):
                inner.nvals
            self.assertEqual(outer.nvals, 0)
        for vector in outer, late:
            with self.assertRaises(UninitializedObject):
                vector.nvals

    def test_a_block_of_a_closed_or_full_store_ends(self) -> None:
        with Store(room=2) as store:
            with store.main.temporary():
                v = store.main.vector(3)
                v[0] = 1
            self.assertEqual(v.to_dict(), {0: 1})
        with Store(room=2) as store:
            with store.main.temporary():
                v = store.main.vector(3)
                store.close()
            with self.assertRaises(StoreClosed):
                v.nvals

    def test_a_block_keeps_objects_alone(self) -> None:
        with self.p.temporary() as block, self.assertRaisesRegex(TypeError, "keeps a Matrix or a Vector"):
            block.keep(5)


if __name__ == "__main__":
    unittest.main()
