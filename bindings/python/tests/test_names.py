"""Names of numpy, scipy and python-graphblas: those that work here, and those that say what to write."""

from __future__ import annotations

import unittest
from typing import Dict, List

from optional import numpy, sparse
from support import MOST_NUMBER, StoreCase
from trowelheath import Matrix, Vector, _elsewhere


class Sample(StoreCase):
    """v is {0: 30, 2: 10, 4: 20} of size 5, A {(0, 2): 5, (1, 0): 7, (1, 2): 0}, and F {(0, 1): True, (1, 0): False}."""

    def setUp(self) -> None:
        super().setUp()
        self.v = Vector.from_lists(self.p, 5, [0, 2, 4], [30, 10, 20])
        self.a = Matrix.from_lists(self.p, 2, 3, [0, 1, 1], [2, 0, 2], [5, 7, 0])
        self.f = Matrix.from_lists(self.p, 2, 2, [0, 1], [1, 0], [True, False], bool)


class Works(Sample):
    def test_counts_and_dimensions(self) -> None:
        self.assertEqual((self.a.nnz, self.v.nnz, self.f.nnz), (3, 3, 2))
        self.assertEqual((self.a.ndim, self.v.ndim), (2, 1))

    def test_a_sum_is_of_all_values(self) -> None:
        known = self.p.facts().known
        self.assertEqual((self.a.sum(), self.v.sum(), self.f.sum(), self.p.vector(3).sum()), (12, 60, 1, 0))
        self.assertIs(type(self.f.sum()), int)
        self.assertEqual(self.p.facts().known, known + 1, "the vector without entries alone was made")
        most = Vector.from_lists(self.p, 3, [0, 1], [MOST_NUMBER, 3])
        self.assertEqual(most.sum(), 2)
        self.assertEqual((self.v.sum(axis=0), self.v.sum(-1), self.a.T.sum(), self.f.T.sum()), (60, 60, 12, 1))
        for item in self.a, self.a.T:
            for axis in 0, 1, -1:
                with self.subTest(axis=axis), self.assertRaisesRegex(TypeError, r'A.T.reduce_rows\("plus"\) of columns'):
                    item.sum(axis)
        with self.assertRaises(TypeError):
            self.v.sum(1)

    def test_a_copy_is_a_new_object_of_one_call(self) -> None:
        known = self.p.facts().known
        copies = [item.copy() for item in (self.a, self.v, self.f)]
        self.assertEqual(self.p.facts().known, known + 3)
        for item, copy in zip((self.a, self.v, self.f), copies):
            wanted = item.to_dict()
            item.clear()
            self.assertEqual((type(copy), copy.to_dict()), (type(item), wanted))

    @unittest.skipIf(numpy is None, "there is no numpy")
    def test_an_array_has_all_places(self) -> None:
        cases = (self.a, [[0, 0, 5], [7, 0, 0]], "uint64"), (self.v, [30, 0, 10, 0, 20], "uint64"), (
            self.f, [[False, True], [False, False]], "bool"
        ), (self.p.vector(2, bool), [False, False], "bool")
        for item, wanted, dtype in cases:
            made = item.toarray()
            self.assertEqual((made.tolist(), made.dtype), (wanted, numpy.dtype(dtype)))
        made = self.v.toarray()
        made[0] = 1
        self.assertEqual(self.v[0], 30)

    @unittest.skipIf(sparse is None, "there is no scipy")
    def test_scipy_answers_the_same(self) -> None:
        drawn = numpy.random.default_rng(7).integers(0, 4, (9, 6)).astype("uint64")
        theirs = sparse.csr_array(drawn)
        ours = Matrix.from_scipy(self.p, theirs)
        self.assertEqual((ours.nnz, ours.ndim, ours.sum()), (theirs.nnz, theirs.ndim, int(theirs.sum())))
        self.assertEqual(ours.toarray().tolist(), theirs.toarray().tolist())
        flags = sparse.csr_array(drawn > 2)
        self.assertEqual(Matrix.from_scipy(self.p, flags).sum(), int(flags.sum()))


class Elsewhere(Sample):
    def test_a_name_of_another_package_says_what_to_write(self) -> None:
        names: Dict[str, List[str]] = {
            "A.nvals": ["size", "getnnz", "count_nonzero"],
            'A.reduce("max")': ["max"],
            'A.reduce("min")': ["min"],
            'A.reduce("plus")': ["reduce_scalar"],
            'A.reduce_rows("plus")': ["reduce_rowwise"],
            'A.T.reduce_rows("plus")': ["reduce_columnwise", "reduce_columns"],
            'A.select("diag", k)': ["diagonal", "diag"],
            'A.select("diag").reduce("plus")': ["trace"],
            'A.select("tril", k)': ["tril"],
            "A.to_scipy()": ["tocsr", "tocsc", "tocoo", "asformat", "indptr", "to_scipy_sparse", "getrow", "extract"],
            "A.toarray()": ["todense", "to_dense"],
            "A.to_lists()": ["nonzero", "to_edgelist", "tolist"],
            "A @ B": ["dot"],
            'A.ewise_mult(B, "times")': ["multiply"],
            "A.isequal(B)": ["isclose"],
            "A.dup()": ["new"],
            "mask=A": ["S", "V"],
            "out=A": ["assign", "update"],
            "Matrix.from_lists(": ["astype"],
            "Matrix.from_coo(": ["from_edgelist", "from_values"],
            "Matrix.from_scipy(": ["from_dense", "from_scipy_sparse"],
            "A.get(": ["pop", "setdefault"],
        }
        for wanted, asked in names.items():
            for name in asked:
                with self.subTest(name=name), self.assertRaises(AttributeError) as caught:
                    getattr(self.a, name)
                said = str(caught.exception)
                self.assertIn(f"'Matrix' object has no attribute '{name}': write ", said)
                self.assertIn(wanted, said)

    def test_a_vector_says_its_own(self) -> None:
        names = {
            "to_scipy": "v.to_numpy()",
            "dot": "v @ A",
            "inner": 'v.ewise_mult(u, "times")',
            "max": 'v.reduce("max")',
            "to_dense": "v.toarray()",
            "from_dict": "Vector.from_coo(",
        }
        for name, wanted in names.items():
            with self.subTest(name=name), self.assertRaises(AttributeError) as caught:
                getattr(self.v, name)
            self.assertIn(wanted, str(caught.exception))
        for name in "tocsr", "trace", "nodes", "adj":
            with self.subTest(name=name), self.assertRaisesRegex(AttributeError, f"has no attribute '{name}'$"):
                getattr(self.v, name)

    def test_a_class_says_how_its_objects_are_made(self) -> None:
        for sort, name, wanted in (
            (Matrix, "from_dense", r"Matrix.from_scipy\(p, "),
            (Matrix, "from_edgelist", r"Matrix.from_coo\(p, "),
            (Vector, "from_pairs", r"Vector.from_coo\(p, "),
        ):
            message = f"type object '{sort.__name__}' .*{wanted}"
            with self.subTest(name=name), self.assertRaisesRegex(AttributeError, message):
                getattr(sort, name)
        with self.assertRaisesRegex(AttributeError, "type object 'Matrix' has no attribute 'from_pandas'$"):
            getattr(Matrix, "from_pandas")

    def test_what_is_written_here_can_be_written(self) -> None:
        p, A, v = self.p, self.a, self.v  # noqa: N806
        flags = Matrix.from_lists(p, *A.shape, *A.to_lists()[:2], True, bool)
        self.assertEqual((flags.shape, flags.to_dict()), ((2, 3), dict.fromkeys([(0, 2), (1, 0), (1, 2)], True)))
        flags_of_v = Vector.from_lists(p, v.size, v.to_lists()[0], True, bool)
        self.assertEqual((flags_of_v.size, flags_of_v.to_dict()), (5, dict.fromkeys([0, 2, 4], True)))
        d = {3: 1, 1: 4}
        self.assertEqual(Vector.from_coo(p, list(d), list(d.values())).to_dict(), d)
        self.assertEqual(Matrix.from_lists(p, 2, 2, [0, 0, 1], [0, 1, 1], [3, 4, 5]).select("diag").reduce("plus"), 8)
        self.assertEqual((A.sum() / A.nvals, A.reduce("min"), A.select("valuene", 0).nvals), (4, 0, 2))

    @unittest.skipIf(sparse is None, "there is no scipy")
    def test_what_is_written_for_arrays_can_be_written(self) -> None:
        array = numpy.array([[0, 3], [4, 0]])
        self.assertEqual(Matrix.from_scipy(self.p, sparse.coo_array(array)).to_dict(), {(0, 1): 3, (1, 0): 4})
        self.assertEqual(Vector.from_coo(self.p, range(len(array[0])), array[0]).to_dict(), {0: 0, 1: 3})
        square = Matrix.from_scipy(self.p, sparse.coo_array(array))
        self.assertEqual(square.to_scipy().diagonal(1).tolist(), [3])

    def test_other_names_are_unknown_as_ever(self) -> None:
        for item in self.a, self.v, self.a.T:
            for name in "nvalues", "_private", "__array_interface__", "_ipython_display_", "format":
                message = f"object has no attribute '{name}'$"
                with self.subTest(name=name), self.assertRaisesRegex(AttributeError, message):
                    getattr(item, name)
                self.assertFalse(hasattr(item, name))

    def test_no_name_that_is_here_is_said_to_be_elsewhere(self) -> None:
        tables = {Matrix: _elsewhere._OF_MATRIX, Vector: _elsewhere._OF_VECTOR, type(self.a.T): _elsewhere._OF_VIEW}
        # What numpy has a function of.
        functions = {"diag", "transpose"}
        for sort, table in tables.items():
            for name in {**table, **_elsewhere._BOTH}.keys() - functions:
                with self.subTest(name=name):
                    self.assertFalse(hasattr(sort, name))


if __name__ == "__main__":
    unittest.main()
