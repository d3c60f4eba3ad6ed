"""A matrix that is read with its rows as columns answers what a matrix does."""

from __future__ import annotations

import unittest
from typing import Any, Callable, Dict

from optional import networkx, numpy, sparse
from support import StoreCase
from trowelheath import InvalidIndex, Matrix, Store


class Views(StoreCase):
    """A is {(0, 2): 5, (1, 0): 7, (1, 2): 0} of two rows and three columns, and T what it is read transposed."""

    def setUp(self) -> None:
        super().setUp()
        self.a = Matrix.from_lists(self.p, 2, 3, [0, 1, 1], [2, 0, 2], [5, 7, 0])
        self.t = self.a.T


class Entries(Views):
    def test_entries_are_read(self) -> None:
        t = self.t
        self.assertEqual((t[2, 0], t[0, 1], t[2, 1], t.get(2, 0), t.get(0, 0), t.get(1, 1, 9)), (5, 7, 0, 5, None, 9))
        self.assertEqual(((2, 0) in t, (0, 2) in t, (5, 5) in t, 3 in t, (2,) in t), (True, False, False, False, False))
        with self.assertRaises(KeyError) as caught:
            t[2, 0] if t.get(1, 0) else t[1, 0]
        self.assertEqual(caught.exception.args, ((1, 0),))
        for place in (3, 0), (0, 2):
            with self.subTest(place=place), self.assertRaises(InvalidIndex):
                t[place]
        for wrong in 1, (1,), (1, 2, 3), (slice(None), 0):
            with self.subTest(wrong=wrong), self.assertRaises(TypeError):
                t[wrong]

    def test_all_entries_come_row_by_row(self) -> None:
        t = self.t
        self.assertEqual((t.nvals, t.nnz, len(t), t.ndim, t.shape), (3, 3, 3, 2, (3, 2)))
        self.assertEqual(t.to_lists(), ([0, 2, 2], [1, 0, 1], [7, 5, 0]))
        self.assertEqual(list(t.items()), [((0, 1), 7), ((2, 0), 5), ((2, 1), 0)])
        self.assertEqual((list(t.keys()), list(t.values())), ([(0, 1), (2, 0), (2, 1)], [7, 5, 0]))
        self.assertEqual((t.to_dict(), dict(t)), ({(0, 1): 7, (2, 0): 5, (2, 1): 0},) * 2)
        self.assertEqual((t.reduce("plus"), t.reduce("max"), t.sum()), (12, 7, 12))

    def test_it_reads_what_is_stored_when_it_is_used(self) -> None:
        t = self.t
        self.a[1, 1] = 4
        self.assertEqual((t[1, 1], t.nvals), (4, 4))
        self.a.resize(3, 3)
        self.assertEqual(t.shape, (3, 3))

    def test_a_store_to_it_is_one_to_the_matrix(self) -> None:
        self.t[2, 1] = 3
        del self.t[0, 1]
        self.assertEqual(self.a.to_dict(), {(0, 2): 5, (1, 2): 3})
        with self.assertRaises(InvalidIndex):
            self.t[0, 2] = 1

    def test_by_another_pass_and_into_another_store(self) -> None:
        by_q = self.t.using(self.q)
        self.assertEqual((by_q.pass_, by_q.store, by_q[2, 0]), (self.q, self.store, 5))
        self.t.wait()
        with Store(room=10) as other:
            self.assertEqual(self.t.copy_to(other.main).to_dict(), {(0, 1): 7, (2, 0): 5, (2, 1): 0})

    def test_a_copy_is_a_matrix_of_its_own(self) -> None:
        known = self.p.facts().known
        copies = self.t.copy(), self.t.dup()
        self.assertEqual(self.p.facts().known, known + 4)
        self.a.clear()
        for copy in copies:
            self.assertEqual((type(copy), copy.to_dict()), (Matrix, {(0, 1): 7, (2, 0): 5, (2, 1): 0}))

    def test_reads_make_no_change(self) -> None:
        known = self.p.facts().known
        self.t.nvals, self.t.to_dict(), self.t.get(0, 0), repr(self.t), self.t.reduce(), self.t.isequal(self.a)
        self.assertEqual(self.p.facts().known, known)

    def test_what_is_of_the_matrix_is_named(self) -> None:
        for name in "build", "clear", "resize", "free", "keep", "number", "last_info":
            message = rf"write A\.{name}, of the matrix itself$"
            with self.subTest(name=name), self.assertRaisesRegex(AttributeError, message):
                getattr(self.t, name)
        names = {
            "tocsr": "A.T.to_scipy()",
            "reduce_columnwise": 'A.T.T.reduce_rows("plus")',
            "S": "mask=A.T.dup(), structure=True",
            "update": "A[..] = x for a value, or an operation with out=A",
            "astype": "Matrix.from_lists(p, *A.T.shape, *A.T.to_lists()[:2], True, bool), a new matrix",
        }
        for name, wanted in names.items():
            with self.subTest(name=name), self.assertRaises(AttributeError) as caught:
                getattr(self.t, name)
            self.assertEqual(str(caught.exception), f"'Transposed' object has no attribute '{name}': write {wanted}")
        self.assertEqual(self.t.T.reduce_rows("plus").to_dict(), {0: 5, 1: 7})


class Compared(Views):
    def test_isequal_compares_what_is_read(self) -> None:
        turned = self.a.transpose()
        self.assertTrue(self.t.isequal(turned) and turned.isequal(self.t) and self.t.isequal(self.a.dup().T))
        self.assertFalse(self.t.isequal(self.a) or self.a.isequal(self.t) or self.t.isequal(self.p.vector(3)))
        self.assertFalse(self.t.isequal(self.p.matrix(3, 2, bool)))
        turned[2, 1] = 1
        self.assertFalse(self.t.isequal(turned) or turned.isequal(self.t))
        with self.assertRaisesRegex(TypeError, "is compared with a Matrix or a Vector, not a dict"):
            self.t.isequal({})  # type: ignore[arg-type]

    def test_views_of_one_matrix_are_equal(self) -> None:
        by_q = self.a.using(self.q).T
        self.assertTrue(self.t == self.a.T and self.t == by_q and not self.t != by_q)
        self.assertEqual((hash(self.t), len({self.t, by_q, self.a})), (hash(by_q), 2))
        self.assertFalse(self.t == 0 or self.t == "a" or self.t is None)

    def test_a_sign_does_not_compare_entries(self) -> None:
        calls: Dict[str, Callable[[], Any]] = {
            "the matrix": lambda: self.t == self.a,
            "a view": lambda: self.a == self.t,
            "another view": lambda: self.t != self.a.dup().T,
        }
        for name, call in calls.items():
            with self.subTest(name=name), self.assertRaisesRegex(TypeError, r"A.T.isequal\(B\)"):
                call()

    def test_signs_that_change_are_refused(self) -> None:
        b, t = self.p.matrix(3, 2), self.t
        with self.assertRaisesRegex(TypeError, r"A.T is a view of A: .* out=A"):
            t += b
        with self.assertRaisesRegex(TypeError, "A.T is a view of A"):
            t *= b
        with self.assertRaisesRegex(TypeError, "A.T is a view of A"):
            t @= b
        with self.assertRaisesRegex(TypeError, "A.T is a view of A"):
            self.a.T += b  # type: ignore[misc]
        self.assertEqual(self.a.to_dict(), {(0, 2): 5, (1, 0): 7, (1, 2): 0})


class Converted(Views):
    @unittest.skipIf(numpy is None, "there is no numpy")
    def test_arrays_of_numpy(self) -> None:
        rows, columns, values = self.t.to_numpy()
        self.assertEqual((rows.tolist(), columns.tolist(), values.tolist()), ([0, 2, 2], [1, 0, 1], [7, 5, 0]))
        self.assertEqual(self.t.toarray().tolist(), [[0, 7], [0, 0], [5, 0]])
        drawn = numpy.random.default_rng(1).integers(0, 3, (7, 5))
        a = Matrix.from_coo(self.p, *numpy.nonzero(drawn), drawn[drawn > 0], nrows=7, ncols=5)
        self.assertEqual(a.T.toarray().tolist(), drawn.T.tolist())
        rows, columns = numpy.nonzero(drawn.T)
        wanted = rows.tolist(), columns.tolist(), drawn.T[rows, columns].tolist()
        self.assertEqual(tuple(part.tolist() for part in a.T.to_coo()), wanted)
        self.assertEqual(a.T.to_lists(), wanted)

    @unittest.skipIf(sparse is None, "there is no scipy")
    def test_a_matrix_of_scipy(self) -> None:
        theirs = self.t.to_scipy()
        self.assertEqual((theirs.format, theirs.nnz, theirs.toarray().tolist()), ("csr", 3, [[0, 7], [0, 0], [5, 0]]))
        self.assertEqual((theirs != self.a.to_scipy().T).nnz, 0)

    @unittest.skipIf(networkx is None, "there is no networkx")
    def test_a_graph_of_networkx(self) -> None:
        a = Matrix.from_lists(self.p, 3, 3, [0, 1], [1, 2], [5, 6])
        wanted = networkx.reverse(a.to_networkx())
        self.assertEqual(sorted(a.T.to_networkx().edges(data="weight")), sorted(wanted.edges(data="weight")))
        self.assertEqual(list(a.T.to_networkx(nodes="xyz").edges), [("y", "x"), ("z", "y")])
        with self.assertRaisesRegex(ValueError, "3 rows and 2 columns"):
            self.t.to_networkx()


if __name__ == "__main__":
    unittest.main()
