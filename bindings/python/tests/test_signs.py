"""Signs that change an object, signs that compare, and those that say what to write."""

from __future__ import annotations

import unittest
from typing import Any, Callable, Dict

from optional import numpy, sparse
from support import StoreCase
from trowelheath import DimensionMismatch, Matrix, OrderFull, Store, Vector


class Sample(StoreCase):
    """A is {(0, 1): 7, (1, 2): 8, (2, 0): 9}, B is {(0, 0): 1, (0, 1): 2}, and v is {0: 30, 2: 10}."""

    def setUp(self) -> None:
        super().setUp()
        self.a = Matrix.from_lists(self.p, 3, 3, [0, 1, 2], [1, 2, 0], [7, 8, 9])
        self.b = Matrix.from_lists(self.p, 3, 3, [0, 0], [0, 1], [1, 2])
        self.v = Vector.from_lists(self.p, 3, [0, 2], [30, 10])


class InPlace(Sample):
    def test_a_matrix_itself_changes_by_one_call(self) -> None:
        a, by_q, same = self.a, self.a.using(self.q), self.a
        known = self.p.facts().known
        a += self.b
        self.assertEqual((a is same, a.to_dict()), (True, {(0, 0): 1, (0, 1): 9, (1, 2): 8, (2, 0): 9}))
        a *= self.b
        self.assertEqual((a is same, a.to_dict()), (True, {(0, 0): 1, (0, 1): 18}))
        a @= self.b
        self.assertEqual((a is same, a.to_dict()), (True, {(0, 0): 1, (0, 1): 2}))
        self.assertEqual((by_q.to_dict(), self.p.facts().known), (a.to_dict(), known + 3))

    def test_a_vector_itself_changes_by_one_call(self) -> None:
        v, by_q, same = self.v, self.v.using(self.q), self.v
        w = Vector.from_lists(self.p, 3, [0, 1], [2, 3])
        known = self.p.facts().known
        v += w
        self.assertEqual((v is same, v.to_dict()), (True, {0: 32, 1: 3, 2: 10}))
        v *= w
        self.assertEqual((v is same, v.to_dict()), (True, {0: 64, 1: 9}))
        # 64 * 7 and 9 * 8
        v @= self.a
        self.assertEqual((v is same, v.to_dict()), (True, {1: 448, 2: 72}))
        # 448 * 7 at row 0, 72 * 8 at row 1
        v @= self.a.T
        self.assertEqual((v is same, v.to_dict()), (True, {0: 3136, 1: 576}))
        self.assertEqual((by_q.to_dict(), self.p.facts().known), (v.to_dict(), known + 4))

    def test_an_object_is_on_both_sides(self) -> None:
        a = self.a
        a += a.T
        self.assertEqual(a.to_dict(), {(0, 1): 7, (0, 2): 9, (1, 0): 7, (1, 2): 8, (2, 0): 9, (2, 1): 8})
        b = self.b
        b += b
        b *= b.T
        self.assertEqual(b.to_dict(), {(0, 0): 4})
        self.v += self.v
        self.assertEqual(self.v.to_dict(), {0: 60, 2: 20})

    @unittest.skipIf(numpy is None, "there is no numpy")
    def test_numpy_changes_the_same(self) -> None:
        draws = numpy.random.default_rng(3)
        theirs, other = (draws.integers(0, 3, (6, 6)).astype("uint64") for _ in range(2))
        places = numpy.nonzero(theirs)
        ours = Matrix.from_coo(self.p, *places, theirs[places], nrows=6, ncols=6)
        others = Matrix.from_coo(self.p, *numpy.nonzero(other), other[other > 0], nrows=6, ncols=6)
        changes: Dict[str, Callable[[Any, Any], Any]] = {
            "+=": lambda one, two: one.__iadd__(two),
            "*=": lambda one, two: one.__imul__(two),
        }
        for name, change in changes.items():
            change(ours, others)
            change(theirs, other)
            self.assertEqual(ours.toarray().tolist(), theirs.tolist(), name)
        # numpy of this release has no @= of its own.
        theirs = theirs @ other
        ours @= others
        self.assertEqual(ours.toarray().tolist(), theirs.tolist())
        ours @= ours
        self.assertEqual(ours.toarray().tolist(), (theirs @ theirs).tolist())

    def test_where_it_is_refused_nothing_changes(self) -> None:
        a, wanted = self.a, self.a.to_dict()
        wide = self.p.matrix(3, 4)
        for change in a.__iadd__, a.__imul__, a.__imatmul__, self.v.__imatmul__:
            with self.assertRaises(DimensionMismatch):
                change(wide)
        with Store(room=2) as store:
            b = store.main.matrix(2, 2)
            b[0, 0] = 3
            same = b
            with self.assertRaises(OrderFull):
                b += b
            self.assertEqual((b is same, b.to_dict()), (True, {(0, 0): 3}))
        self.assertEqual((a.to_dict(), self.v.to_dict()), (wanted, {0: 30, 2: 10}))

    def test_what_is_not_taken_is_refused_before(self) -> None:
        a, v, truths = self.a, self.v, self.p.matrix(3, 3, bool)
        known = self.p.facts().known
        with self.assertRaisesRegex(TypeError, r"A @ u makes a new one"):
            a @= v
        with self.assertRaisesRegex(TypeError, r'ewise_add\(B, "lor"\)'):
            truths += truths
        with self.assertRaisesRegex(TypeError, r'ewise_mult\(B, "land"\)'):
            truths *= truths
        for other in 1, v, "a", None:
            with self.subTest(other=other), self.assertRaisesRegex(TypeError, "unsupported operand"):
                a += other
        with self.assertRaisesRegex(TypeError, "unsupported operand"):
            v *= a
        self.assertEqual((a.to_dict(), self.p.facts().known), ({(0, 1): 7, (1, 2): 8, (2, 0): 9}, known))

    @unittest.skipIf(sparse is None, "there is no scipy")
    def test_arrays_and_matrices_of_scipy_are_refused(self) -> None:
        a = self.a
        for other in numpy.ones((3, 3)), sparse.csr_array(numpy.ones((3, 3))):
            for change in a.__iadd__, a.__imul__, a.__imatmul__:
                with self.subTest(other=type(other).__name__):
                    try:
                        self.assertIs(change(other), NotImplemented)
                    except TypeError as fault:
                        self.assertIn("to_numpy()", str(fault))
        self.assertEqual(a.nvals, 3)


@unittest.skipIf(sparse is None, "there is no scipy")
class Compared(Sample):
    def test_a_matrix_of_scipy_is_not_compared_by_a_sign(self) -> None:
        theirs = self.a.to_scipy()
        calls: Dict[str, Callable[[], Any]] = {
            "A == S": lambda: self.a == theirs,
            "A != S": lambda: self.a != theirs,
            "A.T == S": lambda: self.a.T == theirs,
            "v == S": lambda: self.v == theirs,
            "S in [A]": lambda: theirs in [self.a],
            "coo": lambda: self.a == sparse.coo_matrix(theirs),
        }
        for name, call in calls.items():
            with self.subTest(name=name), self.assertRaisesRegex(TypeError, r"A.isequal\(.*A.to_scipy\(\) != S"):
                call()
        # What it says to write.
        self.assertTrue(self.a.isequal(Matrix.from_scipy(self.a.pass_, theirs)))
        self.assertEqual(((self.a.to_scipy() != theirs).nnz, (self.b.to_scipy() != theirs).nnz), (0, 4))

    def test_an_array_of_numpy_is_not_compared_by_a_sign(self) -> None:
        for item in self.a, self.a.T, self.v:
            for call in lambda: item == item.toarray(), lambda: item != numpy.ones(3):
                with self.subTest(item=type(item).__name__), self.assertRaisesRegex(TypeError, r"toarray\(\) an array"):
                    call()


class Elsewhere(Sample):
    def test_a_sign_of_other_packages_says_what_to_write(self) -> None:
        a, b, v = self.a, self.b, self.v
        calls: Dict[str, Callable[[], Any]] = {
            r"for \*: 'Matrix' and 'int': write A.apply\(\"times\", x\)$": lambda: a * 2,
            r"for \*: 'int' and 'Vector': write v.apply\(\"times\", x\)$": lambda: 2 * v,
            r"for \+: 'Matrix' and 'int': write A.apply\(\"plus\", x\), of what is stored$": lambda: a + 1,
            r"for -: 'int' and 'Matrix': write A.apply\(\"minus\", left=x\)": lambda: 9 - a,
            r"for -: 'Vector' and 'int': write v.apply\(\"minus\", x\)": lambda: v - 1,
            r"for -: 'Matrix' and 'Matrix': write A.ewise_mult\(B, \"minus\"\), where both": lambda: a - b,
            r"for -: 'Transposed' and 'Matrix': write A.T.ewise_mult\(B, \"minus\"\)": lambda: a.T - b,
            r"for >: 'Matrix' and 'int': write A.select\(\"valuegt\", x\)": lambda: a > 5,
            r"for <=: 'Vector' and 'int': write v.select\(\"valuele\", x\)": lambda: v <= 5,
            r"for <: 'Matrix' and 'int': write A.select\(\"valuelt\", x\)": lambda: 5 > a,
            r"for \*\*: 'Matrix' and 'int': write A.ewise_mult\(A, \"times\"\)": lambda: a**2,
            r"for &: 'Matrix' and 'Matrix': write A.ewise_mult\(B, \"land\"\)": lambda: a & b,
            r"for \|: 'Matrix' and 'Matrix': write A.ewise_add\(B, \"lor\"\)": lambda: a | b,
            r"for <<: 'Matrix' and 'Matrix': write an operation with out=$": lambda: a << b,
            r"unary -: 'Matrix': write A.apply\(\"ainv\"\)": lambda: -a,
            r"unary ~: 'Vector': write v.apply\(\"bnot\"\)": lambda: ~v,
        }
        for message, call in calls.items():
            with self.subTest(message=message), self.assertRaisesRegex(TypeError, message):
                call()

    def test_other_signs_are_no_signs(self) -> None:
        a, v = self.a, self.v
        calls: Any = [lambda: a - v, lambda: a / 2, lambda: a - "a", lambda: a % 2, lambda: v & a, lambda: [] - a]
        for place, call in enumerate(calls):
            with self.subTest(place=place), self.assertRaisesRegex(TypeError, "unsupported operand.*'$"):
                call()
        for call in lambda: a > a, lambda: v < None, lambda: sorted([a, a]):
            with self.assertRaisesRegex(TypeError, "not supported between instances"):
                call()

    @unittest.skipIf(numpy is None, "there is no numpy")
    def test_numbers_of_numpy_are_numbers(self) -> None:
        for call in lambda: self.v * numpy.uint64(5), lambda: numpy.int32(5) * self.v:
            with self.assertRaisesRegex(TypeError, r"v.apply\(\"times\", x\)"):
                call()
        for call in lambda: self.v > numpy.ones(3), lambda: numpy.ones((3, 3)) - self.a:
            with self.assertRaisesRegex(TypeError, "is no array of numpy"):
                call()


if __name__ == "__main__":
    unittest.main()
