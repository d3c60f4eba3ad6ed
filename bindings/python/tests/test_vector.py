"""The methods of a vector, but for operations."""

from __future__ import annotations

import unittest

from support import MOST_DIMENSION, MOST_NUMBER, StoreCase
from trowelheath import Info, Store, Vector


class Entries(StoreCase):
    def test_what_is_stored_is_read(self) -> None:
        v = self.p.vector(5)
        v[0] = 7
        v[4] = MOST_NUMBER
        v[2] = 0
        self.assertEqual((v[0], v[4], v[2], v.nvals), (7, MOST_NUMBER, 0, 3))
        v[0] = 8
        self.assertEqual((v[0], v.nvals), (8, 3))

    def test_truth_values_are_bools(self) -> None:
        v = self.p.vector(5, bool)
        v[0] = True
        v[1] = False
        self.assertIs(v[0], True)
        self.assertIs(v[1], False)

    def test_where_nothing_is_stored_there_is_no_value(self) -> None:
        v = self.p.vector(5)
        with self.assertRaises(KeyError) as caught:
            v[3]
        self.assertEqual(caught.exception.args, (3,))
        self.assertIsNone(v.get(3))
        self.assertEqual(v.get(3, 9), 9)
        self.assertFalse(3 in v)
        v[3] = 0
        self.assertEqual((v.get(3, 9), 3 in v), (0, True))

    def test_an_entry_is_removed_if_there_is_one(self) -> None:
        v = self.p.vector(5)
        v[3] = 5
        del v[3]
        del v[3]
        self.assertEqual(v.nvals, 0)

    def test_an_index_is_a_whole_number_from_0(self) -> None:
        v = self.p.vector(5)
        for i in "1", 1.0, None, slice(None), (1,):
            with self.subTest(i=i):
                with self.assertRaises(TypeError):
                    v[i]
                with self.assertRaises(TypeError):
                    v[i] = 1
                with self.assertRaises(TypeError):
                    del v[i]
        for i in -1, 2**64:
            with self.subTest(i=i), self.assertRaises(IndexError):
                v[i]

    def test_values_are_of_the_domain(self) -> None:
        v, w = self.p.vector(5), self.p.vector(5, bool)
        for x in -1, MOST_NUMBER + 1:
            with self.subTest(x=x), self.assertRaises(OverflowError):
                v[0] = x
        for x in 1.0, "1", None:
            with self.subTest(x=x), self.assertRaises(TypeError):
                v[0] = x
        for x in 1, 0, None:
            with self.subTest(x=x), self.assertRaises(TypeError):
                w[0] = x
        self.assertEqual((v.nvals, w.nvals), (0, 0))

    def test_the_largest_size_and_its_last_index(self) -> None:
        v = self.p.vector(MOST_DIMENSION, bool)
        v[MOST_DIMENSION - 1] = True
        self.assertEqual((v.to_dict(), v.size), ({MOST_DIMENSION - 1: True}, MOST_DIMENSION))


class Lists(StoreCase):
    def test_a_build_stores_its_list(self) -> None:
        v = self.p.vector(5)
        v.build([4, 0, 2], [7, 5, 0])
        self.assertEqual(v.to_lists(), ([0, 2, 4], [5, 0, 7]))
        self.assertEqual(list(v.items()), [(0, 5), (2, 0), (4, 7)])
        self.assertEqual((list(v.keys()), list(v.values())), ([0, 2, 4], [5, 0, 7]))
        self.assertEqual((v.to_dict(), dict(v)), ({0: 5, 2: 0, 4: 7}, {0: 5, 2: 0, 4: 7}))

    def test_an_empty_vector_has_no_entries(self) -> None:
        v = self.p.vector(5)
        self.assertEqual((v.to_lists(), list(v.keys()), len(v), v.to_dict()), (([], []), [], 0, {}))
        v.build([], [])
        self.assertEqual(len(v), 0)

    def test_truth_values_come_back_as_bools(self) -> None:
        v = Vector.from_lists(self.p, 5, [0, 1], [True, False], bool)
        self.assertIs(v.to_lists()[1][0], True)
        self.assertIs(v.to_lists()[1][1], False)

    def test_values_of_one_index_are_joined(self) -> None:
        for dup, wanted in (None, 12), ("plus", 12), ("times", 35), ("min", 5), ("max", 7):
            with self.subTest(dup=dup):
                self.assertEqual(Vector.from_lists(self.p, 5, [1, 1], [5, 7], dup=dup).to_dict(), {1: wanted})
        for dup, truth in (None, True), ("lor", True), ("land", False), ("lxor", True), ("lxnor", False):
            with self.subTest(dup=dup):
                v = Vector.from_lists(self.p, 5, [1, 1], [True, False], bool, dup)
                self.assertEqual(v.to_dict(), {1: truth})

    def test_one_value_may_stand_for_all(self) -> None:
        self.assertEqual(Vector.from_lists(self.p, 5, range(3), 9).to_lists(), ([0, 1, 2], [9, 9, 9]))

    def test_from_lists_frees_its_vector_where_it_fails(self) -> None:
        with self.assertRaises(IndexError):
            Vector.from_lists(self.p, 2, [2], [1])
        self.assertEqual(self.p.facts().known, 2)


class Life(StoreCase):
    def test_a_resize_forgets_what_is_outside(self) -> None:
        v = Vector.from_lists(self.p, 5, [0, 4], [1, 2])
        v.resize(3)
        v.resize(5)
        self.assertEqual((v.size, v.shape, v.to_dict()), (5, (5,), {0: 1}))

    def test_a_clear_keeps_the_size(self) -> None:
        v = Vector.from_lists(self.p, 5, [0, 4], [1, 2])
        v.clear()
        self.assertEqual((v.size, v.nvals), (5, 0))

    def test_a_copy_stands_for_itself(self) -> None:
        for dtype, x in (int, 5), (bool, True):
            v = Vector.from_lists(self.p, 5, [3], [x], dtype)
            w = v.dup()
            v.clear()
            self.assertEqual((w.dtype, w.size, w.to_dict(), v.to_dict()), (dtype, 5, {3: x}, {}))

    def test_a_vector_is_copied_to_another_store(self) -> None:
        v = Vector.from_lists(self.p, 5, [3], [True], bool)
        with Store(room=2) as other:
            w = v.copy_to(other.main)
            self.assertEqual((w.dtype, w.size, w.to_dict(), w.store), (bool, 5, {3: True}, other))

    def test_a_wait_changes_no_value(self) -> None:
        v, w = self.p.vector(5), self.p.vector(3)
        v[1] = 5
        # The first makes the vector and its set, the last what is left of all objects: another new one.
        for mode, made, settled in ("complete", 2, 0), ("complete", 0, 0), ("materialize", 1, 3):
            v.wait(mode)
            facts = self.p.facts()
            self.assertEqual((facts.known, facts.made, facts.settled), (3, made, settled), mode)
        self.assertEqual((v.to_dict(), w.to_dict()), ({1: 5}, {}))

    def test_totals_join_all_values(self) -> None:
        v = Vector.from_lists(self.p, 5, [0, 1, 2], [3, 5, MOST_NUMBER])
        wanted = {"plus": 7, "times": 2**64 - 15, "min": 3, "max": MOST_NUMBER}
        self.assertEqual({monoid: v.reduce(monoid) for monoid in wanted}, wanted)
        w = Vector.from_lists(self.p, 5, [0, 1], [True, False], bool)
        self.assertEqual([w.reduce(monoid) for monoid in ("lor", "land", "lxor", "lxnor")], [True, False, True, False])
        self.assertEqual(self.p.vector(5).reduce("min"), MOST_NUMBER)
        self.assertIs(self.p.vector(5, bool).reduce("land"), True)

    def test_the_last_status_is_that_of_the_pass(self) -> None:
        v = self.p.vector(5)
        self.assertEqual(v.last_info, Info.SUCCESS)
        self.assertIsNone(v.using(self.q).last_info)
        v.get(0)
        self.assertEqual(v.last_info, Info.NO_VALUE)

    def test_it_says_what_it_is(self) -> None:
        v = Vector.from_lists(self.p, 5, [0, 1], True, bool)
        self.assertEqual(repr(v), "<Vector 5 bool, 2 entries>\n   0    1 2 3 4\nTrue True . . .")
        v.free()
        self.assertIn("GrB_UNINITIALIZED_OBJECT", repr(v))


if __name__ == "__main__":
    unittest.main()
