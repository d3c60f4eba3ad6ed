"""The methods of a matrix, but for operations."""

from __future__ import annotations

import unittest

from support import MOST_DIMENSION, MOST_NUMBER, StoreCase
from trowelheath import Info, Matrix, Store


class Entries(StoreCase):
    def test_what_is_stored_is_read(self) -> None:
        a = self.p.matrix(3, 4)
        a[0, 3] = 7
        a[2, 0] = MOST_NUMBER
        a[1, 1] = 0
        self.assertEqual((a[0, 3], a[2, 0], a[1, 1]), (7, MOST_NUMBER, 0))
        self.assertIs(type(a[0, 3]), int)
        a[0, 3] = 8
        self.assertEqual((a[0, 3], a.nvals), (8, 3))

    def test_truth_values_are_bools(self) -> None:
        a = self.p.matrix(2, 2, bool)
        a[0, 0] = True
        a[0, 1] = False
        self.assertIs(a[0, 0], True)
        self.assertIs(a[0, 1], False)
        self.assertEqual(a.nvals, 2)

    def test_where_nothing_is_stored_there_is_no_value(self) -> None:
        a = self.p.matrix(3, 4)
        with self.assertRaises(KeyError) as caught:
            a[1, 2]
        self.assertEqual(caught.exception.args, ((1, 2),))
        self.assertIsNone(a.get(1, 2))
        self.assertEqual(a.get(1, 2, 9), 9)
        self.assertFalse((1, 2) in a)

    def test_a_stored_value_is_got_and_contained(self) -> None:
        a = self.p.matrix(3, 4)
        a[1, 2] = 0
        self.assertEqual(a.get(1, 2), 0)
        self.assertEqual(a.get(1, 2, 9), 0)
        self.assertTrue((1, 2) in a)

    def test_an_entry_is_removed_if_there_is_one(self) -> None:
        a = self.p.matrix(3, 4)
        a[1, 2] = 5
        del a[1, 2]
        self.assertFalse((1, 2) in a)
        del a[1, 2]
        self.assertEqual(a.nvals, 0)

    def test_a_place_is_a_pair_of_whole_numbers(self) -> None:
        a = self.p.matrix(3, 4)
        for place in 1, (1,), (1, 2, 3), "ab", [1, 2], None, (slice(None), 1), (1.0, 1), ("1", 1):
            with self.subTest(place=place):
                with self.assertRaises(TypeError):
                    a[place]
                with self.assertRaises(TypeError):
                    a[place] = 1
                with self.assertRaises(TypeError):
                    del a[place]

    def test_a_negative_index_does_not_count_from_the_end(self) -> None:
        a = self.p.matrix(3, 4)
        for place in (-1, 0), (0, -1), (2**64, 0):
            with self.subTest(place=place), self.assertRaises(IndexError):
                a[place]

    def test_numbers_are_from_0_to_the_largest_of_64_bits(self) -> None:
        a = self.p.matrix(3, 4)
        for x in -1, MOST_NUMBER + 1:
            with self.subTest(x=x), self.assertRaises(OverflowError):
                a[0, 0] = x
        for x in 1.0, "1", None:
            with self.subTest(x=x), self.assertRaises(TypeError):
                a[0, 0] = x
        self.assertEqual(a.nvals, 0)

    def test_a_bool_matrix_takes_bools(self) -> None:
        a = self.p.matrix(3, 4, bool)
        for x in 1, 0, None, "True":
            with self.subTest(x=x), self.assertRaises(TypeError):
                a[0, 0] = x
        self.assertEqual(a.nvals, 0)

    def test_the_largest_dimensions_and_their_last_place(self) -> None:
        a = self.p.matrix(MOST_DIMENSION, MOST_DIMENSION)
        last = MOST_DIMENSION - 1
        a[last, last] = 3
        self.assertEqual((a[last, last], a.shape), (3, (MOST_DIMENSION, MOST_DIMENSION)))


class Lists(StoreCase):
    ROWS, COLUMNS, VALUES = [2, 0, 1, 0], [1, 3, 0, 0], [7, 5, 0, MOST_NUMBER]
    ENTRIES = {(0, 0): MOST_NUMBER, (0, 3): 5, (1, 0): 0, (2, 1): 7}

    def test_a_build_stores_its_list(self) -> None:
        a = self.p.matrix(3, 4)
        a.build(self.ROWS, self.COLUMNS, self.VALUES)
        self.assertEqual(a.to_dict(), self.ENTRIES)
        self.assertEqual(len(a), 4)

    def test_all_entries_come_row_by_row(self) -> None:
        a = Matrix.from_lists(self.p, 3, 4, self.ROWS, self.COLUMNS, self.VALUES)
        self.assertEqual(a.to_lists(), ([0, 0, 1, 2], [0, 3, 0, 1], [MOST_NUMBER, 5, 0, 7]))
        self.assertEqual(list(a.items()), list(self.ENTRIES.items()))
        self.assertEqual(list(a.keys()), list(self.ENTRIES))
        self.assertEqual(list(a.values()), list(self.ENTRIES.values()))
        self.assertEqual(dict(a), self.ENTRIES)

    def test_an_empty_matrix_has_no_entries(self) -> None:
        a = self.p.matrix(3, 4)
        self.assertEqual((a.to_lists(), list(a.keys()), len(a), a.to_dict()), (([], [], []), [], 0, {}))
        self.assertFalse(a)

    def test_truth_values_come_back_as_bools(self) -> None:
        a = Matrix.from_lists(self.p, 2, 2, [0, 1], [1, 0], [True, False], dtype=bool)
        rows, columns, values = a.to_lists()
        self.assertEqual((rows, columns), ([0, 1], [1, 0]))
        self.assertIs(values[0], True)
        self.assertIs(values[1], False)

    def test_values_of_one_place_are_joined(self) -> None:
        cases = (int, None, 12), (int, "plus", 12), (int, "times", 35), (int, "min", 5), (int, "max", 7)
        for dtype, dup, wanted in cases:
            with self.subTest(dup=dup):
                a = Matrix.from_lists(self.p, 2, 2, [1, 1], [0, 0], [5, 7], dtype, dup)
                self.assertEqual(a.to_dict(), {(1, 0): wanted})
        for dup, truth in (None, True), ("lor", True), ("land", False), ("lxor", True), ("lxnor", False):
            with self.subTest(dup=dup):
                b = Matrix.from_lists(self.p, 2, 2, [1, 1], [0, 0], [True, False], bool, dup)
                self.assertEqual(b.to_dict(), {(1, 0): truth})

    def test_one_value_may_stand_for_all(self) -> None:
        a = Matrix.from_lists(self.p, 3, 3, [0, 1, 2], [1, 2, 0], 9)
        self.assertEqual(a.to_lists()[2], [9, 9, 9])
        b = Matrix.from_lists(self.p, 3, 3, [0, 1, 2], [1, 2, 0], True, bool)
        self.assertEqual(b.to_lists()[2], [True, True, True])

    def test_an_empty_list_builds_nothing(self) -> None:
        a = self.p.matrix(3, 4)
        a.build([], [], [])
        a.build([], [], 1)
        self.assertEqual(a.nvals, 0)
        a.build([1], [1], [1])
        self.assertEqual(a.nvals, 1)

    def test_lists_of_another_form_are_refused_before_the_call(self) -> None:
        a, b = self.p.matrix(3, 4), self.p.matrix(3, 4, bool)
        cases = [
            (TypeError, lambda: a.build([0], [0], [1.5])),
            (TypeError, lambda: a.build(["0"], [0], [1])),
            (TypeError, lambda: a.build(0, [0], [1])),
            (OverflowError, lambda: a.build([0], [0], [-1])),
            (OverflowError, lambda: a.build([0], [0], [2**64])),
            (IndexError, lambda: a.build([-1], [0], [1])),
            (IndexError, lambda: a.build([0], [2**64], [1])),
            (TypeError, lambda: b.build([0], [0], [1])),
            (TypeError, lambda: b.build([0], [0], 0)),
            (ValueError, lambda: a.build([0], [0], [1], "minus")),
        ]
        for place, (kind, call) in enumerate(cases):
            with self.subTest(place=place), self.assertRaises(kind):
                call()
        self.assertEqual((a.nvals, b.nvals, a.last_info), (0, 0, Info.SUCCESS))

    def test_from_lists_frees_its_matrix_where_it_fails(self) -> None:
        with self.assertRaises(IndexError):
            Matrix.from_lists(self.p, 2, 2, [2], [0], [1])
        with self.assertRaises(TypeError):
            Matrix.from_lists(self.p, 2, 2, [0], [0], ["x"])
        self.assertEqual(self.p.facts().known, 4)

    def test_a_long_list_comes_back(self) -> None:
        size = 300
        places = [(i, j) for i in range(size) for j in range(0, size, 7)]
        a = Matrix.from_lists(self.p, size, size, *zip(*places), range(len(places)))
        self.assertEqual(list(a.using(self.q).items()), list(zip(places, range(len(places)))))


class Life(StoreCase):
    def test_dimensions_are_told(self) -> None:
        a = self.p.matrix(3, 4)
        self.assertEqual((a.shape, a.nrows, a.ncols), ((3, 4), 3, 4))

    def test_a_resize_forgets_what_is_outside(self) -> None:
        a = Matrix.from_lists(self.p, 3, 4, [0, 2, 0], [0, 1, 3], [1, 2, 3])
        a.resize(2, 3)
        self.assertEqual((a.shape, a.to_dict()), ((2, 3), {(0, 0): 1}))
        a.resize(3, 4)
        self.assertEqual((a.shape, a.to_dict()), ((3, 4), {(0, 0): 1}))

    def test_a_clear_keeps_the_dimensions(self) -> None:
        a = Matrix.from_lists(self.p, 3, 4, [0], [0], [1])
        a.clear()
        self.assertEqual((a.shape, a.nvals), ((3, 4), 0))

    def test_a_copy_stands_for_itself(self) -> None:
        for dtype, x in (int, 5), (bool, True):
            a = Matrix.from_lists(self.p, 3, 4, [1], [2], [x], dtype)
            b = a.dup()
            a.clear()
            self.assertEqual((b.dtype, b.shape, b.to_dict(), a.to_dict()), (dtype, (3, 4), {(1, 2): x}, {}))
            self.assertNotEqual(a.number, b.number)

    def test_a_matrix_is_copied_to_another_store(self) -> None:
        for dtype, x in (int, 5), (bool, False):
            a = Matrix.from_lists(self.p, 3, 4, [1], [2], [x], dtype)
            with Store(room=4) as other:
                b = a.copy_to(other.main)
                self.assertEqual((b.dtype, b.shape, b.to_dict(), b.store), (dtype, (3, 4), {(1, 2): x}, other))

    def test_a_wait_changes_no_value(self) -> None:
        a, b = self.p.matrix(3, 4), self.p.matrix(2, 2)
        a[1, 2] = 5
        # The first makes the matrix and its set, the last what is left of all objects: another new one.
        for mode, made, settled in ([], 2, 0), (["complete"], 0, 0), (["materialize"], 1, 3):
            a.wait(*mode)
            facts = self.p.facts()
            self.assertEqual((facts.known, facts.made, facts.settled), (3, made, settled), mode)
        self.assertEqual((a.to_dict(), b.to_dict()), ({(1, 2): 5}, {}))
        with self.assertRaises(ValueError):
            a.wait("later")

    def test_totals_join_all_values(self) -> None:
        a = Matrix.from_lists(self.p, 3, 4, [0, 1, 2], [0, 1, 2], [3, 5, MOST_NUMBER])
        wanted = {"plus": 7, "times": 2**64 - 15, "min": 3, "max": MOST_NUMBER}
        self.assertEqual({monoid: a.reduce(monoid) for monoid in wanted}, wanted)
        b = Matrix.from_lists(self.p, 3, 4, [0, 1], [0, 1], [True, False], bool)
        truths = {"lor": True, "land": False, "lxor": True, "lxnor": False}
        self.assertEqual({monoid: b.reduce(monoid) for monoid in truths}, truths)
        self.assertIs(b.reduce("lor"), True)

    def test_totals_of_nothing_are_identities(self) -> None:
        a, b = self.p.matrix(3, 4), self.p.matrix(3, 4, bool)
        wanted = {"plus": 0, "times": 1, "min": MOST_NUMBER, "max": 0}
        self.assertEqual({monoid: a.reduce(monoid) for monoid in wanted}, wanted)
        truths = {"lor": False, "land": True, "lxor": False, "lxnor": True}
        self.assertEqual({monoid: b.reduce(monoid) for monoid in truths}, truths)

    def test_the_last_status_is_that_of_the_pass(self) -> None:
        a = self.p.matrix(3, 4)
        other = a.using(self.q)
        self.assertEqual(a.last_info, Info.SUCCESS)
        self.assertIsNone(other.last_info)
        a.get(1, 1)
        self.assertEqual(a.last_info, Info.NO_VALUE)
        with self.assertRaises(IndexError):
            other[9, 9]
        self.assertEqual((other.last_info, a.last_info), (Info.INVALID_INDEX, Info.NO_VALUE))

    def test_it_says_what_it_is(self) -> None:
        a = self.p.matrix(3, 4)
        self.assertEqual(repr(a).split("\n")[0], "<Matrix 3x4 int, 0 entries>")
        a.resize(5, 4)
        self.assertEqual(repr(a.using(self.q)).split("\n")[0], "<Matrix 5x4 int, 0 entries>")
        self.assertEqual(repr(self.p.matrix(1, 2, bool)), "<Matrix 1x2 bool, 0 entries>\n  0 1\n0 . .")
        a.free()
        self.assertIn("GrB_UNINITIALIZED_OBJECT", repr(a))


if __name__ == "__main__":
    unittest.main()
