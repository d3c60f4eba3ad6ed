"""Numbers, truth values, indices and lists on their way to the library."""

from __future__ import annotations

import ctypes
import unittest
from array import array
from typing import List

from support import MOST_NUMBER
from trowelheath.convert import (
    Buffer,
    apart,
    diagonal,
    dimension,
    index,
    indices,
    new_array,
    number,
    numbers,
    truth,
    truths,
    values_of,
)
from trowelheath.operators import BOOL, UINT64


def words(buffer: Buffer) -> List[int]:
    """The numbers that C sees in a buffer."""
    return list((ctypes.c_uint64 * buffer.length).from_address(buffer.address))


def bytes_of(buffer: Buffer) -> List[int]:
    """The bytes that C sees in a buffer of truth values."""
    return list((ctypes.c_uint8 * buffer.length).from_address(buffer.address))


class Scalars(unittest.TestCase):
    def test_numbers_are_from_0_to_the_largest_of_64_bits(self) -> None:
        for x in 0, 1, MOST_NUMBER:
            self.assertEqual(number(x), x)
        for x in -1, MOST_NUMBER + 1, -(2**70):
            with self.subTest(x=x), self.assertRaises(OverflowError):
                number(x)

    def test_what_is_no_whole_number_is_refused(self) -> None:
        for x in 1.0, "1", None, [1]:
            for convert in number, index, dimension, diagonal:
                with self.subTest(x=x, convert=convert.__name__), self.assertRaises(TypeError):
                    convert(x)

    def test_an_index_out_of_range_is_an_index_error(self) -> None:
        self.assertEqual(index(MOST_NUMBER), MOST_NUMBER)
        for x in -1, MOST_NUMBER + 1:
            with self.subTest(x=x), self.assertRaises(IndexError):
                index(x)

    def test_a_diagonal_out_of_range_is_a_value_error(self) -> None:
        for x in 0, 2**32 - 1, 1 - 2**32:
            self.assertEqual(diagonal(x), x)
        for x in 2**32, -(2**32), 2**64:
            with self.subTest(x=x), self.assertRaisesRegex(ValueError, f"the diagonal {x} is not from"):
                diagonal(x)

    def test_a_dimension_out_of_range_is_a_value_error(self) -> None:
        self.assertEqual(dimension(5), 5)
        for x in -1, MOST_NUMBER + 1:
            with self.subTest(x=x), self.assertRaises(ValueError):
                dimension(x)

    def test_truth_values_are_bools_alone(self) -> None:
        self.assertIs(truth(True), True)
        self.assertIs(truth(False), False)
        for x in 0, 1, None, "True", 1.0:
            with self.subTest(x=x), self.assertRaises(TypeError):
                truth(x)


class Lists(unittest.TestCase):
    def test_any_iterable_of_whole_numbers_is_a_list(self) -> None:
        cases = [0, 1, MOST_NUMBER], (0, 1, MOST_NUMBER), iter([0, 1, MOST_NUMBER]), array("Q", [0, 1, MOST_NUMBER])
        for values in cases:
            with self.subTest(values=values):
                self.assertEqual(words(numbers(values)), [0, 1, MOST_NUMBER])
        self.assertEqual(words(numbers(range(4))), [0, 1, 2, 3])
        self.assertEqual(words(numbers({7: "seven"}.keys())), [7])

    def test_a_number_out_of_range_is_refused(self) -> None:
        for values in [-1], [0, MOST_NUMBER + 1]:
            with self.subTest(values=values), self.assertRaises(OverflowError):
                numbers(values)
            with self.subTest(values=values), self.assertRaises(IndexError):
                indices(values)

    def test_what_is_no_list_of_whole_numbers_is_refused(self) -> None:
        for values in [1.0], ["1"], "12", [None], [[1]], 5:
            with self.subTest(values=values), self.assertRaises(TypeError):
                numbers(values)

    def test_what_can_be_run_through_and_is_no_list_is_refused(self) -> None:
        for values in bytes(range(8)), bytearray(8), {1, 2}, frozenset([1]), {1: 2}, "12":
            for convert in numbers, truths, indices:
                with self.subTest(values=values), self.assertRaisesRegex(TypeError, "is no list of entries"):
                    convert(values)
        self.assertEqual(words(numbers({5: 6, 7: 8}.values())), [6, 8])

    def test_the_item_that_is_refused_is_named(self) -> None:
        cases = [
            (numbers, [1, 2.5], TypeError, "item 1 of the list: .* takes whole numbers .*, not 2.5, of type float"),
            (numbers, [1, 2, -3], OverflowError, "item 2 of the list: -3"),
            (indices, [0, 2**64], IndexError, "item 1 of the list"),
            (truths, [True, 1], TypeError, "item 1 of the list: .* takes True and False, not 1"),
        ]
        for convert, values, kind, message in cases:
            with self.subTest(values=values), self.assertRaisesRegex(kind, message):
                convert(values)

    def test_truth_values_are_bytes_of_0_and_1(self) -> None:
        self.assertEqual(bytes_of(truths([True, False, True])), [1, 0, 1])
        for values in [1], [True, 0], ["True"]:
            with self.subTest(values=values), self.assertRaises(TypeError):
                truths(values)

    def test_one_value_stands_for_all(self) -> None:
        self.assertEqual(words(values_of(UINT64, 7, 3)), [7, 7, 7])
        self.assertEqual(bytes_of(values_of(BOOL, True, 2)), [1, 1])
        self.assertEqual(values_of(UINT64, 7, 0).length, 0)
        with self.assertRaises(OverflowError):
            values_of(UINT64, -1, 3)
        with self.assertRaises(TypeError):
            values_of(BOOL, 1, 3)

    def test_an_empty_list_has_an_address_of_its_own(self) -> None:
        empty = numbers([]), indices([]), truths([]), new_array(UINT64, 0), new_array(BOOL, 0)
        self.assertEqual({buffer.length for buffer in empty}, {0})
        self.assertEqual(len({buffer.address for buffer in empty} - {0}), len(empty))

    def test_a_new_array_is_of_zeros(self) -> None:
        self.assertEqual(words(new_array(UINT64, 5)), [0] * 5)
        self.assertEqual(bytes_of(new_array(BOOL, 5)), [0] * 5)

    def test_lists_of_their_own_memory_are_apart_as_they_are(self) -> None:
        buffers = [numbers([1, 2]), numbers([1, 2]), truths([True])]
        self.assertEqual(apart(buffers), buffers)


if __name__ == "__main__":
    unittest.main()
