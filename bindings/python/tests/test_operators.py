"""Names of operators, monoids, semirings and domains."""

from __future__ import annotations

import unittest

from trowelheath import MONOIDS, OPERATORS, TESTS, UNARY_OPERATORS
from trowelheath.operators import (
    BOOL,
    UINT64,
    descriptor,
    domain_of,
    domain_of_operator,
    is_of_diagonals,
    is_of_values,
    is_unary,
    monoid_number,
    operator_number,
    semiring_numbers,
    wait_mode_number,
)


class Names(unittest.TestCase):
    def test_each_operator_has_its_number(self) -> None:
        names = "lor land lxor lxnor first_bool second_bool plus times min max minus first second".split()
        self.assertEqual(dict(OPERATORS), {name: number for number, name in enumerate(names, start=1)})

    def test_a_monoid_has_the_number_of_its_operator(self) -> None:
        self.assertEqual(sorted(MONOIDS), ["land", "lor", "lxnor", "lxor", "max", "min", "plus", "times"])
        for name, number in MONOIDS.items():
            self.assertEqual(number, OPERATORS[name])

    def test_each_unary_operator_has_its_number(self) -> None:
        names = "identity_bool lnot identity ainv bnot".split()
        self.assertEqual(dict(UNARY_OPERATORS), {name: number for number, name in enumerate(names, start=1)})
        self.assertEqual([domain_of_operator(name) for name in names], ["bool"] * 2 + ["uint64"] * 3)

    def test_each_test_has_its_number(self) -> None:
        names = (
            "tril triu diag offdiag rowle rowgt colle colgt valueeq valuene valuelt valuele valuegt valuege".split()
        )
        self.assertEqual(dict(TESTS), {name: number for number, name in enumerate(names, start=1)})
        self.assertEqual([name for name in names if is_of_diagonals(name)], names[:4])
        self.assertEqual([name for name in names if is_of_values(name)], names[8:])

    def test_the_tables_cannot_be_changed(self) -> None:
        for table in OPERATORS, MONOIDS, UNARY_OPERATORS, TESTS:
            with self.assertRaises(TypeError):
                table["pair"] = 14

    def test_an_operator_that_is_no_monoid_is_refused_as_one(self) -> None:
        self.assertEqual(operator_number("minus"), 11)
        with self.assertRaisesRegex(ValueError, "'minus' is no monoid"):
            monoid_number("minus")

    def test_an_unknown_name_is_refused_with_those_that_are_known(self) -> None:
        for name in "divide", "", None, [], 7:
            with self.subTest(name=name), self.assertRaisesRegex(ValueError, "no operator; these are: lor, land"):
                operator_number(name)

    def test_an_operator_is_unary_or_binary(self) -> None:
        self.assertEqual([is_unary(name) for name in ("ainv", "lnot", "minus", "lor")], [True, True, False, False])
        for name in "divide", "", None, [], 7:
            with self.subTest(name=name), self.assertRaisesRegex(ValueError, "no operator; these are: identity_bool,"):
                is_unary(name)
            with self.subTest(name=name), self.assertRaisesRegex(ValueError, "no test; these are: tril, triu"):
                is_of_values(name)

    def test_a_semiring_is_a_monoid_a_dot_and_an_operator(self) -> None:
        self.assertEqual(semiring_numbers("min.plus"), (9, 7))
        self.assertEqual(semiring_numbers("lor.second_bool"), (1, 6))
        for name in "plus", "plus times", "plus.", ".times", "minus.times", "plus.times.plus", None:
            with self.subTest(name=name), self.assertRaises(ValueError):
                semiring_numbers(name)

    def test_a_domain_is_named_by_its_type(self) -> None:
        self.assertIs(domain_of(bool), BOOL)
        self.assertIs(domain_of(int), UINT64)
        self.assertEqual((BOOL.code, UINT64.code), (1, 9))
        for dtype in float, str, 1, "int", None:
            with self.subTest(dtype=dtype), self.assertRaises(TypeError):
                domain_of(dtype)

    def test_a_wait_mode_has_its_number(self) -> None:
        self.assertEqual((wait_mode_number("complete"), wait_mode_number("materialize")), (0, 1))
        with self.assertRaises(ValueError):
            wait_mode_number("later")

    def test_a_descriptor_has_a_bit_for_each_option(self) -> None:
        none = {"replace": False, "complement": False, "structure": False, "transpose": False}
        self.assertEqual(descriptor(**none), 0)
        for option, bit in ("replace", 1), ("complement", 2), ("structure", 4), ("transpose", 8):
            self.assertEqual(descriptor(**{**none, option: True}), bit)
        self.assertEqual(descriptor(**dict.fromkeys(none, True)), 15)
        self.assertEqual(descriptor(**none, transpose_second=True), 16)
        self.assertEqual(descriptor(**dict.fromkeys(none, True), transpose_second=True), 31)


if __name__ == "__main__":
    unittest.main()
