"""How operations are called, as tests draw it: operators, values and options."""

from __future__ import annotations

from typing import Any, Dict, List, Optional, Tuple

from support import Draws

MONOIDS: Dict[type, List[str]] = {bool: ["lor", "land", "lxor", "lxnor"], int: ["plus", "times", "min", "max"]}
OPERATORS: Dict[type, List[str]] = {
    bool: [*MONOIDS[bool], "first_bool", "second_bool"],
    int: [*MONOIDS[int], "minus", "first", "second"],
}


def monoid_of(dtype: type, number: int) -> str:
    """One of the monoids of the domain, round about."""
    return MONOIDS[dtype][number % len(MONOIDS[dtype])]


def operator_of(dtype: type, number: int) -> str:
    """One of the operators of the domain, round about."""
    return OPERATORS[dtype][number % len(OPERATORS[dtype])]


class Choices(Draws):
    """Choices by chance, the same in each run."""

    def truth(self) -> bool:
        """True as often as false."""
        return self.below(2) == 1

    def dtype(self) -> type:
        return bool if self.truth() else int

    def value(self, dtype: type) -> Any:
        """A value of the domain; among the numbers are small ones and the two largest."""
        return self.below(2) == 1 if dtype is bool else (self.below(6) - 2) % 2**64

    def operator(self, dtype: type) -> str:
        return operator_of(dtype, self.below(42))

    def accum(self, dtype: type) -> Optional[str]:
        """An operator of the domain, or none."""
        return None if self.truth() else self.operator(dtype)

    def options(self) -> Dict[str, bool]:
        """Each option is given as often as not."""
        return {name: self.truth() for name in ("structure", "complement", "replace", "transpose", "transpose_second")}

    def function(self, dtype: type) -> Tuple[str, Dict[str, Any]]:
        """A function of a value: a unary operator, or a binary one and the value on one side of it."""
        operator, x = self.operator(dtype), self.value(dtype)
        number = self.below(5)
        if number < 2:
            return operator, {("left", "right")[number]: x}
        unary = {bool: ["identity_bool", "lnot", "lnot"], int: ["identity", "ainv", "bnot"]}
        return unary[dtype][number - 2], {}

    def diagonal(self) -> int:
        """A diagonal that is at most 3 off the main one."""
        k = self.below(4)
        return k if self.truth() else -k

    def test(self, dtype: type) -> Tuple[str, Any]:
        """A test of an entry, and what it compares with."""
        k, index, x = self.diagonal(), self.below(4), self.value(dtype)
        number = self.below(14)
        if number < 4:
            return ("tril", "triu", "diag", "offdiag")[number], k
        if number < 8:
            return ("rowle", "rowgt", "colle", "colgt")[number - 4], index
        return ("valueeq", "valuene", "valuelt", "valuele", "valuegt", "valuege")[number - 8], x
