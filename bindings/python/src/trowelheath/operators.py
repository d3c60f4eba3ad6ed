"""Domains, operators, monoids, semirings, tests and descriptors, by their names.

| Operator | Domain | Of two values | Monoid, with its identity |
|---|---|---|---|
| `lor` | bool | true where one of both is | False |
| `land` | bool | true where both are | True |
| `lxor` | bool | true where both differ | False |
| `lxnor` | bool | true where both are equal | True |
| `first_bool` | bool | the first | none |
| `second_bool` | bool | the second | none |
| `plus` | int | the sum, modulo 2**64 | 0 |
| `times` | int | the product, modulo 2**64 | 1 |
| `min` | int | the smaller | 2**64 - 1 |
| `max` | int | the larger | 0 |
| `minus` | int | the difference, modulo 2**64 | none |
| `first` | int | the first | none |
| `second` | int | the second | none |

A semiring is a monoid and an operator of one domain with a dot or an underscore between them: `"min.plus"`, or
`"min_plus"`, adds along a path and takes the least over all paths.

| Unary operator | Domain | Of a value |
|---|---|---|
| `identity_bool` | bool | the value |
| `lnot` | bool | true where it is false |
| `identity` | int | the value |
| `ainv` | int | the negative, modulo 2**64 |
| `bnot` | int | the complement of all 64 bits |

A test says which entries stay. It compares the place or the value of each with a number or a value x:

| Test | What stays, of row i, column j and value a |
|---|---|
| `tril`, `triu` | on the diagonal x and below it: j - i <= x; on it and above it: j - i >= x |
| `diag`, `offdiag` | on the diagonal x alone; all but that |
| `rowle`, `rowgt` | i <= x; i > x |
| `colle`, `colgt` | j <= x; j > x |
| `valueeq`, `valuene` | a == x; a != x |
| `valuelt`, `valuele`, `valuegt`, `valuege` | a < x; a <= x; a > x; a >= x; `False` is less than `True` |

A diagonal is counted from the main one, 0: those above it are 1, 2 and so on, and those below it -1, -2 and so on. A
vector is read as a column: its index i is row i of column 0.

A domain is named by a type of Python, `int` or `bool`, or as numpy does it: `"uint64"`, `numpy.uint64`, `"bool"`,
`numpy.bool_`, or a `numpy.dtype` of these.
"""

from __future__ import annotations

import ctypes
import sys
from types import MappingProxyType
from typing import Any, Mapping, NamedTuple, Tuple

from ._show import said

__all__ = ["MONOIDS", "OPERATORS", "TESTS", "UNARY_OPERATORS", "Domain", "domain_of"]


class Domain(NamedTuple):
    """One of the two domains of values: truth values (`bool`) or whole numbers from 0 to 2**64 - 1 (`int`)."""

    dtype: type
    """The Python type of its values."""
    code: int
    """Its number, of `GrB_Type_Code`."""
    suffix: str
    """The end of the names of its functions in the library."""
    ctype: Any
    """The type of C of one value."""
    typecode: str
    """The type code of `array.array` for its values."""
    monoid: str
    """The monoid that joins values where none is named."""
    semiring: str
    """The semiring of a product where none is named."""


BOOL = Domain(bool, 1, "bool", ctypes.c_bool, "B", "lor", "lor.land")
UINT64 = Domain(int, 9, "uint64", ctypes.c_uint64, "Q", "plus", "plus.times")

OPERATORS: Mapping[str, int] = MappingProxyType(
    {
        "lor": 1,
        "land": 2,
        "lxor": 3,
        "lxnor": 4,
        "first_bool": 5,
        "second_bool": 6,
        "plus": 7,
        "times": 8,
        "min": 9,
        "max": 10,
        "minus": 11,
        "first": 12,
        "second": 13,
    }
)
"""The binary operators, each with its number in the library."""

MONOIDS: Mapping[str, int] = MappingProxyType(
    {name: OPERATORS[name] for name in ("lor", "land", "lxor", "lxnor", "plus", "times", "min", "max")}
)
"""The operators that are monoids, each with its number in the library."""

UNARY_OPERATORS: Mapping[str, int] = MappingProxyType(
    {"identity_bool": 1, "lnot": 2, "identity": 3, "ainv": 4, "bnot": 5}
)
"""The unary operators, each with its number in the library."""

TESTS: Mapping[str, int] = MappingProxyType(
    {
        "tril": 1,
        "triu": 2,
        "diag": 3,
        "offdiag": 4,
        "rowle": 5,
        "rowgt": 6,
        "colle": 7,
        "colgt": 8,
        "valueeq": 9,
        "valuene": 10,
        "valuelt": 11,
        "valuele": 12,
        "valuegt": 13,
        "valuege": 14,
    }
)
"""The tests, each with its number in the library."""

WAIT_MODES: Mapping[str, int] = MappingProxyType({"complete": 0, "materialize": 1})

NO_MASK = 0xFFFF_FFFF
NO_ACCUM = 0

_REPLACE = 1
_COMPLEMENT = 2
_STRUCTURE = 4
TRANSPOSE = 8
TRANSPOSE_SECOND = 16


def domain_of(dtype: Any) -> Domain:
    """The domain of a type of Python or numpy. `TypeError` where it is neither that of `bool` nor that of numbers."""
    for domain in (BOOL, UINT64):
        if dtype is domain.dtype or (isinstance(dtype, str) and dtype == domain.suffix):
            return domain
    numpy = sys.modules.get("numpy")
    if numpy is not None and (
        isinstance(dtype, numpy.dtype) or (isinstance(dtype, type) and issubclass(dtype, numpy.generic))
    ):
        for domain in (BOOL, UINT64):
            if numpy.dtype(dtype) == numpy.dtype(domain.suffix):
                return domain
    raise TypeError(f'the dtype must be bool or int, or "bool" or "uint64" as numpy has them, not {said(dtype)}')


def domain_of_operator(name: str) -> str:
    """The domain of an operator, by its name: "bool" or "uint64"."""
    if name in UNARY_OPERATORS:
        return BOOL.suffix if UNARY_OPERATORS[name] <= UNARY_OPERATORS["lnot"] else UINT64.suffix
    return BOOL.suffix if OPERATORS[name] <= OPERATORS["second_bool"] else UINT64.suffix


def _number_of(name: str, numbers: Mapping[str, int], what: str) -> int:
    try:
        return numbers[name]
    except (KeyError, TypeError):
        raise ValueError(f"{said(name)} is no {what}; these are: {', '.join(numbers)}") from None


def operator_number(name: str) -> int:
    """The number of an operator. `ValueError` where there is none of this name."""
    return _number_of(name, OPERATORS, "operator")


def monoid_number(name: str) -> int:
    """The number of a monoid. `ValueError` where there is none of this name."""
    return _number_of(name, MONOIDS, "monoid")


def is_unary(name: str) -> bool:
    """Whether an operator is unary, and not binary. `ValueError` where there is none of this name."""
    if isinstance(name, str) and name in UNARY_OPERATORS:
        return True
    _number_of(name, {**UNARY_OPERATORS, **OPERATORS}, "operator")
    return False


def is_of_diagonals(test: str) -> bool:
    """Whether a test compares with a diagonal. `ValueError` where there is none of this name."""
    return _number_of(test, TESTS, "test") <= TESTS["offdiag"]


def is_of_values(test: str) -> bool:
    """Whether a test compares with a value. `ValueError` where there is none of this name."""
    return _number_of(test, TESTS, "test") >= TESTS["valueeq"]


def wait_mode_number(name: str) -> int:
    """The number of a wait mode. `ValueError` where there is none of this name."""
    return _number_of(name, WAIT_MODES, "wait mode")


def semiring_numbers(name: str) -> Tuple[int, int]:
    """The numbers of a semiring's monoid and operator.

    `ValueError` where it is written neither `"MONOID.OPERATOR"` nor `"MONOID_OPERATOR"`. That both are of one domain
    is for the store to say.
    """
    monoid, operator = semiring_parts(name)
    return monoid_number(monoid), operator_number(operator)


def semiring_parts(name: str) -> Tuple[str, str]:
    """The names of a semiring's monoid and operator. `ValueError` as of `semiring_numbers`."""
    mark = "." if isinstance(name, str) and "." in name else "_"
    monoid, found, operator = name.partition(mark) if isinstance(name, str) else (name, "", "")
    if not found:
        raise ValueError(
            f'{said(name)} is no semiring: write a monoid, a dot and an operator, as in "plus.times" or "plus_times"'
        )
    return monoid, operator


def descriptor(
    *, replace: bool, complement: bool, structure: bool, transpose: bool = False, transpose_second: bool = False
) -> int:
    """The bits of a descriptor."""
    return (
        (_REPLACE if replace else 0)
        | (_COMPLEMENT if complement else 0)
        | (_STRUCTURE if structure else 0)
        | (TRANSPOSE if transpose else 0)
        | (TRANSPOSE_SECOND if transpose_second else 0)
    )
