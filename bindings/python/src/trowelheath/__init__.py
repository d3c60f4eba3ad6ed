"""Trowelheath: sparse matrices and vectors with the operations of GraphBLAS, shared by threads without locks.

    from trowelheath import Store

    with Store(passes=4) as store:
        p = store.main
        A = p.matrix(3, 3)
        A.build([0, 1, 2], [1, 2, 0], [5, 6, 7])
        C = A.mxm(A, "min.plus")
        C[0, 2]         # 11
        len(C)          # 3

A `Store` has a `Pass` for each thread, and no end unless it is given a room. A pass makes each `Matrix` and `Vector`,
and `using` gives it by another pass. Values are whole numbers from 0 to 2**64 - 1, or truth values. Indices begin at 0.
A call that is refused does nothing and raises a `Refusal`. What no variable has any more, a store or an object, ends by
itself.
"""

from __future__ import annotations

from ._library import is_proved
from .errors import (
    DimensionMismatch,
    DomainMismatch,
    IndexOutOfBounds,
    Info,
    InvalidIndex,
    InvalidValue,
    LibraryNotFound,
    OrderFull,
    OutOfMemory,
    OutputNotEmpty,
    Panic,
    Refusal,
    RoomTooSmall,
    StoreClosed,
    UninitializedObject,
)
from .objects import Matrix, Object, Transposed, Vector
from .operators import MONOIDS, OPERATORS, TESTS, UNARY_OPERATORS
from .store import MOST_PASSES, MOST_ROOM, MOST_SEATS, Costs, Facts, Pass, Store, Temporary

__version__ = "1.0.0"

__all__ = [
    "MONOIDS",
    "MOST_PASSES",
    "MOST_ROOM",
    "MOST_SEATS",
    "OPERATORS",
    "TESTS",
    "UNARY_OPERATORS",
    "Costs",
    "DimensionMismatch",
    "DomainMismatch",
    "Facts",
    "IndexOutOfBounds",
    "Info",
    "InvalidIndex",
    "InvalidValue",
    "LibraryNotFound",
    "Matrix",
    "Object",
    "OrderFull",
    "OutOfMemory",
    "OutputNotEmpty",
    "Panic",
    "Pass",
    "Refusal",
    "RoomTooSmall",
    "Store",
    "StoreClosed",
    "Temporary",
    "Transposed",
    "UninitializedObject",
    "Vector",
    "is_proved",
]
