"""What a call is refused for, as exceptions.

A refused call did nothing: it stands nowhere in the history, and no value has changed. What the numbers of a call
alone show is refused first: lists of two lengths, and a semiring whose monoid and operator are of two domains. Of
other refusals that apply, the first of this list is raised:

- `UninitializedObject`: an object of the call, the mask among them, was freed.
- `InvalidValue`, a `ValueError`: a dimension is not from 1 to 4,294,967,295; or a room or a number of passes is
  out of its range, the lists of a build differ in length, or two passes that meet are of two stores.
- `InvalidIndex`, an `IndexError`: an index of a set, a removal or a get is not below the dimension.
- `DomainMismatch`, a `TypeError`: truth values and numbers are mixed.
- `DimensionMismatch`, a `ValueError`: the objects do not fit together.
- `OutputNotEmpty`: a build found an entry in its object.
- `IndexOutOfBounds`, an `IndexError`: an index in a build's list is not below the dimension.
- `OrderFull`: the room of the store is used up, and the call was refused for nothing else; or a store without an end
  has no next generation, or no place for the object that the call makes.
- `RoomTooSmall`, a `ValueError`: no store has so much room beside the calls that make the objects.
- `OutOfMemory`, a `MemoryError`: memory was refused.
- `Panic`, a `RuntimeError`: the record of a call was not taken or not shown.
"""

from __future__ import annotations

import enum
from typing import Dict, Optional, Type

__all__ = [
    "DimensionMismatch",
    "DomainMismatch",
    "IndexOutOfBounds",
    "Info",
    "InsufficientSpace",
    "InvalidIndex",
    "InvalidValue",
    "LibraryNotFound",
    "OrderFull",
    "OutOfMemory",
    "OutputNotEmpty",
    "Panic",
    "Refusal",
    "RoomTooSmall",
    "StoreClosed",
    "UninitializedObject",
]


class Info(enum.IntEnum):
    """The status of a call. The numbers are those of `GrB_Info`; `ORDER_FULL` is this store's own."""

    SUCCESS = 0
    NO_VALUE = 1
    UNINITIALIZED_OBJECT = -1
    INVALID_VALUE = -3
    INVALID_INDEX = -4
    DOMAIN_MISMATCH = -5
    DIMENSION_MISMATCH = -6
    OUTPUT_NOT_EMPTY = -7
    PANIC = -101
    OUT_OF_MEMORY = -102
    INSUFFICIENT_SPACE = -103
    INDEX_OUT_OF_BOUNDS = -105
    ORDER_FULL = -1001


class Refusal(Exception):
    """A call was refused, and did nothing. Each refusal is a subclass of this one.

    Attributes:
        code: the status, of `Info`.
        name: the name of the status, as `GrB_INVALID_INDEX`.
        hint: what to do about it, in one sentence.
        detail: what the call was refused for, with the objects, shapes, domains and indices of the call; or None
            where there is no more to say. Other passes may have changed a shape since then.
    """

    code: Info
    name: str
    hint: str
    detail: Optional[str] = None

    def __init__(self, hint: Optional[str] = None, detail: Optional[str] = None) -> None:
        """A refusal with the hint of its class, or with this one, and with what else there is to say."""
        if hint is None:
            super().__init__()
        else:
            super().__init__(hint)
            self.hint = hint
        if detail is not None:
            self.detail = detail

    def __str__(self) -> str:
        if self.detail is None:
            return f"{self.name}. {self.hint}"
        return f"{self.name}: {self.detail}. {self.hint}"


class UninitializedObject(Refusal):
    """An object of the call, the mask among them, was never made or was freed."""

    code = Info.UNINITIALIZED_OBJECT
    name = "GrB_UNINITIALIZED_OBJECT"
    hint = "Use an object that was made and not freed."


class InvalidValue(Refusal, ValueError):
    """A dimension is not from 1 to 4,294,967,295.

    Also: a room or a number of passes is out of its range, the lists of a build differ in length, or two passes
    that meet are of two stores. The hint says which.
    """

    code = Info.INVALID_VALUE
    name = "GrB_INVALID_VALUE"
    hint = "Give dimensions from 1 to 4,294,967,295."


class InvalidIndex(Refusal, IndexError):
    """An index of a set, a removal or a get is not below the dimension."""

    code = Info.INVALID_INDEX
    name = "GrB_INVALID_INDEX"
    hint = "Give an index below the dimension; the first is 0."


class DomainMismatch(Refusal, TypeError):
    """The objects and operators of the call are not all of one domain. A mask may be of either."""

    code = Info.DOMAIN_MISMATCH
    name = "GrB_DOMAIN_MISMATCH"
    hint = "Give values, objects and operators of one domain."


class DimensionMismatch(Refusal, ValueError):
    """The dimensions of the call's objects do not fit together."""

    code = Info.DIMENSION_MISMATCH
    name = "GrB_DIMENSION_MISMATCH"
    hint = "Give objects whose dimensions fit together."


class OutputNotEmpty(Refusal):
    """The object of a build stores an entry."""

    code = Info.OUTPUT_NOT_EMPTY
    name = "GrB_OUTPUT_NOT_EMPTY"
    hint = "Clear the object, or build a new one."


class IndexOutOfBounds(Refusal, IndexError):
    """An index in the list of a build is not below the dimension. Nothing of the list was stored."""

    code = Info.INDEX_OUT_OF_BOUNDS
    name = "GrB_INDEX_OUT_OF_BOUNDS"
    hint = "Give a list whose indices are below the dimensions."


class OrderFull(Refusal):
    """The room of the store is used up, and the call was refused for nothing else. Reads go on.

    A store without an end refuses a call so where it has no next generation, and `Pass.go_on` raises why; or where the
    call makes an object, and `Pass.objects_left` tells that there is no place for one more. The hint says so.
    """

    code = Info.ORDER_FULL
    name = "OrderFull"
    hint = "Open its successor, or a store without a room, which goes on by itself. Reads go on."
    hint_of_chain = "Where objects_left() of the pass is 0, free objects; else go_on() raises why. Reads go on."


class OutOfMemory(Refusal, MemoryError):
    """Memory was refused. The same call may succeed later."""

    code = Info.OUT_OF_MEMORY
    name = "GrB_OUT_OF_MEMORY"
    hint = "Nothing has changed: free memory, and make the call again."


class Panic(Refusal, RuntimeError):
    """The record of a call was not taken or not shown. Where it comes again, stop using the store."""

    code = Info.PANIC
    name = "GrB_PANIC"
    hint = "The call did nothing: make it again."


class InsufficientSpace(Refusal):
    """The arrays for all entries of an object are too short. No method raises it: it tries again with longer ones."""

    code = Info.INSUFFICIENT_SPACE
    name = "GrB_INSUFFICIENT_SPACE"
    hint = "Give arrays as long as the object has entries."


class RoomTooSmall(Refusal, ValueError):
    """No successor, branch or next generation has so much room beside the calls that make the objects.

    Attributes:
        needed: how many calls make the objects. The room and these are at most 4,194,304, and times the passes at most
            268,435,456.
    """

    code = Info.INSUFFICIENT_SPACE
    name = "GrB_INSUFFICIENT_SPACE"
    hint = "Give less room, or begin with fewer objects."
    needed: int

    def __init__(self, needed: int, room: Optional[int] = None) -> None:
        """The refusal where so many calls make the objects, and no store has this room beside them."""
        detail = None if room is None else f"a room of {room:,} was asked for"
        super().__init__(f"No store has it beside the {needed:,} calls that make the objects.", detail)
        self.args = (needed,)
        self.needed = needed


class StoreClosed(RuntimeError):
    """The store was closed, or it belongs to the process that this one was forked from. Nothing was called."""


class LibraryNotFound(OSError):
    """The shared library was not found, or lacks a function. The message says where it was looked for."""


_KINDS: Dict[int, Type[Refusal]] = {
    kind.code: kind
    for kind in (
        UninitializedObject,
        InvalidValue,
        InvalidIndex,
        DomainMismatch,
        DimensionMismatch,
        OutputNotEmpty,
        IndexOutOfBounds,
        OrderFull,
        OutOfMemory,
        Panic,
        InsufficientSpace,
    )
}


def refusal_of(
    code: int, invalid: Optional[str] = None, detail: Optional[str] = None, is_chain: bool = False
) -> Exception:
    """The exception for a status below 0. `invalid` is the hint of an `InvalidValue`, and `detail` says more.

    `is_chain` tells whether a store without an end refused the call.
    """
    kind = _KINDS.get(code)
    if kind is None:
        return RuntimeError(f"the library answered the status {code}, which this package does not know")
    if kind is OrderFull and is_chain:
        return OrderFull(OrderFull.hint_of_chain, detail)
    return kind(invalid if kind is InvalidValue else None, detail)
