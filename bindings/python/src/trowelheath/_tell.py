"""What a refusal says of its call: the objects, their shapes and domains, and the index, as far as they are known.

All of it is put together where a call was refused, from what Python knows. No call of the library is made for it.
"""

from __future__ import annotations

from typing import TYPE_CHECKING, Any, List, NamedTuple, Optional, Sequence, Tuple

from .errors import Info
from .operators import domain_of_operator

if TYPE_CHECKING:
    from .objects import Object

Shape = Optional[Tuple[int, ...]]


def shape_text(shape: Shape) -> str:
    """A shape in words: "3 x 4" of a matrix, "of size 5" of a vector."""
    if shape is None:
        return "of a shape that is not known here"
    if len(shape) == 1:
        return f"of size {shape[0]:,}"
    return " x ".join(f"{dimension:,}" for dimension in shape)


def sort_and_number(item: Object) -> str:
    """An object by its number, as "matrix 3"."""
    return f"{item._sort} {item._number}"


def of_object(item: Object) -> str:
    """An object with its shape and domain, as "the matrix (3 x 4, uint64)"."""
    return f"the {item._sort} ({shape_text(item._life.shape)}, {item._domain.suffix})"


def of_place(code: int, item: Object, place: Sequence[int]) -> Optional[str]:
    """Of a call on one entry."""
    if code == Info.INVALID_INDEX:
        return _outside(item, place)
    return of_one(code, item)


def of_one(code: int, item: Object) -> Optional[str]:
    """Of a call on one object that needs nothing else."""
    if code == Info.UNINITIALIZED_OBJECT:
        return f"{sort_and_number(item)} was freed"
    if code == Info.OUTPUT_NOT_EMPTY:
        return f"{of_object(item)} stores entries already"
    if code == Info.ORDER_FULL:
        return of_full(item._pass._core.room)
    return None


def of_full(room: Optional[int]) -> str:
    """Of a store whose room is used up, or of one without an end that has no place for what the call takes."""
    if room is None:
        return "the store has no place for one more object, or no next generation"
    return f"the room of the store, {room:,} calls, is used up"


def of_new(code: int, room: Optional[int], wanted: Tuple[int, ...]) -> Optional[str]:
    """Of a call that makes an object of these dimensions, in a store of this room."""
    if code == Info.INVALID_VALUE:
        return f"{shape_text(wanted)} was asked for"
    return of_full(room) if code == Info.ORDER_FULL else None


def of_dimensions(code: int, item: Object, wanted: Tuple[int, ...]) -> Optional[str]:
    """Of a call that gives an object these dimensions."""
    if code == Info.INVALID_VALUE:
        return f"{shape_text(wanted)} was asked for"
    return of_one(code, item)


def of_lists(code: int, item: Object, places: Sequence[Any], length: int, dup: str) -> Optional[str]:
    """Of a build from these arrays of places, of so many values that `dup` joins."""
    names = ("row", "column") if len(places) == 2 else ("index",)
    if code == Info.INVALID_VALUE:
        plural = ("rows", "columns") if len(places) == 2 else ("indices",)
        counts = [f"{len(list_):,} of {name}" for list_, name in zip(places, plural)]
        return f"the lengths are {', '.join(counts)} and {length:,} of values"
    if code == Info.DOMAIN_MISMATCH:
        return f"{of_object(item)} takes no values joined by {dup}, which is of {domain_of_operator(dup)}"
    if code == Info.INDEX_OUT_OF_BOUNDS and item._life.shape is not None:
        for list_, name, dimension in zip(places, names, item._life.shape):
            for at, index in enumerate(list_):
                if index >= dimension:
                    return f"{of_object(item)} has no {name} {index}, which is item {at} of the list"
    return of_one(code, item)


def of_total(code: int, item: Object, monoid: str) -> Optional[str]:
    """Of a reduction to one value."""
    if code == Info.DOMAIN_MISMATCH:
        return f"{of_object(item)} has no total by {monoid}, which is of {domain_of_operator(monoid)}"
    return of_one(code, item)


def _outside(item: Object, place: Sequence[int]) -> Optional[str]:
    """Which index of a place is outside of an object."""
    names = ("row", "column") if len(place) == 2 else ("index",)
    if item._life.shape is not None:
        for index, name, dimension in zip(place, names, item._life.shape):
            if index >= dimension:
                return f"{of_object(item)} has no {name} {index}"
    return f"the {item._sort} has no place {tuple(place) if len(place) > 1 else place[0]}"


def of_diagonal(code: int, item: Object, diagonal: int) -> Optional[str]:
    """Of a call that makes a matrix with the vector on this diagonal."""
    shape = item._life.shape
    if code == Info.INVALID_VALUE and shape is not None:
        size = shape[0] + abs(diagonal)
        return f"{shape_text((size, size))} was asked for, by {of_object(item)} on the diagonal {diagonal:,}"
    return of_one(code, item)


class Operation(NamedTuple):
    """An operation, as far as a refusal has to say something of it."""

    kind: str
    """"mxm", "mxv", "vxm", "ewise_add", "ewise_mult", "reduce_rows", "transpose", "apply", "select" or "kronecker"."""
    first: Object
    transpose: bool
    second: Optional[Object]
    transpose_second: bool
    operators: Tuple[Tuple[str, str], ...]
    """What each operator is for, and its name."""
    out: Object
    mask: Optional[Object]
    is_new: bool
    """Whether the output was made for this operation."""


def of_operation(code: int, operation: Operation) -> Optional[str]:
    """Of an operation."""
    if code == Info.UNINITIALIZED_OBJECT:
        freed = [f"{role}, {sort_and_number(item)}," for role, item in _parts(operation) if item._life.freed]
        return f"{freed[0]} was freed" if freed else None
    if code == Info.DOMAIN_MISMATCH:
        return _of_domains(operation)
    if code == Info.DIMENSION_MISMATCH:
        return _of_shapes(operation)
    if code == Info.ORDER_FULL:
        return of_full(operation.first._pass._core.room)
    return None


def _parts(operation: Operation) -> List[Tuple[str, Object]]:
    """The objects of an operation, each with what it is there."""
    first, second = operation.first, operation.second
    if second is None or second._sort != first._sort:
        roles = [f"the {first._sort}", "" if second is None else f"the {second._sort}"]
    else:
        roles = [f"the first {first._sort}", f"the second {second._sort}"]
    parts = [(roles[0], first)]
    if second is not None:
        parts.append((roles[1], second))
    parts.append(("the new output" if operation.is_new else "the output", operation.out))
    if operation.mask is not None:
        parts.append(("the mask", operation.mask))
    return parts


def _of_domains(operation: Operation) -> str:
    """Which parts are of which domain. A mask may be of either."""
    of: List[Tuple[str, str]] = [
        (role, item._domain.suffix) for role, item in _parts(operation) if role not in ("the mask", "the new output")
    ]
    of += [(f"the {what} {name}", domain_of_operator(name)) for what, name in operation.operators]
    groups = []
    for domain in dict.fromkeys(its for _, its in of):
        names = [what for what, its in of if its == domain]
        listed = names[0] if len(names) == 1 else f"{', '.join(names[:-1])} and {names[-1]}"
        groups.append(f"{listed} {'is' if len(names) == 1 else 'are'} of {domain}")
    return ", ".join(groups)


def _of_shapes(operation: Operation) -> str:
    """The shapes, and which two of them do not fit."""
    parts = [(role, item) for role, item in _parts(operation) if role != "the new output"]
    seen: List[str] = []
    for place, (role, item) in enumerate(parts):
        is_turned = operation.transpose if place == 0 else place == 1 and operation.transpose_second
        turned = ", read transposed" if is_turned else ""
        seen.append(f"{role} is {shape_text(item._life.shape)}{turned}")
    misfits = _misfits(operation)
    return ", ".join(seen) + (f": {misfits[0]}" if misfits else "")


def _misfits(operation: Operation) -> List[str]:
    """Each two dimensions that ought to be equal and are not."""
    kind, first, second, out, mask = (
        operation.kind,
        operation.first._life.shape,
        None if operation.second is None else operation.second._life.shape,
        operation.out._life.shape,
        None if operation.mask is None else operation.mask._life.shape,
    )
    roles = [role for role, _ in _parts(operation)]
    of_first, of_second = roles[0], roles[1]
    pairs: List[Tuple[str, int, str, int]] = []
    rows, columns = f"the rows of {of_first}", f"the columns of {of_first}"
    if first is not None and len(first) == 2 and operation.transpose:
        first = first[::-1]
        rows, columns = f"{columns}, which are read as rows", f"{rows}, which are read as columns"
    its_rows, its_columns = f"the rows of {of_second}", f"the columns of {of_second}"
    if second is not None and len(second) == 2 and operation.transpose_second:
        second = second[::-1]
        its_rows, its_columns = f"{its_columns}, which are read as rows", f"{its_rows}, which are read as columns"
    if kind == "mxm":
        if first and second:
            pairs.append((columns, first[1], its_rows, second[0]))
        if first and out:
            pairs.append(("the rows of the output", out[0], rows, first[0]))
        if second and out:
            pairs.append(("the columns of the output", out[1], its_columns, second[1]))
    elif kind == "mxv":
        if first and second:
            pairs.append((columns, first[1], f"the size of {of_second}", second[0]))
        if first and out:
            pairs.append(("the size of the output", out[0], rows, first[0]))
    elif kind == "vxm":
        if first and second:
            pairs.append((f"the size of {of_first}", first[0], its_rows, second[0]))
        if second and out:
            pairs.append(("the size of the output", out[0], its_columns, second[1]))
    elif kind == "reduce_rows":
        if first and out:
            pairs.append(("the size of the output", out[0], rows, first[0]))
    elif kind == "transpose":
        if first and out:
            pairs.append(("the rows of the output", out[0], columns, first[1]))
            pairs.append(("the columns of the output", out[1], rows, first[0]))
    elif kind == "kronecker":
        if first and second and out:
            pairs.append(("the rows of the output", out[0], f"{rows} times {its_rows}", first[0] * second[0]))
            pairs.append(("the columns of the output", out[1], f"{columns} times {its_columns}", first[1] * second[1]))
    elif first is not None and len(first) == 2:
        if second:
            pairs.append((rows, first[0], its_rows, second[0]))
            pairs.append((columns, first[1], its_columns, second[1]))
        if out:
            pairs.append(("the rows of the output", out[0], rows, first[0]))
            pairs.append(("the columns of the output", out[1], columns, first[1]))
    elif first is not None:
        if second:
            pairs.append((f"the size of {of_first}", first[0], f"the size of {of_second}", second[0]))
        if out:
            pairs.append(("the size of the output", out[0], f"the size of {of_first}", first[0]))
    if mask and out:
        names = ("rows", "columns") if len(out) == 2 else ("size",)
        for name, own, its in zip(names, mask, out):
            pairs.append((f"the {name} of the mask", own, f"the {name} of the output", its))
    return [
        f"{one}, {number:,}, {'is' if 'size' in one else 'are'} not {other}, {wanted:,}"
        for one, number, other, wanted in pairs
        if number != wanted
    ]
