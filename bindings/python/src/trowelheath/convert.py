"""From Python's numbers, lists, numpy arrays, scipy matrices and networkx graphs to what the library takes, and back.

numpy, scipy and networkx are not needed: they are imported by the functions that are about them alone.
"""

from __future__ import annotations

import operator
import sys
from array import array
from typing import Any, Callable, Iterable, List, NamedTuple, Optional, SupportsIndex, Tuple, Union

from ._show import said
from .operators import BOOL, UINT64, Domain

Value = Union[bool, int]
"""A stored value: a `bool`, or an `int` from 0 to 2**64 - 1."""

MOST_NUMBER = 2**64 - 1
"""The largest number that is stored: 18,446,744,073,709,551,615."""


def number(x: SupportsIndex) -> int:
    """A number that can be stored.

    Raises:
        TypeError: it is no whole number, as 1.0 is none.
        OverflowError: it is not from 0 to 2**64 - 1.
    """
    try:
        value = operator.index(x)
    except TypeError:
        raise TypeError(f"an object of numbers takes whole numbers from 0 to 2**64 - 1, not {_seen(x)}") from None
    if not 0 <= value <= MOST_NUMBER:
        raise OverflowError(f"{value} is not from 0 to 2**64 - 1")
    return value


def _seen(x: object) -> str:
    """A value of the program as a message has it: its type, and what it is where that is short."""
    text = said(x)
    return f"{text}, of type {type(x).__name__}" if len(text) <= 60 else f"one of type {type(x).__name__}"


def truth(x: object) -> bool:
    """A truth value that can be stored: a `bool`, or numpy's. `TypeError` where it is something else, as 1 is."""
    if isinstance(x, bool):
        return x
    numpy = _numpy_if_imported()
    if numpy is not None and isinstance(x, numpy.bool_):
        return bool(x)
    raise TypeError(f"an object of dtype bool takes True and False, not {said(x)}")


def value_of(domain: Domain, x: Any) -> Value:
    """A value of this domain. `TypeError` and `OverflowError` as of `number` and `truth`."""
    return truth(x) if domain is BOOL else number(x)


def index(x: Any) -> int:
    """An index, from 0. That it is below the dimension is for the store to say.

    Raises:
        TypeError: it is no whole number, as a slice is none.
        IndexError: it is not from 0 to 2**64 - 1. A negative index does not count from the end.
    """
    try:
        value = operator.index(x)
    except TypeError:
        if isinstance(x, slice):
            raise TypeError(
                f"a slice, as {x!r}, is no index: one entry is read by A[i, j] or v[i], and all of them by to_lists()"
            ) from None
        raise TypeError(f"an index is a whole number from 0, not {_seen(x)}") from None
    if not 0 <= value <= MOST_NUMBER:
        raise IndexError(f"the index {value} is not from 0 to 2**64 - 1")
    return value


def dimension(x: SupportsIndex) -> int:
    """A dimension. That it is from 1 to 2**32 - 1 is for the store to say.

    Raises:
        TypeError: it is no whole number.
        ValueError: it is not from 0 to 2**64 - 1.
    """
    try:
        value = operator.index(x)
    except TypeError:
        raise TypeError(f"a dimension is a whole number from 1 to 4,294,967,295, not {_seen(x)}") from None
    if not 0 <= value <= MOST_NUMBER:
        raise ValueError(f"the dimension {value} is not from 1 to 4,294,967,295")
    return value


MOST_DIAGONAL = 2**32 - 1
"""The farthest diagonal above the main one. As far below it is the farthest there."""


def diagonal(x: SupportsIndex) -> int:
    """A diagonal: 0 the main one, so far above it, or with a minus so far below it.

    Raises:
        TypeError: it is no whole number.
        ValueError: it is not from -4,294,967,295 to 4,294,967,295.
    """
    try:
        value = operator.index(x)
    except TypeError:
        raise TypeError(f"a diagonal is a whole number, 0 for the main one, not {_seen(x)}") from None
    if not -MOST_DIAGONAL <= value <= MOST_DIAGONAL:
        raise ValueError(f"the diagonal {value} is not from -4,294,967,295 to 4,294,967,295")
    return value


class Buffer(NamedTuple):
    """Memory that the library reads or writes. It lives as long as the buffer."""

    owner: Any
    """What holds the memory: an `array.array` or a numpy array."""
    address: int
    """The address of the first item, never 0."""
    length: int
    """How many items there are. The memory has one at least."""
    size: int
    """How many bytes the items take."""


def _of_array(items: array[Any]) -> Buffer:
    owner = items if len(items) > 0 else array(items.typecode, [0])
    return Buffer(owner, owner.buffer_info()[0], len(items), len(items) * items.itemsize)


def _of_numpy(items: Any) -> Buffer:
    if len(items) == 0:
        return _of_array(array(UINT64.typecode))
    return Buffer(items, items.ctypes.data, len(items), items.nbytes)


def new_array(domain: Domain, length: int) -> Buffer:
    """A new `array.array` of so many values of this domain, each 0: the library is given valid values alone."""
    return _of_array(array(domain.typecode, [0]) * max(length, 1))._replace(length=length)


def new_numpy_array(domain: Domain, length: int) -> Buffer:
    """A new numpy array, as `new_array`. `ImportError` where there is no numpy."""
    import numpy

    return _of_numpy(numpy.zeros(max(length, 1), dtype=domain.suffix))._replace(length=length)


def dense_array(shape: Tuple[int, ...], *entries: Any) -> Any:
    """A numpy array of this shape with these entries, an array for each index and one of the values, and 0 elsewhere."""
    import numpy

    *places, values = entries
    made = numpy.zeros(shape, dtype=values.dtype)
    made[tuple(places)] = values
    return made


def _numpy_if_imported() -> Any:
    """numpy where the program has imported it: without that, nothing can be an array of it."""
    return sys.modules.get("numpy")


def is_numpy_array(values: object) -> bool:
    """Whether this is an array of numpy."""
    numpy = _numpy_if_imported()
    return numpy is not None and isinstance(values, numpy.ndarray)


def is_scipy_matrix(values: object) -> bool:
    """Whether this is a matrix or an array of scipy.sparse."""
    sparse = sys.modules.get("scipy.sparse")
    return sparse is not None and bool(sparse.issparse(values))


# What can be run through and is no list of values: the bytes of a text, or values in no order.
_NO_LISTS = (bytes, bytearray, str, set, frozenset, dict)


def _require_list(values: object) -> None:
    """Raises `TypeError` where this is none of what lists of entries are taken from, though it can be run through."""
    if isinstance(values, _NO_LISTS):
        raise TypeError(f"a {type(values).__name__} is no list of entries: give a list, or an array of numpy")
    if hasattr(values, "_how_to_make"):
        raise TypeError(f"a {type(values).__name__} is no list of entries: to_lists() has its places and its values")
    masked = sys.modules.get("numpy.ma")
    if masked is not None and isinstance(values, masked.MaskedArray):
        raise TypeError(
            "a masked array is refused, since it is not said what to store where it is masked: give the places and the "
            "values that are not masked, as array.compressed() has them"
        )


def listed(values: Any) -> Any:
    """The values as what can be run through more than once: a list where they are neither that nor an array."""
    if is_numpy_array(values) or not isinstance(values, Iterable):
        return values
    _require_list(values)
    return values if isinstance(values, (list, tuple, range, array)) else list(values)


def dimension_for(places: Any, name: str) -> int:
    """One more than the largest of these indices. `ValueError` where there is none."""
    if not isinstance(places, Iterable):
        raise TypeError(f"a list of entries can be run through, and {_seen(places)}, cannot")
    _require_list(places)
    if len(places) == 0:  # type: ignore[arg-type]
        raise ValueError(f"there is no entry, so give {name}")
    return index(places.max() if is_numpy_array(places) else max(places)) + 1


def dtype_for(values: Any) -> type:
    """`bool` where these values, or this one, are truth values, and else `int`."""
    if is_numpy_array(values) and values.dtype.kind != "O":
        return bool if values.dtype.kind == "b" else int
    items = values if isinstance(values, Iterable) else [values]
    numpy = _numpy_if_imported()
    kinds = bool if numpy is None else (bool, numpy.bool_)
    return bool if len(items) > 0 and all(isinstance(x, kinds) for x in items) else int  # type: ignore[arg-type]


def _flat(values: Any, dtype: str) -> Any:
    """The array itself where it is of this type, contiguous and aligned, and else a copy that is."""
    import numpy

    if values.ndim != 1:
        raise ValueError(f"a list of entries has 1 dimension, not {values.ndim}")
    return numpy.require(values, dtype, ["C_CONTIGUOUS", "ALIGNED", "ENSUREARRAY"])


def numbers(values: Iterable[SupportsIndex]) -> Buffer:
    """The numbers of a list, or of a numpy array of whole numbers. A contiguous array of uint64 is not copied.

    Raises:
        TypeError: one is no whole number, or the array is not of whole numbers.
        OverflowError: one is not from 0 to 2**64 - 1.
        ValueError: an array has not one dimension.
    """
    _require_list(values)
    if not is_numpy_array(values):
        whole = list(values)
        try:
            return _of_array(array(UINT64.typecode, whole))
        except (TypeError, OverflowError):
            _require_each(number, whole)
            raise
    items: Any = values
    if items.dtype.kind == "O":
        return numbers(items.tolist())
    if items.dtype.kind not in "bui":
        raise TypeError(f"an array of {items.dtype} has no whole numbers: convert it first, as by astype('uint64')")
    if items.dtype.kind == "i" and items.size > 0 and items.min() < 0:
        raise OverflowError(f"{items.min()} is not from 0 to 2**64 - 1")
    return _of_numpy(_flat(items, UINT64.suffix))


def _require_each(check: Callable[[Any], Value], values: List[Any]) -> None:
    """Raises for the first of these values that the check does not take, and says which item it is."""
    for at, x in enumerate(values):
        try:
            check(x)
        except (TypeError, OverflowError) as fault:
            raise type(fault)(f"item {at} of the list: {fault}") from None


def truths(values: Iterable[object]) -> Buffer:
    """The truth values of a list, or of a numpy array of bool. A contiguous array is not copied.

    Raises:
        TypeError: one is no truth value, or the array is not of truth values.
        ValueError: an array has not one dimension.
    """
    _require_list(values)
    if not is_numpy_array(values):
        whole = list(values)
        try:
            return _of_array(array(BOOL.typecode, [truth(x) for x in whole]))
        except TypeError:
            _require_each(truth, whole)
            raise
    items: Any = values
    if items.dtype.kind != "b":
        raise TypeError(f"an array of {items.dtype} has no truth values: convert it first, as by astype(bool)")
    items = _flat(items, BOOL.suffix)
    # An array that views other memory may hold bytes that are neither 0 nor 1.
    raw = items.view("uint8")
    return _of_numpy(raw != 0 if raw.size > 0 and raw.max() > 1 else items)


def indices(values: Iterable[SupportsIndex]) -> Buffer:
    """The indices of a list, as `numbers`, but with `IndexError` where one is not from 0 to 2**64 - 1."""
    try:
        return numbers(values)
    except OverflowError as fault:
        raise IndexError(f"an index of the list is out of range: {fault}") from None


def values_of(domain: Domain, values: Any, length: int) -> Buffer:
    """The values of a list or an array; or one value, so many times."""
    if isinstance(values, Iterable):
        return truths(values) if domain is BOOL else numbers(values)
    return _of_array(array(domain.typecode, [value_of(domain, values)]) * length)


def apart(buffers: Iterable[Buffer]) -> List[Buffer]:
    """The buffers, with a copy in place of each that shares memory with one before it."""
    result: List[Buffer] = []
    for buffer in buffers:
        start, end = buffer.address, buffer.address + buffer.size
        if any(start < other.address + other.size and other.address < end for other in result):
            buffer = _of_numpy(buffer.owner.copy())
        result.append(buffer)
    return result


class Lists(NamedTuple):
    """A matrix as lists: what `Matrix.from_lists` takes."""

    nrows: int
    ncols: int
    rows: Any
    columns: Any
    values: Any
    dtype: type


def lists_of_scipy(matrix: Any) -> Lists:
    """The entries of a scipy.sparse matrix or array, stored zeros too.

    Raises:
        TypeError: its values are neither truth values nor whole numbers.
    """
    if not hasattr(matrix, "tocoo"):
        raise TypeError(f"a matrix of scipy.sparse is wanted, not a {type(matrix).__name__}")
    entries = matrix.tocoo()
    if entries.dtype.kind not in "bui":
        raise TypeError(f"a matrix of {entries.dtype} has no whole numbers: convert it first, as by astype('uint64')")
    nrows, ncols = entries.shape
    return Lists(nrows, ncols, entries.row, entries.col, entries.data, bool if entries.dtype.kind == "b" else int)


def scipy_of_arrays(shape: Tuple[int, int], rows: Any, columns: Any, values: Any) -> Any:
    """A `scipy.sparse.csr_array` of these entries, or a `coo_array` where it has far more rows than entries."""
    from scipy import sparse

    places = rows.astype("int64"), columns.astype("int64")
    entries = sparse.coo_array((values, places), shape=shape)
    return entries if shape[0] > 2**24 and shape[0] > len(values) else entries.tocsr()


def lists_of_networkx(graph: Any, nodes: Optional[Iterable[Any]], weight: Optional[str], dtype: type) -> Lists:
    """The edges of a networkx graph, those of an undirected one both ways.

    Raises:
        ValueError: a node stands twice in `nodes`.
    """
    names = list(graph if nodes is None else nodes)
    places = {name: place for place, name in enumerate(names)}
    if len(places) != len(names):
        raise ValueError("a node stands twice")
    weight_of = _weight_reader(weight, dtype)
    rows: List[int] = []
    columns: List[int] = []
    values: List[Value] = []
    for source, target, attributes in graph.edges(data=True):
        if source not in places or target not in places:
            continue
        value = weight_of(attributes)
        i, j = places[source], places[target]
        ends = [(i, j)] if graph.is_directed() or i == j else [(i, j), (j, i)]
        for row, column in ends:
            rows.append(row)
            columns.append(column)
            values.append(value)
    return Lists(len(names), len(names), rows, columns, values, dtype)


def _weight_reader(weight: Optional[str], dtype: type) -> Callable[[Any], Any]:
    """What reads the value of an edge from its attributes."""
    if dtype is bool:
        return lambda attributes: True
    if weight is None:
        return lambda attributes: 1
    return lambda attributes: attributes.get(weight, 1)


def networkx_of_matrix(
    shape: Tuple[int, int],
    lists: Callable[[], Tuple[List[int], List[int], List[Value]]],
    nodes: Optional[Iterable[Any]],
    create_using: Any,
) -> Any:
    """A networkx graph with an edge for each entry of a matrix, whose `weight` is the value. `lists` reads the entries.

    Raises:
        ValueError: the matrix has not as many columns as rows, or `nodes` not one name for each row.
    """
    nrows, ncols = shape
    if nrows != ncols:
        raise ValueError(f"a matrix of {nrows} rows and {ncols} columns is no graph")
    import networkx

    names = list(range(nrows) if nodes is None else nodes)
    if len(names) != nrows:
        raise ValueError(f"there are {len(names)} nodes for {nrows} rows")
    rows, columns, values = lists()
    graph = networkx.empty_graph(names, create_using, default=networkx.DiGraph)
    graph.add_weighted_edges_from((names[i], names[j], x) for i, j, x in zip(rows, columns, values))
    return graph
