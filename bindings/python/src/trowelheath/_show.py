"""How an object is shown: as a grid where it is small, and else by its corner."""

from __future__ import annotations

from html import escape
from typing import TYPE_CHECKING, Any, Dict, List, NamedTuple, Optional, Sequence, Tuple

from .errors import Refusal, StoreClosed

if TYPE_CHECKING:
    from ._stored import Stored

__all__ = ["html", "said", "spy", "text"]

# An object of so many rows and columns at most is shown whole, and of another one so many of each.
_WHOLE = 16
_CORNER = 8

# So many characters a line of text has at most.
_WIDTH = 80


class _Sight(NamedTuple):
    """What is shown of an object."""

    title: str
    """What it is, with the number of its entries."""
    rows: Tuple[str, ...]
    """What stands before each line of cells: the rows of a matrix."""
    lines: Tuple[Tuple[str, ...], ...]
    """The cells of each line, "" where nothing is stored."""
    more_rows: bool
    """Whether there are more rows."""
    more_columns: bool
    """Whether there are more columns."""


def said(x: object) -> str:
    """What a message shows of a value of the program: of an object of a store what it is, without a read."""
    head = getattr(type(x), "_head", None)
    return repr(x) if head is None else str(head(x))


def text(item: Stored) -> str:
    """The object as lines of text: what it is, and a grid with a dot where nothing is stored."""
    sight, why = _look(item)
    if sight is None:
        return f"{item._head()[:-1]}{why}>"
    # Columns to the first that does not fit.
    before = max(map(len, sight.rows))
    columns: List[List[str]] = []
    left = _WIDTH - before - len(" ...")
    for j, cells in enumerate(zip(*sight.lines)):
        shown = [str(j), *(cell or "." for cell in cells)]
        width = max(map(len, shown))
        left -= width + 1
        if left < 0 and columns:
            break
        columns.append([cell.rjust(width) for cell in shown])
    is_cut = sight.more_columns or len(columns) < len(sight.lines[0])
    lines = [sight.title]
    for place, name in enumerate(("", *sight.rows)):
        first = [name.rjust(before)] if before else []
        lines.append(" ".join([*first, *(column[place] for column in columns), *(["..."] if is_cut else [])]))
    return "\n".join([*lines, "..."] if sight.more_rows else lines)


def html(item: Stored) -> Optional[str]:
    """The object as a table of HTML, with an empty cell where nothing is stored. None where it cannot be read now."""
    sight, _ = _look(item)
    if sight is None:
        return None
    head: List[str] = ["", *map(str, range(len(sight.lines[0])))]
    body = [_row([name], cells, sight.more_columns) for name, cells in zip(sight.rows, sight.lines)]
    if sight.more_rows:
        body.append(_row(["&hellip;"], [""] * len(sight.lines[0]), False))
    return (
        f"<table><caption>{escape(sight.title)}</caption>"
        f"<thead>{_row(head, [], sight.more_columns)}</thead><tbody>{''.join(body)}</tbody></table>"
    )


def _row(heads: Sequence[str], cells: Sequence[str], more: bool) -> str:
    """A row of a table of HTML."""
    marks = "".join(f"<th>{name}</th>" for name in heads)
    return f"<tr>{marks}{''.join(f'<td>{cell}</td>' for cell in cells)}{'<td>&hellip;</td>' if more else ''}</tr>"


def _look(item: Stored) -> Tuple[Optional[_Sight], str]:
    """What is shown of an object, or None and why there is nothing.

    It waits for no other thread, and evaluates nothing that takes long: then nothing is shown.
    """
    of = item._object
    pass_, lock = of._pass, of._pass._lock
    if pass_._closed is not None or of._life.freed or not lock.acquire(blocking=False):
        return None, ""
    try:
        if pass_._is_long(of._life.unseen(pass_._number)):
            return None, ", not evaluated yet"
        return _read(item), ""
    except (Refusal, StoreClosed):
        return None, ""
    finally:
        lock.release()


def _read(item: Stored) -> _Sight:
    """What is shown of an object that can be read now. Where it is small, its entries are those of one moment."""
    shape = item.shape
    is_whole = max(shape) <= _WHOLE
    near = tuple(min(dimension, _WHOLE if is_whole else _CORNER) for dimension in shape)
    if is_whole:
        entries: Dict[Any, Any] = dict(item.items())
        count = len(entries)
    else:
        count = item.nvals
        entries = _corner(item, near)
    title = f"{item._head()[:-1]}, {count:,} {'entry' if count == 1 else 'entries'}>"
    ncols = range(near[-1])
    if len(shape) == 1:
        lines = [tuple(str(entries.get(j, "")) for j in ncols)]
        return _Sight(title, ("",), tuple(lines), False, shape[0] > near[0])
    lines = [tuple(str(entries.get((i, j), "")) for j in ncols) for i in range(near[0])]
    rows = tuple(map(str, range(near[0])))
    return _Sight(title, rows, tuple(lines), shape[0] > near[0], shape[1] > near[1])


def _corner(item: Any, near: Tuple[int, ...]) -> Dict[Any, Any]:
    """The entries at the first places of each dimension, each read by itself: all entries may be many."""
    found: Dict[Any, Any]
    if len(near) == 1:
        found = {j: item.get(j) for j in range(near[0])}
    else:
        found = {(i, j): item.get(i, j) for i in range(near[0]) for j in range(near[1])}
    return {place: value for place, value in found.items() if value is not None}


def spy(item: Any, ax: Any, options: Dict[str, Any]) -> Any:
    """Plots where the entries of a matrix are. `ImportError` where matplotlib or scipy is missing."""
    try:
        if ax is None:
            from matplotlib import pyplot

            ax = pyplot.gca()
        entries = item.to_scipy()
    except ImportError as fault:
        raise ImportError(f"spy() plots by matplotlib, of a matrix of scipy: {fault}", name=fault.name) from fault
    # By default matplotlib leaves stored zeros out.
    return ax.spy(entries, **{"precision": "present", **options})
