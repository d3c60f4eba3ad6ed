"""Wrong behaviours of a plain store, to see that drawn programs find each: what has to be replaced, and by what."""

from __future__ import annotations

from typing import Any, Callable, List, Optional, Tuple
from unittest import mock

import plain
import plain_store
from calls import Call, Operation, Refused
from plain_store import Moment, PlainStore, Table
from trowelheath import Info

_written = plain.written
_refusal = plain_store._refusal
_refusal_of_operation = plain_store._refusal_of_operation
_refusal_of_build = plain_store._refusal_of_build
_with_new = Moment.with_new
_branch = PlainStore.branch
_succeed = PlainStore.succeed
_move = PlainStore.move
_call_here = PlainStore.call_here


def _without_mask(old: Any, computed: Any, accum: Any, mask: Any, *how: bool) -> Any:
    return _written(old, computed, accum, None, *how)


def _by_structure(old: Any, computed: Any, accum: Any, mask: Any, structure: bool, *how: bool) -> Any:
    return _written(old, computed, accum, mask, True, *how)


def _everywhere_without_mask(
    old: Any, computed: Any, accum: Any, mask: Any, structure: bool, complement: bool, replace: bool
) -> Any:
    return _written(old, computed, accum, mask, structure, complement and mask is not None, replace)


def _never_replacing(old: Any, computed: Any, accum: Any, mask: Any, structure: bool, complement: bool, _: bool) -> Any:
    return _written(old, computed, accum, mask, structure, complement, False)


def _new_before_old(old: Any, computed: Any, accum: Any, *how: Any) -> Any:
    joined = computed if accum is None else plain.union(computed, old, accum)
    return _written(old, joined, None, *how)


def _without_accumulator(old: Any, computed: Any, accum: Any, *how: Any) -> Any:
    return _written(old, computed, None, *how)


def _dimensions_first(there: Moment, asked: Operation) -> Optional[Info]:
    """Dimensions that do not fit refuse an operation before domains that are mixed do."""
    info = _refusal_of_operation(there, asked)
    if info != Info.DOMAIN_MISMATCH or asked.on is None:
        return info
    first, second = there.tables[asked.first], None if asked.second is None else there.tables[asked.second]
    shapes = plain_store._shapes_read(asked, first.shape, None if second is None else second.shape)
    fits = plain.computed_shape(asked.kind, *shapes) == there.tables[asked.on].shape
    return info if fits else Info.DIMENSION_MISMATCH


def _domain_first(there: Moment, asked: Any) -> Any:
    """A value of the other domain refuses a set before an index that is outside does."""
    if isinstance(asked, Call) and asked.kind == "set" and asked.on in there.tables:
        if there.tables[asked.on].dtype is not asked.dtype:
            return Info.DOMAIN_MISMATCH
    return _refusal(there, asked)


def _indices_first(table: Table, asked: Call) -> Any:
    """An index that is out of bounds refuses a build before an entry that is there does."""
    info = _refusal_of_build(table, asked)
    return _refusal_of_build(table._replace(entries={}), asked) or info if info == Info.OUTPUT_NOT_EMPTY else info


def _numbered_anew(self: Moment, sort: str, table: Table) -> Any:
    """The number of an object that was freed is given again."""
    for number in range(self.made[sort]):
        if (sort, number) not in self.tables:
            return self.with_table((sort, number), table), number
    return _with_new(self, sort, table)


def _of_before(open_: Callable[..., Any]) -> Callable[..., Any]:
    """A store that goes on begins with what its pass knew before it looked."""

    def opened(self: PlainStore, by: int, *arguments: Any) -> Any:
        there = self.moment(by)
        with mock.patch.object(self, "moment", lambda _: there):
            return open_(self, by, *arguments)

    return opened


def _sharing(self: PlainStore, by: int, keys: Any, room: int, passes: int) -> Any:
    """A branch begins with all objects of its store, whatever was chosen."""
    store = _branch(self, by, keys, room, passes)
    if not isinstance(store, Refused):
        there = self.moment(by)
        store.moments[0] = Moment({**there.tables, **store.moments[0].tables}, store.moments[0].made)
    return store


def _without_freed(self: PlainStore, by: int, room: int, passes: int) -> Any:
    """A successor gives numbers of freed objects up."""
    if self.is_chain:
        return _succeed(self, by, room, passes)
    return self.branch(by, sorted(self.last().tables), room, passes)


def _keeping_statuses(self: PlainStore, own: Any) -> None:
    """Statuses outlive a generation."""
    statuses = own.statuses
    _move(self, own)
    own.statuses = statuses


def _with_entries_outside(there: Moment, asked: Call) -> Any:
    """A resize leaves what is outside, so that it may come back."""
    return there.with_table(asked.on, there.tables[asked.on]._replace(shape=asked.arguments)), None


def _last_value(there: Moment, asked: Call) -> Any:
    """A build keeps the last value of those of one place."""
    tuples, _ = plain_store._tuples(there.tables[asked.on], asked)
    entries = {plain_store._key_of(place): x for place, x in tuples}
    return there.with_table(asked.on, there.tables[asked.on]._replace(entries=entries)), None


def _full_first(self: PlainStore, own: Any, asked: Any) -> Any:
    """A room that is used up refuses a change before all else does."""
    generation = self.generations[own.generation]
    end = min(len(self.moments) - 1, generation.start + generation.room)
    if plain_store.enters(asked) and end == generation.start + generation.room:
        self.learn(own)
        self.note(own, generation, asked, Info.ORDER_FULL, None)
        return Refused(Info.ORDER_FULL)
    return _call_here(self, own, asked)


def _noting_for_all(self: PlainStore, own: Any, asked: Any) -> Any:
    """All passes have the statuses of one another."""
    answer = _call_here(self, own, asked)
    for each in self.passes:
        each.statuses.update(own.statuses)
    return answer


def _swapped(product: Callable[..., Any]) -> Callable[..., Any]:
    """The operator of a product has the values of its inputs the other way round."""

    def computed(a: Any, b: Any, semiring: str) -> Any:
        monoid, operator = semiring.split(".")
        with_swapped = {"first": "second", "second": "first", "first_bool": "second_bool", "second_bool": "first_bool"}
        return product(a, b, f"{monoid}.{with_swapped.get(operator, operator)}")

    return computed


def _meeting_nobody(self: PlainStore, by: int, other: int) -> None:
    """A meeting tells nothing."""


# What is wrong, the place that has it, its name there, and what it is replaced by.
WRONG: List[Tuple[str, Any, str, Any]] = [
    ("the mask is ignored", plain, "written", _without_mask),
    ("the mask is read by structure alone", plain, "written", _by_structure),
    ("a complement without a mask writes everywhere", plain, "written", _everywhere_without_mask),
    ("replace is ignored", plain, "written", _never_replacing),
    ("the accumulator has the new value first", plain, "written", _new_before_old),
    ("the accumulator is ignored", plain, "written", _without_accumulator),
    ("dimensions are looked at before domains", plain_store, "_refusal_of_operation", _dimensions_first),
    ("the domain of a set is looked at before its index", plain_store, "_refusal", _domain_first),
    ("indices of a build are looked at before its object", plain_store, "_refusal_of_build", _indices_first),
    ("a full store refuses for its room alone", PlainStore, "call_here", _full_first),
    ("a freed number is given again", Moment, "with_new", _numbered_anew),
    ("a branch begins with what its pass has read", PlainStore, "branch", _of_before(PlainStore.branch)),
    ("a successor begins with what its pass has read", PlainStore, "succeed", _of_before(PlainStore.succeed)),
    ("a branch begins with all objects", PlainStore, "branch", _sharing),
    ("a successor gives up numbers of freed objects", PlainStore, "succeed", _without_freed),
    ("statuses outlive a generation", PlainStore, "move", _keeping_statuses),
    ("a pass has the statuses of others", PlainStore, "call_here", _noting_for_all),
    ("a meeting tells nothing", PlainStore, "meet", _meeting_nobody),
    ("a resize leaves what is outside", plain_store._CHANGES, "resize", _with_entries_outside),
    ("a build keeps the last value of a place", plain_store._CHANGES, "build", _last_value),
    ("the operator of vxm has the matrix first", plain_store._COMPUTED, "vxm", _swapped(plain.vxm)),
    ("the identity of min is 0", plain.IDENTITIES, "min", 0),
]
