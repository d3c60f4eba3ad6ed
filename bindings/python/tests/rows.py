"""Rows: what passes do in turn and what each step answers, written as data.

A row says who makes a step, which step it is, what it is given, and what it answers:

    (P, "new", (int, 4), V),        # P makes a vector of four numbers, which is V
    (Q, "set", (V, 1, 9), DONE),    # Q sets its entry 1 to 9
    (P, "get", (V, 1), 9),          # P reads it
    (P, "known", (), 2),            # P knows two calls

A step is a method of `BarePass`: a call of the library, or what it tells of a pass. An object is a bare number there,
so a row can name one that was freed or never made, and nothing is called that the table does not have.

`RowCase` compares more than the answers. After each row every pass of the table tells just what it must:

- It knows all calls that were entered before its last call returned, or that a pass knew which it met. From that follow
  the room that it has left, and whether it is full.
- Its last call or meeting took a step for each word that it learnt. A call took one more, unless it found no room left.
- As many calls are settled as it knew at its last wait for all objects.
- Each object has the status that its last call on it left. A number that is not below the room has none, nor has one
  that was freed in an earlier generation.

A call that is not done writes nothing, and that is compared too.
"""

from __future__ import annotations

import ctypes
import enum
import unittest
from typing import Any, Dict, FrozenSet, List, Mapping, NamedTuple, Optional, Sequence, Set, Tuple, Union

from trowelheath import Facts, Info
from trowelheath._library import FactsRecord, PassHandle, load
from trowelheath.operators import (
    NO_ACCUM,
    NO_MASK,
    OPERATORS,
    TESTS,
    UNARY_OPERATORS,
    WAIT_MODES,
    domain_of,
    is_of_values,
    semiring_numbers,
)

DONE = Info.SUCCESS
NO_VALUE = Info.NO_VALUE
GONE = Info.UNINITIALIZED_OBJECT
FULL = Info.ORDER_FULL

UNWRITTEN = 0x5A5A_5A5A_5A5A_5A5A
"""What stands where a call may write a number."""


class Item(NamedTuple):
    """An object by its number, and the type of its values."""

    sort: str
    number: int
    dtype: type

    @property
    def suffix(self) -> str:
        """The end of the names of its functions in the library."""
        return domain_of(self.dtype).suffix


def matrix(number: int, dtype: type = int) -> Item:
    """The matrix of this number."""
    return Item("matrix", number, dtype)


def vector(number: int, dtype: type = int) -> Item:
    """The vector of this number."""
    return Item("vector", number, dtype)


class Who(enum.Enum):
    """Who makes a step: one of the passes of a store, or that of the old store or of the new one."""

    P = 0
    Q = 1
    R = 2
    OLD = 3
    NEW = 4

    def __repr__(self) -> str:
        return self.name


P, Q, R, OLD, NEW = Who

# A status; a value or a count; the object that was made, or the dimensions of one; None where there is no status.
Answer = Union[Info, bool, int, Item, Tuple[int, int], None]

# Which step, what it is given and what it answers. A row has before that who makes it.
Step = Tuple[str, Tuple[Any, ...], Answer]
Row = Tuple[Who, str, Tuple[Any, ...], Answer]

# How many calls a store begins with, what its pass does before the store goes on, and what it does then.
Chapter = Tuple[int, Sequence[Step], Sequence[Step]]

ROOM = 64
"""How many calls a store takes that goes on from another one."""

WAYS = "succeed", "branch_of_all"
"""The ways in which a store goes on: each is a method of `BarePass`."""

OLD_FIRST = "the old store first"
OLD_LAST = "the old store last"
OLD_ALONE = "the old store alone, when the new one is gone"
ORDERS = OLD_FIRST, OLD_LAST, OLD_ALONE
"""When a store from which another one has gone on does what is left."""


class BareStore:
    """A store that a function of the library opens, and its passes; none where it was refused.

    Its number is the address of its handles, which no other store has that is open.
    """

    def __init__(self, room: int, count: int, opening: str, *arguments: Any) -> None:
        """Opens it by this function, which takes these arguments between the room and the passes."""
        self.handles = (PassHandle * count)()
        number = ctypes.addressof(self.handles)
        status = getattr(load(), f"trb_{opening}")(number, room, *arguments, self.handles, count)
        self.status = Info(status)
        self.is_chain = opening == "chain_open"
        opened = range(count) if self.status is DONE else ()
        self.passes = [BarePass(self, number) for number in opened]
        self.room = room
        # How many calls its history has, and for how many there is room. The first ones make the objects that it begins
        # with: they are beside the room.
        self.entered = self.whole = 0
        self.restart()
        # How many numbers of each sort were given.
        self.given = {"matrix": 0, "vector": 0}
        # Which of them were freed, and of a chain, which were so in an earlier generation.
        self.freed: Set[Tuple[str, int]] = set()
        self.past: FrozenSet[Tuple[str, int]] = frozenset()
        # How many calls make its objects, which is told where no history has its room beside them.
        self.needed: Optional[int] = None

    def restart(self) -> None:
        """Its passes know nothing but the calls that make the objects, and no object has a status."""
        self.entered = self.passes[0].known() if self.passes else 0
        self.whole = self.room + self.entered
        for pass_ in self.passes:
            pass_.learnt = self.entered
            pass_.waited = 0
            pass_.stepped = 0
            pass_.statuses.clear()

    @property
    def main(self) -> BarePass:
        """Its first pass."""
        return self.passes[0]

    def close(self) -> None:
        """Ends its passes."""
        for handle in self.handles:
            load().trb_free(ctypes.byref(handle))


class BarePass:
    """A pass by its handle. Its methods are the steps of rows."""

    def __init__(self, store: BareStore, number: int) -> None:
        self.store = store
        self.number = number
        self.handle = ctypes.addressof(store.handles) + number * ctypes.sizeof(PassHandle)
        # What it must tell: how many calls it knows, how many are settled, and how many steps its last call or meeting
        # took; and the status that its last call on each object left.
        self.learnt = self.waited = self.stepped = 0
        self.statuses: Dict[Tuple[str, int], Info] = {}

    # What it tells of itself.

    def facts(self) -> Facts:
        """All that it tells."""
        record = FactsRecord()
        self._ask("facts", ctypes.byref(record))
        return Facts(*(getattr(record, name) for name in Facts._fields))

    def known(self) -> int:
        return self.facts().known

    def steps(self) -> int:
        return self.facts().steps

    def made(self) -> int:
        return self.facts().made

    def settled(self) -> int:
        return self.facts().settled

    def is_full(self) -> bool:
        full = ctypes.c_bool()
        self._ask("is_full", full)
        return full.value

    def last_info(self, item: Item) -> Optional[Info]:
        """The status that its last call on the object left, if there is one."""
        out = ctypes.c_int32()
        status = self._status(f"{item.sort}_last_info", out, item.number)
        return None if status is NO_VALUE else Info(out.value)

    # Other passes, and other stores.

    def meet(self, other: BarePass) -> Info:
        status = self._status("meet", other.handle)
        self.stepped = max(other.learnt - self.learnt, 0)
        self.learnt += self.stepped
        return status

    def succeed(self, room: int, count: int = 1) -> BareStore:
        """The successor of its store."""
        return self._opened(self.store.given, room, count, "succeed")

    def branch(self, matrices: Sequence[int], vectors: Sequence[int], room: int, count: int = 1) -> BareStore:
        """A branch with the objects of these numbers."""
        lists: List[Any] = []
        for numbers in matrices, vectors:
            lists += [(ctypes.c_uint32 * max(len(numbers), 1))(*numbers), len(numbers)]
        given = {"matrix": len(matrices), "vector": len(vectors)}
        return self._opened(given, room, count, "branch", *lists)

    def branch_of_all(self, room: int, count: int = 1) -> BareStore:
        """A branch with all objects, each by its own number: a freed one is not there."""
        given = self.store.given
        return self.branch(range(given["matrix"]), range(given["vector"]), room, count)

    def go_on(self) -> Union[Info, bool]:
        """Takes the only pass of a chain to the next generation, and tells whether it moved."""
        needed, moved = ctypes.c_uint64(UNWRITTEN), ctypes.c_bool()
        status = self._status("chain_go_on", needed, moved)
        if needed.value != UNWRITTEN:
            raise AssertionError(f"chain_go_on is answered {status!r}, and writes {needed}")
        if status is not DONE:
            return status
        if moved.value:
            self.store.past = frozenset(self.store.freed)
            self.store.restart()
        return moved.value

    def _opened(self, given: Dict[str, int], room: int, count: int, opening: str, *lists: Any) -> BareStore:
        """A store that begins with objects of this one, where so many numbers are given. The pass looks first."""
        needed = ctypes.c_uint64(UNWRITTEN)
        store = BareStore(room, count, opening, self.handle, *lists, needed)
        self._answered(store.status)
        store.given = dict(given)
        if store.status is not Info.INSUFFICIENT_SPACE and needed.value != UNWRITTEN:
            raise AssertionError(f"{opening} is answered {store.status!r}, and writes {needed}")
        store.needed = needed.value
        return store

    # Objects.

    def new(self, dtype: type, *shape: int) -> Answer:
        sort = "matrix" if len(shape) == 2 else "vector"
        return self._make(sort, dtype, f"{sort}_new", domain_of(dtype).code, *shape)

    def dup(self, item: Item) -> Answer:
        return self._make(item.sort, item.dtype, f"{item.sort}_dup", item.number)

    def diag(self, u: Item, k: int) -> Answer:
        return self._make("matrix", u.dtype, "matrix_diag", u.number, k)

    def free(self, item: Item) -> Info:
        status = self._change(item, "free")
        if status is DONE:
            self.store.freed.add((item.sort, item.number))
        return status

    def clear(self, item: Item) -> Info:
        return self._change(item, "clear")

    def resize(self, item: Item, *shape: int) -> Info:
        return self._change(item, "resize", *shape)

    def size(self, item: Item) -> Answer:
        """The size of a vector, the dimensions of a matrix."""
        return self._read(item, "size", [ctypes.c_uint64(UNWRITTEN) for _ in range(2 if item.sort == "matrix" else 1)])

    # Entries.

    def set(self, item: Item, *place_and_value: int) -> Info:
        *place, value = place_and_value
        return self._change(item, f"set_{item.suffix}", value, *place)

    def remove(self, item: Item, *place: int) -> Info:
        return self._change(item, "remove", *place)

    def get(self, item: Item, *place: int) -> Answer:
        return self._read(item, f"get_{item.suffix}", [self._value(item)], after=place)

    def nvals(self, item: Item) -> Answer:
        return self._read(item, "nvals", [ctypes.c_uint64(UNWRITTEN)])

    def reduce(self, item: Item, monoid: str) -> Answer:
        return self._read(item, f"reduce_{item.suffix}", [self._value(item)], before=[OPERATORS[monoid]])

    def build(self, item: Item, entries: Sequence[Tuple[int, ...]], monoid: str) -> Info:
        """Fills the object with these entries: the indices of each, and its value."""
        *places, values = zip(*entries)
        arrays: List[Any] = []
        for indices in places:
            arrays += [(ctypes.c_uint64 * len(indices))(*indices), len(indices)]
        arrays += [(domain_of(item.dtype).ctype * len(values))(*values), len(values)]
        return self._change(item, f"build_{item.suffix}", *arrays, OPERATORS[monoid])

    def build_from(self, item: Item, other: BarePass, there: Item) -> Info:
        """Fills the object with the entries of one by another pass."""
        status = self._change(item, "build_from", other.handle, there.number)
        # The other pass has waited for its object.
        other.statuses[there.sort, there.number] = other._answered(DONE)
        return status

    def wait(self, item: Item, mode: str) -> Info:
        status = self._call(item, f"{item.sort}_wait", item.number, WAIT_MODES[mode])
        if mode == "materialize" and status is DONE:
            self.waited = self.learnt
        return status

    # Operations, with no mask and no accumulator: the output, the operator and the inputs, as the library has them, and
    # the bits of a descriptor.

    def mxm(self, c: Item, semiring: str, a: Item, b: Item, how: int = 0) -> Info:
        return self._write("mxm", c, *semiring_numbers(semiring), a.number, b.number, how)

    def mxv(self, w: Item, semiring: str, a: Item, u: Item, how: int = 0) -> Info:
        return self._write("mxv", w, *semiring_numbers(semiring), a.number, u.number, how)

    def vxm(self, w: Item, semiring: str, u: Item, a: Item, how: int = 0) -> Info:
        return self._write("vxm", w, *semiring_numbers(semiring), u.number, a.number, how)

    def ewise_add(self, c: Item, operator: str, a: Item, b: Item, how: int = 0) -> Info:
        return self._write(f"{c.sort}_ewise_add", c, OPERATORS[operator], a.number, b.number, how)

    def ewise_mult(self, c: Item, operator: str, a: Item, b: Item, how: int = 0) -> Info:
        return self._write(f"{c.sort}_ewise_mult", c, OPERATORS[operator], a.number, b.number, how)

    def reduce_rows(self, w: Item, monoid: str, a: Item, how: int = 0) -> Info:
        return self._write("reduce_rows", w, OPERATORS[monoid], a.number, how)

    def transpose(self, c: Item, a: Item, how: int = 0) -> Info:
        return self._write("transpose", c, a.number, how)

    def kronecker(self, c: Item, operator: str, a: Item, b: Item, how: int = 0) -> Info:
        return self._write("matrix_kronecker", c, OPERATORS[operator], a.number, b.number, how)

    def apply(self, c: Item, operator: str, a: Item, how: int = 0) -> Info:
        return self._write(f"{c.sort}_apply", c, UNARY_OPERATORS[operator], a.number, how)

    def apply_first(self, c: Item, operator: str, x: int, a: Item, how: int = 0) -> Info:
        return self._write(f"{c.sort}_apply_first_{a.suffix}", c, OPERATORS[operator], x, a.number, how)

    def apply_second(self, c: Item, operator: str, a: Item, y: int, how: int = 0) -> Info:
        return self._write(f"{c.sort}_apply_second_{a.suffix}", c, OPERATORS[operator], a.number, y, how)

    def select(self, c: Item, test: str, a: Item, x: int, how: int = 0) -> Info:
        suffix = a.suffix if is_of_values(test) else "int64"
        return self._write(f"{c.sort}_select_{suffix}", c, TESTS[test], a.number, x, how)

    # How calls are made.

    def _status(self, name: str, *arguments: Any) -> Info:
        """The status of a function."""
        return Info(getattr(load(), f"trb_{name}")(self.handle, *arguments))

    def _ask(self, name: str, out: Any) -> None:
        """Asks what the pass tells, which is never refused."""
        status = self._status(name, out)
        if status is not DONE:
            raise AssertionError(f"{name} is answered {status!r}")

    def _answered(self, status: Info, changes: bool = False) -> Info:
        """The status of a call: the pass has learnt what was entered before, and has entered a change that is done."""
        before, is_full = self.learnt, self.store.entered == self.store.whole
        if changes and status is DONE:
            self.store.entered += 1
        self.learnt = self.store.entered
        self.stepped = self.learnt - before + (0 if is_full else 1)
        return status

    def _call(self, item: Item, name: str, *arguments: Any, changes: bool = False) -> Info:
        """The status of a call on the object."""
        status = self._answered(self._status(name, *arguments), changes)
        self.statuses[item.sort, item.number] = status
        return status

    def _change(self, item: Item, name: str, *arguments: Any) -> Info:
        """The status of a call that changes the object."""
        return self._call(item, f"{item.sort}_{name}", item.number, *arguments, changes=True)

    def _write(self, name: str, item: Item, *arguments: Any) -> Info:
        """The status of an operation that writes the object."""
        return self._call(item, name, item.number, NO_MASK, NO_ACCUM, *arguments, changes=True)

    def _make(self, sort: str, dtype: type, name: str, *arguments: Any) -> Answer:
        """The object that a call makes, or the status of a call that is refused."""
        out = ctypes.c_uint32(UNWRITTEN % 2**32)
        status = self._answered(self._status(name, out, *arguments), changes=True)
        if not self._told(name, status, [out], [UNWRITTEN % 2**32]):
            return status
        self.store.given[sort] += 1
        self.statuses[sort, out.value] = status
        return Item(sort, out.value, dtype)

    def _read(
        self, item: Item, name: str, outs: List[Any], before: Sequence[int] = (), after: Sequence[int] = ()
    ) -> Answer:
        """What a read of the object tells, or its status where it tells nothing."""
        unwritten = [out.value for out in outs]
        status = self._call(item, f"{item.sort}_{name}", *outs, *before, item.number, *after)
        if not self._told(name, status, outs, unwritten):
            return status
        return outs[0].value if len(outs) == 1 else (outs[0].value, outs[1].value)

    def _told(self, name: str, status: Info, outs: List[Any], unwritten: List[int]) -> bool:
        """Whether a call is done and tells something. One that is not done must write nothing."""
        if status is not DONE and [out.value for out in outs] != unwritten:
            raise AssertionError(f"{name} is answered {status!r}, and writes {outs}")
        return status is DONE

    def _value(self, item: Item) -> Any:
        """Where a value of the object is written."""
        return domain_of(item.dtype).ctype(UNWRITTEN)


class RowCase(unittest.TestCase):
    """A test that has its steps in tables. Its stores are closed behind it."""

    maxDiff = None

    def begin(self, room: int, count: int = 1, opening: str = "open") -> BareStore:
        """A new store with this room and so many passes."""
        return self.have(BareStore(room, count, opening), 0)

    def have(self, store: BareStore, known: int) -> BareStore:
        """A store that was opened just now. Its passes know so many calls, which make the objects."""
        self.addCleanup(store.close)
        self.assertEqual(store.status, DONE)
        for number, pass_ in enumerate(store.passes):
            told = Facts(number, known, words=known, settled=0, room_left=store.room, steps=0, made=0)
            self.assertEqual((pass_.facts(), pass_.is_full()), (told, False))
        return store

    def refuse(self, store: BareStore, needed: int) -> None:
        """The store was refused, since no history has its room beside so many calls that make its objects."""
        self.assertEqual((store.status, store.needed), (Info.INSUFFICIENT_SPACE, needed))
        self.assertFalse(any(handle.is_open for handle in store.handles))

    def play(self, rows: Sequence[Row], passes: Mapping[Who, BarePass]) -> None:
        """Makes the rows of a table by these passes."""
        for at, row in enumerate(rows):
            who, step, arguments, wanted = row
            given = [passes[each] if isinstance(each, Who) else each for each in arguments]
            answer = getattr(passes[who], step)(*given)
            # A truth value is no number, and a status is none either.
            self.assertEqual((type(answer), answer), (type(wanted), wanted), f"row {at}, {row}")
            for each, pass_ in passes.items():
                self.assertEqual(self._seen(pass_), self._right(pass_), f"what {each!r} tells after row {at}, {row}")

    def make(self, pass_: BarePass, steps: Sequence[Step]) -> None:
        """Makes the steps of a table by this pass."""
        self.play([(P, *step) for step in steps], {P: pass_})

    def tell(self, chapters: Sequence[Chapter], room: int = ROOM) -> None:
        """A new store with this room, and those that go on from it, make the steps of the chapters.

        They go on in each way that there is, and make in each order what they do then: none sees what another one does.
        """
        for way in WAYS:
            for order in ORDERS:
                with self.subTest(way=way, order=order):
                    self._tell(self.begin(room), chapters, way, order)

    def _tell(self, store: BareStore, chapters: Sequence[Chapter], way: str, order: str) -> None:
        """The store makes the first chapter, and those that go on from it make the others."""
        (_, before, after), *others = chapters
        self.make(store.main, before)
        if others:
            known = others[0][0]
            there = self.have(getattr(store.main, way)(ROOM), known)
            if order == OLD_FIRST:
                self.make(store.main, after)
                after = []
            self._tell(there, others, way, order)
            if order == OLD_ALONE:
                there.close()
        self.make(store.main, after)

    def tell_in_chain(
        self, made: Sequence[Step], known: int, branched: int, seen: Sequence[Step], changed: Sequence[Step]
    ) -> None:
        """A chain makes objects, and changes them in its next generation after a branch of that has done so.

        So many calls make the objects anew there, and so many in the branch.
        """
        counted = self.begin(ROOM)
        self.make(counted.main, made)
        # The room of its first generation is just used up.
        chain = self.begin(counted.entered, opening="chain_open")
        self.make(chain.main, [*made, ("go_on", (), True), ("known", (), known), ("settled", (), 0)])
        there = self.have(chain.main.branch_of_all(ROOM), branched)
        self.make(there.main, [*seen, *changed])
        self.make(chain.main, [*seen, *changed])

    def _seen(self, pass_: BarePass) -> Tuple[Any, ...]:
        """What the pass tells, but for how many calls were made for its last answer."""
        statuses = {item: pass_.last_info(Item(*item, int)) for item in pass_.statuses}
        return pass_.facts()._replace(made=0), pass_.is_full(), statuses

    def _right(self, pass_: BarePass) -> Tuple[Any, ...]:
        """What it must tell. A chain goes on, so it is not full."""
        store, learnt = pass_.store, pass_.learnt
        room_left = store.whole - learnt
        facts = Facts(pass_.number, learnt, learnt, pass_.waited, room_left, pass_.stepped, made=0)
        statuses = {
            item: status if item[1] < store.whole and item not in store.past else None
            for item, status in pass_.statuses.items()
        }
        return facts, room_left == 0 and not store.is_chain, statuses
