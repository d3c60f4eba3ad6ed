"""Stores and their passes."""

from __future__ import annotations

import ctypes
import itertools
import math
import operator
import os
import threading
import weakref
from contextlib import suppress
from typing import Any, Callable, Dict, Iterable, List, NamedTuple, NoReturn, Optional, SupportsIndex, Tuple, Type

from . import _tell, convert
from ._helper import Task, can_wait, forget_helpers, wait_for
from ._helping import Helping
from ._library import CostsRecord, FactsRecord, PassHandle, load
from ._life import LetGo, Life
from .errors import Info, InsufficientSpace, InvalidValue, Refusal, RoomTooSmall, StoreClosed, refusal_of
from .objects import AnyObject, Matrix, Object, Vector
from .operators import BOOL, UINT64, Domain, domain_of

__all__ = ["MOST_PASSES", "MOST_ROOM", "MOST_SEATS", "Costs", "Facts", "Pass", "Store", "Temporary"]

MOST_ROOM = 65_536
"""The largest room of a store, in calls."""

MOST_PASSES = 256
"""The largest number of passes of a store."""

MOST_SEATS = 1_048_576
"""The largest product of room and passes of a store."""

_RANGES = (
    f"Give a room from 1 to {MOST_ROOM:,}, passes from 1 to {MOST_PASSES}, "
    f"and a product of both up to {MOST_SEATS:,}."
)

_BOUNDED = "A store with a room has no generations; open one without."

# What opens a store: it is given a number, and a handle for each pass, and answers the status.
_Opening = Callable[[int, "ctypes.Array[PassHandle]"], int]

# The numbers that objects have in a branch, by their sort and their number in the store that it branched from.
_Chosen = Dict[Tuple[str, int], int]

# A store has the address of one of these as its number. They are kept as long as the process runs, so no two
# stores have the same number.
_numbers: List[ctypes.c_uint64] = []
_places = itertools.count()

# A read that has to visit so many entries may take long, some 0.3 seconds. More than the second is not counted.
_LONG = 50_000_000
_MOST_WORK = 1_000_000_000

# Dimensions that are not known.
_LARGE = 2**32, 2**32


class _Core:
    """A store as the library has it, and what its passes share.

    A `Store` and its passes refer to it, and it refers to them weakly: so there is no cycle, and it ends as soon as
    none of them is there.
    """

    def __init__(
        self,
        library: ctypes.CDLL,
        handles: ctypes.Array[PassHandle],
        room: Optional[int],
        number: int,
        before: Optional[_Core],
        chosen: Optional[_Chosen],
        helpers: int,
    ) -> None:
        self.library = library
        self.handles = handles
        # Of so many handles the passes are handed out. The others are the helpers'.
        self.count = len(handles) - helpers
        # None where the store has no end.
        self.room = room
        self.number = number
        # Of two stores of this process it is never the same.
        self.place = next(_places)
        # The number of the store that it succeeds, and the shapes that objects had there. That store itself may end.
        self.before = None if before is None else before.number
        # The numbers here of the objects that a branch begins with; none where each object keeps its own.
        self.chosen = chosen
        self.lives: Dict[Tuple[str, int], Life] = {}
        # Why no calls are made any more, where none are.
        self.closed: Optional[str] = None
        self.let_go = LetGo()
        # How many entries all calls may visit.
        self.work = 0
        self._store: Optional[weakref.ref[Store]] = None
        self._passes: List[Optional[weakref.ref[Pass]]] = [None] * self.count
        self._lock = threading.RLock()
        # The threads that help; none in the child of a fork.
        self.helping: Optional[Helping] = Helping(library, handles, self.count, room is None)
        # It runs when nothing can make a call by a pass any more. At the end of the process it need not.
        self.finalizer = weakref.finalize(self, _end_unused, library, handles, self.count, self.helping)
        self.finalizer.atexit = False
        _cores.add(self)

    def took(self, life: Life, length: int) -> None:
        """The object of this life was given a list of so many entries."""
        life.entries = length
        # To sort a list takes as long as to visit it some times.
        life.work += 20 * length
        self.work += 20 * length

    def made(self, kind: str, first: Object, second: Optional[Object], mask: Optional[Object], out: Object) -> None:
        """An operation was made."""
        entries = first._life.entries
        others = 0 if second is None else second._life.entries
        if kind == "mxm":
            inner, columns = (_LARGE if second is None else second._life.shape or _LARGE)
            # A row of the second matrix for each entry of the first one, and rows are not alike: long ones come often.
            work = min(16 * entries * others // inner, entries * columns)
            found = work
        elif kind == "kronecker":
            found = work = entries * others
        else:
            work = entries + others
            found = min(entries, others) if kind == "ewise_mult" else work
        target = out._life
        work += target.entries
        target.entries = min(target.entries + found, math.prod(target.shape or _LARGE))
        # And what the pass has not evaluated of the inputs.
        number = first._pass._number
        for item in first, second, mask:
            if item is not None and item._life is not target and item._life.work:
                work += target.feed(item._life, number)
        work = min(work, _MOST_WORK)
        target.work += work
        self.work += work

    def inherit(self, before: _Core) -> None:
        """What is known of the objects of the store before."""
        self.work = before.work
        for (sort, number), life in before.let_go.lives() + list(before.lives.items()):
            place = self.place_of(sort, number)
            if place is not None:
                there = self.lives[sort, place] = Life(life.shape, life.entries, life.work)
                there.freed = life.freed

    def place_of(self, sort: str, number: int) -> Optional[int]:
        """The number here of an object of the store before, if it went over."""
        return number if self.chosen is None else self.chosen.get((sort, number))

    def pass_at(self, number: int) -> Pass:
        """The pass of this number."""
        with self._lock:
            there = self._passes[number]
            pass_ = None if there is None else there()
            if pass_ is None:
                pass_ = Pass(self, number)
                self._passes[number] = weakref.ref(pass_)
            return pass_

    def store(self, made: Optional[Store] = None) -> Store:
        """The store, which is `made` where that is given."""
        with self._lock:
            store = made if made is not None else None if self._store is None else self._store()
            if store is None:
                store = Store.__new__(Store)
                store._have(self)
            self._store = weakref.ref(store)
            return store

    def close(self) -> None:
        """Ends all passes, once the calls that other threads make by them have returned."""
        if self.closed is None:
            self.closed = "the store is closed"
        if self.helping is not None:
            self.helping.stop()
        passes = [self.pass_at(number) for number in range(self.count)]
        for pass_ in passes:
            pass_._end()
        # Those that help with a read which a Ctrl-C has left end with it.
        if self.helping is not None and all(pass_._ended for pass_ in passes):
            self.helping.join()
        self.finalizer.detach()

    def leave_to_parent(self) -> None:
        """In the child of a fork: the store is the parent's, and is not ended here."""
        self._lock = threading.RLock()
        self.closed = "the store belongs to the process that this one was forked from"
        self.finalizer.detach()
        self.helping = None
        for handle in self.handles:
            # The child has memory of its own. Without a pass in it the library refuses a call.
            handle.is_open = False
        for number in range(self.count):
            self.pass_at(number)._leave_to_parent()


# The stores of this process, for what is to be done after a fork.
_cores: weakref.WeakSet[_Core] = weakref.WeakSet()


def _refused(*arguments: Any) -> int:
    """The status of a call by a pass that is none."""
    return Info.UNINITIALIZED_OBJECT


class _Quick:
    """What the calls that are made most need at hand, by one pass, of matrices or of vectors of one domain."""

    __slots__ = ("get", "gone", "handle", "lock", "new", "nvals", "remove", "set", "takes_numbers")

    def __init__(self, pass_: Pass, domain: Domain) -> None:
        self.gone = pass_._core.let_go.gone
        self.handle = pass_._handle
        self.lock = pass_._lock
        self.new = domain.ctype
        self.takes_numbers = domain is UINT64
        self.nvals: Any = None
        self.get: Any = None
        self.set: Any = None
        self.remove: Any = None


class Facts(NamedTuple):
    """What a pass tells of itself."""

    number: int
    """Its number in the store, from 0."""
    known: int
    """How many calls of the history it knows."""
    words: int
    """How many places of the history's order it has learnt."""
    settled: int
    """How many calls it knew at its last wait with "materialize"; 0 before the first. While it knows no more,
    none of its reads is refused for lack of memory."""
    room_left: int
    """How many more calls the store takes, as far as the pass has learnt; one without an end, its generation."""
    steps: int
    """How many atomic steps its last call made on the order."""
    made: int
    """How many calls of the history its last call evaluated to answer."""


class Costs(NamedTuple):
    """What a pass keeps and has looked at: counts for who watches what a store costs."""

    entries: int
    """How many entries the results have that it keeps; what it shares with others counts with each."""
    entries_left: int
    """How many entries the results have that the passes of its store left to one another."""
    looks: int
    """How many objects, results and calls it has looked at so far without that one of them was made."""


class Pass:
    """One thread's view of a store. It makes objects, and they make their calls by it.

    A pass sees what it did itself, and what other passes have done before the call. One thread at a time uses
    it: a second one waits until the first one's call returns. So give each thread a pass of its own. A pass may
    go from one thread to another between calls.

    **Interrupts.** In the main thread a read that may have much to evaluate is made by another thread. A Ctrl-C, or
    another handler of a signal that raises, then ends the wait for it at once. The read itself cannot be ended: that
    thread goes on with it, and who uses the pass meanwhile waits, and can be interrupted too. `Store.close` does not
    wait for it. How much it is, is reckoned from the entries and dimensions of the objects.
    """

    def __init__(self, core: _Core, number: int) -> None:
        """The pass of this number. For the package's own use: `Store` makes passes."""
        if not isinstance(core, _Core):
            raise TypeError("a store makes its passes: Store(room, passes).passes has them")
        self._core = core
        self._number = number
        # The address of its handle, which the core holds.
        self._handle = ctypes.addressof(core.handles) + number * ctypes.sizeof(PassHandle)
        # A signal handler or a finalizer may make a call by the pass in the thread that has the lock. It runs
        # before or after the library's call, never during one, so that thread may take the lock again.
        self._lock = threading.RLock()
        # Why it makes no calls, where it makes none, and whether the library has it no more.
        self._closed = core.closed
        self._ended = False
        # What a helper makes or made by it, and the work of the store when all was evaluated last.
        self._task: Optional[Task] = None
        self._seen = 0
        self._blocks: List[Temporary] = []
        self._quick = {
            (sort, domain): _Quick(self, domain) for sort in ("matrix", "vector") for domain in (BOOL, UINT64)
        }
        self._library = core.library

    @property
    def _library(self) -> Any:
        """The library. The functions that are called most are looked up once."""
        return self._loaded

    @_library.setter
    def _library(self, library: Any) -> None:
        self._loaded = library
        for (sort, domain), quick in self._quick.items():
            quick.get = getattr(library, f"trb_{sort}_get_{domain.suffix}")
            quick.set = getattr(library, f"trb_{sort}_set_{domain.suffix}")
            quick.remove = getattr(library, f"trb_{sort}_remove")
            quick.nvals = getattr(library, f"trb_{sort}_nvals")

    @property
    def store(self) -> Store:
        """The store that it belongs to."""
        return self._core.store()

    @property
    def number(self) -> int:
        """Its number in the store, from 0."""
        return self._number

    def __repr__(self) -> str:
        return f"<Pass {self._number} of {self.store!r}>"

    def __reduce__(self) -> NoReturn:
        raise TypeError("a Pass is used where it was made; to_lists() of an object has what can be pickled and copied")

    def matrix(self, nrows: SupportsIndex, ncols: SupportsIndex, dtype: Any = int) -> Matrix:
        """A new matrix with no entries.

        Args:
            nrows: its number of rows, from 1 to 4,294,967,295.
            ncols: its number of columns, from 1 to 4,294,967,295.
            dtype: `int` or "uint64" for numbers from 0 to 2**64 - 1, `bool` or "bool" for truth values.

        Raises:
            InvalidValue: a dimension is out of its range.
            TypeError: the dtype is another one.
            OrderFull, OutOfMemory, Panic, StoreClosed.
        """
        return self._new(Matrix, (convert.dimension(nrows), convert.dimension(ncols)), domain_of(dtype))

    def vector(self, size: SupportsIndex, dtype: Any = int) -> Vector:
        """A new vector with no entries.

        Args:
            size: its size, from 1 to 4,294,967,295.
            dtype: `int` or "uint64" for numbers from 0 to 2**64 - 1, `bool` or "bool" for truth values.

        Raises:
            InvalidValue: the size is out of its range.
            TypeError: the dtype is another one.
            OrderFull, OutOfMemory, Panic, StoreClosed.
        """
        return self._new(Vector, (convert.dimension(size),), domain_of(dtype))

    def _new(self, sort: Type[AnyObject], shape: Tuple[int, ...], domain: Domain) -> AnyObject:
        """A new object of this sort, shape and domain."""
        out = ctypes.c_uint32()
        self._change(
            f"trb_{sort._sort}_new",
            out,
            domain.code,
            *shape,
            tell=lambda code: _tell.of_new(code, self._core.room, shape),
        )
        return self._made(sort, out.value, domain, shape)

    def _made(
        self, sort: Type[AnyObject], number: int, domain: Domain, shape: Optional[Tuple[int, ...]]
    ) -> AnyObject:
        """The first name of an object that was made just now."""
        life = Life(shape)
        made = sort._named(self, number, domain, life)
        self._core.let_go.watch(sort._sort, number, life)
        if self._blocks:
            thread = threading.get_ident()
            for block in reversed(self._blocks):
                if block._thread == thread:
                    block._made.append(weakref.ref(made._life))
                    block._numbers.append((sort._sort, number))
                    break
        return made

    def temporary(self) -> Temporary:
        """A block at whose end the objects are freed that this pass made in it, in this thread.

            with p.temporary() as block:
                squares = A @ A
                result = block.keep(squares.reduce_rows("plus"))
            # squares is freed, and result goes on

        `Temporary.keep` and `Object.keep` leave an object out. A block may stand in another one.
        """
        return Temporary(self)

    def meet(self, other: Pass) -> bool:
        """Learns all that another pass of the store knows.

        Each call looks for news by itself, so this is for passes that hand work over without a call. A pass that
        meets itself learns nothing. In a store without an end the pass first goes to a later generation, where the
        other one sits in one.

        Returns:
            Whether the pass knows all that the other one knows. It is False only where that sits in a later generation
            of a store without an end, to which the pass could not go now: meet it again.

        Raises:
            InvalidValue: the other pass is of another store.
            Panic: the record of a call is not shown yet; the next call or meeting asks for it again.
            StoreClosed: one of the two stores is closed.
        """
        return self._meet("trb_meet", other)

    def adopt(self, other: Pass) -> bool:
        """Learns all that another pass of the store knows, and goes on from what that has evaluated.

        Both then share that work; in a store without an end, where they sit in one generation then. Have one pass load
        data and prepare them, and let those that serve them adopt it.

        Returns:
            Whether the pass knows all that the other one knows, as of `meet`.

        Raises:
            InvalidValue: the other pass is of another store.
            Panic: the record of a call is not shown yet; the next call or meeting asks for it again.
            StoreClosed: one of the two stores is closed.
        """
        return self._meet("trb_adopt", other)

    def prepare(self) -> int:
        """Evaluates the calls that the pass knows, where that is dear, so that others may adopt that work.

        It changes no answer. Where memory is refused, fewer calls are evaluated, and nothing is lost.

        Returns:
            Before how many of the known calls no answer makes one any more.

        Raises:
            StoreClosed: the store is closed.
        """
        out = ctypes.c_uint32()
        self._evaluate_all("trb_prepare", out)
        return out.value

    def help(self) -> int:
        """Makes blocks of the dear products that other passes of the store make at the moment.

        A product is dear that takes millions of multiplications. The call returns when no block is left to begin,
        changes no answer, and waits for nobody. Where memory is refused, fewer blocks are made. The threads of
        `Store(helpers=...)` call it all the time; this is for a thread of your own that has nothing else to do. In a
        store without an end a pass helps in the generation in which it sits: let it make a read now and then.

        Returns:
            How many blocks it made: 0 where there was none to make.

        Raises:
            StoreClosed: the store is closed.
        """
        out = ctypes.c_uint32()
        status = self._read(self._library.trb_help, (out,), self._core.work)
        if status < 0:
            self._refuse(status)
        return out.value

    def blocks(self) -> int:
        """How many blocks of dear products were made so far in the store, by its passes and helpers.

        One that two of them made counts twice. Of a store without an end, in the generation in which the pass sits. While
        one pass makes a long read, another one tells so how far it is; also where a Ctrl-C has left the read.

        Raises:
            StoreClosed: the store is closed.
        """
        out = ctypes.c_uint64()
        self._call("trb_blocks", ctypes.byref(out))
        return out.value

    def release(self) -> None:
        """Drops what the pass has evaluated, so that its memory is given back.

        What the pass knows stays, and other passes keep what they have. What a later answer needs is made anew, or
        found with other passes; no change is settled any more.

        Raises:
            StoreClosed: the store is closed.
        """
        self._call("trb_release")

    def facts(self) -> Facts:
        """What the pass tells of itself: what it knows, and what its last call cost. It looks for no news.

        Raises:
            StoreClosed: the store is closed.
        """
        record = FactsRecord()
        self._call("trb_facts", ctypes.byref(record))
        return Facts(*(getattr(record, name) for name in Facts._fields))

    def costs(self) -> Costs:
        """What the pass keeps and has looked at. It looks for no news.

        Raises:
            StoreClosed: the store is closed.
        """
        record = CostsRecord()
        self._call("trb_costs", ctypes.byref(record))
        return Costs(*(getattr(record, name) for name in Costs._fields))

    def is_full(self) -> bool:
        """Whether the room is used up and the pass knows every change.

        Then no pass of the store will ever know another one. It looks for no news: let it `meet` the others before.
        Of a store without an end, whether the pass was refused a next generation, or place for an object, in the
        generation in which it sits.

        Raises:
            StoreClosed: the store is closed.
        """
        out = ctypes.c_bool()
        self._call("trb_is_full", ctypes.byref(out))
        return out.value

    def generation(self) -> int:
        """The number of the generation of a store without an end in which the pass sits, from 0. It looks for no news.

        Raises:
            InvalidValue: the store has a room, and so no generations.
            StoreClosed: the store is closed.
        """
        out = ctypes.c_uint64()
        self._call("trb_chain_generation", ctypes.byref(out), invalid=_BOUNDED)
        return out.value

    def objects_left(self) -> int:
        """How many more objects a store without an end has place for. It looks for no news.

        It is beside all that there can be where the generation ends in which the pass sits: those that it began with or
        made, and one for each call that it takes yet. Where it is 0, a call that makes an object raises `OrderFull`,
        and calls that free, clear or change objects go on. A call that changes the store and makes none raises it by
        one, as far as it is not 0. A new generation lowers it: what was freed counts no more, and one object for each
        call of its own does.

        Raises:
            InvalidValue: the store has a room, and so no generations.
            StoreClosed: the store is closed.
        """
        out = ctypes.c_uint64()
        self._call("trb_chain_objects_left", ctypes.byref(out), invalid=_BOUNDED)
        return out.value

    def go_on(self) -> bool:
        """Goes to a later generation of a store without an end, where the pass knows all of a full one.

        Where there is none, it makes the next one. Each call does so by itself: this is for who was refused by
        `OrderFull`, and asks why, where `objects_left` is not 0. Where it is refused, the pass may try again.

        Returns:
            Whether it moved.

        Raises:
            InvalidValue: the store has a room, and so no generations.
            RoomTooSmall: no history has the room of a generation beside the calls that make the objects. A `branch`
                with less room goes on.
            OutOfMemory: memory was refused.
            Panic: the record of a call was not taken; call again.
            StoreClosed: the store is closed.
        """
        needed, moved = ctypes.c_uint64(), ctypes.c_bool()
        try:
            self._call("trb_chain_go_on", ctypes.byref(needed), ctypes.byref(moved), invalid=_BOUNDED)
        except InsufficientSpace:
            raise RoomTooSmall(needed.value) from None
        return moved.value

    def succeed(self, room: SupportsIndex = 4096, passes: SupportsIndex = 1, helpers: SupportsIndex = 0) -> Store:
        """Opens the successor of the store: a store of its own that begins with this one as it is now.

        The pass looks for news first, as in each call. Every object goes over, whoever made it, with its number:
        `A.using(pass_)` gives it by a pass of the successor. A freed number stays freed, and the next object is given
        the next number, so none is given anew. The history begins with the calls that make these objects, one or two
        for each number that was ever given. The new passes know them, and share what is evaluated of them. No object
        has a `last_info`, and nothing is settled. This store stays as it is, and is closed by its owner; objects are
        shared until one of the two stores changes one.

        Where the room is used up, as it is after `OrderFull`, nothing is lost. Called earlier it makes a branch: what
        is changed here later is not there.

        Args:
            room: how many calls that change it the successor takes, as of `Store`, next to those that make its objects.
            passes: how many passes it has, as of `Store`.
            helpers: how many threads help with its dear products, as of `Store`.

        Raises:
            InvalidValue: the room, the number of passes or that of helpers is out of its range, or the product of room
                and all passes is too large; or the store has no end, and so no successor.
            RoomTooSmall: no store has room for the calls that make the objects, and for `room` more.
            OutOfMemory: memory was refused.
            Panic: the record of a call was not shown; call again.
            RuntimeError: a thread was not to be had.
            StoreClosed: the store is closed.
        """
        more = operator.index(helpers)
        calls, count = _within_ranges(room, passes, more)
        if self._core.room is None:
            self._require_open()
            raise InvalidValue("A store without an end goes on by itself; of a part of it open a branch.")
        self._free_gone()
        needed = ctypes.c_uint64()

        def opening(number: int, handles: ctypes.Array[PassHandle]) -> int:
            with self._lock:
                self._require_open()
                status: int = self._library.trb_succeed(
                    number, calls, self._handle, ctypes.byref(needed), handles, count
                )
            return status

        try:
            return Store._opened(calls, count, opening, self._core, helpers=more)
        except InsufficientSpace:
            raise RoomTooSmall(needed.value, calls) from None

    def branch(
        self, *objects: Object, room: SupportsIndex = 4096, passes: SupportsIndex = 1, helpers: SupportsIndex = 0
    ) -> Store:
        """Opens a branch: a store of its own that begins with these objects, as they all are at one moment of the call.

        The pass looks for news first, as in each call, so another one may have made or changed them just now.
        `A.using(pass_)` gives an object by a pass of the branch. What is made or changed in either store is not seen in
        the other, and a branch's objects take no room here: so an analysis of many calls reads one moment, and
        `build_from` brings a result back by one call. Objects are shared until one of the two stores changes one, no
        entry is copied, and nothing else is evaluated.

        Args:
            objects: matrices and vectors of this store. One that was freed is not there in the branch.
            room: how many calls that change it the branch takes, as of `Store`, next to those that make its objects.
            passes: how many passes it has, as of `Store`.
            helpers: how many threads help with its dear products, as of `Store`.

        Raises:
            InvalidValue: the room, the number of passes or that of helpers is out of its range, or the product of room
                and all passes is too large.
            RoomTooSmall: no store has room for the calls that make the objects, and for `room` more.
            OutOfMemory: memory was refused.
            Panic: the record of a call was not shown; call again.
            RuntimeError: a thread was not to be had.
            StoreClosed: the store is closed.
            ValueError: an object is of another store.
        """
        more = operator.index(helpers)
        calls, count = _within_ranges(room, passes, more)
        self._free_gone()
        needed = ctypes.c_uint64()
        chosen: _Chosen = {}
        numbers: Dict[str, List[int]] = {"matrix": [], "vector": []}
        for each in objects:
            if not isinstance(each, Object):
                raise TypeError(f"a branch begins with matrices and vectors, not with a {type(each).__name__}")
            if each._pass._core is not self._core:
                raise ValueError("an object is of another store")
            if (each._sort, each._number) not in chosen:
                chosen[each._sort, each._number] = len(numbers[each._sort])
                numbers[each._sort].append(each._number)
        matrices = (ctypes.c_uint32 * max(1, len(numbers["matrix"])))(*numbers["matrix"])
        vectors = (ctypes.c_uint32 * max(1, len(numbers["vector"])))(*numbers["vector"])

        def opening(number: int, handles: ctypes.Array[PassHandle]) -> int:
            with self._lock:
                self._require_open()
                status: int = self._library.trb_branch(
                    number,
                    calls,
                    self._handle,
                    matrices,
                    len(numbers["matrix"]),
                    vectors,
                    len(numbers["vector"]),
                    ctypes.byref(needed),
                    handles,
                    count,
                )
            return status

        try:
            return Store._opened(calls, count, opening, self._core, chosen, more)
        except InsufficientSpace:
            raise RoomTooSmall(needed.value, calls) from None

    # How calls are made.

    def _call(
        self,
        name: str,
        *arguments: Any,
        invalid: Optional[str] = None,
        tell: Optional[Callable[[int], Optional[str]]] = None,
    ) -> int:
        """Makes a call of the library by this pass, and returns its status. Other threads run meanwhile.

        `invalid` is the hint of an `InvalidValue`, and `tell` says what a status was answered for.
        """
        self._require_open()
        function = getattr(self._library, name)
        with self._lock:
            if self._closed is not None:
                raise StoreClosed(self._closed)
            status: int = function(self._handle, *arguments)
        if status < 0:
            self._refuse(status, invalid, tell)
        return status

    def _change(
        self,
        name: str,
        *arguments: Any,
        invalid: Optional[str] = None,
        tell: Optional[Callable[[int], Optional[str]]] = None,
    ) -> int:
        """As `_call`, of a call that changes the store: before it the objects that were let go are freed."""
        if self._core.let_go.gone:
            self._free_gone()
        return self._call(name, *arguments, invalid=invalid, tell=tell)

    def _evaluate_all(
        self, name: str, *arguments: Any, tell: Optional[Callable[[int], Optional[str]]] = None
    ) -> None:
        """Makes a call that evaluates what the pass knows."""
        work = self._core.work
        status = self._read(getattr(self._library, name), arguments, work - self._seen)
        self._seen = work
        if status < 0:
            self._refuse(status, None, tell)

    def _is_long(self, work: int) -> bool:
        """Whether a read that has to visit so many entries may take long."""
        return work >= _LONG

    def _read(self, function: Any, arguments: Tuple[Any, ...], work: int, hold: Any = None) -> int:
        """Makes a read, and returns its status: by a helper, where it may be long and this is the main thread.

        It may have to visit as many entries as `work`. `hold` has the memory that it writes.
        """
        self._require_open()
        if work < _LONG or not can_wait(self._lock):
            return self._read_now(function, arguments)
        task = Task(lambda: self._read_now(function, arguments), self._end_if_closed, hold)
        self._task = task
        status = wait_for(task)
        self._task = None
        return status

    def _read_now(self, function: Any, arguments: Tuple[Any, ...]) -> int:
        """Makes a read in this thread."""
        with self._lock:
            self._require_open()
            status: int = function(self._handle, *arguments)
        return status

    def _refuse(
        self, status: int, invalid: Optional[str] = None, tell: Optional[Callable[[int], Optional[str]]] = None
    ) -> NoReturn:
        """Raises the exception for a status below 0."""
        # A pass that is ended is refused by the library too.
        self._require_open()
        detail = None if tell is None else tell(status)
        raise refusal_of(status, invalid, detail, is_chain=self._core.room is None)

    def _free_gone(self) -> None:
        """Frees the objects that were let go, as far as there is room for it."""
        let_go = self._core.let_go
        while True:
            gone = let_go.next_gone()
            if gone is None:
                return
            with self._lock:
                if self._closed is not None:
                    return
                status = getattr(self._library, f"trb_{gone[0]}_free")(self._handle, gone[1])
            if status < 0 and status != Info.UNINITIALIZED_OBJECT:
                let_go.put_back(*gone)
                return

    def _meet(self, name: str, other: Pass) -> bool:
        """Makes a call of the library that gives two passes. Whether they met, or this one sits in a later generation."""
        if not isinstance(other, Pass):
            raise TypeError(f"a pass meets a pass, not a {type(other).__name__}")
        if other is self:
            self._require_open()
            return True
        first, second = self._in_turn(other)
        with first._lock, second._lock:
            other._require_open()
            return self._call(name, other._handle, invalid="Give two passes of one store.") != Info.NO_VALUE

    def _in_turn(self, other: Pass) -> List[Pass]:
        """The two passes, in the one order in which all threads take their locks: so none waits for another in a ring."""
        return sorted((self, other), key=lambda pass_: (pass_._core.place, pass_._number))

    def _require_open(self) -> None:
        """Raises `StoreClosed` where no call is made by the pass any more."""
        if self._closed is not None:
            raise StoreClosed(self._closed)

    def _end(self) -> None:
        """Ends the pass once the call that another thread makes by it has returned."""
        # First no further call begins: so this thread gets the lock soon, however many wait for it.
        if self._closed is None:
            self._closed = "the store is closed"
        self._refuse_quickly()
        task = self._task
        if task is not None and task.left and not task.over:
            # A helper makes a call that nobody waits for. It ends the pass when that has returned, or does so here
            # where it has not begun.
            if not self._lock.acquire(blocking=False):
                return
            try:
                self._end_now()
            finally:
                self._lock.release()
            return
        with self._lock:
            self._end_now()

    def _end_now(self) -> None:
        """Ends the pass, whose lock this thread has."""
        if not self._ended:
            self._ended = True
            self._library.trb_free(self._handle)

    def _refuse_quickly(self) -> None:
        """Has calls on one entry refused, also while another thread makes a call by the pass."""
        for quick in self._quick.values():
            # The lock comes last: who has the new one has no function of the library any more.
            quick.get = quick.set = quick.remove = quick.nvals = _refused
            quick.lock = threading.RLock()

    def _end_if_closed(self) -> None:
        """Ends the pass where its store was closed while a helper made a call by it."""
        if self._closed is not None:
            self._end()

    def _leave_to_parent(self) -> None:
        """In the child of a fork: no call is made by the pass any more. The thread that had its lock is not here."""
        self._lock = threading.RLock()
        self._closed = self._core.closed
        self._refuse_quickly()
        self._task = None
        self._ended = True


class Temporary:
    """A block at whose end objects are freed, as `Pass.temporary` tells."""

    def __init__(self, pass_: Pass) -> None:
        """A block of this pass. `Pass.temporary` makes it."""
        self._pass = pass_
        self._thread = 0
        self._made: List[weakref.ref[Life]] = []
        self._numbers: List[Tuple[str, int]] = []
        self._kept: List[Life] = []

    def __enter__(self) -> Temporary:
        self._thread = threading.get_ident()
        self._pass._blocks.append(self)
        return self

    def keep(self, item: AnyObject) -> AnyObject:
        """Leaves the object out: it is not freed at the end of the block. Returns it."""
        if not isinstance(item, Object):
            raise TypeError(f"a block keeps a Matrix or a Vector, not a {type(item).__name__}")
        self._kept.append(item._life)
        return item

    def __exit__(self, *exception: object) -> None:
        self._pass._blocks.remove(self)
        let_go = self._pass._core.let_go
        for made, (sort, number) in zip(self._made, self._numbers):
            life = made()
            if life is None or life in self._kept or not let_go.is_watched(sort, number):
                continue
            with suppress(Refusal, StoreClosed):
                self._pass._call(f"trb_{sort}_free", number)
                life.freed = True
                let_go.leave(sort, number)
        with suppress(Refusal, StoreClosed):
            self._pass._free_gone()
        self._made.clear()
        self._numbers.clear()
        self._kept.clear()


class Store:
    """A store of sparse matrices and vectors that threads share without waiting for each other.

    It has passes, one for each thread. Use it in a `with` statement, or call `close`:

        with Store(passes=2) as store:
            p, q = store.passes
            A = p.matrix(3, 3)
            A[0, 1] = 5
            A.using(q)[0, 1]  # 5

    Without a room it has no end: it takes calls for as long as what it holds fits. With a room it takes so many calls
    that change it, and no more.

    A store that is not closed ends as soon as nothing refers to it, its passes and its objects any more. It belongs
    to the process that opened it: in a process that was forked from that one, each call raises `StoreClosed`.
    """

    def __init__(
        self, room: Optional[SupportsIndex] = None, passes: SupportsIndex = 1, helpers: SupportsIndex = 0
    ) -> None:
        """Opens a store.

        Args:
            room: how many calls that change it the store takes in its whole life, from 1 to 65,536. Reads take
                none. It does not grow. Where it is left out, the store has no end: it is a chain of generations, each
                with room for 4,096 calls beside those that make its objects, and for less with more than 64 passes.
                Where one is full, the next goes on by itself with all objects. Up to 64 passes share some 2,090,000
                objects at most: `Pass.objects_left` tells how many more there is place for.
            passes: how many passes it has, from 1 to 256. Room times passes is at most 1,048,576.
            helpers: how many threads help with dear products while the store is open. Each has a pass of its own, which
                counts as one of the 256 and is not among `passes`. One fewer than there are processors is a good number
                where one thread reads at a time.

        Raises:
            InvalidValue: the room, the number of passes or that of helpers is out of its range, or the product of room
                and all passes is too large.
            OutOfMemory: memory was refused.
            RuntimeError: a thread was not to be had.
            LibraryNotFound: the shared library was not found.
        """
        more = operator.index(helpers)
        if room is None:
            each, count = _within_ranges(_default_room(operator.index(passes) + more), passes, more)
            self._open(
                None, count, lambda number, handles: load().trb_chain_open(number, each, handles, count), helpers=more
            )
        else:
            calls, count = _within_ranges(room, passes, more)
            self._open(
                calls, count, lambda number, handles: load().trb_open(number, calls, handles, count), helpers=more
            )

    @classmethod
    def _opened(
        cls, room: int, count: int, opening: _Opening, before: _Core, chosen: Optional[_Chosen] = None, helpers: int = 0
    ) -> Store:
        """A store that `opening` opens, as the successor of another one, or as a branch with the chosen objects."""
        store = cls.__new__(cls)
        store._open(room, count, opening, before, chosen, helpers)
        return store

    def _open(
        self,
        room: Optional[int],
        count: int,
        opening: _Opening,
        before: Optional[_Core] = None,
        chosen: Optional[_Chosen] = None,
        helpers: int = 0,
    ) -> None:
        """Has the store opened, under a number that no other store has. `before` is the one that it goes on from.

        Of its `count` passes the last ones are the helpers'.
        """
        library = load()
        number = ctypes.c_uint64()
        _numbers.append(number)
        handles = (PassHandle * count)()
        address = ctypes.addressof(number)
        try:
            status = opening(address, handles)
        except BaseException:
            _end_all(library, handles)
            raise
        if status != 0:
            _end_all(library, handles)
            raise refusal_of(status, _RANGES)
        try:
            core = _Core(library, handles, room, address, before, chosen, helpers)
        except BaseException:
            # A thread was not to be had. None of those that help is left.
            _end_all(library, handles)
            raise
        if before is not None:
            core.inherit(before)
        core.store(self)
        self._have(core)

    def _have(self, core: _Core) -> None:
        """This is the store of this core."""
        self._core = core
        self._passes = tuple(core.pass_at(number) for number in range(core.count))

    @property
    def passes(self) -> Tuple[Pass, ...]:
        """Its passes. The one at place k has the number k."""
        return self._passes

    @property
    def main(self) -> Pass:
        """Its first pass."""
        return self._passes[0]

    @property
    def helpers(self) -> int:
        """How many threads help with dear products while it is open."""
        return len(self._core.handles) - self._core.count

    @property
    def room(self) -> Optional[int]:
        """How many calls that change it the store takes in its whole life; None where it has no end.

        `Pass.facts` tells how many are left.
        """
        return self._core.room

    @property
    def closed(self) -> bool:
        """Whether it was closed."""
        return self._core.closed is not None

    def close(self) -> None:
        """Ends all passes, once the calls that other threads make by them have returned, and gives memory back.

        Calls by its passes and objects then raise `StoreClosed`. To close a store again does nothing. The threads that
        help end too. It does not wait for a read that a Ctrl-C has left, nor for who helps with it: that pass ends when
        the read has returned.
        """
        self._core.close()

    def __enter__(self) -> Store:
        return self

    def __exit__(self, *exception: object) -> None:
        self.close()

    def __repr__(self) -> str:
        passes = "1 pass" if len(self._passes) == 1 else f"{len(self._passes)} passes"
        size = "without an end" if self.room is None else f"of room {self.room}"
        helpers = "" if self.helpers == 0 else f", {self.helpers} {'helper' if self.helpers == 1 else 'helpers'}"
        return f"<Store {size}, {passes}{helpers}{', closed' if self.closed else ''}>"

    def __reduce__(self) -> NoReturn:
        raise TypeError(
            "a Store is used where it was opened; to_lists() of an object has what can be pickled and copied"
        )


def _default_room(passes: int) -> int:
    """The room of each generation of a store without an end with so many passes, which leaves room for objects."""
    return min(4096, MOST_SEATS // 4 // min(max(passes, 1), MOST_PASSES))


def _within_ranges(room: SupportsIndex, passes: SupportsIndex, helpers: int = 0) -> Tuple[int, int]:
    """The room and the number of all passes of a store. `InvalidValue` where it may not have so much."""
    calls, count = operator.index(room), operator.index(passes)
    most = min(MOST_PASSES, MOST_SEATS // max(calls, 1))
    if not (1 <= calls <= MOST_ROOM and 1 <= count and 0 <= helpers and count + helpers <= most):
        asked = f"a room of {calls:,} and {count:,} passes"
        raise InvalidValue(
            _RANGES, f"{asked} were asked for" if helpers == 0 else f"{asked}, and {helpers:,} helpers, were asked for"
        )
    return calls, count + helpers


def _end_all(library: ctypes.CDLL, handles: Iterable[PassHandle]) -> None:
    """Ends the passes of these handles. A handle that has none stays as it is."""
    for handle in handles:
        library.trb_free(ctypes.byref(handle))


def _end_unused(library: ctypes.CDLL, handles: ctypes.Array[PassHandle], count: int, helping: Helping) -> None:
    """Ends a store that nothing refers to any more. Each thread that helps ends its own pass."""
    helping.stop()
    _end_all(library, handles[:count])


def _leave_stores_to_parent() -> None:
    """In the child of a fork: no call may be made there by the passes of the parent."""
    forget_helpers()
    for core in list(_cores):
        core.leave_to_parent()


if hasattr(os, "register_at_fork"):
    os.register_at_fork(after_in_child=_leave_stores_to_parent)
