"""Plain stores, which make each change at once, on dicts. What they answer is what a store is to answer.

A store has one history, the list of moments that changes leave. A pass knows the first so many of them. What passes
evaluate, share and let go is not here: it changes no answer.
"""

from __future__ import annotations

from typing import Any, Callable, Dict, Iterable, List, NamedTuple, Optional, Tuple, Union

import plain
from calls import Asked, Call, Key, Operation, Refused, sort_made
from trowelheath import Info

Entries = Dict[Any, Any]
Shape = Tuple[int, ...]

MOST_DIMENSION = 2**32 - 1
MOST_WORDS = 4_194_304
MOST_PLACES = 268_435_456

CHANGES = {"new", "dup", "diag", "free", "set", "remove", "clear", "resize", "build"}

# Which call of the store a call of the package is. Those for all entries count them before.
SINGLE = {"item": "get", "in": "get", "len": "nvals"}
DOUBLE = {"to_dict", "to_lists", "items"}


class Table(NamedTuple):
    """An object at a moment. It is never changed, so that moments share it."""

    dtype: type
    shape: Shape
    entries: Entries


class Moment(NamedTuple):
    """What calls leave: the objects that are there, and how many matrices and vectors were ever made."""

    tables: Dict[Key, Table]
    made: Dict[str, int]

    def with_table(self, key: Key, table: Table) -> Moment:
        return Moment({**self.tables, key: table}, self.made)

    def with_new(self, sort: str, table: Table) -> Tuple[Moment, int]:
        """This moment with one object more, and its number, which is the next one."""
        number = self.made[sort]
        return Moment({**self.tables, (sort, number): table}, {**self.made, sort: number + 1}), number

    def without(self, key: Key) -> Moment:
        return Moment({each: table for each, table in self.tables.items() if each != key}, self.made)


NOTHING = Moment({}, {"matrix": 0, "vector": 0})


class Generation(NamedTuple):
    """A store of bounded room; a store without an end has several, one after another."""

    start: int
    """How many changes were made before it."""
    begin: int
    """How many calls make the objects that it begins with, which all its passes know."""
    room: int
    """How many changes it takes."""
    carried: Dict[str, List[int]]
    """Of each sort, the objects that it begins with, where numbers of freed ones are given up."""
    first: Dict[str, int]
    """Of each sort, how many numbers were given before it."""

    def takes_status(self, key: Key) -> bool:
        """Whether a status of the object is kept: it is, where its number in this store is below the room."""
        sort, number = key
        if number < self.first[sort]:
            if number not in self.carried[sort]:
                return False
            number = self.carried[sort].index(number)
        else:
            number += len(self.carried[sort]) - self.first[sort]
        return number < self.begin + self.room


class Facts(NamedTuple):
    """What a pass tells of itself, but for how many calls it made."""

    known: int
    words: int
    settled: int
    room_left: int
    steps: int


class PlainPass:
    """What a pass knows, and the statuses of its own calls."""

    def __init__(self) -> None:
        self.generation = 0
        self.known = 0
        self.settled = 0
        self.steps = 0
        self.statuses: Dict[Key, Info] = {}
        self.is_refused = False


class PlainStore:
    """A store of a room, or one without an end whose generations have it. It may begin with the objects of a moment."""

    def __init__(
        self, room: int, passes: int, is_chain: bool = False, moment: Moment = NOTHING, begin: int = 0
    ) -> None:
        self.is_chain = is_chain
        self.moments = [moment]
        self.generations = [
            Generation(0, begin, room, {"matrix": [], "vector": []}, {"matrix": 0, "vector": 0})
        ]
        self.passes = [PlainPass() for _ in range(passes)]
        # Objects that the package let go where there was no room to free them. It tries again before each change.
        self.let_go: List[Key] = []

    # What passes know.

    def moment(self, by: int) -> Moment:
        """What the calls leave that a pass knows."""
        return self.moments[self.passes[by].known]

    def last(self) -> Moment:
        """What all calls leave."""
        return self.moments[-1]

    def facts(self, by: int) -> Facts:
        own = self.passes[by]
        generation = self.generations[own.generation]
        known = generation.begin + own.known - generation.start
        return Facts(known, known, own.settled, generation.begin + generation.room - known, own.steps)

    def is_at_end(self, by: int) -> bool:
        """Whether a pass knows all of a full generation."""
        own = self.passes[by]
        generation = self.generations[own.generation]
        return own.known == generation.start + generation.room

    def is_full(self, by: int) -> bool:
        """What a pass tells: of a store without an end, whether it was refused the next generation."""
        return self.passes[by].is_refused if self.is_chain else self.is_at_end(by)

    def status(self, by: int, key: Key) -> Optional[Info]:
        return self.passes[by].statuses.get(key)

    def learn(self, own: PlainPass) -> None:
        """The pass learns all words of its generation, by a step for each, and one more to see that there is none."""
        generation = self.generations[own.generation]
        end = min(len(self.moments) - 1, generation.start + generation.room)
        own.steps = end - own.known + (end < generation.start + generation.room)
        own.known = end

    def is_behind(self, own: PlainPass) -> bool:
        return own.generation < len(self.generations) - 1

    def move(self, own: PlainPass) -> None:
        """The pass goes to the last generation, of which it knows what that begins with."""
        own.generation = len(self.generations) - 1
        own.known = self.generations[-1].start
        own.settled = own.steps = 0
        own.statuses = {}
        own.is_refused = False

    def look(self, by: int) -> None:
        """The pass learns the newest words, as by a read, and goes where the others are."""
        own = self.passes[by]
        self.follow(own)
        self.learn(own)

    def has_news(self, by: int) -> bool:
        """Whether there is a change that the pass has not learnt."""
        return self.passes[by].known < len(self.moments) - 1

    def follow(self, own: PlainPass) -> None:
        """The pass goes where the others are."""
        if self.is_behind(own):
            self.learn(own)
            self.move(own)

    def meet(self, by: int, other: int) -> None:
        """A pass learns what another one knows. It goes before to the last generation, where that sits in a later one."""
        own, theirs = self.passes[by], self.passes[other]
        if own.generation < theirs.generation:
            self.follow(own)
        if own.generation == theirs.generation:
            known = max(own.known, theirs.known)
            own.steps = known - own.known
            own.known = known

    def release(self, by: int) -> None:
        self.passes[by].settled = 0

    # Going on.

    def go_on(self, by: int) -> Union[bool, Refused]:
        """A pass at the end of its generation goes to the last one, and makes the next one where there is none."""
        own = self.passes[by]
        if not self.is_at_end(by):
            return False
        if not self.is_behind(own):
            there, room = self.moments[own.known], self.generations[0].room
            begin = sum(_calls_for(table) for table in there.tables.values())
            if not self.has_room(begin, room, len(self.passes)):
                own.is_refused = True
                return Refused(Info.INSUFFICIENT_SPACE, begin)
            carried = {
                sort: sorted(number for each, number in there.tables if each == sort) for sort in ("matrix", "vector")
            }
            self.generations.append(Generation(own.known, begin, room, carried, there.made))
        self.move(own)
        return True

    @staticmethod
    def has_room(begin: int, room: int, passes: int) -> bool:
        """Whether a history may have so much room beside the calls that make its objects."""
        return begin + room <= MOST_WORDS and (begin + room) * passes <= MOST_PLACES

    def opened(self, moment: Moment, begin: int, room: int, passes: int) -> Union[PlainStore, Refused]:
        if not self.has_room(begin, room, passes):
            return Refused(Info.INSUFFICIENT_SPACE, begin)
        return PlainStore(room, passes, False, moment, begin)

    def succeed(self, by: int, room: int, passes: int) -> Union[PlainStore, Refused]:
        """A store that begins with all that is there. Each number that was given takes a call to make, or two."""
        if self.is_chain:
            return Refused(Info.INVALID_VALUE)
        self.free_let_go(by)
        self.look(by)
        there = self.moment(by)
        numbers = [(sort, number) for sort in ("matrix", "vector") for number in range(there.made[sort])]
        return self.opened(there, sum(_calls_for(there.tables.get(key)) for key in numbers), room, passes)

    def branch(self, by: int, keys: Iterable[Key], room: int, passes: int) -> Union[PlainStore, Refused]:
        """A store that begins with the objects of these keys as they are now, numbered anew in this order."""
        self.free_let_go(by)
        self.look(by)
        there = self.moment(by)
        chosen = list(dict.fromkeys(keys))
        tables: Dict[Key, Table] = {}
        made = {"matrix": 0, "vector": 0}
        for key in chosen:
            if key in there.tables:
                tables[key[0], made[key[0]]] = there.tables[key]
            made[key[0]] += 1
        begin = sum(_calls_for(there.tables.get(key)) for key in chosen)
        return self.opened(Moment(tables, made), begin, room, passes)

    # Calls.

    def ask(self, by: int, asked: Asked) -> Any:
        """The answer to a call of the package by a pass."""
        if isinstance(asked, Operation):
            return self.change(by, asked) if asked.on is not None else self.express(by, asked)
        if asked.kind in CHANGES:
            return self.change(by, asked)
        if asked.kind in DOUBLE:
            counted = self.call(by, asked._replace(kind="nvals"))
            return counted if isinstance(counted, Refused) else self.call(by, asked._replace(kind="entries"))
        answer = self.call(by, asked._replace(kind=SINGLE.get(asked.kind, asked.kind)))
        if asked.kind == "in":
            if not isinstance(answer, Refused):
                return answer is not None
            # Python takes what is no place, and a value of another dtype, for nothing that is stored.
            return answer if answer.info == Info.UNINITIALIZED_OBJECT else False
        return answer

    def express(self, by: int, asked: Operation) -> Any:
        """An operation that makes its output: for its dimensions the package asks before."""
        shapes: List[Shape] = []
        for key in _measured(asked):
            answer = self.call(by, Call("shape", key))
            if isinstance(answer, Refused):
                return answer
            shapes.append(answer)
        sort = sort_made(asked)
        made = self.change(by, Call("new", (sort, 0), asked.dtype, _new_shape(asked, shapes)))
        if isinstance(made, Refused):
            return made
        answer = self.change(by, asked._replace(on=(sort, made)))
        if isinstance(answer, Refused):
            if isinstance(self.change(by, Call("free", (sort, made))), Refused):
                self.let_go.append((sort, made))
            return answer
        return made

    def change(self, by: int, asked: Asked) -> Any:
        """The answer to a call that changes the store, before which the package frees what was let go."""
        self.free_let_go(by)
        return self.call(by, asked)

    def free_let_go(self, by: int) -> None:
        """Frees what was let go, as far as there is room for it."""
        while self.let_go:
            key = self.let_go.pop(0)
            answer = self.call(by, Call("free", key))
            if isinstance(answer, Refused) and answer.info != Info.UNINITIALIZED_OBJECT:
                self.let_go.append(key)
                return

    def build_from(self, by: int, key: Key, other: PlainStore, other_by: int, source: Key) -> Any:
        """A build of all entries of an object of another pass, which waits for it first."""
        self.free_let_go(by)
        waited = other.call(other_by, Call("wait", source))
        if isinstance(waited, Refused):
            return waited
        table = other.moment(other_by).tables[source]
        return self.call(by, Call("build", key, table.dtype, (_Whole(table),)))

    def call(self, by: int, asked: Asked) -> Any:
        """The answer to one call of the store, in whatever generation."""
        refused = refused_by_numbers(asked)
        if refused is not None:
            return Refused(refused)
        own = self.passes[by]
        while True:
            self.follow(own)
            answer = self.call_here(own, asked)
            if not self.is_chain or answer != Refused(Info.ORDER_FULL):
                return answer
            if self.go_on(by) is not True:
                return self.call_here(own, asked)

    def call_here(self, own: PlainPass, asked: Asked) -> Any:
        """The answer in the generation in which the pass sits."""
        self.learn(own)
        there = self.moments[own.known]
        generation = self.generations[own.generation]
        answer: Any = None
        after = there
        info = _refusal(there, asked)
        if info is None and enters(asked) and own.known == generation.start + generation.room:
            info = Info.ORDER_FULL
        if info is not None:
            answer = Refused(info)
        elif isinstance(asked, Operation):
            after = _operated(there, asked)
        elif asked.kind in CHANGES:
            after, answer = _CHANGES[asked.kind](there, asked)
        else:
            answer = _read(there.tables[asked.on], asked)
        if after is not there:
            self.moments.append(after)
            own.known += 1
            own.steps += 1
        if info is None and asked.kind == "wait" and asked.arguments[:1] == ("materialize",):
            own.settled = generation.begin + own.known - generation.start
        self.note(own, generation, asked, info, answer)
        return _as_dtype(there, asked, answer)

    @staticmethod
    def note(own: PlainPass, generation: Generation, asked: Asked, info: Optional[Info], answer: Any) -> None:
        """Keeps the status of the object that a call is on: of one that makes an object, of that, if it is made."""
        target = asked.on
        if asked.kind in ("new", "dup", "diag"):
            target = None if info is not None else (sort_made(asked), answer)
        if target is not None and generation.takes_status(target):
            if info is None:
                is_none = asked.kind == "get" and answer is None
                info = Info.NO_VALUE if is_none else Info.SUCCESS
            own.statuses[target] = info


class _Whole(NamedTuple):
    """The list of a build that is all of another object."""

    table: Table


def _calls_for(table: Optional[Table]) -> int:
    """How many calls make an object: a new one, and a build of its entries; or that it is freed."""
    return 1 if table is not None and not table.entries else 2


def enters(asked: Asked) -> bool:
    """Whether a call changes the store where it is not refused."""
    return isinstance(asked, Operation) or asked.kind in CHANGES


def _has_dimensions(shape: Iterable[int]) -> bool:
    return all(1 <= dimension <= MOST_DIMENSION for dimension in shape)


def _key_of(place: Tuple[int, ...]) -> Any:
    """A place as the key of an entry."""
    return place if len(place) == 2 else place[0]


def _is_inside(place: Tuple[int, ...], shape: Shape) -> bool:
    return all(index < dimension for index, dimension in zip(place, shape))


# Refusals.


def refused_by_numbers(asked: Asked) -> Optional[Info]:
    """What the numbers of a call alone show. Then no pass looks for news, and no object has a status of it."""
    if isinstance(asked, Operation):
        if asked.kind in ("mxm", "mxv", "vxm"):
            monoid, operator = str(asked.word).split(".")
            if plain.dtype_of(monoid) is not plain.dtype_of(operator):
                return Info.DOMAIN_MISMATCH
    elif asked.kind == "build" and not isinstance(asked.arguments[0], _Whole):
        *lists, _ = asked.arguments
        if len({len(each) for each in lists}) > 1:
            return Info.INVALID_VALUE
    return None


def _refusal(there: Moment, asked: Asked) -> Optional[Info]:
    """Why a call is refused, its room aside: the first reason in the order of the standard's list."""
    if isinstance(asked, Operation):
        return _refusal_of_operation(there, asked)
    if asked.kind == "new":
        return None if _has_dimensions(asked.arguments) else Info.INVALID_VALUE
    table = there.tables.get(asked.on)
    if table is None:
        return Info.UNINITIALIZED_OBJECT
    if asked.kind == "resize" and not _has_dimensions(asked.arguments):
        return Info.INVALID_VALUE
    if asked.kind == "diag" and not _has_dimensions([table.shape[0] + abs(asked.arguments[0])]):
        return Info.INVALID_VALUE
    if asked.kind in ("set", "remove", "get") and not _is_inside(asked.arguments[: len(table.shape)], table.shape):
        return Info.INVALID_INDEX
    if asked.kind == "set" and table.dtype is not asked.dtype:
        return Info.DOMAIN_MISMATCH
    if asked.kind == "reduce" and table.dtype is not plain.dtype_of(asked.arguments[0]):
        return Info.DOMAIN_MISMATCH
    return _refusal_of_build(table, asked) if asked.kind == "build" else None


def _tuples(table: Table, asked: Call) -> Tuple[List[Tuple[Tuple[int, ...], Any]], str]:
    """The places and the values of a build, and the monoid that joins those of one place."""
    if isinstance(asked.arguments[0], _Whole):
        whole: Table = asked.arguments[0].table
        places = ((place if len(whole.shape) == 2 else (place,), x) for place, x in whole.entries.items())
        return list(places), "lor" if whole.dtype is bool else "plus"
    *lists, values, dup = asked.arguments
    return list(zip(zip(*lists), values)), dup


def _refusal_of_build(table: Table, asked: Call) -> Optional[Info]:
    tuples, dup = _tuples(table, asked)
    if plain.dtype_of(dup) is not table.dtype or tuples and asked.dtype is not table.dtype:
        return Info.DOMAIN_MISMATCH
    if table.entries:
        return Info.OUTPUT_NOT_EMPTY
    if any(max(indices) >= dimension for indices, dimension in zip(zip(*(place for place, _ in tuples)), table.shape)):
        return Info.INDEX_OUT_OF_BOUNDS
    return None


def _given_dtypes(asked: Operation) -> List[type]:
    """The dtypes of what an operation brings besides objects."""
    words = [] if asked.accum is None else [asked.accum]
    if asked.kind in ("mxm", "mxv", "vxm"):
        words += str(asked.word).split(".")
    elif asked.kind not in ("transpose", "select"):
        words.append(str(asked.word))
    brings_value = asked.side is not None or asked.kind == "select" and str(asked.word).startswith("value")
    return [plain.dtype_of(word) for word in words] + ([type(asked.value)] if brings_value else [])


def _refusal_of_operation(there: Moment, asked: Operation) -> Optional[Info]:
    named = [key for key in (asked.on, asked.first, asked.second, asked.mask) if key is not None]
    if not all(key in there.tables for key in named):
        return Info.UNINITIALIZED_OBJECT
    assert asked.on is not None
    out, first = there.tables[asked.on], there.tables[asked.first]
    second = None if asked.second is None else there.tables[asked.second]
    inputs = [first] if second is None else [first, second]
    dtypes = [table.dtype for table in inputs] + _given_dtypes(asked)
    if not all(dtype is out.dtype for dtype in dtypes):
        return Info.DOMAIN_MISMATCH
    shapes = _shapes_read(asked, first.shape, None if second is None else second.shape)
    wanted = plain.computed_shape(asked.kind, *shapes)
    mask = None if asked.mask is None else there.tables[asked.mask]
    if wanted != out.shape or mask is not None and mask.shape != out.shape:
        return Info.DIMENSION_MISMATCH
    return None


# Operations.


def _shapes_read(asked: Operation, first: Shape, second: Optional[Shape]) -> Tuple[Shape, Optional[Shape]]:
    """The dimensions of the inputs as they are read."""
    if asked.transpose:
        first = first[::-1]
    if asked.transpose_second and second is not None:
        second = second[::-1]
    return first, second


def _measured(asked: Operation) -> List[Key]:
    """The inputs whose dimensions the package asks for, where it makes the output."""
    second = [] if asked.second is None else [asked.second]
    if asked.kind in ("mxm", "kronecker"):
        return [asked.first, *second]
    if asked.kind == "vxm" or asked.kind.startswith("ewise") and asked.first[0] == "matrix":
        return second
    return [asked.first]


def _new_shape(asked: Operation, shapes: List[Shape]) -> Shape:
    """The dimensions of an output that the package makes, from those that it asked for."""
    if asked.kind in ("mxm", "kronecker"):
        first, second = _shapes_read(asked, *shapes)
        assert second is not None
        return (first[0], second[1]) if asked.kind == "mxm" else (first[0] * second[0], first[1] * second[1])
    if asked.kind == "vxm":
        return (shapes[0][0 if asked.transpose_second else 1],)
    if asked.kind.startswith("ewise"):
        return shapes[0][::-1] if asked.transpose_second else shapes[0]
    shape = shapes[0][::-1] if asked.transpose else shapes[0]
    if asked.kind == "transpose":
        return shape[::-1]
    return shape[:1] if asked.kind in ("mxv", "reduce_rows") else shape


def computed(there: Moment, asked: Operation) -> Entries:
    """What an operation computes of its inputs."""
    first, shape = there.tables[asked.first].entries, (0, 0)
    if asked.transpose:
        first = plain.transposed(first)
    rest: List[Any] = []
    if asked.second is not None:
        second = there.tables[asked.second]
        shape = _shapes_read(asked, (), second.shape)[1] or ()
        rest.append(plain.transposed(second.entries) if asked.transpose_second else second.entries)
    if asked.kind == "transpose":
        return plain.transposed(first)
    if asked.kind == "apply":
        return plain.applied(first, str(asked.word), **({} if asked.side is None else {asked.side: asked.value}))
    if asked.kind == "select":
        return plain.selected(first, str(asked.word), asked.value)
    if asked.kind == "kronecker":
        return plain.kronecker(first, rest[0], shape, str(asked.word))
    return _COMPUTED[asked.kind](first, *rest, asked.word)


_COMPUTED: Dict[str, Callable[..., Entries]] = {
    "mxm": plain.mxm,
    "mxv": plain.mxv,
    "vxm": plain.vxm,
    "ewise_add": plain.union,
    "ewise_mult": plain.intersection,
    "reduce_rows": plain.reduce_rows,
}


def _operated(there: Moment, asked: Operation) -> Moment:
    assert asked.on is not None
    out = there.tables[asked.on]
    mask = None if asked.mask is None else there.tables[asked.mask].entries
    new = computed(there, asked)
    entries = plain.written(out.entries, new, asked.accum, mask, asked.structure, asked.complement, asked.replace)
    return there.with_table(asked.on, out._replace(entries=entries))


# Changes: the moment after each, and its answer.


def _new(there: Moment, asked: Call) -> Tuple[Moment, Any]:
    return there.with_new(asked.on[0], Table(asked.dtype, asked.arguments, {}))


def _dup(there: Moment, asked: Call) -> Tuple[Moment, Any]:
    return there.with_new(asked.on[0], there.tables[asked.on])


def _diag(there: Moment, asked: Call) -> Tuple[Moment, Any]:
    table, diagonal = there.tables[asked.on], asked.arguments[0]
    size = table.shape[0] + abs(diagonal)
    return there.with_new("matrix", Table(table.dtype, (size, size), plain.on_diagonal(table.entries, diagonal)))


def _free(there: Moment, asked: Call) -> Tuple[Moment, Any]:
    return there.without(asked.on), None


def _with_entries(there: Moment, key: Key, entries: Entries) -> Tuple[Moment, Any]:
    return there.with_table(key, there.tables[key]._replace(entries=entries)), None


def _set(there: Moment, asked: Call) -> Tuple[Moment, Any]:
    *place, value = asked.arguments
    return _with_entries(there, asked.on, {**there.tables[asked.on].entries, _key_of(tuple(place)): value})


def _remove(there: Moment, asked: Call) -> Tuple[Moment, Any]:
    entries = dict(there.tables[asked.on].entries)
    entries.pop(_key_of(asked.arguments), None)
    return _with_entries(there, asked.on, entries)


def _clear(there: Moment, asked: Call) -> Tuple[Moment, Any]:
    return _with_entries(there, asked.on, {})


def _resize(there: Moment, asked: Call) -> Tuple[Moment, Any]:
    table, shape = there.tables[asked.on], asked.arguments
    if len(shape) == 1:
        entries = {i: x for i, x in table.entries.items() if i < shape[0]}
    else:
        entries = {(i, j): x for (i, j), x in table.entries.items() if i < shape[0] and j < shape[1]}
    return there.with_table(asked.on, Table(table.dtype, shape, entries)), None


def _build(there: Moment, asked: Call) -> Tuple[Moment, Any]:
    tuples, dup = _tuples(there.tables[asked.on], asked)
    return _with_entries(there, asked.on, plain.joined(((_key_of(place), x) for place, x in tuples), dup))


_CHANGES: Dict[str, Callable[[Moment, Call], Tuple[Moment, Any]]] = {
    "new": _new,
    "dup": _dup,
    "diag": _diag,
    "free": _free,
    "set": _set,
    "remove": _remove,
    "clear": _clear,
    "resize": _resize,
    "build": _build,
}


# Reads.


def _read(table: Table, asked: Call) -> Any:
    if asked.kind == "get":
        return table.entries.get(_key_of(asked.arguments))
    if asked.kind == "nvals":
        return len(table.entries)
    if asked.kind == "shape":
        return table.shape
    if asked.kind == "reduce":
        return plain.total(table.entries, asked.arguments[0])
    return table.entries if asked.kind == "entries" else None


def _as_dtype(there: Moment, asked: Asked, answer: Any) -> Any:
    """The answer as a name of this dtype has it: a value of the other one is refused to it, which leaves no status."""
    if isinstance(asked, Call) and asked.kind in ("get", "reduce", "entries") and not isinstance(answer, Refused):
        if answer is not None and there.tables[asked.on].dtype is not asked.dtype:
            return Refused(Info.DOMAIN_MISMATCH)
    return answer
