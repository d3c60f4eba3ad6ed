"""Programs: steps on several stores, each made by the package and by plain stores, and compared."""

from __future__ import annotations

from collections import Counter
from contextlib import ExitStack
from typing import Any, Callable, Dict, Iterable, List, NamedTuple, Optional, Tuple, Union
from unittest import mock

from calls import Asked, Call, Key, Operation, Refused, answered, ask, described
from plain_store import CHANGES, Facts, PlainStore, refused_by_numbers
from support import name_of
from trowelheath import Info, Pass, Store

# A key in messages and in steps.
Keys = Tuple[Key, ...]


class Mismatch(AssertionError):
    """A store does not do what the plain one does."""


class Open(NamedTuple):
    """Opens a store as place `name`; without an end, where it is a chain of generations of this room."""

    name: int
    room: int
    passes: int
    is_chain: bool = False


class Ask(NamedTuple):
    """A pass makes a call."""

    place: int
    by: int
    asked: Asked


class Bring(NamedTuple):
    """A pass builds an object of all entries of another one, by a pass of whatever store."""

    place: int
    by: int
    key: Key
    other: int
    other_by: int
    source: Key


class Meet(NamedTuple):
    """A pass meets another one, or adopts it."""

    place: int
    by: int
    other: int
    adopts: bool


class Fill(NamedTuple):
    """A pass sets an entry again and again, until so much room is left, as far as it knows; in a store without an end,
    room of its generation."""

    place: int
    by: int
    key: Key
    left: int


class Do(NamedTuple):
    """A pass does what changes no answer: "prepare", "release", "help" or "go_on"."""

    place: int
    by: int
    what: str


class Branch(NamedTuple):
    """A pass opens a branch with these objects as place `name`."""

    place: int
    by: int
    name: int
    keys: Keys
    room: int
    passes: int


class Succeed(NamedTuple):
    """A pass opens the successor of its store as place `name`."""

    place: int
    by: int
    name: int
    room: int
    passes: int


class Close(NamedTuple):
    """The store is closed."""

    place: int


Step = Union[Open, Ask, Bring, Meet, Fill, Do, Branch, Succeed, Close]


def step_text(step: Step) -> str:
    """A step in words."""
    if isinstance(step, Ask):
        return f"store {step.place}, pass {step.by}: {described(step.asked)}"
    return repr(step)


class Place:
    """A store and the plain one next to it, and what both are named in steps."""

    def __init__(self, name: int, store: Store, plain: PlainStore) -> None:
        self.name = name
        self.store = store
        self.plain = plain

    @property
    def passes(self) -> Tuple[Pass, ...]:
        return self.store.passes


class Program:
    """Makes steps, and raises `Mismatch` where a store and the plain one differ. It closes its stores when it ends."""

    def __init__(self) -> None:
        self.steps: List[Step] = []
        self.places: Dict[int, Place] = {}
        # What was seen: kinds of calls that were answered, and of those that were refused, by why.
        self.seen: Counter[str] = Counter()
        # How many calls the last step made to answer.
        self.made = 0
        self._stack = ExitStack()

    def __enter__(self) -> Program:
        return self

    def __exit__(self, *exception: object) -> None:
        self._stack.close()

    def do(self, step: Step) -> Any:
        """Makes a step, and returns what was answered. One of a store or a pass that is not there does nothing."""
        self.steps.append(step)
        try:
            return self._do_step(step)
        except Mismatch:
            raise
        except Exception as fault:
            raise Mismatch(f"{step_text(step)} ended with {type(fault).__name__}: {fault}") from fault

    def _do_step(self, step: Step) -> Any:
        if isinstance(step, Open):
            return self._have(step.name, self._open(step), PlainStore(step.room, step.passes, step.is_chain))
        place = self.places.get(step.place)
        if place is None or not isinstance(step, Close) and step.by >= len(place.passes):
            return None
        answer = self._MAKERS[type(step)](self, place, step)
        if not isinstance(step, (Ask, Close)):
            self._compare_pass(place, step.by)
        return answer

    # Opening and closing.

    @staticmethod
    def _open(step: Open) -> Store:
        if not step.is_chain:
            return Store(step.room, step.passes)
        # The package chooses a room that no test could use up.
        with mock.patch("trowelheath.store._default_room", lambda passes: step.room):
            return Store(passes=step.passes)

    def _have(self, name: int, store: Store, plain: PlainStore) -> None:
        self._stack.callback(store.close)
        place = self.places[name] = Place(name, store, plain)
        for by in range(len(store.passes)):
            self._compare_pass(place, by)

    def _go_on(self, place: Place, step: Any, plain: Any, opening: Callable[[Pass], Store], keys: Keys) -> Any:
        """Opens a store that begins with objects of another one, and looks at the numbers that these have there.

        `plain` opens the plain one.
        """
        has_news = place.plain.has_news(step.by)
        wanted = plain()
        answer = answered(lambda: opening(place.passes[step.by]))
        kind = type(step).__name__
        if isinstance(wanted, Refused):
            if isinstance(answer, Store):
                answer.close()
            self._same(answer, wanted, kind)
            self.seen[f"{kind} {wanted.info.name}"] += 1
            return answer
        if isinstance(answer, Refused):
            raise Mismatch(f"{kind}: {answer} was answered")
        self.seen[kind] += 1
        if has_news:
            self.seen[f"{kind} by a pass that has not read the last change"] += 1
        self._have(step.name, answer, wanted)
        self._compare_names(place, answer, keys)
        return None

    def _succeed(self, place: Place, step: Succeed) -> Any:
        last = place.plain.last().made
        keys = tuple((sort, number) for sort in ("matrix", "vector") for number in range(last[sort]))
        return self._go_on(
            place,
            step,
            lambda: place.plain.succeed(step.by, step.room, step.passes),
            lambda pass_: pass_.succeed(step.room, step.passes),
            keys,
        )

    def _branch(self, place: Place, step: Branch) -> Any:
        names = [name_of(place.passes[step.by], *key) for key in step.keys]
        return self._go_on(
            place,
            step,
            lambda: place.plain.branch(step.by, step.keys, step.room, step.passes),
            lambda pass_: pass_.branch(*names, room=step.room, passes=step.passes),
            step.keys,
        )

    def _compare_names(self, place: Place, store: Store, keys: Keys) -> None:
        """Each object of the store before is known by a name of it, and no other object has a name there."""
        is_branch = place.plain.is_chain or store._core.chosen is not None
        numbers: Dict[Key, int] = {}
        counts = {"matrix": 0, "vector": 0}
        for sort, number in dict.fromkeys(keys):
            numbers[sort, number] = counts[sort] if is_branch else number
            counts[sort] += 1
        last = place.plain.last().made
        for sort in last:
            for number in range(last[sort]):
                name = name_of(place.passes[0], sort, number)
                try:
                    found = name.using(store.main).number
                except ValueError:
                    found = None
                self._same(found, numbers.get((sort, number)), f"the number of {sort} {number} in the new store")

    def _close(self, place: Place, step: Close) -> None:
        place.store.close()
        del self.places[step.place]

    # Calls.

    def _ask(self, place: Place, step: Ask) -> Any:
        asked, plain = step.asked, place.plain
        own = plain.passes[step.by]
        before = own.generation, own.settled
        wanted = plain.ask(step.by, asked)
        if own.generation > before[0]:
            self.seen["moves to a later generation"] += 1
        answer = ask(place.passes[step.by], asked)
        if answer != wanted or type(answer) is not type(wanted):
            raise Mismatch(f"{described(asked)} answered {answer}, not {wanted}")
        self.seen[f"{asked.kind} {wanted.info.name}" if isinstance(wanted, Refused) else asked.kind] += 1
        facts = self._compare_facts(place, step.by)
        is_settled = before == (own.generation, facts.known)
        is_made = asked.on is None or refused_by_numbers(asked) is None
        most = 0 if is_made and (is_settled or _makes_none(asked, wanted)) else facts.known
        if self.made > most:
            raise Mismatch(f"{described(asked)} made {self.made} calls, of {most} at the most")
        if facts.room_left < 2 or plain.is_chain:
            self._compare_pass(place, step.by)
        if asked.on is not None:
            self._compare_status(place, step.by, asked.on)
        return wanted

    def _bring(self, place: Place, step: Bring) -> Any:
        other = self.places.get(step.other)
        if other is None or step.other_by >= len(other.passes) or other is place and step.other_by == step.by:
            return None
        wanted = place.plain.build_from(step.by, step.key, other.plain, step.other_by, step.source)
        name, source = (
            name_of(place.passes[step.by], *step.key),
            name_of(other.passes[step.other_by], *step.source),
        )
        self._same(answered(lambda: name.build_from(source)), wanted, "build_from")
        self.seen[f"build_from {wanted.info.name}" if isinstance(wanted, Refused) else "build_from"] += 1
        self._compare_pass(other, step.other_by)
        self._compare_status(other, step.other_by, step.source)
        self._compare_status(place, step.by, step.key)
        return wanted

    def _meet(self, place: Place, step: Meet) -> None:
        if step.other >= len(place.passes) or step.other == step.by:
            return
        place.plain.meet(step.by, step.other)
        own, other = place.passes[step.by], place.passes[step.other]
        self._same((own.adopt if step.adopts else own.meet)(other), True, "whether the passes met")
        self.seen["adopt" if step.adopts else "meet"] += 1
        self._compare_pass(place, step.other)

    def _fill(self, place: Place, step: Fill) -> None:
        number = 0
        while place.plain.facts(step.by).room_left > step.left:
            asked = Call("set", step.key, int, (0, number))
            if isinstance(self._ask(place, Ask(place.name, step.by, asked)), Refused):
                return
            number += 1

    def _do(self, place: Place, step: Do) -> None:
        pass_ = place.passes[step.by]
        self.seen[step.what] += 1
        if step.what == "prepare":
            told = pass_.prepare()
            if told > place.plain.facts(step.by).known:
                raise Mismatch(f"prepare told {told} calls")
        elif step.what == "release":
            pass_.release()
            place.plain.release(step.by)
        elif step.what == "help":
            self._same(pass_.help(), 0, "blocks that are made where nobody makes a product")
        elif place.plain.is_chain:
            wanted = place.plain.go_on(step.by)
            self._same(answered(pass_.go_on), wanted, "go_on")
            if wanted is not False:
                self.seen["go_on that moves" if wanted is True else "go_on that is refused"] += 1

    _MAKERS: Dict[type, Callable[..., Any]] = {
        Ask: _ask,
        Bring: _bring,
        Meet: _meet,
        Fill: _fill,
        Do: _do,
        Branch: _branch,
        Succeed: _succeed,
        Close: _close,
    }

    # What is compared.

    @staticmethod
    def _same(found: Any, wanted: Any, of: str) -> None:
        if found != wanted or type(found) is not type(wanted):
            raise Mismatch(f"{of}: {found}, not {wanted}")

    def _compare_facts(self, place: Place, by: int) -> Facts:
        """Compares what a pass tells of itself."""
        found = place.passes[by].facts()
        wanted = place.plain.facts(by)
        if found[1:6] != wanted:
            told = Facts(*found[1:6])
            raise Mismatch(f"pass {by} of store {place.name} tells {told}, not {wanted}")
        self.made = found.made
        return wanted

    def _compare_pass(self, place: Place, by: int) -> None:
        """The same, and whether it is full, and of a store without an end in which generation it sits."""
        self._compare_facts(place, by)
        pass_, plain = place.passes[by], place.plain
        self._same(pass_.is_full(), plain.is_full(by), f"whether pass {by} of store {place.name} is full")
        if plain.is_chain:
            generation = plain.passes[by].generation
            self._same(pass_.generation(), generation, f"the generation of pass {by} of store {place.name}")

    def _compare_status(self, place: Place, by: int, key: Key) -> None:
        """Compares the status that the last call of a pass on an object left."""
        found = name_of(place.passes[by], *key).last_info
        wanted = place.plain.status(by, key)
        if found is not wanted:
            raise Mismatch(f"the status of {key} by pass {by} of store {place.name} is {found!r}, not {wanted!r}")

    def compare_statuses(self, place: Place) -> None:
        """Compares the statuses of all objects that were made, and of one that was not, by each pass."""
        last = place.plain.last().made
        for by in range(len(place.passes)):
            for key in [(sort, number) for sort in last for number in range(last[sort] + 1)]:
                self._compare_status(place, by, key)

    def read_all(self, place: Place, by: int, key: Key) -> None:
        """A pass reads all that there is of an object, or of one that is not there."""
        table = place.plain.last().tables.get(key)
        dtype = int if table is None else table.dtype
        for asked in (
            Call("shape", key),
            Call("to_dict", key, dtype),
            Call("reduce", key, dtype, ("lxor" if dtype is bool else "plus",)),
        ):
            self.do(Ask(place.name, by, asked))


def _makes_none(asked: Asked, answer: Any) -> bool:
    """Whether a call makes none of the history, whatever is settled: one that enters and is no build, one for
    dimensions, and a read that is refused. A value of another dtype is refused to a name after it was read."""
    if isinstance(asked, Operation) or asked.kind in (*CHANGES, "shape"):
        return asked.kind != "build"
    return isinstance(answer, Refused) and answer.info != Info.DOMAIN_MISMATCH


def made_again(steps: Iterable[Step]) -> Optional[Mismatch]:
    """Makes the steps of a program anew, in new stores; what differs, if something does."""
    with Program() as program:
        try:
            for step in steps:
                program.do(step)
        except Mismatch as mismatch:
            return mismatch
    return None


def shrunk(steps: List[Step], tries: int) -> List[Step]:
    """As few of these steps as are found in so many tries that differ still."""
    size = max(1, len(steps) // 2)
    while tries > 0:
        at, is_less = 0, False
        while at < len(steps) and tries > 0:
            fewer = steps[:at] + steps[at + size :]
            tries -= 1
            if made_again(fewer) is not None:
                steps, is_less = fewer, True
            else:
                at += size
        if size == 1 and not is_less:
            break
        size = max(1, size // 2)
    return steps


def failing(mismatch: Mismatch, steps: List[Step], tries: int) -> str:
    """What is said of a program that fails: what differs, and few steps that make it differ."""
    first = made_again(steps)
    if first is None:
        return f"{mismatch}\nBut its {len(steps)} steps do not fail once more."
    few = shrunk(steps, tries)
    again = made_again(few)
    return "\n  ".join([f"{mismatch}\nThe fewest steps that were found ({again}):", *map(step_text, few)])
