"""Drawn programs, whose calls are answered as by plain stores: histories of four passes in turn, of small objects and
of large ones, and programs whose stores go on and branch at any point.

    python3 test_drawn.py NUMBER

makes so many programs of each sort, and a fiftieth as many of those that take long.
"""

from __future__ import annotations

import os
import sys
import unittest
from collections import Counter
from typing import Any, Callable, Dict, Optional
from unittest import mock

from calls import OPERATIONS, Asked, Call, Key, Refused, sort_made
from draw import SORTS, Draw, Scale, makes
from plain_store import DOUBLE, enters
from programs import Ask, Branch, Bring, Close, Do, Fill, Meet, Mismatch, Open, Place, Program, Succeed, failing
from support import Draws
from wrong_stores import WRONG

# How many programs of each sort are made, and how many of those in which each wrong behaviour is to be found. There are
# more histories on the proved library, which is faster than the one with checks.
IS_PROVED = os.environ.get("TROWELHEATH_PROVED") == "yes"
HISTORIES = 2000 if IS_PROVED else 500
LONG_HISTORIES = 30 if IS_PROVED else 8
WIDE_HISTORIES = 20 if IS_PROVED else 4
PROGRAMS = 300
LARGE_CHAINS = 3
WRONG_PROGRAMS = 60

PASSES = 4
ROOM = 256
# How many calls one pass makes in turn, at the least.
TURN = 8

SMALL = Scale(size=4, side=4, calls=240)
# Vectors so long that a build is dear, and two operations are: 4 * 66,000 is more than 4096 * 64.
LONG = Scale(size=71_000, side=4, calls=160, fills=3, entries=66_000, is_shared=False)
# Matrices so wide that a product is dear: 16 * 130 * 130 is more than 4096 * 64.
WIDE = Scale(size=130, side=130, calls=160, fills=4, entries=16_000, fills_matrices=True, is_shared=False)

# What reads entries. Of those in the second line the package makes two calls, of which the last is counted.
READS = {"get", "item", "in", "nvals", "len", "reduce"}
ALL_READS = READS | DOUBLE


class History:
    """A drawn history of four passes: one of them makes some calls, and which of them is drawn anew then."""

    def __init__(self, program: Program, seed: int, scale: Scale) -> None:
        self.program = program
        self.draws = Draws(seed)
        self.draw = Draw(self.draws, scale, bool if seed % 4 == 0 else int)
        program.do(Open(0, ROOM, PASSES))
        self.place = program.places[0]
        # How many calls were not refused; how many the store had when each object was last changed, and when each pass
        # last may have evaluated some; and how many reads found made by another pass what their pass had not made.
        self.accepted = 0
        self.changed: Dict[Key, int] = {}
        self.evaluated = [0] * PASSES
        self.taken = 0

    def ask(self, by: int, asked: Asked) -> Any:
        answer = self.program.do(Ask(0, by, asked))
        if isinstance(answer, Refused):
            return answer
        self.accepted += 1
        calls = len(self.place.plain.moments) - 1
        is_read = asked.kind in ALL_READS
        if asked.on is None or makes(asked):
            self.changed[sort_made(asked), answer] = calls
        elif enters(asked):
            self.changed[asked.on] = calls
        elif asked.kind in READS:
            if self.changed.get(asked.on, 0) > self.evaluated[by] and self.program.made == 0:
                self.taken += 1
        if is_read or self.program.made > 0:
            self.evaluated[by] = calls
        return answer

    def share(self) -> None:
        """One pass adopts another, or prepares what it knows, or none does. Nothing that is answered depends on it."""
        kind = self.draws.below(10)
        if kind < 4:
            self.program.do(Meet(0, kind, (kind + 1) % PASSES, True))
        elif kind < 6:
            self.program.do(Do(0, 0 if kind == 4 else 3, "prepare"))

    def run(self) -> None:
        pace, by, scale = self.draws.below(3), 0, self.draw.scale
        for turn in range(scale.calls):
            if turn % TURN == 0:
                by = self.draws.below(PASSES)
                if scale.is_shared:
                    self.share()
            asked = self.draw.call(turn, pace)
            self.draw.note(asked, self.ask(by, asked))
            if not scale.is_shared and asked.kind in ALL_READS:
                self.ask(self.draws.below(PASSES), asked)

    def read_all(self) -> None:
        """Each object is read by one of the passes: some places one by one, and then all entries at once."""
        self.program.compare_statuses(self.place)
        for number in range(max(self.place.plain.last().made.values())):
            by = self.draws.below(PASSES)
            for sort in SORTS:
                for _ in range(4):
                    self.program.do(Ask(0, by, Call("get", (sort, number), self.draw.dtype, self.draw.place(sort))))
                self.program.read_all(self.place, by, (sort, number))


# The rooms of stores and of generations, of which some are used up soon, and how many stores are open at most.
ROOMS = [12, 24, 40, 80, 200]
GENERATIONS = [8, 12, 20, 40]
MOST_PLACES = 6

# What each kind of call may be refused for, of what is drawn.
INPUTS = ["UNINITIALIZED_OBJECT", "DOMAIN_MISMATCH", "DIMENSION_MISMATCH", "ORDER_FULL"]
REFUSALS = {
    "new": ["ORDER_FULL"],
    "dup": ["UNINITIALIZED_OBJECT", "ORDER_FULL"],
    "diag": ["UNINITIALIZED_OBJECT", "INVALID_VALUE", "ORDER_FULL"],
    "free": ["UNINITIALIZED_OBJECT", "ORDER_FULL"],
    "set": ["UNINITIALIZED_OBJECT", "INVALID_INDEX", "DOMAIN_MISMATCH", "ORDER_FULL"],
    "remove": ["UNINITIALIZED_OBJECT", "INVALID_INDEX", "ORDER_FULL"],
    "clear": ["UNINITIALIZED_OBJECT", "ORDER_FULL"],
    "resize": ["UNINITIALIZED_OBJECT", "INVALID_VALUE", "ORDER_FULL"],
    "build": [
        "UNINITIALIZED_OBJECT",
        "INVALID_VALUE",
        "DOMAIN_MISMATCH",
        "OUTPUT_NOT_EMPTY",
        "INDEX_OUT_OF_BOUNDS",
        "ORDER_FULL",
    ],
    "build_from": [
        "UNINITIALIZED_OBJECT",
        "DOMAIN_MISMATCH",
        "OUTPUT_NOT_EMPTY",
        "INDEX_OUT_OF_BOUNDS",
        "ORDER_FULL",
    ],
    "get": ["UNINITIALIZED_OBJECT", "INVALID_INDEX", "DOMAIN_MISMATCH"],
    "item": ["UNINITIALIZED_OBJECT", "INVALID_INDEX"],
    "in": ["UNINITIALIZED_OBJECT"],
    "nvals": ["UNINITIALIZED_OBJECT"],
    "len": ["UNINITIALIZED_OBJECT"],
    "shape": ["UNINITIALIZED_OBJECT"],
    "to_dict": ["UNINITIALIZED_OBJECT", "DOMAIN_MISMATCH"],
    "to_lists": ["UNINITIALIZED_OBJECT", "DOMAIN_MISMATCH"],
    "items": ["UNINITIALIZED_OBJECT", "DOMAIN_MISMATCH"],
    "reduce": ["UNINITIALIZED_OBJECT", "DOMAIN_MISMATCH"],
    "wait": ["UNINITIALIZED_OBJECT"],
    **{kind: INPUTS for kind, *_ in OPERATIONS},
}
REFUSED = [f"{kind} {info}" for kind in REFUSALS for info in REFUSALS[kind]]
UNREAD = "by a pass that has not read the last change"
ANSWERED = [
    *REFUSALS,
    "Branch",
    f"Branch {UNREAD}",
    "Succeed",
    f"Succeed {UNREAD}",
    "meet",
    "adopt",
    "prepare",
    "release",
]


class Stores:
    """A drawn program of several stores, which go on and branch at any point, and bring results to one another."""

    def __init__(self, program: Program, seed: int, first: Open, keeps_first: bool = False) -> None:
        self.program = program
        self.draws = Draws(seed)
        self.keeps_first = keeps_first
        self.dtype = bool if seed % 4 == 0 else int
        # What is drawn for each store, and what its objects are.
        self.drawn: Dict[int, Draw] = {}
        self.name = 0
        self.turn = 0
        self.program.do(first)
        self.have()

    def below(self, bound: int) -> int:
        return self.draws.below(bound)

    def one_of(self, choices: Any) -> Any:
        return choices[self.below(len(choices))]

    def have(self) -> None:
        """There may be a store of the next name, of whose objects calls are drawn from now on."""
        place = self.program.places.get(self.name)
        if place is not None:
            scale = Scale(size=4, side=4, calls=0, last=4 + self.below(3), is_varied=True)
            dtype = self.dtype if self.below(8) > 0 else {True: int, False: bool}[self.dtype is bool]
            self.drawn[self.name] = Draw(self.draws, scale, dtype, place.plain.last().made)
        self.name += 1

    def place(self) -> Place:
        """One of the stores, most often the one that was opened first or last."""
        places = list(self.program.places.values())
        place: Place = self.one_of([places[0], places[-1], self.one_of(places)])
        return place

    def key(self, place: Place) -> Key:
        """An object of the store: nearly always one of those that were made last; now and then one that never was."""
        sort = self.one_of(SORTS)
        if self.below(32) == 0:
            return sort, self.one_of([place.plain.last().made[sort] + self.below(4), 200 + self.below(100), 2**32 - 2])
        return self.drawn[place.name].some(sort)

    def step(self) -> None:
        """Makes one step, or a few calls by one pass."""
        place = self.place()
        by = self.below(len(place.passes))
        kind = self.below(32)
        if kind < 20:
            for _ in range(1 + self.below(8)):
                self.call(place, by)
        elif kind < 22:
            self.program.do(Meet(place.name, by, self.below(len(place.passes)), self.below(2) == 0))
        elif kind < 24:
            self.program.do(Do(place.name, by, self.one_of(["prepare", "release", "help", "go_on", "go_on"])))
        elif kind < 27:
            self.bring(place, by)
        elif kind < 30:
            self.branch(place, by)
        elif kind == 30:
            self.succeed(place, by)
        else:
            self.close(place)

    def call(self, place: Place, by: int) -> None:
        draw = self.drawn[place.name]
        self.turn += 1
        asked = draw.call(self.turn, 0)
        if self.below(24) == 0:
            asked = Call(self.one_of(["nvals", "free", "clear", "dup", "wait"]), self.key(place))
        draw.note(asked, self.program.do(Ask(place.name, by, asked)))

    def room(self) -> int:
        """A room, which is now and then the largest."""
        if self.below(12) == 0:
            return 65_536 - self.below(3)
        room: int = self.one_of(ROOMS)
        return room

    def branch(self, place: Place, by: int) -> None:
        """A branch of any objects, which others may have changed since the pass has read. One may be named twice."""
        if len(self.program.places) < MOST_PLACES:
            keys = tuple(self.key(place) for _ in range(self.below(7)))
            self.program.do(Branch(place.name, by, self.name, keys, self.room(), 1 + self.below(3)))
            self.have()

    def succeed(self, place: Place, by: int) -> None:
        if len(self.program.places) < MOST_PLACES:
            self.program.do(Succeed(place.name, by, self.name, self.room(), 1 + self.below(3)))
            self.have()

    def bring(self, place: Place, by: int) -> None:
        """A result comes back: most often into an object that was made or cleared just now."""
        other = self.one_of(list(self.program.places.values()))
        source = self.drawn[other.name].written[self.one_of(SORTS)] if self.below(2) == 0 else self.key(other)
        key = (source[0], self.key(place)[1])
        kind = self.below(4)
        if kind < 2:
            dtype = self.drawn[other.name].dtype
            asked = Call("new", (source[0], 0), dtype, (4,) if source[0] == "vector" else (4, 4))
            made = self.program.do(Ask(place.name, by, asked))
            self.drawn[place.name].note(asked, made)
            self.drawn[place.name].empty = None
            key = key if isinstance(made, Refused) else (source[0], made)
        elif kind == 2:
            self.program.do(Ask(place.name, by, Call("clear", key)))
        self.program.do(Bring(place.name, by, key, other.name, self.below(len(other.passes)), source))

    def close(self, place: Place) -> None:
        """Closes a store. Those that began with its objects go on."""
        if len(self.program.places) > 1 and not (self.keeps_first and place.name == 0):
            self.program.do(Close(place.name))

    def fill(self) -> None:
        """One pass uses up nearly all room that is left in the first store, or in its generation."""
        place = self.program.places[0]
        made = self.program.do(Ask(0, 0, Call("new", ("vector", 0), int, (3,))))
        if not isinstance(made, Refused):
            self.program.do(Fill(0, 0, ("vector", made), self.below(4)))
            self.drawn[0].made = dict(place.plain.last().made)

    def run(self, steps: int) -> None:
        for _ in range(steps):
            self.step()

    def read_all(self) -> None:
        """All that there is in each store is read, each object by one of the passes."""
        for place in list(self.program.places.values()):
            self.program.compare_statuses(place)
            last = place.plain.last().made
            for key in [(sort, number) for sort in SORTS for number in range(last[sort] + 1)]:
                self.program.read_all(place, self.below(len(place.passes)), key)


class Drawn(unittest.TestCase):
    """Each program is the same in each run. Of one that fails the seed is told, and few of its steps."""

    def fail_with(self, seed: int, program: Program, mismatch: Mismatch, tries: int = 400) -> None:
        self.fail(f"seed {seed}: {failing(mismatch, program.steps, tries)}")

    def histories(self, count: int, scale: Scale, accepted: int, taken: int) -> None:
        """So many histories. In each so many calls are not refused, and in all so many reads took what others made."""
        fewest, all_taken = ROOM, 0
        for seed in range(count):
            with Program() as program:
                history = History(program, seed, scale)
                try:
                    history.run()
                    fewest, all_taken = min(fewest, history.accepted), all_taken + history.taken
                    history.read_all()
                except Mismatch as mismatch:
                    self.fail_with(seed, program, mismatch, 400 if scale.is_shared else 40)
        if "-v" in sys.argv:
            print(f"accepted: {fewest} at least, taken: {all_taken}")
        self.assertGreaterEqual(fewest, accepted)
        self.assertGreaterEqual(all_taken, taken)

    def test_histories_are_answered_as_by_a_plain_store(self) -> None:
        self.histories(HISTORIES, SMALL, 60, HISTORIES // 20)

    def test_histories_of_long_vectors_are_answered_as_by_a_plain_store(self) -> None:
        self.histories(LONG_HISTORIES, LONG, 40, min(LONG_HISTORIES // 2, 4))

    def test_histories_of_wide_matrices_are_answered_as_by_a_plain_store(self) -> None:
        self.histories(WIDE_HISTORIES, WIDE, 40, min(WIDE_HISTORIES // 2, 3))

    def stores(self, count: int, steps: int, first: Callable[[Draws], Open], is_filled: bool = False) -> Counter[str]:
        """So many programs of several stores, of which the first is filled in between. What was seen in all of them."""
        seen: Counter[str] = Counter()
        for seed in range(count):
            with Program() as program:
                try:
                    stores = Stores(program, seed, first(Draws(seed)), is_filled)
                    stores.run(steps)
                    if is_filled:
                        stores.fill()
                        stores.run(steps)
                        program.do(Do(0, 0, "go_on"))
                    stores.read_all()
                except Mismatch as mismatch:
                    self.fail_with(seed, program, mismatch)
                seen += program.seen
        if "-v" in sys.argv:
            print(dict(sorted(seen.items())))
        return seen

    def expect_seen(self, seen: Counter[str]) -> None:
        """Each kind of call was answered, and refused for each reason that it may be refused for."""
        self.assertEqual([], [word for word in [*ANSWERED, *REFUSED] if seen[word] == 0])

    def test_stores_that_go_on_and_branch_are_answered_as_plain_stores_are(self) -> None:
        seen = self.stores(PROGRAMS, 60, lambda draws: Open(0, ROOMS[draws.below(len(ROOMS))], 1 + draws.below(3)))
        if PROGRAMS >= 300:
            self.expect_seen(seen)

    def test_chains_go_on_by_themselves_and_are_answered_as_plain_stores_are(self) -> None:
        seen = self.stores(
            PROGRAMS, 60, lambda draws: Open(0, GENERATIONS[draws.below(len(GENERATIONS))], 1 + draws.below(3), True)
        )
        self.assertGreater(seen["moves to a later generation"], PROGRAMS)
        if PROGRAMS >= 300:
            self.expect_seen(seen)

    def test_chains_of_the_most_passes_are_answered_as_plain_stores_are(self) -> None:
        """With 256 passes a generation takes at most 4,096 calls beside those that make its objects."""
        seen = self.stores(LARGE_CHAINS, 20, lambda draws: Open(0, 4096 - draws.below(6), 256, True), True)
        self.assertGreaterEqual(seen["moves to a later generation"], LARGE_CHAINS)


class Found(unittest.TestCase):
    """Drawn programs find each wrong behaviour: here it is the plain store that is wrong."""

    def first_mismatch(self) -> Optional[str]:
        """What the first of so many programs of each sort that does not fit says."""
        for seed in range(WRONG_PROGRAMS):
            for first in Open(0, 24, 3), Open(0, 12, 3, True):
                with Program() as program:
                    try:
                        stores = Stores(program, seed, first)
                        stores.run(60)
                        stores.read_all()
                    except Mismatch as mismatch:
                        return f"seed {seed}: {mismatch}"
        return None

    def test_each_wrong_behaviour_is_found(self) -> None:
        for what, place, name, wrong in WRONG:
            replace: Any = mock.patch.dict if isinstance(place, dict) else mock.patch.multiple
            with self.subTest(what), replace(place, **{name: wrong}):
                found = self.first_mismatch()
                self.assertIsNotNone(found)
                if "-v" in sys.argv:
                    print(f"{what}: {found}")


if __name__ == "__main__":
    if len(sys.argv) > 1 and sys.argv[1].isdigit():
        HISTORIES = PROGRAMS = int(sys.argv.pop(1))
        LONG_HISTORIES = WIDE_HISTORIES = LARGE_CHAINS = -(-HISTORIES // 50)
    unittest.main()
