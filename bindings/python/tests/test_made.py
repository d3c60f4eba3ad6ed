"""How many calls each read makes, in drawn histories: just those that a plain graph of the calls says, each once."""

from __future__ import annotations

import random
import unittest
from typing import Any, Callable, Dict, Iterable, List, Optional, Set, Tuple

import plain
from support import StoreCase
from trowelheath import Matrix, Pass, Refusal, Store, Vector

Entries = Dict[Any, Any]
Shape = Tuple[int, ...]

# Operations: how many dimensions the output and the inputs have, and the operators that are drawn.
SEMIRINGS = ["plus.times", "min.plus", "max.first"]
OPERATORS = ["plus", "minus", "first"]
MONOIDS = ["plus", "max"]
UNARY_OPERATORS = ["ainv", "bnot", "identity"]
TESTS = ["tril", "triu", "diag", "offdiag"]
OPERATIONS: List[Tuple[str, Tuple[int, ...], List[str]]] = [
    ("mxm", (2, 2, 2), SEMIRINGS),
    ("mxv", (1, 2, 1), SEMIRINGS),
    ("vxm", (1, 1, 2), SEMIRINGS),
    ("ewise_add", (2, 2, 2), OPERATORS),
    ("ewise_add", (1, 1, 1), OPERATORS),
    ("ewise_mult", (2, 2, 2), OPERATORS),
    ("ewise_mult", (1, 1, 1), OPERATORS),
    ("reduce_rows", (1, 2), MONOIDS),
    ("transpose", (2, 2), []),
    ("apply", (2, 2), UNARY_OPERATORS),
    ("apply", (1, 1), UNARY_OPERATORS),
    ("select", (2, 2), TESTS),
    ("select", (1, 1), TESTS),
]

COMPUTED: Dict[str, Callable[..., Entries]] = {
    "mxm": plain.mxm,
    "mxv": plain.mxv,
    "vxm": plain.vxm,
    "ewise_add": plain.union,
    "ewise_mult": plain.intersection,
    "reduce_rows": plain.reduce_rows,
    "transpose": plain.transposed,
    "apply": plain.applied,
    "select": plain.selected,
}

# How often each action is drawn, next to the others of its sort.
CHANGES = {"make": 2, "dup": 3, "free": 2, "put": 8, "remove": 3, "build": 4, "clear": 2, "resize": 2, "operate": 16}
READS = {"get": 4, "count": 4, "total": 3, "list_all": 3, "wait": 3, "ask_shape": 1}


class Item:
    """An object of the store, and what it stores; that is none where it was freed."""

    def __init__(self, name: Any, shape: Shape, entries: Entries) -> None:
        self.name = name
        self.shape = shape
        self.entries: Optional[Entries] = entries

    def __repr__(self) -> str:
        return f"{'v' if len(self.shape) == 1 else 'a'}{self.name.number}"

    def stored(self) -> Entries:
        """What it stores, where it is there."""
        assert self.entries is not None
        return self.entries

    def has(self, place: Tuple[int, ...]) -> bool:
        """Whether the place is inside of its dimensions."""
        return all(index < dimension for index, dimension in zip(place, self.shape))


class Graph:
    """The calls of a history by number: which object each one changes, and which earlier ones left what it needs."""

    def __init__(self) -> None:
        self.targets: List[Item] = []
        self.links: List[Set[int]] = []
        self.frees: Set[int] = set()

    def enter(self, target: Item, needs: Iterable[Item], frees: bool = False) -> None:
        """A call that needs what these objects store, and may free its target."""
        lasts = self.lasts()
        if frees:
            self.frees.add(len(self.targets))
        self.links.append({lasts[item] for item in needs})
        self.targets.append(target)

    def lasts(self, known: Optional[int] = None) -> Dict[Item, int]:
        """The call that last changed each object that is there, after so many calls or after all."""
        lasts = {item: call for call, item in enumerate(self.targets[:known])}
        return {item: call for item, call in lasts.items() if call not in self.frees}

    def needed(self, results: Iterable[int], there: Set[int]) -> Set[int]:
        """The calls to make for the results of these, where the results of some calls are there."""
        needed: Set[int] = set()
        waiting = list(results)
        while waiting:
            call = waiting.pop()
            if call not in needed and call not in there:
                needed.add(call)
                waiting.extend(self.links[call])
        return needed


class View:
    """A pass, with the calls that it knows and those that it has results of."""

    def __init__(self, pass_: Pass) -> None:
        self.pass_ = pass_
        self.known = 0
        # The calls whose results it has had since it was last released. It keeps a result as long as a call needs it
        # whose own result it lacks, so it makes none of these again.
        self.surely: Set[int] = set()
        # And those whose results it may have had.
        self.perhaps: Set[int] = set()


def key(place: Tuple[int, ...]) -> Any:
    """A place as the key of an entry."""
    return place if len(place) == 2 else place[0]


def computed_shape(name: str, first: Shape, second: Optional[Shape]) -> Optional[Shape]:
    """The dimensions of what an operation computes of inputs of these; none where they do not fit together."""
    if name == "transpose":
        return first[::-1]
    if name in ("apply", "select"):
        return first
    if second is None:
        return first[:1]
    if name.startswith("ewise"):
        return first if first == second else None
    return first[:-1] + second[1:] if first[-1] == second[0] else None


class History:
    """Calls that are drawn and made in a store, next to the graph of them and to what the objects store."""

    def __init__(self, case: unittest.TestCase, store: Store, seed: int, others: Dict[str, int]) -> None:
        self.case = case
        self.draws = random.Random(seed)
        self.views = [View(pass_) for pass_ in store.passes]
        self.graph = Graph()
        self.items: List[Item] = []
        # The calls whose results waits for all objects may have left to all passes. No read here is dear enough to.
        self.left: Set[int] = set()
        self.words: List[str] = []
        # How often changes, other actions and reads are drawn, and a dimension that most objects have.
        self.changes = {**CHANGES, **others}
        self.reads = self.draws.choice([0.1, 0.3, 0.6])
        self.dimension = self.draws.choice([2, 3, 6])

    def run(self, steps: int) -> None:
        """Draws so many actions, and then reads all objects by all passes."""
        for ndim in 1, 1, 2, 2:
            self.make(self.draws.choice(self.views), ndim)
        for _ in range(steps):
            kinds = READS if self.draws.random() < self.reads else self.changes
            kind = self.draws.choices(list(kinds), list(kinds.values()))[0]
            getattr(self, kind)(self.draws.choice(self.views))
        for view in self.views:
            for item in self.graph.lasts():
                self.list_all(view, item)

    # What is drawn.

    def some(self, ndim: Optional[int] = None) -> Item:
        """An object of so many dimensions, or of any, which is nearly always there."""
        fitting = [item for item in self.items if ndim in (None, len(item.shape))]
        there = [item for item in fitting if item.entries is not None]
        return self.draws.choice(fitting if self.draws.random() < 0.03 else there)

    def place(self, item: Item) -> Tuple[int, ...]:
        """A place that is nearly always inside of the object."""
        beyond = 1 if self.draws.random() < 0.03 else 0
        return tuple(self.draws.randrange(dimension + beyond) for dimension in item.shape)

    def shape(self, ndim: int) -> Shape:
        """Dimensions that nearly always fit those of others."""
        return tuple(self.dimension + (self.draws.random() < 0.1) for _ in range(ndim))

    def value(self) -> int:
        return self.draws.randrange(4)

    # Calls, and how many calls were made for each.

    def call(self, view: View, item: Item, name: str, *arguments: Any, **options: Any) -> Any:
        """Makes a call on the object by this pass: a method of it, or a property."""
        self.words.append(f"{view.pass_.number}: {item}.{name} {arguments} {options or ''}")
        given = [each.name if isinstance(each, Item) else each for each in arguments]
        named = {word: each.name if isinstance(each, Item) else each for word, each in options.items()}
        found = getattr(item.name.using(view.pass_), name)
        return found(*given, **named) if callable(found) else found

    def refused(self, view: View, item: Item, name: str, *arguments: Any, **options: Any) -> None:
        """Makes a call that is refused by shapes alone."""
        with self.case.assertRaises(Refusal):
            self.call(view, item, name, *arguments, **options)
        self.learn(view)
        self.compare(view, [])

    def change(self, view: View, item: Item, needs: List[Item], name: str, *arguments: Any, **options: Any) -> None:
        """Makes a call that changes the object, or the output that it names, and needs what these objects store."""
        self.call(view, item, name, *arguments, **options)
        self.graph.enter(options.get("out", item), needs, frees=name == "free")
        self.learn(view)
        self.compare(view, [])

    def ask(self, view: View, item: Item, name: str, *arguments: Any) -> Any:
        """Makes a read of an object that is there."""
        answer = self.call(view, item, name, *arguments)
        self.learn(view)
        self.compare(view, [self.graph.lasts()[item]])
        return answer

    def learn(self, view: View) -> None:
        """The pass knows all calls now."""
        view.known = len(self.graph.targets)

    def compare(self, view: View, wanted: Iterable[int]) -> None:
        """Compares how many calls the last call of the pass made, for the results of these."""
        facts = view.pass_.facts()
        results = set(wanted)
        most = self.graph.needed(results, view.surely)
        fewest = self.graph.needed(results, view.perhaps | self.left)
        if not len(fewest) <= facts.made <= len(most):
            self.fail(f"{facts.made} calls were made, of {sorted(most)}, and for certain {sorted(fewest)}")
        if facts.known != view.known:
            self.fail(f"{facts.known} calls are known, not {view.known}")
        view.surely |= most if facts.made == len(most) else fewest | results
        view.perhaps |= most

    def equal(self, answer: Any, wanted: Any) -> None:
        """Compares an answer."""
        if answer != wanted:
            self.fail(f"{answer} was answered, not {wanted}")

    def fail(self, text: str) -> None:
        """Fails, and tells the calls until now, each after the number of its pass."""
        self.case.fail("\n  ".join([text, *self.words]))

    # Changes.

    def make(self, view: View, ndim: Optional[int] = None) -> None:
        shape = self.shape(self.draws.choice([1, 2]) if ndim is None else ndim)
        self.words.append(f"{view.pass_.number}: new {shape}")
        made: Any = view.pass_.matrix(*shape) if len(shape) == 2 else view.pass_.vector(*shape)
        self.have(view, Item(made, shape, {}), [])

    def have(self, view: View, item: Item, needs: List[Item]) -> None:
        """The object was made just now, of what these store."""
        self.items.append(item)
        self.graph.enter(item, needs)
        self.learn(view)
        self.compare(view, [])

    def dup(self, view: View) -> None:
        item = self.some()
        if item.entries is None:
            return self.refused(view, item, "dup")
        made = self.call(view, item, "dup")
        return self.have(view, Item(made, item.shape, dict(item.entries)), [item])

    def free(self, view: View) -> None:
        """Frees an object, unless that leaves one of its sort alone."""
        item = self.some()
        if item.entries is None:
            return self.refused(view, item, "free")
        if sum(len(each.shape) == len(item.shape) for each in self.graph.lasts()) > 2:
            self.change(view, item, [item], "free")
            item.entries = None
        return None

    def put(self, view: View) -> None:
        item = self.some()
        place, value = self.place(item), self.value()
        if item.entries is None or not item.has(place):
            return self.refused(view, item, "__setitem__", key(place), value)
        item.entries[key(place)] = value
        return self.change(view, item, [item], "__setitem__", key(place), value)

    def remove(self, view: View) -> None:
        item = self.some()
        place = self.place(item)
        if item.entries is None or not item.has(place):
            return self.refused(view, item, "__delitem__", key(place))
        item.entries.pop(key(place), None)
        return self.change(view, item, [item], "__delitem__", key(place))

    def build(self, view: View) -> None:
        """A build looks at its object when it is entered, so it makes what a read of that makes."""
        item = self.some()
        places = [self.place(item) for _ in range(self.draws.randrange(self.dimension * 2))]
        values = [self.value() for _ in places]
        dup = self.draws.choice(MONOIDS)
        arguments = [*([place[at] for place in places] for at in range(len(item.shape))), values, dup]
        if item.entries is None:
            return self.refused(view, item, "build", *arguments)
        results = [self.graph.lasts()[item]]
        if item.entries or not all(map(item.has, places)):
            with self.case.assertRaises(Refusal):
                self.call(view, item, "build", *arguments)
        else:
            self.call(view, item, "build", *arguments)
            self.graph.enter(item, [item])
            item.entries = plain.joined(zip(map(key, places), values), dup)
        self.learn(view)
        return self.compare(view, results)

    def clear(self, view: View) -> None:
        item = self.some()
        if item.entries is None:
            return self.refused(view, item, "clear")
        item.entries = {}
        return self.change(view, item, [], "clear")

    def resize(self, view: View) -> None:
        item = self.some()
        shape = self.shape(len(item.shape))
        if item.entries is None:
            return self.refused(view, item, "resize", *shape)
        self.change(view, item, [item], "resize", *shape)
        item.shape = shape
        places = {key(place): place for place in ((at,) if type(at) is int else at for at in item.entries)}
        item.entries = {at: x for at, x in item.entries.items() if item.has(places[at])}
        return None

    def operate(self, view: View) -> None:
        """An operation needs its inputs, and its mask and its output too where what that stored may bear on it."""
        name, ndims, words = self.draws.choice(OPERATIONS)
        word = [self.draws.choice(words)] if words else []
        output, first, *rest = (self.some(ndim) for ndim in ndims)
        mask = self.some(ndims[0]) if self.draws.random() < 0.3 else None
        accum = self.draws.choice(OPERATORS) if self.draws.random() < 0.25 else None
        structure, complement, replace = (self.draws.random() < 0.25 for _ in range(3))
        how: Dict[str, Any] = {"structure": structure, "complement": complement, "replace": replace}
        options: Dict[str, Any] = {"out": output, "mask": mask, "accum": accum, **how}
        shape, entries = first.shape, first.entries
        if len(shape) == 2 and self.draws.random() < 0.2:
            options["transpose"] = True
            shape, entries = shape[::-1], plain.transposed(entries or {})
        second = rest[0].shape if rest else None
        seconds = [each.entries for each in rest]
        if second is not None and len(second) == 2 and self.draws.random() < 0.2:
            options["transpose_second"] = True
            second, seconds = second[::-1], [plain.transposed(seconds[0] or {})]
        objects = [output, first, *rest, *([] if mask is None else [mask])]
        fits = computed_shape(name, shape, second) == output.shape
        if any(each.entries is None for each in objects) or not fits or mask is not None and mask.shape != output.shape:
            return self.refused(view, first, name, *rest, *word, **options)
        computed = COMPUTED[name](entries, *seconds, *word)
        masking = None if mask is None else mask.entries
        output.entries = plain.written(output.stored(), computed, accum, masking, **how)
        is_overwritten = mask is None and accum is None and not complement
        return self.change(view, first, [first, *rest] if is_overwritten else objects, name, *rest, *word, **options)

    # Reads.

    def get(self, view: View) -> None:
        item = self.some()
        place = self.place(item)
        if item.entries is None or not item.has(place):
            return self.refused(view, item, "get", *place)
        return self.equal(self.ask(view, item, "get", *place), item.entries.get(key(place)))

    def count(self, view: View) -> None:
        item = self.some()
        if item.entries is None:
            return self.refused(view, item, "__len__")
        return self.equal(self.ask(view, item, "__len__"), len(item.entries))

    def total(self, view: View) -> None:
        item = self.some()
        monoid = self.draws.choice(MONOIDS)
        if item.entries is None:
            return self.refused(view, item, "reduce", monoid)
        return self.equal(self.ask(view, item, "reduce", monoid), plain.total(item.entries, monoid))

    def list_all(self, view: View, item: Optional[Item] = None) -> None:
        """Python counts entries before it reads them, and so they are counted here before that."""
        item = self.some() if item is None else item
        if item.entries is None:
            return self.refused(view, item, "to_dict")
        self.ask(view, item, "nvals")
        return self.equal(self.ask(view, item, "to_dict"), item.entries)

    def wait(self, view: View) -> None:
        item = self.some()
        if item.entries is None:
            return self.refused(view, item, "wait")
        return self.equal(self.ask(view, item, "wait"), None)

    def ask_shape(self, view: View) -> None:
        """For dimensions no call is made."""
        item = self.some()
        if item.entries is None:
            return self.refused(view, item, "shape")
        self.equal(self.call(view, item, "shape"), item.shape)
        self.learn(view)
        return self.compare(view, [])

    # What passes do besides.

    def wait_for_all(self, view: View) -> None:
        """The pass makes what all objects hold, and may leave that to the others."""
        item = self.some()
        if item.entries is None:
            return self.refused(view, item, "wait", "materialize")
        self.call(view, item, "wait", "materialize")
        self.learn(view)
        results = self.graph.lasts().values()
        self.compare(view, results)
        if len(self.views) > 1:
            self.left.update(results)
        return None

    def prepare(self, view: View) -> None:
        """The pass makes what all objects hold that it knows, or nothing, and tells before which call all are made."""
        told = view.pass_.prepare()
        self.words.append(f"{view.pass_.number}: prepare, which tells {told} of {view.known}")
        results = self.graph.lasts(view.known).values()
        self.compare(view, results if view.pass_.facts().made > 0 else [])
        most = self.graph.needed(results, view.surely)
        fewest = self.graph.needed(results, view.perhaps | self.left)
        least = min(most, default=view.known)
        if not least <= told <= min(fewest, default=view.known):
            self.fail(f"{told} was told, where {sorted(most)} may be left to make, and for certain {sorted(fewest)}")
        view.surely.update(range(told))

    def meet(self, view: View) -> None:
        """The pass learns what another one knows."""
        other = self.draws.choice(self.views)
        if other is view:
            return
        self.words.append(f"{view.pass_.number}: meet {other.pass_.number}")
        view.pass_.meet(other.pass_)
        view.known = max(view.known, other.known)
        self.compare(view, [])

    def adopt(self, view: View) -> None:
        """The pass learns what another one knows, and keeps also what that has evaluated."""
        other = self.draws.choice(self.views)
        if other is view:
            return
        self.words.append(f"{view.pass_.number}: adopt {other.pass_.number}")
        view.pass_.adopt(other.pass_)
        view.known = max(view.known, other.known)
        view.surely |= other.surely
        view.perhaps |= other.perhaps
        self.compare(view, [])

    def release(self, view: View) -> None:
        """The pass drops what it has evaluated."""
        self.words.append(f"{view.pass_.number}: release")
        view.pass_.release()
        view.surely = set()
        view.perhaps = set()
        self.compare(view, [])


class Worked(StoreCase):
    def made(self, item: Any, pass_: Pass) -> int:
        """How many calls the pass makes to count the entries of the object."""
        len(item.using(pass_))
        return pass_.facts().made

    def test_a_read_makes_what_its_object_needs(self) -> None:
        a = Matrix.from_lists(self.p, 2, 2, [0], [1], [5])
        c = self.p.matrix(2, 2)
        a.mxm(a, out=c)
        a[0, 0] = 7
        a[0, 1] = 8
        # The matrix as it was built and the product, without the new output; then what was stored since; then nothing.
        self.assertEqual([self.made(item, self.q) for item in (c, a, c, a)], [3, 2, 0, 0])

    def test_what_moves_or_filters_or_maps_makes_just_its_result(self) -> None:
        a = Matrix.from_lists(self.p, 2, 2, [0, 1], [1, 0], [5, 6])
        turned, passed, negative = a.transpose(), a.select("tril"), a.apply("ainv")
        # The matrix as it was built. Then of each its own call alone, since what that reads is there; then nothing.
        self.assertEqual(self.made(a, self.q), 2)
        self.assertEqual([self.made(item, self.q) for item in (turned, passed, negative)], [1, 1, 1])
        self.assertEqual([self.made(item, self.q) for item in (turned, passed, negative, a)], [0, 0, 0, 0])
        # The first of them makes the matrix too where nothing is there.
        self.q.release()
        self.assertEqual([self.made(item, self.q) for item in (passed, turned, negative)], [3, 1, 1])

    def test_a_second_input_read_transposed_makes_no_call_of_its_own(self) -> None:
        a = Matrix.from_lists(self.p, 2, 2, [0, 1], [1, 0], [5, 6])
        u = Vector.from_lists(self.p, 2, [0], [3])
        results = [a @ a.T, a + a.T, u.vxm(a.T), a.kronecker(a.T)]
        self.assertEqual([self.made(item, self.q) for item in (a, u)], [2, 2])
        self.assertEqual([self.made(item, self.q) for item in results], [1, 1, 1, 1])

    def test_of_rounds_that_fill_one_object_anew_the_last_is_made(self) -> None:
        u, w = self.p.vector(3), self.p.vector(3)
        for _ in range(5):
            u.ewise_add(u, "plus", out=w)
        self.assertEqual([self.made(item, self.p) for item in (w, u)], [2, 0])

    def test_who_adopts_makes_nothing_that_the_other_made(self) -> None:
        u = self.p.vector(3)
        w = u + u
        self.assertEqual(self.made(w, self.q), 2)
        self.p.meet(self.q)
        self.assertEqual(self.made(u, self.p), 1)
        self.p.adopt(self.q)
        self.assertEqual(self.made(w, self.p), 0)

    def test_a_pass_that_was_released_makes_each_call_once(self) -> None:
        a, c = self.p.matrix(2, 2), self.p.matrix(2, 2)
        a[0, 0] = 1
        a.mxm(a, out=c)
        self.assertEqual(self.made(c, self.p), 3)
        a[0, 1] = 2
        self.assertEqual(self.made(a, self.p), 1)
        self.p.release()
        a.wait("materialize")
        self.assertEqual(self.p.facts().made, 4)


class Drawn(unittest.TestCase):
    """Where no pass leaves results to others by a wait for all, the graph says just how many calls are made."""

    def draw(self, seeds: Iterable[int], steps: int, passes: int, others: Dict[str, int]) -> None:
        """Draws a history of so many actions for each of the seeds. Others than changes and reads are given."""
        for seed in seeds:
            with self.subTest(seed=seed), Store(room=1024, passes=passes) as store:
                History(self, store, seed, others).run(steps)

    def test_one_pass(self) -> None:
        self.draw(range(100), 60, 1, {"wait_for_all": 2, "prepare": 1})
        self.draw(range(100, 103), 400, 1, {"wait_for_all": 1})

    def test_passes_that_adopt(self) -> None:
        self.draw(range(200, 300), 60, 3, {"adopt": 4, "meet": 1, "prepare": 2})

    def test_passes_that_wait_for_all(self) -> None:
        self.draw(range(300, 400), 60, 3, {"wait_for_all": 4, "adopt": 2, "meet": 1, "prepare": 1})

    def test_one_pass_that_is_released(self) -> None:
        self.draw(range(400, 450), 60, 1, {"wait_for_all": 2, "prepare": 1, "release": 3})

    def test_passes_that_are_released(self) -> None:
        self.draw(range(450, 500), 60, 3, {"adopt": 4, "meet": 1, "prepare": 2, "release": 2})

    def test_passes_that_wait_for_all_and_are_released(self) -> None:
        self.draw(range(500, 560), 60, 3, {"wait_for_all": 2, "adopt": 3, "meet": 1, "prepare": 1, "release": 2})


if __name__ == "__main__":
    unittest.main()
