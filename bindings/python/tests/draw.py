"""Calls that are drawn by chance: of small objects, so that they often meet, and of large ones."""

from __future__ import annotations

import math
from typing import Any, Dict, List, NamedTuple, Optional, Sequence, Tuple

from calls import Asked, Call, Key, Operation, Refused, sort_made
from plain_store import MOST_DIMENSION
from support import Draws

OPERATORS: Dict[type, List[str]] = {
    bool: ["lor", "land", "lxor", "lxnor", "first_bool", "second_bool", "second_bool"],
    int: ["plus", "times", "min", "max", "minus", "first", "second"],
}
MONOIDS: Dict[type, List[str]] = {bool: ["lor", "land", "lxor", "lxnor"], int: ["plus", "times", "min", "max"]}
UNARY: Dict[type, List[str]] = {bool: ["identity_bool", "lnot", "lnot"], int: ["identity", "bnot", "ainv", "ainv"]}
SUMS = {bool: "lxor", int: "plus"}
TESTS_OF_DIAGONALS = ["tril", "triu", "diag", "offdiag"]
TESTS_OF_PLACES = ["rowle", "rowgt", "colle", "colgt"]
TESTS_OF_VALUES = ["valueeq", "valuene", "valuelt", "valuele", "valuegt", "valuege"]
SORTS = ("matrix", "vector")


class Scale(NamedTuple):
    """Of which objects a history is, and what its passes share."""

    size: int
    """The size of a vector."""
    side: int
    """The rows and the columns of a matrix."""
    calls: int
    """How many calls a history has before its end."""
    last: int = 8
    """Calls are on so many objects of a sort, those that were made last; so many are made first."""
    fills: int = 0
    """How many objects are filled once the first are made."""
    entries: int = 0
    """With how many entries each is filled."""
    fills_matrices: bool = False
    is_shared: bool = True
    """Whether passes wait for all objects, adopt others and prepare. Where they do not, there are more operations."""
    is_varied: bool = False
    """Whether other calls come between those that make the first objects, and some objects are smaller than most, and
    are filled at once."""


def value_of(dtype: type, number: int) -> Any:
    """The number, or whether it is odd."""
    return number % 2 == 1 if dtype is bool else number


def filling(count: int, shape: Tuple[int, ...], dtype: type) -> Tuple[Any, ...]:
    """The lists of a build of so many entries, each seven places after the one before, round about."""
    places = [7 * k for k in range(count)]
    if len(shape) == 1:
        lists = [[place % shape[0] for place in places]]
    else:
        lists = [[place // shape[1] % shape[0] for place in places], [place % shape[1] for place in places]]
    return (*lists, [value_of(dtype, k + 1) for k in range(count)], SUMS[dtype])


class Draw:
    """The calls of a history, or of one store of several. It is told what is made and written."""

    def __init__(self, draws: Draws, scale: Scale, dtype: type, made: Optional[Dict[str, int]] = None) -> None:
        self.draws = draws
        self.scale = scale
        # Of all operators, and of most objects and values.
        self.dtype = dtype
        self.made = {"matrix": 0, "vector": 0} if made is None else dict(made)
        self.filled = 0
        # What an operation wrote last.
        self.written: Dict[str, Key] = {"matrix": ("matrix", 0), "vector": ("vector", 0)}
        # A new object that is filled next.
        self.empty: Optional[Tuple[Key, type, Tuple[int, ...]]] = None

    def below(self, bound: int) -> int:
        return self.draws.below(bound)

    def one_of(self, choices: Sequence[Any]) -> Any:
        return choices[self.below(len(choices))]

    def some(self, sort: str) -> Key:
        """One of the objects that were made last, of which some were freed."""
        last = min(self.scale.last, max(1, self.made[sort]))
        return sort, max(0, self.made[sort] - last) + self.below(last)

    def any_dtype(self) -> type:
        """Now and then the other one than that of the operators."""
        is_other = self.below(8) == 0
        return {True: bool, False: int}[(self.dtype is int) == is_other]

    def value(self) -> Any:
        dtype = self.any_dtype()
        return value_of(dtype, self.below(4))

    def shape(self, sort: str) -> Tuple[int, ...]:
        return (self.scale.size,) if sort == "vector" else (self.scale.side, self.scale.side)

    def new(self, sort: str) -> Call:
        shape = self.shape(sort)
        if self.scale.is_varied and self.below(4) == 0:
            shape = tuple(self.one_of([1, 2, 2, dimension]) for dimension in shape)
        return Call("new", (sort, 0), self.any_dtype(), shape)

    def dimension(self, of_new: int) -> int:
        """Most often that of a new object, and now and then 0."""
        return of_new if self.below(2) == 0 else self.below(of_new + 1)

    def place(self, sort: str) -> Tuple[int, ...]:
        """A place, which is inside of a new object but once in a while."""
        return tuple(self.below(dimension + 1) for dimension in self.shape(sort))

    def name_dtype(self) -> type:
        """The dtype of the name of an object: now and then another one than that of most."""
        return self.dtype if self.below(8) > 0 else self.any_dtype()

    def operator(self) -> str:
        word: str = self.one_of(OPERATORS[self.dtype])
        return word

    def monoid(self) -> str:
        word: str = self.one_of(MONOIDS[self.dtype])
        return word

    def any_monoid(self) -> str:
        word: str = self.one_of(MONOIDS[self.any_dtype()])
        return word

    # Changes of one object.

    def build(self, on: Key) -> Call:
        """Three tuples of which two are of one place; or drawn ones, now and then of lists that differ in length."""
        sort = on[0]
        if self.below(2) == 0:
            lists: List[List[int]] = [[2, 0, 2], [1, 3, 1]][: 1 if sort == "vector" else 2]
            values = [value_of(self.dtype, number) for number in (7, 5, 1)]
            return Call("build", on, self.dtype, (*lists, values, SUMS[self.dtype]))
        built = self.drawn_build(on, self.any_dtype(), self.shape(sort), self.below(4) == 0)
        if self.below(16) > 0:
            return built
        *shorter, values, dup = built.arguments
        return built._replace(arguments=(*shorter, [*values, value_of(built.dtype, 1)], dup))

    def drawn_build(self, on: Key, dtype: type, shape: Tuple[int, ...], is_outside: bool = False) -> Call:
        """Some tuples, of which one or another may be outside of the object."""
        count = self.below(4 + min(8, math.prod(shape)))
        lists = [[self.below(dimension + is_outside) for _ in range(count)] for dimension in shape]
        values = [value_of(dtype, self.below(4)) for _ in range(count)]
        dup = self.one_of(MONOIDS[dtype]) if self.below(8) > 0 else self.any_monoid()
        return Call("build", on, dtype, (*lists, values, dup))

    def change(self, sort: str) -> Call:
        """A change of one object. The first vector is never freed."""
        on = self.some(sort)
        kind = self.below(128)
        if kind < 4:
            return self.new(sort)
        if kind < 8:
            return Call("free", (sort, on[1] + 1) if sort == "vector" else on)
        if kind < 12:
            return Call("clear", on)
        if kind < 16:
            return Call("resize", on, int, tuple(map(self.dimension, self.shape(sort))))
        if kind < 20:
            return Call("dup", on)
        if kind < (30 if self.scale.is_varied else 22):
            return self.build(on)
        place = self.place(sort)
        if kind < (44 if self.scale.is_varied else 41):
            return Call("remove", on, int, place)
        value = self.value()
        return Call("set", on, type(value), (*place, value))

    # Reads.

    def read(self) -> Call:
        """A call that changes nothing, now and then of what an operation wrote last."""
        sort = self.one_of(SORTS)
        on = self.written[sort] if self.below(2) == 0 else self.some(sort)
        kind = self.below(8)
        if kind == 0:
            is_for_all = self.scale.is_shared and self.below(2) == 0
            return Call("wait", on, int, ("materialize",) if is_for_all else ("complete",))
        if kind == 1:
            return Call("shape", on)
        if kind < 4:
            counts = self.one_of(["nvals", "nvals", "len", "to_dict", "to_lists", "items"])
            return Call(counts, on, self.name_dtype())
        if kind == 4:
            return Call("reduce", on, self.name_dtype(), (self.monoid(),))
        return Call(self.one_of(["get", "get", "item", "in"]), on, self.name_dtype(), self.place(sort))

    # Operations.

    def operation(self, kind: str, out: str, first: str, second: Optional[str], word: Optional[str]) -> Operation:
        """An operation of objects of these sorts, with a drawn mask, accumulator and descriptor."""
        mask = self.some(out) if self.below(2) == 1 else None
        accum = self.operator() if self.below(2) == 1 else None
        structure, complement, replace, transpose, transpose_second = (self.below(2) == 0 for _ in range(5))
        return Operation(
            kind,
            self.some(out) if self.below(16) > 0 else None,
            self.some(first),
            None if second is None else self.some(second),
            word,
            mask,
            accum,
            self.dtype,
            structure,
            complement,
            replace,
            transpose and first == "matrix",
            transpose_second and second == "matrix",
        )

    def ewise(self) -> Operation:
        kind, sort = self.one_of(["ewise_add", "ewise_mult"]), self.one_of(SORTS)
        return self.operation(kind, sort, sort, sort, self.operator())

    def product(self) -> Operation:
        """A product, now and then by a semiring of two dtypes; or the sums of rows."""
        kind = self.below(4)
        if kind == 3:
            return self.operation("reduce_rows", "vector", "matrix", None, self.monoid())
        monoid = self.any_monoid() if self.below(16) == 0 else self.monoid()
        semiring = f"{monoid}.{self.operator()}"
        if kind == 0:
            return self.operation("mxv", "vector", "matrix", "vector", semiring)
        if kind == 1:
            return self.operation("vxm", "vector", "vector", "matrix", semiring)
        return self.operation("mxm", "matrix", "matrix", "matrix", semiring)

    def applied(self, sort: str) -> Operation:
        """A function of each value, now and then with a value of the other dtype."""
        kind = self.below(8)
        if kind > 3:
            return self.operation("apply", sort, sort, None, self.one_of(UNARY[self.dtype]))
        value = self.value()
        of_value = self.operation("apply", sort, sort, None, self.operator())
        # The name of the input takes no value but one of its own dtype.
        return of_value._replace(side=self.one_of(["left", "right"]), value=value, dtype=type(value))

    def diagonal(self) -> int:
        return self.below(4) if self.below(2) == 0 else -self.below(4)

    def selected(self, sort: str) -> Operation:
        kind = self.below(14)
        if kind < 4:
            test, value, dtype = TESTS_OF_DIAGONALS[kind], self.diagonal(), self.dtype
        elif kind < 8:
            test, value, dtype = TESTS_OF_PLACES[kind - 4], self.below(6), self.dtype
        else:
            test, value = TESTS_OF_VALUES[kind - 8], self.value()
            dtype = type(value)
        return self.operation("select", sort, sort, None, test)._replace(value=value, dtype=dtype)

    def term(self) -> Asked:
        """An operation on the entries of one input, a Kronecker product, or a matrix with a vector on a diagonal."""
        kind = self.below(8)
        if kind == 0:
            return self.operation("transpose", "matrix", "matrix", None, None)
        if kind < 3:
            return self.applied(SORTS[kind - 1])
        if kind < 5:
            return self.selected(SORTS[kind - 3])
        if kind == 5:
            return self.operation("kronecker", "matrix", "matrix", "matrix", self.operator())
        # Of a long vector a matrix would be made that nothing else fits, so it is one that is too large.
        is_small = kind == 6 and self.scale.size < 64
        return Call("diag", self.some("vector"), int, (self.diagonal() if is_small else -MOST_DIMENSION,))

    def fill(self) -> Call:
        """Fills one of the objects that were made first, every second one."""
        sort = "matrix" if self.scale.fills_matrices else "vector"
        number = self.filled * 2 % self.scale.last
        self.filled += 1
        return Call("build", (sort, number), self.dtype, filling(self.scale.entries, self.shape(sort), self.dtype))

    # The next call.

    def call(self, turn: int, pace: int) -> Asked:
        """The call at this turn. Between two that read much is left to be done in some histories."""
        if self.empty is not None:
            filled, self.empty = self.empty, None
            return self.drawn_build(*filled)
        for sort in "vector", "matrix":
            is_next = not self.scale.is_varied or self.made[sort] == 0 or self.below(4) == 0
            if is_next and self.made[sort] < self.scale.last:
                return self.new(sort)
        if self.filled < self.scale.fills:
            return self.fill()
        if turn % (4, 12, 24)[pace] == 0:
            return self.read()
        kind = self.below(7)
        if kind == 0 or kind == 1 and self.scale.is_shared:
            return self.change("vector")
        if kind == 2 or kind == 3 and self.scale.is_shared:
            return self.change("matrix")
        if kind in (1, 4):
            return self.ewise()
        return self.term() if kind == 6 else self.product()

    def note(self, asked: Asked, answer: Any) -> None:
        """Notes an object that was made, or written by an operation."""
        if isinstance(answer, Refused):
            return
        sort = sort_made(asked)
        if isinstance(asked, Operation):
            self.written[sort] = (sort, answer) if asked.on is None else asked.on
        if makes(asked):
            self.made[sort] = answer + 1
        if self.scale.is_varied and isinstance(asked, Call) and asked.kind == "new" and self.below(4) > 0:
            self.empty = (sort, answer), asked.dtype, asked.arguments


def makes(asked: Asked) -> bool:
    """Whether a call makes an object where it is not refused."""
    return asked.on is None or asked.kind in ("new", "dup", "diag")
