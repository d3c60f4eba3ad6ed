"""Matrices and vectors.

**Entries.** An object stores entries: a value at each of some places. A stored 0 or False is an entry too.
Indices begin at 0. An object is used like a dict whose keys are places: `A[i, j]`, `v[i]`. But nothing runs through it
by itself, as `sum(v)` or `for x in v` would: numpy runs through values, dicts and python-graphblas through places. So
that raises `TypeError`, and `values`, `keys` and `items` say which.

**Passes.** A `Matrix` or `Vector` is an object of the store as one pass sees it, and makes its calls by that
pass. `using` gives the same object by another pass. The other objects of a call may be by any pass of the store.

**One moment.** Each call takes effect at one moment between its start and its return. What hands out all entries
(`items`, `to_lists` and so on) reads them at one moment. Two calls have two moments.

**How an operation writes.** `mxm`, `mxv`, `vxm`, `ewise_add`, `ewise_mult`, `reduce_rows`, `transpose`, `apply`,
`select` and `kronecker` compute entries from their inputs and write them into an output. These arguments say how:

- `out` is the output, and is returned. Without it, a new object of the domain of the first input is made and
  returned. One object may be output, input and mask at once.
- `accum` is an operator. Where the output and what was computed both store a value, the operator joins the old and
  the new one; where one of them does, that value is taken. Without it, old entries inside the mask are removed.
- `mask` is an object of the output's dimensions and of either domain. Inside are the places where it stores True,
  or a number other than 0. The output is written inside alone.
- `structure` reads the mask by its structure: inside are the places where it stores any value, also False or 0.
- `complement` exchanges inside and outside. Without a mask all places are inside, and so none is then.
- `replace` removes the output's old entries outside. Without it they stay.
- `transpose` reads the first input, a matrix, with its rows as columns: `A.T.mxm(B)` is `A.mxm(B, transpose=True)`.
- `transpose_second` reads the second input so: `A.mxm(B.T)` is `A.mxm(B, transpose_second=True)`.

**Signs.** `A + B`, `A * B` and `A @ B` make new objects. `A += B`, `A *= B` and `A @= B` are the same with `out=A`: the
object itself changes, by all its names and by one call.

**Room.** Each call that changes the store takes one of the calls that the store has room for. To make a new output
is a further call, and so is to free it where the operation is refused.

**Let go.** An object that no variable of Python has any more is freed before the next change that a pass of its store
makes, which takes a call of the room; without room it stays. All names of an object count, by whatever pass, and only
the last one frees it. `keep` leaves an object out: do so where its `number` alone is used, as by a program in C, since
a number is no name. An object that came from the store before, by `using` or unnamed, is freed by `free` alone.
`Pass.temporary` frees what was made in a block.

**Equal.** `A == B` is True where both are names of one object, by whatever pass. Of two objects of one sort it raises
`TypeError`, since it would not tell whether they store the same: `isequal` does. So objects may be keys of a dict and
members of a set, which compare names of one object alone; `A in [B, C]` raises.

**numpy.** An object is no array: numpy's functions and operators raise `TypeError` of one, and so does what scipy makes
of one, and networkx. `to_numpy`, `toarray`, `to_scipy` and `to_networkx` make what they take. `S == A` of a matrix S
of scipy is False, since scipy asks no other object; `A == S` raises `TypeError`.

**Other packages.** `nnz`, `ndim`, `sum`, `copy` and `toarray` are as in scipy. Other names and signs of numpy, scipy,
networkx and python-graphblas raise `AttributeError` or `TypeError`, which say what to write here.

**Shown.** `repr` has the entries as a grid, or those of the first rows and columns where there are many, and notebooks
show a table. That is a read, and so `last_info` is of it. Where another thread uses the pass, or the read would take
long, it says what is known without one.

**Ctrl-C.** It ends the wait for a read that may take long, in the main thread, as `Pass` tells.

**Refusals.** Every method may raise `UninitializedObject`, where an object of the call was freed, `StoreClosed`,
`OutOfMemory` and `Panic`. Every method that changes the store may raise `OrderFull`. `ValueError` is raised for an
object of another store and for an unknown name of an operator, monoid, semiring or mode, and `TypeError` for an
argument of another type. The methods name what else they raise.
"""

from __future__ import annotations

import ctypes
from contextlib import contextmanager, suppress
from typing import (
    TYPE_CHECKING,
    Any,
    Callable,
    ClassVar,
    Dict,
    Iterable,
    Iterator,
    List,
    NamedTuple,
    NoReturn,
    Optional,
    SupportsIndex,
    Tuple,
    Type,
    TypeVar,
    Union,
)

from . import _show, _tell, convert
from ._life import Life
from ._stored import Stored
from .convert import Buffer, Value
from .errors import Info, InsufficientSpace, Refusal, StoreClosed, UninitializedObject
from .operators import (
    NO_ACCUM,
    NO_MASK,
    TESTS,
    TRANSPOSE,
    TRANSPOSE_SECOND,
    UINT64,
    UNARY_OPERATORS,
    Domain,
    descriptor,
    domain_of,
    is_of_diagonals,
    is_of_values,
    is_unary,
    monoid_number,
    operator_number,
    semiring_numbers,
    semiring_parts,
    wait_mode_number,
)

if TYPE_CHECKING:
    from .store import Pass, Store, _Core, _Quick

__all__ = ["Matrix", "Object", "Transposed", "Vector"]

AnyObject = TypeVar("AnyObject", bound="Object")
Checked = TypeVar("Checked")


class _Writing(NamedTuple):
    """How an operation writes its output."""

    mask: Optional[Object]
    accum: Optional[str]
    descriptor: int


class _Term(NamedTuple):
    """A function of each value or a test of each entry, as the library takes it."""

    name: str
    """The end of its name there."""
    before: Tuple[Any, ...]
    """Its arguments before the input."""
    after: Tuple[Any, ...]
    """Its arguments after the input."""


@contextmanager
def _freed_on_failure(made: Object) -> Iterator[None]:
    """Frees the object where what follows fails, if that can be done."""
    try:
        yield
    except BaseException:
        with suppress(Refusal, StoreClosed):
            made.free()
        raise


class Object(Stored):
    """What matrices and vectors have in common. `Pass.matrix` and `Pass.vector` make them."""

    _sort: ClassVar[str]
    _how_to_make: ClassVar[str]

    _pass: Pass
    _number: int
    _domain: Domain
    _life: Life
    _quick: _Quick
    _seen: int

    def __init__(self, *arguments: Any, **options: Any) -> None:
        """Raises `TypeError`: a pass makes objects."""
        raise TypeError(f"a {type(self).__name__} is made by a pass p of a store: {self._how_to_make}")

    @classmethod
    def _named(cls: Type[AnyObject], pass_: Pass, number: int, domain: Domain, life: Life) -> AnyObject:
        """A name of the object of this number, by this pass. All names of one object have one life."""
        name = cls.__new__(cls)
        name._pass = pass_
        name._number = number
        name._domain = domain
        name._life = life
        name._quick = pass_._quick[cls._sort, domain]
        name._seen = 0
        return name

    # What it is.

    @property
    def pass_(self) -> Pass:
        """The pass that makes its calls."""
        return self._pass

    @property
    def store(self) -> Store:
        """The store that it belongs to."""
        return self._pass.store

    @property
    def number(self) -> int:
        """Its number in the store. Matrices and vectors are numbered from 0, each in the order of their making."""
        return self._number

    @property
    def dtype(self) -> type:
        """The type of its values: `bool` for truth values, `int` for numbers from 0 to 2**64 - 1."""
        return self._domain.dtype

    @property
    def nvals(self) -> int:
        """How many entries it stores."""
        quick = self._quick
        out = ctypes.c_uint64()
        if self._seen == self._life.work:
            with quick.lock:
                status = quick.nvals(quick.handle, out, self._number)
        else:
            status = self._read_first(quick.nvals, out, self._number)
        if status:
            self._pass._refuse(status, None, self._tell)
        self._life.entries = count = out.value
        return count

    @property
    def last_info(self) -> Optional[Info]:
        """The status of the pass's last call on this object, or None before the first one.

        A call is on the object that it makes, changes or reads. Calls of other passes do not count.
        """
        out = ctypes.c_int32()
        if self._call("last_info", ctypes.byref(out), self._number) == Info.NO_VALUE:
            return None
        return Info(out.value)

    def using(self: AnyObject, pass_: Pass) -> AnyObject:
        """The same object by another pass of its store, or what it became by a pass of the store's successor or branch.

        An object that was made after the successor was opened became none: its number is that of another object
        there, or of none.

        Raises:
            ValueError: the pass is of another store, or of a branch that did not begin with the object.
        """
        there: Optional[_Core] = getattr(pass_, "_core", None)
        if there is None:
            raise TypeError(f"an object is used by a pass, not by a {type(pass_).__name__}")
        core = self._pass._core
        if there is core:
            return self._named(pass_, self._number, self._domain, self._life)
        number = there.place_of(self._sort, self._number) if there.before == core.number else None
        if number is None:
            raise ValueError("the pass is of another store")
        # It is not freed there where it is let go: other names may come from here.
        life = there.lives.setdefault((self._sort, number), Life(None))
        return self._named(pass_, number, self._domain, life)

    def keep(self: AnyObject) -> AnyObject:
        """Has the object not freed where it is let go, nor at the end of a `Pass.temporary`. Returns it.

        Then `free` alone ends it before its store ends.
        """
        self._pass._core.let_go.leave(self._sort, self._number)
        return self

    @property
    def _object(self) -> Object:
        return self

    def _head(self) -> str:
        """What it is: its dimensions as far as they are known here, and its dtype. It makes no call."""
        sort = type(self).__name__
        if self._pass._closed is not None:
            return f"<{sort} {self._number}: {self._pass._closed}>"
        if self._life.freed:
            return f"<{sort} {self._number}: {UninitializedObject()}>"
        shape = self._life.shape
        return f"<{sort} {self._number if shape is None else 'x'.join(map(str, shape))} {self.dtype.__name__}>"

    def isequal(self, other: Stored) -> bool:
        """Whether another object is of the same sort, domain and dimensions and stores the same entries.

        It may be by another pass, of another store, or read transposed. Each of the two is read at a moment of its own.

        Raises:
            TypeError: the other one is neither a `Matrix`, as it is or read transposed, nor a `Vector`.
        """
        if isinstance(other, Transposed):
            return other.isequal(self)
        if not isinstance(other, Object):
            sort = type(self).__name__
            raise TypeError(f"a {sort} is compared with a Matrix or a Vector, not a {type(other).__name__}")
        if self._sort != other._sort or self._domain is not other._domain or self.shape != other.shape:
            return False
        if self._is_name_of(other):
            return True
        return self.nvals == other.nvals and self._entries(convert.new_array) == other._entries(convert.new_array)

    def _is_name_of(self, other: Object) -> bool:
        """Whether both are names of one object."""
        return (
            self._sort == other._sort
            and self._number == other._number
            and self._pass._core is other._pass._core
        )

    def __eq__(self, other: object) -> bool:
        """Whether both are names of one object, by whatever pass. `isequal` tells whether two store the same.

        Raises:
            TypeError: the other one is another object of the same sort, an array of numpy or a matrix of scipy.
        """
        if isinstance(other, Object):
            if self._is_name_of(other):
                return True
            if self._sort == other._sort:
                sort = type(self).__name__
                raise TypeError(
                    f"A == B does not tell whether two objects of {sort} store the same: A.isequal(B) does, "
                    "and A is B whether they are one name"
                )
        else:
            _require_no_array(self, other)
        return NotImplemented

    def __hash__(self) -> int:
        """A number that no other object of this process has."""
        return ((self._pass._core.place << 32 | self._number) << 1) + self._ndim - 1

    def __reduce__(self) -> NoReturn:
        raise TypeError(
            f"a {type(self).__name__} is not pickled or copied by Python: to_lists() has its entries, "
            "dup() copies it in its store, and copy_to(pass_) into another one"
        )

    # Its entries.

    def clear(self) -> None:
        """Removes all entries. The dimensions stay."""
        self._change("clear", self._number)

    def reduce(self, monoid: Optional[str] = None) -> Value:
        """All values joined by a monoid, by default "plus", or "lor" of truth values; its identity where there is none.

        Raises:
            DomainMismatch: the monoid is of the other domain.
        """
        named = self._domain.monoid if monoid is None else monoid
        out = self._domain.ctype()
        self._evaluate(
            f"reduce_{self._domain.suffix}",
            out,
            monoid_number(named),
            self._number,
            tell=lambda code: _tell.of_total(code, self, named),
        )
        value: Value = out.value
        return value

    # Its life.

    def dup(self: AnyObject) -> AnyObject:
        """A new object of the same domain, dimensions and entries, by the same pass. It takes one call of the room."""
        out = ctypes.c_uint32()
        self._change("dup", ctypes.byref(out), self._number)
        made = self._pass._made(type(self), out.value, self._domain, self._life.shape)
        made._life.entries, made._life.work = self._life.entries, self._life.work
        return made

    def copy(self: AnyObject) -> AnyObject:
        """A new object, as `dup`."""
        return self.dup()

    def copy_to(self: AnyObject, pass_: Pass) -> AnyObject:
        """A new object of the same domain, dimensions and entries by another pass, of this store or of another one.

        It takes two calls of the other store's room. Nobody may resize the object meanwhile. `Pass.succeed` opens
        a store with all objects.

        Raises:
            IndexOutOfBounds: the object was resized meanwhile.
        """
        sort: Any = type(self)
        made: AnyObject = sort.from_lists(pass_, *self.shape, *self._lists(), self.dtype)
        return made

    def build_from(self: AnyObject, other: AnyObject) -> None:
        """Fills the object, which stores nothing, with all entries of another one, of a branch as a rule.

        The entries are shared until one of the two is changed, and none is copied. It is one call that changes the
        store, and it first waits for the other object. The other may be smaller.

        Raises:
            ValueError: both are by one pass; `dup` makes an equal object.
            DomainMismatch: the two are not of one dtype.
            OutputNotEmpty: this one stores an entry.
            IndexOutOfBounds: an entry of the other is outside of this one.
        """
        if not isinstance(other, type(self)):
            raise TypeError(f"a {self._sort} is built from a {self._sort}, not from a {type(other).__name__}")
        mine, theirs = self._pass, other._pass
        if mine is theirs:
            raise ValueError("both objects are by one pass")
        first, second = mine._in_turn(theirs)
        with first._lock, second._lock:
            theirs._require_open()
            self._change("build_from", self._number, theirs._handle, other._number)
        self._life.entries, self._life.work = other._life.entries, other._life.work

    def free(self) -> None:
        """Ends the object, for all passes. Its number is not used again.

        An object that no variable has any more is freed by itself, as `trowelheath.objects` tells.
        """
        self._change("free", self._number)
        self._life.freed = True
        self._pass._core.let_go.leave(self._sort, self._number)

    def wait(self, mode: str = "complete") -> None:
        """Has pending work done now. It changes no value, takes no room, and waits for no other thread.

        Args:
            mode: "complete" finishes the work on this object, "materialize" that on all objects of the store.
        """
        number = wait_mode_number(mode)
        if mode == "materialize":
            self._pass._evaluate_all(f"trb_{self._sort}_wait", self._number, number, tell=self._tell)
        else:
            self._evaluate("wait", self._number, number)

    # How calls are made.

    def _call(self, name: str, *arguments: Any) -> int:
        return self._pass._call(f"trb_{self._sort}_{name}", *arguments, tell=self._tell)

    def _change(
        self,
        name: str,
        *arguments: Any,
        invalid: Optional[str] = None,
        tell: Optional[Callable[[int], Optional[str]]] = None,
    ) -> int:
        return self._pass._change(
            f"trb_{self._sort}_{name}", *arguments, invalid=invalid, tell=self._tell if tell is None else tell
        )

    def _evaluate(
        self,
        name: str,
        *arguments: Any,
        hold: Any = None,
        tell: Optional[Callable[[int], Optional[str]]] = None,
    ) -> int:
        function = getattr(self._pass._library, f"trb_{self._sort}_{name}")
        status = self._read_first(function, *arguments, hold=hold)
        if status < 0:
            self._pass._refuse(status, None, self._tell if tell is None else tell)
        return status

    def _tell(self, code: int) -> Optional[str]:
        """What a refusal says where there is nothing but this object."""
        return _tell.of_one(code, self)

    def _refuse(self, status: int, *place: int) -> NoReturn:
        """Raises the exception for the status of a call on one entry."""
        self._pass._refuse(status, None, lambda code: _tell.of_place(code, self, place))

    # The methods for one entry take as few steps as they can: most of their time is Python's.

    def _read_first(self, function: Any, *arguments: Any, hold: Any = None) -> int:
        """The status of a read by this name, which may be the first one after calls that take long to evaluate."""
        life, number = self._life, self._pass._number
        work = life.work
        status = self._pass._read(function, arguments, life.unseen(number), hold)
        if work > 0:
            life.evaluated(number, work)
        self._seen = work
        return status

    def _remove(self, *place: int) -> None:
        """Removes the entry at this place."""
        quick = self._quick
        if quick.gone:
            self._pass._free_gone()
        with quick.lock:
            status = quick.remove(quick.handle, self._number, *place)
        if status:
            self._refuse(status, *place)

    def _build(self, places: List[Buffer], values: Buffer, dup: Optional[str]) -> None:
        lists = convert.apart([*places, values])
        monoid = self._domain.monoid if dup is None else dup
        self._change(
            f"build_{self._domain.suffix}",
            self._number,
            *(part for buffer in lists for part in (buffer.address, buffer.length)),
            monoid_number(monoid),
            invalid="Give lists of one length.",
            tell=lambda code: _tell.of_lists(code, self, [b.owner[: b.length] for b in places], values.length, monoid),
        )
        self._pass._core.took(self._life, values.length)

    def _entries(self, new: Callable[[Domain, int], Buffer]) -> List[Any]:
        """All entries in arrays that `new` makes: an array of indices for each dimension, and one of the values."""
        length = self.nvals
        while True:
            buffers = [new(UINT64, length) for _ in range(self._ndim)] + [new(self._domain, length)]
            count = ctypes.c_uint64()
            try:
                self._evaluate(
                    f"tuples_{self._domain.suffix}",
                    *(part for buffer in buffers for part in (buffer.address, buffer.length)),
                    count,
                    self._number,
                    hold=buffers,
                )
            except InsufficientSpace:
                # Others added entries since they were counted. Some more may come until the next try.
                length = count.value + count.value // 8
            else:
                return [buffer.owner[: count.value] for buffer in buffers]

    def _lists(self) -> List[List[Any]]:
        """All entries in lists, as `_entries` has them."""
        *places, values = self._entries(convert.new_array)
        return [*(indices.tolist() for indices in places), list(map(self.dtype, values))]

    def _number_of(self, other: Object, sort: Type[Object], what: str) -> int:
        """The number of another object of a call, which is of this sort and of this store."""
        if not isinstance(other, sort):
            if isinstance(other, Transposed):
                raise TypeError(f"{what} is not read transposed: A.T.dup() makes a Matrix of A.T")
            raise TypeError(f"{what} must be a {sort.__name__}, not a {type(other).__name__}")
        if other._pass._core is not self._pass._core:
            raise ValueError(f"{what} is of another store")
        return other._number

    def _write(
        self,
        kind: str,
        name: str,
        numbers: Tuple[int, ...],
        operators: Tuple[Tuple[str, str], ...],
        second: Optional[Object],
        how: _Writing,
        sort: Type[AnyObject],
        out: Optional[AnyObject],
        new: Callable[[], AnyObject],
        after: Tuple[Any, ...] = (),
    ) -> AnyObject:
        """Makes an operation that writes into `out`, or where there is none into a `new` object of this sort.

        The library takes `numbers` before the inputs and `after` after them.
        """
        mask = NO_MASK if how.mask is None else self._number_of(how.mask, sort, "the mask")
        accum = NO_ACCUM if how.accum is None else operator_number(how.accum)
        inputs = (self._number,) if second is None else (self._number, second._number)
        if out is None:
            written, is_new = new(), True
        else:
            self._number_of(out, sort, "the output")
            written, is_new = out, False

        def tell(code: int) -> Optional[str]:
            named = operators if how.accum is None else (*operators, ("accumulator", how.accum))
            # One input alone may stand second to the library, as that of `apply` does.
            transpose = how.descriptor & (TRANSPOSE | TRANSPOSE_SECOND if second is None else TRANSPOSE) != 0
            too = second is not None and how.descriptor & TRANSPOSE_SECOND != 0
            operation = _tell.Operation(kind, self, transpose, second, too, named, written, how.mask, is_new)
            return _tell.of_operation(code, operation)

        arguments = (*numbers, *inputs, *after, how.descriptor)
        try:
            self._pass._change(name, written._number, mask, accum, *arguments, tell=tell)
        except BaseException:
            if is_new:
                with suppress(Refusal, StoreClosed):
                    written.free()
            raise
        self._pass._core.made(kind, self, second, how.mask, written)
        return written

    def _function(self, operator: str, right: Any, left: Any) -> _Term:
        """A unary operator, or a binary one with a value of this domain on one side."""
        if is_unary(operator):
            if right is not None or left is not None:
                raise TypeError(f"{operator} is of one value: it takes neither right nor left")
            return _Term("apply", (UNARY_OPERATORS[operator],), ())
        if (right is None) == (left is None):
            wanted = "right or left" if right is None else "right or left, not both"
            raise TypeError(f'{operator} is of two values: give {wanted}, as in A.apply("{operator}", right=x)')
        number = operator_number(operator)
        if right is None:
            x = _checked("left", lambda given: convert.value_of(self._domain, given), left)
            return _Term(f"apply_first_{self._domain.suffix}", (number, x), ())
        x = _checked("right", lambda given: convert.value_of(self._domain, given), right)
        return _Term(f"apply_second_{self._domain.suffix}", (number,), (x,))

    def _test(self, test: str, value: Any) -> _Term:
        """A test, with what it compares with."""
        what = f"the value of {test}"
        if is_of_diagonals(test):
            diagonal = 0 if value is None else _checked(what, convert.diagonal, value)
            return _Term("select_int64", (TESTS[test],), (diagonal,))
        if value is None:
            raise TypeError(f'{test} compares with a value: give it, as in A.select("{test}", x)')
        if is_of_values(test):
            x = _checked(what, lambda given: convert.value_of(self._domain, given), value)
            return _Term(f"select_{self._domain.suffix}", (TESTS[test],), (x,))
        # No row and no column is so far out that the largest number which the library takes does not do as well.
        return _Term("select_int64", (TESTS[test],), (min(_checked(what, convert.index, value), 2**63 - 1),))


class Matrix(Object):
    """A sparse matrix of truth values or numbers. `Pass.matrix` makes one.

    Rows and columns are counted from 0. `trowelheath.objects` tells what all methods have in common.
    """

    _sort = "matrix"
    _ndim = 2
    _letter = "A"
    _how_to_make = "p.matrix(nrows, ncols, dtype), or Matrix.from_lists(p, nrows, ncols, rows, columns, values)"

    @staticmethod
    def from_lists(
        pass_: Pass,
        nrows: int,
        ncols: int,
        rows: Iterable[int],
        columns: Iterable[int],
        values: Union[Iterable[Value], Value],
        dtype: Any = int,
        dup: Optional[str] = None,
    ) -> Matrix:
        """A new matrix with these entries: a `Pass.matrix` and a `build`, two calls of the room.

        The arguments are those of these two, and it raises what they raise. Where the build fails, the matrix is
        freed.
        """
        made = pass_.matrix(nrows, ncols, dtype)
        with _freed_on_failure(made):
            made.build(rows, columns, values, dup)
        return made

    @staticmethod
    def from_coo(
        pass_: Pass,
        rows: Iterable[int],
        columns: Iterable[int],
        values: Union[Iterable[Value], Value],
        dtype: Any = None,
        *,
        nrows: Optional[int] = None,
        ncols: Optional[int] = None,
        dup: Optional[str] = None,
    ) -> Matrix:
        """A new matrix with these entries, as `from_lists`, whose dimensions and dtype may be left out.

        Args:
            dtype: by default `bool` where all values are truth values, and else `int`.
            nrows, ncols: by default one more than the largest row and the largest column.

        Raises:
            ValueError: there is no entry, and a dimension is left out.
        """
        rows, columns, values = convert.listed(rows), convert.listed(columns), convert.listed(values)
        return Matrix.from_lists(
            pass_,
            convert.dimension_for(rows, "nrows") if nrows is None else nrows,
            convert.dimension_for(columns, "ncols") if ncols is None else ncols,
            rows,
            columns,
            values,
            convert.dtype_for(values) if dtype is None else dtype,
            dup,
        )

    @staticmethod
    def from_scipy(pass_: Pass, matrix: Any) -> Matrix:
        """A new matrix with the entries of a scipy.sparse matrix or array, stored zeros too.

        It has truth values where scipy's has them, and else numbers. Values at one place are joined by "plus", or
        "lor" of truth values. It takes two calls of the room.

        Raises:
            TypeError: the values are neither truth values nor whole numbers, as those of dtype float64.
            OverflowError: a value is negative.
            InvalidValue: a dimension is 0 or above 4,294,967,295.
        """
        return Matrix.from_lists(pass_, *convert.lists_of_scipy(matrix))

    @staticmethod
    def from_networkx(
        pass_: Pass,
        graph: Any,
        nodes: Optional[Iterable[Any]] = None,
        weight: Optional[str] = "weight",
        dtype: Any = int,
    ) -> Matrix:
        """A new matrix with an entry at (i, j) for each edge from node i to node j of a networkx graph.

        An edge of an undirected graph has two entries, a loop one. Parallel edges are joined by "plus", or "lor" of
        truth values. It takes two calls of the room.

        Args:
            pass_: the pass that makes it.
            graph: any graph of networkx.
            nodes: the nodes in the order of their rows, by default that of the graph. Edges to others are left out.
            weight: the attribute that has an edge's value; an edge without it has 1, and with None each has 1.
            dtype: `int`, or `bool` for True at each edge.

        Raises:
            TypeError: a weight is no whole number.
            OverflowError: a weight is not from 0 to 2**64 - 1.
            ValueError: a node stands twice in `nodes`.
            InvalidValue: there is no node.
        """
        return Matrix.from_lists(pass_, *convert.lists_of_networkx(graph, nodes, weight, domain_of(dtype).dtype))

    # What it is.

    @property
    def shape(self) -> Tuple[int, int]:
        """Its numbers of rows and of columns now."""
        nrows, ncols = ctypes.c_uint64(), ctypes.c_uint64()
        self._call("size", nrows, ncols, self._number)
        self._life.shape = shape = nrows.value, ncols.value
        return shape

    @property
    def nrows(self) -> int:
        """Its number of rows now."""
        return self.shape[0]

    @property
    def ncols(self) -> int:
        """Its number of columns now."""
        return self.shape[1]

    def _no_array(self) -> str:
        return f"{super()._no_array()}, and to_scipy() makes a matrix of scipy.sparse"

    @property
    def T(self) -> Transposed:  # noqa: N802
        """The matrix as an input that is read with its rows as columns: `A.T @ u`, `A.T.mxm(B)`, `A @ B.T`."""
        return Transposed(self)

    def resize(self, nrows: int, ncols: int) -> None:
        """Gives new dimensions. Entries outside of them are gone for good.

        Raises:
            InvalidValue: a dimension is not from 1 to 4,294,967,295.
        """
        shape = convert.dimension(nrows), convert.dimension(ncols)
        self._change("resize", self._number, *shape, tell=lambda code: _tell.of_dimensions(code, self, shape))
        self._life.shape = shape

    # Its entries.

    def __getitem__(self, place: Tuple[SupportsIndex, SupportsIndex]) -> Value:
        """The value at row i and column j.

        Raises:
            KeyError: nothing is stored there.
            InvalidIndex: there is no such row or column.
        """
        try:
            i, j = place
            both = i | j  # type: ignore[operator]
        except (TypeError, ValueError):
            both = None
        # An int whose bits beyond the 64th are 0: so are those of each of the two, and neither is below 0.
        if type(both) is not int or both >> 64 or type(place) is not tuple:
            i, j = _row_and_column(place)
        quick = self._quick
        out = quick.new()
        if self._seen == self._life.work:
            with quick.lock:
                status = quick.get(quick.handle, out, self._number, i, j)
        else:
            status = self._read_first(quick.get, out, self._number, i, j)
        if status == 0:
            value: Value = out.value
            return value
        if status == 1:
            raise KeyError((i, j))
        self._refuse(status, i, j)  # type: ignore[arg-type]

    def get(self, i: SupportsIndex, j: SupportsIndex, default: Any = None) -> Any:
        """The value at row i and column j, or `default` where nothing is stored.

        Raises:
            InvalidIndex: there is no such row or column.
        """
        if type(i) is not int or type(j) is not int or (i | j) >> 64:
            i, j = convert.index(i), convert.index(j)
        quick = self._quick
        out = quick.new()
        if self._seen == self._life.work:
            with quick.lock:
                status = quick.get(quick.handle, out, self._number, i, j)
        else:
            status = self._read_first(quick.get, out, self._number, i, j)
        if status == 0:
            return out.value
        if status == 1:
            return default
        self._refuse(status, i, j)

    def __contains__(self, place: object) -> bool:
        """Whether a value is stored at row i and column j, as in `(i, j) in A`. Of what is no place it is False."""
        try:
            return self.get(*_row_and_column(place)) is not None
        except UninitializedObject:
            raise
        except (TypeError, IndexError):
            return False

    def __setitem__(self, place: Tuple[SupportsIndex, SupportsIndex], value: Value) -> None:
        """Stores a value at row i and column j, in place of what was stored there.

        Raises:
            InvalidIndex: there is no such row or column.
            TypeError: the value is not of the matrix's domain.
            OverflowError: a number is not from 0 to 2**64 - 1.
        """
        quick = self._quick
        try:
            i, j = place
            every = i | j | value if quick.takes_numbers or type(value) is bool else None  # type: ignore[operator]
        except (TypeError, ValueError):
            every = None
        # As in `__getitem__`.
        if type(every) is not int or every >> 64 or type(place) is not tuple:
            i, j = _row_and_column(place)
            value = convert.value_of(self._domain, value)
        if quick.gone:
            self._pass._free_gone()
        with quick.lock:
            status = quick.set(quick.handle, self._number, value, i, j)
        self._life.entries += 1
        if status:
            self._refuse(status, i, j)  # type: ignore[arg-type]

    def __delitem__(self, place: Tuple[SupportsIndex, SupportsIndex]) -> None:
        """Removes the entry at row i and column j. Where there is none it does nothing.

        Raises:
            InvalidIndex: there is no such row or column.
        """
        self._remove(*_row_and_column(place))

    def build(
        self,
        rows: Iterable[int],
        columns: Iterable[int],
        values: Union[Iterable[Value], Value],
        dup: Optional[str] = None,
    ) -> None:
        """Fills the matrix, which stores nothing, from lists of one length, or stores nothing of them.

        Contiguous numpy arrays of uint64, and of bool for truth values, are read where they are; they must not
        be changed meanwhile. Others are copied.

        Args:
            rows: the row of each entry.
            columns: the column of each entry.
            values: the value of each entry, or one value for all.
            dup: the monoid that joins values at one place, by default "plus", or "lor" of truth values.

        Raises:
            InvalidValue: the lists are not of one length.
            DomainMismatch: `dup` is of the other domain.
            OutputNotEmpty: the matrix stores an entry.
            IndexOutOfBounds: a row or a column is not below the dimensions.
            IndexError: a row or a column is not from 0 to 2**64 - 1.
            TypeError: a value is not of the matrix's domain.
            OverflowError: a number is not from 0 to 2**64 - 1.
        """
        places = [convert.indices(rows), convert.indices(columns)]
        self._build(places, convert.values_of(self._domain, values, places[0].length), dup)

    def items(self) -> Iterator[Tuple[Tuple[int, int], Value]]:
        """`((i, j), value)` of each entry at one moment, row by row in rising order."""
        rows, columns, values = self._lists()
        return zip(zip(rows, columns), values)

    def to_lists(self) -> Tuple[List[int], List[int], List[Value]]:
        """All entries at one moment, row by row in rising order: their rows, their columns and their values."""
        rows, columns, values = self._lists()
        return rows, columns, values

    def to_numpy(self) -> Tuple[Any, Any, Any]:
        """As `to_lists`, in numpy arrays: rows and columns of dtype uint64, values of dtype uint64 or bool.

        Raises:
            ImportError: there is no numpy.
        """
        rows, columns, values = self._entries(convert.new_numpy_array)
        return rows, columns, values

    to_coo = to_numpy

    def to_scipy(self) -> Any:
        """The matrix as a `scipy.sparse.csr_array` of dtype uint64 or bool. Nobody may resize it meanwhile.

        Where it has more than 2**24 rows and fewer entries than rows it is a `coo_array`, which takes memory for the
        entries alone.

        Raises:
            ImportError: there is no scipy.
        """
        return convert.scipy_of_arrays(self.shape, *self.to_numpy())

    def to_networkx(self, nodes: Optional[Iterable[Any]] = None, create_using: Any = None) -> Any:
        """A networkx graph with a node for each row and an edge for each entry, whose `weight` is the value.

        Nobody may resize the matrix meanwhile.

        Args:
            nodes: the names of the nodes, by default the numbers of the rows.
            create_using: the type of the graph, by default `networkx.DiGraph`.

        Raises:
            ValueError: the matrix has not as many columns as rows, or `nodes` not as many names.
            ImportError: there is no networkx.
        """
        return convert.networkx_of_matrix(self.shape, self.to_lists, nodes, create_using)

    def spy(self, ax: Any = None, **options: Any) -> Any:
        """Plots where the entries are, stored zeros too, by `spy` of matplotlib, and returns what that returns.

        Args:
            ax: the axes to plot into, by default those of `matplotlib.pyplot`.
            options: what `spy` of the axes takes, as `markersize=1`.

        Raises:
            ImportError: there is no matplotlib, or no scipy.
        """
        return _show.spy(self, ax, options)

    # Operations.

    def mxm(
        self,
        other: Union[Matrix, Transposed],
        semiring: Optional[str] = None,
        *,
        mask: Optional[Matrix] = None,
        structure: bool = False,
        complement: bool = False,
        replace: bool = False,
        accum: Optional[str] = None,
        transpose: bool = False,
        transpose_second: bool = False,
        out: Optional[Matrix] = None,
    ) -> Matrix:
        """The product of two matrices: `out<mask> = accum(out, self * other)`.

        At row i and column j it has the operator of each pair of values that row i of this matrix and column j of
        the other one store at one index, joined by the monoid, and nothing where there is no such pair.

        Args:
            other: the second matrix.
            semiring: the monoid and the operator, by default "plus.times", or "lor.land" of truth values.
            mask, structure, complement, replace, accum, out: how it writes; see `trowelheath.objects`.
            transpose: whether this matrix is read with its rows as columns.
            transpose_second: whether the second matrix is, as in `A.mxm(B.T)`.

        Raises:
            DomainMismatch: the output, the inputs, the semiring and the accumulator are not of one domain.
            DimensionMismatch: this matrix has not as many columns as the other has rows, or the output not the
                rows of this one and the columns of the other, or the mask not the dimensions of the output.
        """
        named = self._domain.semiring if semiring is None else semiring
        numbers = semiring_numbers(named)
        second, turned = _as_stored(other, transpose_second)
        self._number_of(second, Matrix, "the second input")
        bits = descriptor(
            replace=replace,
            complement=complement,
            structure=structure,
            transpose=transpose,
            transpose_second=turned,
        )
        return self._write(
            "mxm",
            "trb_mxm",
            numbers,
            _of_semiring(named),
            second,
            _Writing(mask, accum, bits),
            Matrix,
            out,
            lambda: self._pass.matrix(
                self._rows_read(transpose), second.using(self._pass)._rows_read(not turned), self.dtype
            ),
        )

    def mxv(
        self,
        vector: Vector,
        semiring: Optional[str] = None,
        *,
        mask: Optional[Vector] = None,
        structure: bool = False,
        complement: bool = False,
        replace: bool = False,
        accum: Optional[str] = None,
        transpose: bool = False,
        out: Optional[Vector] = None,
    ) -> Vector:
        """The product of this matrix and a vector: `out<mask> = accum(out, self * vector)`.

        At index i it has the operator of each value of row i and the value of the vector at its column, where the
        vector stores one, joined by the monoid, and nothing where there is no such pair.

        Args:
            vector: the vector.
            semiring: the monoid and the operator, by default "plus.times", or "lor.land" of truth values.
            mask, structure, complement, replace, accum, out: how it writes; see `trowelheath.objects`.
            transpose: whether this matrix is read with its rows as columns.

        Raises:
            DomainMismatch: the output, the inputs, the semiring and the accumulator are not of one domain.
            DimensionMismatch: the matrix has not a column for each index of the vector, or not a row for each
                index of the output, or the mask is not of the size of the output.
        """
        named = self._domain.semiring if semiring is None else semiring
        numbers = semiring_numbers(named)
        self._number_of(vector, Vector, "the second input")
        bits = descriptor(replace=replace, complement=complement, structure=structure, transpose=transpose)
        return self._write(
            "mxv",
            "trb_mxv",
            numbers,
            _of_semiring(named),
            vector,
            _Writing(mask, accum, bits),
            Vector,
            out,
            lambda: self._pass.vector(self._rows_read(transpose), self.dtype),
        )

    def __matmul__(self, other: Any) -> Any:
        """`A @ B` is `A.mxm(B)`, and `A @ u` is `A.mxv(u)`: "plus.times" of numbers, "lor.land" of truth values."""
        if isinstance(other, (Matrix, Transposed)):
            return self.mxm(other)
        if isinstance(other, Vector):
            return self.mxv(other)
        return self._no_sign(other, "@")

    def __add__(self, other: Any) -> Any:
        """`A + B` is `A.ewise_add(B, "plus")`, of numbers."""
        if not isinstance(other, (Matrix, Transposed)):
            return self._no_sign(other, "+")
        return self.ewise_add(other, _operator_of_sign(self, "+"))

    def __mul__(self, other: Any) -> Any:
        """`A * B` is `A.ewise_mult(B, "times")`, of numbers: entry by entry. `A @ B` is the product of matrices."""
        if not isinstance(other, (Matrix, Transposed)):
            return self._no_sign(other, "*")
        return self.ewise_mult(other, _operator_of_sign(self, "*"))

    def __imatmul__(self, other: Any) -> Any:
        """`A @= B` is `A.mxm(B, out=A)`: the matrix itself changes, by all its names."""
        if isinstance(other, Vector):
            raise TypeError("A @= u would make a vector of a matrix: A @ u makes a new one")
        return self.mxm(other, out=self) if isinstance(other, (Matrix, Transposed)) else self._no_sign(other, "@")

    def __iadd__(self, other: Any) -> Any:
        """`A += B` is `A.ewise_add(B, "plus", out=A)`, of numbers: the matrix itself changes, by all its names."""
        if not isinstance(other, (Matrix, Transposed)):
            return self._no_sign(other, "+")
        return self.ewise_add(other, _operator_of_sign(self, "+"), out=self)

    def __imul__(self, other: Any) -> Any:
        """`A *= B` is `A.ewise_mult(B, "times", out=A)`, of numbers: the matrix itself changes, by all its names."""
        if not isinstance(other, (Matrix, Transposed)):
            return self._no_sign(other, "*")
        return self.ewise_mult(other, _operator_of_sign(self, "*"), out=self)

    def ewise_add(
        self,
        other: Union[Matrix, Transposed],
        operator: Optional[str] = None,
        *,
        mask: Optional[Matrix] = None,
        structure: bool = False,
        complement: bool = False,
        replace: bool = False,
        accum: Optional[str] = None,
        transpose: bool = False,
        transpose_second: bool = False,
        out: Optional[Matrix] = None,
    ) -> Matrix:
        """The union of two matrices: `out<mask> = accum(out, self + other)`.

        Where both store a value it has the operator of the two, and where one of them does, that value.

        Args:
            other: the second matrix.
            operator: a binary operator, by default "plus", or "lor" of truth values.
            mask, structure, complement, replace, accum, out: how it writes; see `trowelheath.objects`.
            transpose: whether this matrix is read with its rows as columns.
            transpose_second: whether the second matrix is, as in `A.ewise_add(B.T, "plus")`.

        Raises:
            DomainMismatch: the output, the inputs, the operator and the accumulator are not of one domain.
            DimensionMismatch: the inputs, the output and the mask are not all of the same dimensions.
        """
        second, turned = _as_stored(other, transpose_second)
        bits = descriptor(
            replace=replace,
            complement=complement,
            structure=structure,
            transpose=transpose,
            transpose_second=turned,
        )
        named = self._domain.monoid if operator is None else operator
        return self._ewise("trb_matrix_ewise_add", second, named, _Writing(mask, accum, bits), out)

    def ewise_mult(
        self,
        other: Union[Matrix, Transposed],
        operator: Optional[str] = None,
        *,
        mask: Optional[Matrix] = None,
        structure: bool = False,
        complement: bool = False,
        replace: bool = False,
        accum: Optional[str] = None,
        transpose: bool = False,
        transpose_second: bool = False,
        out: Optional[Matrix] = None,
    ) -> Matrix:
        """The intersection of two matrices: `out<mask> = accum(out, self .* other)`.

        Where both store a value it has the operator of the two, and nothing elsewhere.

        Args:
            other: the second matrix.
            operator: a binary operator, by default "times", or "land" of truth values.
            mask, structure, complement, replace, accum, out: how it writes; see `trowelheath.objects`.
            transpose: whether this matrix is read with its rows as columns.
            transpose_second: whether the second matrix is, as in `A.ewise_mult(B.T, "times")`.

        Raises:
            DomainMismatch: the output, the inputs, the operator and the accumulator are not of one domain.
            DimensionMismatch: the inputs, the output and the mask are not all of the same dimensions.
        """
        second, turned = _as_stored(other, transpose_second)
        bits = descriptor(
            replace=replace,
            complement=complement,
            structure=structure,
            transpose=transpose,
            transpose_second=turned,
        )
        named = semiring_parts(self._domain.semiring)[1] if operator is None else operator
        return self._ewise("trb_matrix_ewise_mult", second, named, _Writing(mask, accum, bits), out)

    def reduce_rows(
        self,
        monoid: Optional[str] = None,
        *,
        mask: Optional[Vector] = None,
        structure: bool = False,
        complement: bool = False,
        replace: bool = False,
        accum: Optional[str] = None,
        transpose: bool = False,
        out: Optional[Vector] = None,
    ) -> Vector:
        """The values of each row, joined: `out<mask> = accum(out, fold of each row)`.

        At each row that stores a value it has the row's values joined by the monoid, and nothing at other rows.

        Args:
            monoid: the monoid, by default "plus", or "lor" of truth values.
            mask, structure, complement, replace, accum, out: how it writes; see `trowelheath.objects`.
            transpose: whether the columns are joined in place of the rows.

        Raises:
            DomainMismatch: the output, the matrix, the monoid and the accumulator are not of one domain.
            DimensionMismatch: the output has not an index for each row, or the mask is not of its size.
        """
        named = self._domain.monoid if monoid is None else monoid
        bits = descriptor(replace=replace, complement=complement, structure=structure, transpose=transpose)
        return self._write(
            "reduce_rows",
            "trb_reduce_rows",
            (monoid_number(named),),
            (("monoid", named),),
            None,
            _Writing(mask, accum, bits),
            Vector,
            out,
            lambda: self._pass.vector(self._rows_read(transpose), self.dtype),
        )

    def _ewise(self, name: str, other: Matrix, operator: str, how: _Writing, out: Optional[Matrix]) -> Matrix:
        self._number_of(other, Matrix, "the second input")
        return self._write(
            name[len(f"trb_{self._sort}_") :],
            name,
            (operator_number(operator),),
            (("operator", operator),),
            other,
            how,
            Matrix,
            out,
            lambda: self._pass.matrix(
                *other.using(self._pass)._shape_read(how.descriptor & TRANSPOSE_SECOND != 0), self.dtype
            ),
        )

    def transpose(
        self,
        *,
        mask: Optional[Matrix] = None,
        structure: bool = False,
        complement: bool = False,
        replace: bool = False,
        accum: Optional[str] = None,
        transpose: bool = False,
        out: Optional[Matrix] = None,
    ) -> Matrix:
        """The matrix with its rows as columns: `out<mask> = accum(out, self.T)`.

        At row i and column j it has the value of row j and column i, and nothing where there is none. An operation
        that reads `A.T` needs none of this.

        Args:
            mask, structure, complement, replace, accum, out: how it writes; see `trowelheath.objects`.
            transpose: whether this matrix is read with its rows as columns. Then it is turned twice, and written as
                it is.

        Raises:
            DomainMismatch: the output, the matrix and the accumulator are not of one domain.
            DimensionMismatch: the output has not the rows of the matrix as columns and its columns as rows, or the
                mask not the dimensions of the output.
        """
        bits = descriptor(replace=replace, complement=complement, structure=structure, transpose=transpose)
        return self._write(
            "transpose",
            "trb_transpose",
            (),
            (),
            None,
            _Writing(mask, accum, bits),
            Matrix,
            out,
            lambda: self._pass.matrix(*self._shape_read(not transpose), self.dtype),
        )

    def apply(
        self,
        operator: str,
        right: Optional[Value] = None,
        *,
        left: Optional[Value] = None,
        mask: Optional[Matrix] = None,
        structure: bool = False,
        complement: bool = False,
        replace: bool = False,
        accum: Optional[str] = None,
        transpose: bool = False,
        out: Optional[Matrix] = None,
    ) -> Matrix:
        """A function of each value: `out<mask> = accum(out, f(self))`.

        Where this matrix stores a value it has the function of that: `A.apply("ainv")` its negative,
        `A.apply("minus", 1)` what is left of it without 1, and `A.apply("minus", left=9)` what 9 is without it.

        Args:
            operator: a unary operator, as "ainv", or a binary one, as "minus", with one of the two:
            right: the value on the right of a binary operator.
            left: the value on its left.
            mask, structure, complement, replace, accum, out: how it writes; see `trowelheath.objects`.
            transpose: whether this matrix is read with its rows as columns.

        Raises:
            DomainMismatch: the output, the matrix, the operator and the accumulator are not of one domain.
            DimensionMismatch: the matrix, the output and the mask are not all of the same dimensions.
            TypeError: a unary operator is given `right` or `left`, or a binary one neither or both; or the value is
                not of the matrix's domain.
            OverflowError: a number is not from 0 to 2**64 - 1.
        """
        function = self._function(operator, right, left)
        # To the library the matrix stands second where the value stands on the left.
        bits = descriptor(
            replace=replace,
            complement=complement,
            structure=structure,
            transpose=transpose and left is None,
            transpose_second=transpose and left is not None,
        )
        return self._write(
            "apply",
            f"trb_matrix_{function.name}",
            function.before,
            (("operator", operator),),
            None,
            _Writing(mask, accum, bits),
            Matrix,
            out,
            lambda: self._pass.matrix(*self._shape_read(transpose), self.dtype),
            function.after,
        )

    def select(
        self,
        test: str,
        value: Optional[Value] = None,
        *,
        mask: Optional[Matrix] = None,
        structure: bool = False,
        complement: bool = False,
        replace: bool = False,
        accum: Optional[str] = None,
        transpose: bool = False,
        out: Optional[Matrix] = None,
    ) -> Matrix:
        """The entries that pass a test: `out<mask> = accum(out, those of self that pass)`.

        `A.select("tril", -1)` has those below the main diagonal, and `A.select("valuege", 3)` those of 3 or more.

        Args:
            test: a test of places or of values; `trowelheath.operators` lists them.
            value: what it compares with: a diagonal, by default 0, the main one; a row or a column; or a value of
                this domain.
            mask, structure, complement, replace, accum, out: how it writes; see `trowelheath.objects`.
            transpose: whether this matrix is read with its rows as columns. The test reads it so too.

        Raises:
            DomainMismatch: the output, the matrix and the accumulator are not of one domain.
            DimensionMismatch: the matrix, the output and the mask are not all of the same dimensions.
            TypeError: there is no value though the test needs one, or it is not of the matrix's domain.
            ValueError: a diagonal is not from -4,294,967,295 to 4,294,967,295.
            IndexError: a row or a column is not from 0 to 2**64 - 1.
            OverflowError: a number is not from 0 to 2**64 - 1.
        """
        term = self._test(test, value)
        bits = descriptor(replace=replace, complement=complement, structure=structure, transpose=transpose)
        return self._write(
            "select",
            f"trb_matrix_{term.name}",
            term.before,
            (),
            None,
            _Writing(mask, accum, bits),
            Matrix,
            out,
            lambda: self._pass.matrix(*self._shape_read(transpose), self.dtype),
            term.after,
        )

    def kronecker(
        self,
        other: Union[Matrix, Transposed],
        operator: Optional[str] = None,
        *,
        mask: Optional[Matrix] = None,
        structure: bool = False,
        complement: bool = False,
        replace: bool = False,
        accum: Optional[str] = None,
        transpose: bool = False,
        transpose_second: bool = False,
        out: Optional[Matrix] = None,
    ) -> Matrix:
        """The Kronecker product of two matrices: `out<mask> = accum(out, kron(self, other))`.

        For each value at (i, j) of this matrix and each at (p, q) of the other one, of r rows and c columns, it has
        the operator of the two at row i * r + p and column j * c + q, and nothing elsewhere.

        Args:
            other: the second matrix.
            operator: a binary operator, by default "times", or "land" of truth values.
            mask, structure, complement, replace, accum, out: how it writes; see `trowelheath.objects`.
            transpose: whether this matrix is read with its rows as columns.
            transpose_second: whether the second matrix is, as in `A.kronecker(B.T)`.

        Raises:
            DomainMismatch: the output, the inputs, the operator and the accumulator are not of one domain.
            DimensionMismatch: the output has not the products of the rows and of the columns of the inputs, or the
                mask not the dimensions of the output.
            InvalidValue: there is no `out`, and a product of the rows or of the columns is above 4,294,967,295.
        """
        named = semiring_parts(self._domain.semiring)[1] if operator is None else operator
        number = operator_number(named)
        second, turned = _as_stored(other, transpose_second)
        self._number_of(second, Matrix, "the second input")
        bits = descriptor(
            replace=replace,
            complement=complement,
            structure=structure,
            transpose=transpose,
            transpose_second=turned,
        )

        def new() -> Matrix:
            nrows, ncols = self._shape_read(transpose)
            its_nrows, its_ncols = second.using(self._pass)._shape_read(turned)
            return self._pass.matrix(nrows * its_nrows, ncols * its_ncols, self.dtype)

        return self._write(
            "kronecker",
            "trb_matrix_kronecker",
            (number,),
            (("operator", named),),
            second,
            _Writing(mask, accum, bits),
            Matrix,
            out,
            new,
        )

    def _shape_read(self, transpose: bool) -> Tuple[int, int]:
        """The numbers of rows and of columns that an operation reads."""
        nrows, ncols = self.shape
        return (ncols, nrows) if transpose else (nrows, ncols)

    def _rows_read(self, transpose: bool) -> int:
        """The number of rows that an operation reads."""
        return self.ncols if transpose else self.nrows


class Vector(Object):
    """A sparse vector of truth values or numbers. `Pass.vector` makes one.

    Indices are counted from 0. `trowelheath.objects` tells what all methods have in common.
    """

    _sort = "vector"
    _ndim = 1
    _letter = "v"
    _how_to_make = "p.vector(size, dtype), or Vector.from_lists(p, size, indices, values)"

    @staticmethod
    def from_lists(
        pass_: Pass,
        size: int,
        indices: Iterable[int],
        values: Union[Iterable[Value], Value],
        dtype: Any = int,
        dup: Optional[str] = None,
    ) -> Vector:
        """A new vector with these entries: a `Pass.vector` and a `build`, two calls of the room.

        The arguments are those of these two, and it raises what they raise. Where the build fails, the vector is
        freed.
        """
        made = pass_.vector(size, dtype)
        with _freed_on_failure(made):
            made.build(indices, values, dup)
        return made

    @staticmethod
    def from_coo(
        pass_: Pass,
        indices: Iterable[int],
        values: Union[Iterable[Value], Value],
        dtype: Any = None,
        *,
        size: Optional[int] = None,
        dup: Optional[str] = None,
    ) -> Vector:
        """A new vector with these entries, as `from_lists`, whose size and dtype may be left out.

        Args:
            dtype: by default `bool` where all values are truth values, and else `int`.
            size: by default one more than the largest index.

        Raises:
            ValueError: there is no entry, and the size is left out.
        """
        indices, values = convert.listed(indices), convert.listed(values)
        return Vector.from_lists(
            pass_,
            convert.dimension_for(indices, "size") if size is None else size,
            indices,
            values,
            convert.dtype_for(values) if dtype is None else dtype,
            dup,
        )

    # What it is.

    @property
    def size(self) -> int:
        """Its size now: the number of its indices."""
        out = ctypes.c_uint64()
        self._call("size", out, self._number)
        self._life.shape = (out.value,)
        return out.value

    @property
    def shape(self) -> Tuple[int]:
        """Its size now, in a tuple."""
        return (self.size,)

    def resize(self, size: int) -> None:
        """Gives a new size. Entries outside of it are gone for good.

        Raises:
            InvalidValue: the size is not from 1 to 4,294,967,295.
        """
        shape = (convert.dimension(size),)
        self._change("resize", self._number, *shape, tell=lambda code: _tell.of_dimensions(code, self, shape))
        self._life.shape = shape

    # Its entries.

    def __getitem__(self, i: SupportsIndex) -> Value:
        """The value at index i.

        Raises:
            KeyError: nothing is stored there.
            InvalidIndex: the index is not below the size.
        """
        if type(i) is not int or i >> 64:
            i = convert.index(i)
        quick = self._quick
        out = quick.new()
        if self._seen == self._life.work:
            with quick.lock:
                status = quick.get(quick.handle, out, self._number, i)
        else:
            status = self._read_first(quick.get, out, self._number, i)
        if status == 0:
            value: Value = out.value
            return value
        if status == 1:
            raise KeyError(i)
        self._refuse(status, i)

    def get(self, i: SupportsIndex, default: Any = None) -> Any:
        """The value at index i, or `default` where nothing is stored.

        Raises:
            InvalidIndex: the index is not below the size.
        """
        if type(i) is not int or i >> 64:
            i = convert.index(i)
        quick = self._quick
        out = quick.new()
        if self._seen == self._life.work:
            with quick.lock:
                status = quick.get(quick.handle, out, self._number, i)
        else:
            status = self._read_first(quick.get, out, self._number, i)
        if status == 0:
            return out.value
        if status == 1:
            return default
        self._refuse(status, i)

    def __contains__(self, i: object) -> bool:
        """Whether a value is stored at index i. Of what is no index it is False."""
        try:
            return self.get(convert.index(i)) is not None
        except UninitializedObject:
            raise
        except (TypeError, IndexError):
            return False

    def __setitem__(self, i: SupportsIndex, value: Value) -> None:
        """Stores a value at index i, in place of what was stored there.

        Raises:
            InvalidIndex: the index is not below the size.
            TypeError: the value is not of the vector's domain.
            OverflowError: a number is not from 0 to 2**64 - 1.
        """
        quick = self._quick
        try:
            both = i | value if quick.takes_numbers or type(value) is bool else None  # type: ignore[operator]
        except TypeError:
            both = None
        # As in `Matrix.__getitem__`.
        if type(both) is not int or both >> 64:
            i = convert.index(i)
            value = convert.value_of(self._domain, value)
        if quick.gone:
            self._pass._free_gone()
        with quick.lock:
            status = quick.set(quick.handle, self._number, value, i)
        self._life.entries += 1
        if status:
            self._refuse(status, i)  # type: ignore[arg-type]

    def __delitem__(self, i: SupportsIndex) -> None:
        """Removes the entry at index i. Where there is none it does nothing.

        Raises:
            InvalidIndex: the index is not below the size.
        """
        self._remove(convert.index(i))

    def build(
        self,
        indices: Iterable[int],
        values: Union[Iterable[Value], Value],
        dup: Optional[str] = None,
    ) -> None:
        """Fills the vector, which stores nothing, from lists of one length, or stores nothing of them.

        Contiguous numpy arrays of uint64, and of bool for truth values, are read where they are; they must not
        be changed meanwhile. Others are copied.

        Args:
            indices: the index of each entry.
            values: the value of each entry, or one value for all.
            dup: the monoid that joins values at one index, by default "plus", or "lor" of truth values.

        Raises:
            InvalidValue: the lists are not of one length.
            DomainMismatch: `dup` is of the other domain.
            OutputNotEmpty: the vector stores an entry.
            IndexOutOfBounds: an index is not below the size.
            IndexError: an index is not from 0 to 2**64 - 1.
            TypeError: a value is not of the vector's domain.
            OverflowError: a number is not from 0 to 2**64 - 1.
        """
        place = convert.indices(indices)
        self._build([place], convert.values_of(self._domain, values, place.length), dup)

    def items(self) -> Iterator[Tuple[int, Value]]:
        """`(i, value)` of each entry at one moment, in rising order."""
        indices, values = self._lists()
        return zip(indices, values)

    def to_lists(self) -> Tuple[List[int], List[Value]]:
        """All entries at one moment, in rising order: their indices and their values."""
        indices, values = self._lists()
        return indices, values

    def to_numpy(self) -> Tuple[Any, Any]:
        """As `to_lists`, in numpy arrays: indices of dtype uint64, values of dtype uint64 or bool.

        Raises:
            ImportError: there is no numpy.
        """
        indices, values = self._entries(convert.new_numpy_array)
        return indices, values

    to_coo = to_numpy

    # Operations.

    def vxm(
        self,
        matrix: Union[Matrix, Transposed],
        semiring: Optional[str] = None,
        *,
        mask: Optional[Vector] = None,
        structure: bool = False,
        complement: bool = False,
        replace: bool = False,
        accum: Optional[str] = None,
        transpose_second: bool = False,
        out: Optional[Vector] = None,
    ) -> Vector:
        """The product of this vector and a matrix: `out<mask> = accum(out, self * matrix)`.

        At index j it has the operator of the vector's value and each value of column j, where both are stored,
        joined by the monoid, and nothing where there is no such pair. So a search goes from its front along the
        edges of a graph. `Matrix.mxv` joins the same pairs as a product with the transposed matrix, and there the
        operator has the matrix's value first.

        Args:
            matrix: the matrix.
            semiring: the monoid and the operator, by default "plus.times", or "lor.land" of truth values.
            mask, structure, complement, replace, accum, out: how it writes; see `trowelheath.objects`.
            transpose_second: whether the matrix is read with its rows as columns, as in `u.vxm(A.T)`.

        Raises:
            DomainMismatch: the output, the inputs, the semiring and the accumulator are not of one domain.
            DimensionMismatch: the matrix has not a row for each index of this vector, or not a column for each
                index of the output, or the mask is not of the size of the output.
        """
        named = self._domain.semiring if semiring is None else semiring
        numbers = semiring_numbers(named)
        second, turned = _as_stored(matrix, transpose_second)
        self._number_of(second, Matrix, "the second input")
        bits = descriptor(replace=replace, complement=complement, structure=structure, transpose_second=turned)
        return self._write(
            "vxm",
            "trb_vxm",
            numbers,
            _of_semiring(named),
            second,
            _Writing(mask, accum, bits),
            Vector,
            out,
            lambda: self._pass.vector(second.using(self._pass)._rows_read(not turned), self.dtype),
        )

    def __matmul__(self, other: Any) -> Any:
        """`u @ A` is `u.vxm(A)`: "plus.times" of numbers, "lor.land" of truth values. `u @ A.T` is `A @ u`."""
        if isinstance(other, Transposed):
            return other.T.mxv(self)
        return self.vxm(other) if isinstance(other, Matrix) else self._no_sign(other, "@")

    def __add__(self, other: Any) -> Any:
        """`u + v` is `u.ewise_add(v, "plus")`, of numbers."""
        if not isinstance(other, Vector):
            return self._no_sign(other, "+")
        return self.ewise_add(other, _operator_of_sign(self, "+"))

    def __mul__(self, other: Any) -> Any:
        """`u * v` is `u.ewise_mult(v, "times")`, of numbers: entry by entry."""
        if not isinstance(other, Vector):
            return self._no_sign(other, "*")
        return self.ewise_mult(other, _operator_of_sign(self, "*"))

    def __imatmul__(self, other: Any) -> Any:
        """`u @= A` is `u.vxm(A, out=u)`: the vector itself changes, by all its names."""
        if isinstance(other, Transposed):
            return other.T.mxv(self, out=self)
        return self.vxm(other, out=self) if isinstance(other, Matrix) else self._no_sign(other, "@")

    def __iadd__(self, other: Any) -> Any:
        """`u += v` is `u.ewise_add(v, "plus", out=u)`, of numbers: the vector itself changes, by all its names."""
        if not isinstance(other, Vector):
            return self._no_sign(other, "+")
        return self.ewise_add(other, _operator_of_sign(self, "+"), out=self)

    def __imul__(self, other: Any) -> Any:
        """`u *= v` is `u.ewise_mult(v, "times", out=u)`, of numbers: the vector itself changes, by all its names."""
        if not isinstance(other, Vector):
            return self._no_sign(other, "*")
        return self.ewise_mult(other, _operator_of_sign(self, "*"), out=self)

    def ewise_add(
        self,
        other: Vector,
        operator: Optional[str] = None,
        *,
        mask: Optional[Vector] = None,
        structure: bool = False,
        complement: bool = False,
        replace: bool = False,
        accum: Optional[str] = None,
        out: Optional[Vector] = None,
    ) -> Vector:
        """The union of two vectors: `out<mask> = accum(out, self + other)`.

        Where both store a value it has the operator of the two, and where one of them does, that value.

        Args:
            other: the second vector.
            operator: a binary operator, by default "plus", or "lor" of truth values.
            mask, structure, complement, replace, accum, out: how it writes; see `trowelheath.objects`.

        Raises:
            DomainMismatch: the output, the inputs, the operator and the accumulator are not of one domain.
            DimensionMismatch: the inputs, the output and the mask are not all of one size.
        """
        how = _Writing(mask, accum, descriptor(replace=replace, complement=complement, structure=structure))
        named = self._domain.monoid if operator is None else operator
        return self._ewise("trb_vector_ewise_add", other, named, how, out)

    def ewise_mult(
        self,
        other: Vector,
        operator: Optional[str] = None,
        *,
        mask: Optional[Vector] = None,
        structure: bool = False,
        complement: bool = False,
        replace: bool = False,
        accum: Optional[str] = None,
        out: Optional[Vector] = None,
    ) -> Vector:
        """The intersection of two vectors: `out<mask> = accum(out, self .* other)`.

        Where both store a value it has the operator of the two, and nothing elsewhere.

        Args:
            other: the second vector.
            operator: a binary operator, by default "times", or "land" of truth values.
            mask, structure, complement, replace, accum, out: how it writes; see `trowelheath.objects`.

        Raises:
            DomainMismatch: the output, the inputs, the operator and the accumulator are not of one domain.
            DimensionMismatch: the inputs, the output and the mask are not all of one size.
        """
        how = _Writing(mask, accum, descriptor(replace=replace, complement=complement, structure=structure))
        named = semiring_parts(self._domain.semiring)[1] if operator is None else operator
        return self._ewise("trb_vector_ewise_mult", other, named, how, out)

    def _ewise(self, name: str, other: Vector, operator: str, how: _Writing, out: Optional[Vector]) -> Vector:
        self._number_of(other, Vector, "the second input")
        return self._write(
            name[len(f"trb_{self._sort}_") :],
            name,
            (operator_number(operator),),
            (("operator", operator),),
            other,
            how,
            Vector,
            out,
            lambda: self._pass.vector(self.size, self.dtype),
        )

    def apply(
        self,
        operator: str,
        right: Optional[Value] = None,
        *,
        left: Optional[Value] = None,
        mask: Optional[Vector] = None,
        structure: bool = False,
        complement: bool = False,
        replace: bool = False,
        accum: Optional[str] = None,
        out: Optional[Vector] = None,
    ) -> Vector:
        """A function of each value: `out<mask> = accum(out, f(self))`.

        Where this vector stores a value it has the function of that: `u.apply("ainv")` its negative,
        `u.apply("minus", 1)` what is left of it without 1, and `u.apply("minus", left=9)` what 9 is without it.

        Args:
            operator: a unary operator, as "ainv", or a binary one, as "minus", with one of the two:
            right: the value on the right of a binary operator.
            left: the value on its left.
            mask, structure, complement, replace, accum, out: how it writes; see `trowelheath.objects`.

        Raises:
            DomainMismatch: the output, the vector, the operator and the accumulator are not of one domain.
            DimensionMismatch: the vector, the output and the mask are not all of one size.
            TypeError: a unary operator is given `right` or `left`, or a binary one neither or both; or the value is
                not of the vector's domain.
            OverflowError: a number is not from 0 to 2**64 - 1.
        """
        function = self._function(operator, right, left)
        how = _Writing(mask, accum, descriptor(replace=replace, complement=complement, structure=structure))
        return self._write(
            "apply",
            f"trb_vector_{function.name}",
            function.before,
            (("operator", operator),),
            None,
            how,
            Vector,
            out,
            lambda: self._pass.vector(self.size, self.dtype),
            function.after,
        )

    def select(
        self,
        test: str,
        value: Optional[Value] = None,
        *,
        mask: Optional[Vector] = None,
        structure: bool = False,
        complement: bool = False,
        replace: bool = False,
        accum: Optional[str] = None,
        out: Optional[Vector] = None,
    ) -> Vector:
        """The entries that pass a test: `out<mask> = accum(out, those of self that pass)`.

        The vector is read as a column: `u.select("rowle", 2)` has those at the indices 0 to 2, and
        `u.select("valuege", 3)` those of 3 or more.

        Args:
            test: a test of places or of values; `trowelheath.operators` lists them.
            value: what it compares with: a diagonal, by default 0, the main one; a row or a column; or a value of
                this domain.
            mask, structure, complement, replace, accum, out: how it writes; see `trowelheath.objects`.

        Raises:
            DomainMismatch: the output, the vector and the accumulator are not of one domain.
            DimensionMismatch: the vector, the output and the mask are not all of one size.
            TypeError: there is no value though the test needs one, or it is not of the vector's domain.
            ValueError: a diagonal is not from -4,294,967,295 to 4,294,967,295.
            IndexError: a row or a column is not from 0 to 2**64 - 1.
            OverflowError: a number is not from 0 to 2**64 - 1.
        """
        term = self._test(test, value)
        how = _Writing(mask, accum, descriptor(replace=replace, complement=complement, structure=structure))
        return self._write(
            "select",
            f"trb_vector_{term.name}",
            term.before,
            (),
            None,
            how,
            Vector,
            out,
            lambda: self._pass.vector(self.size, self.dtype),
            term.after,
        )

    def diag(self, k: SupportsIndex = 0) -> Matrix:
        """A new matrix with the entries of this vector on a diagonal, and nothing elsewhere.

        It is square, and has as many rows as the vector is long and the diagonal is from the main one. It takes one
        call of the room.

        Args:
            k: the diagonal: 0 the main one, so far above it, or with a minus so far below it.

        Raises:
            InvalidValue: the matrix would have more than 4,294,967,295 rows.
            TypeError: the diagonal is no whole number.
            ValueError: it is not from -4,294,967,295 to 4,294,967,295.
        """
        diagonal = convert.diagonal(k)
        shape = self._life.shape
        wanted = None if shape is None else (shape[0] + abs(diagonal),) * 2
        out = ctypes.c_uint32()
        self._pass._change(
            "trb_matrix_diag",
            ctypes.byref(out),
            self._number,
            diagonal,
            tell=lambda code: _tell.of_diagonal(code, self, diagonal),
        )
        made = self._pass._made(Matrix, out.value, self._domain, wanted)
        made._life.entries, made._life.work = self._life.entries, self._life.work
        return made


class Transposed(Stored):
    """A matrix that is read with its rows as columns, as `A.T`: an input of an operation, and a view of its entries.

    It is no matrix of the store, takes no room, and reads what the matrix stores when it is used. Its `T[i, j]` is
    `A[j, i]`, to be stored and removed too.
    """

    _ndim = 2
    _letter = "A.T"

    def __init__(self, matrix: Matrix) -> None:
        """The matrix read so. `Matrix.T` makes it."""
        self._matrix = matrix

    # What it is.

    @property
    def T(self) -> Matrix:  # noqa: N802
        """The matrix itself."""
        return self._matrix

    @property
    def _object(self) -> Matrix:
        return self._matrix

    @property
    def pass_(self) -> Pass:
        """The pass that makes the matrix's calls."""
        return self._matrix.pass_

    @property
    def store(self) -> Store:
        """The store of the matrix."""
        return self._matrix.store

    def using(self, pass_: Pass) -> Transposed:
        """The same by another pass, as `Matrix.using`."""
        return Transposed(self._matrix.using(pass_))

    @property
    def shape(self) -> Tuple[int, int]:
        """Its numbers of rows and of columns now: those of the columns and of the rows of the matrix."""
        nrows, ncols = self._matrix.shape
        return ncols, nrows

    @property
    def nrows(self) -> int:
        """Its number of rows now."""
        return self._matrix.ncols

    @property
    def ncols(self) -> int:
        """Its number of columns now."""
        return self._matrix.nrows

    @property
    def dtype(self) -> type:
        """The type of its values, as of the matrix."""
        return self._matrix.dtype

    @property
    def nvals(self) -> int:
        """How many entries it stores, as the matrix."""
        return self._matrix.nvals

    def _head(self) -> str:
        return f"<transposed of {self._matrix._head()}>"

    def _no_array(self) -> str:
        return f"{super()._no_array()}, and to_scipy() makes a matrix of scipy.sparse"

    def isequal(self, other: Stored) -> bool:
        """As `Matrix.isequal`, of what is read so."""
        if not isinstance(other, Stored):
            raise TypeError(f"A.T is compared with a Matrix or a Vector, not a {type(other).__name__}")
        if isinstance(other, Vector) or self.dtype is not other.dtype or self.shape != other.shape:
            return False
        return self.nvals == other.nvals and list(self.items()) == list(other.items())

    def __eq__(self, other: object) -> bool:
        """Whether both are one object read transposed. `TypeError` as of a matrix: `isequal` compares what is stored."""
        if isinstance(other, Transposed) and self._matrix._is_name_of(other._matrix):
            return True
        if isinstance(other, (Matrix, Transposed)):
            raise TypeError("A.T == B does not tell whether both store the same: A.T.isequal(B) does")
        _require_no_array(self, other)
        return NotImplemented

    def __hash__(self) -> int:
        return ~hash(self._matrix)

    # Its entries.

    def __getitem__(self, place: Tuple[SupportsIndex, SupportsIndex]) -> Value:
        """The value at row i and column j, which is that at row j and column i of the matrix, as of `Matrix`."""
        i, j = _row_and_column(place)
        value: Optional[Value] = self._matrix.get(j, i)
        if value is None:
            raise KeyError((i, j))
        return value

    def get(self, i: SupportsIndex, j: SupportsIndex, default: Any = None) -> Any:
        """The value at row i and column j, or `default` where nothing is stored."""
        return self._matrix.get(j, i, default)

    def __contains__(self, place: object) -> bool:
        """Whether a value is stored at row i and column j, as in `(i, j) in A.T`."""
        return isinstance(place, tuple) and place[::-1] in self._matrix

    def __setitem__(self, place: Tuple[SupportsIndex, SupportsIndex], value: Value) -> None:
        """Stores a value in the matrix: `A.T[i, j] = x` is `A[j, i] = x`."""
        i, j = _row_and_column(place)
        self._matrix[j, i] = value

    def __delitem__(self, place: Tuple[SupportsIndex, SupportsIndex]) -> None:
        """Removes an entry of the matrix: `del A.T[i, j]` is `del A[j, i]`."""
        i, j = _row_and_column(place)
        del self._matrix[j, i]

    def items(self) -> Iterator[Tuple[Tuple[int, int], Value]]:
        """`((i, j), value)` of each entry at one moment, row by row in rising order."""
        rows, columns, values = self.to_lists()
        return zip(zip(rows, columns), values)

    def to_lists(self) -> Tuple[List[int], List[int], List[Value]]:
        """As `Matrix.to_lists`, of what is read so."""
        columns, rows, values = self._matrix.to_lists()
        # Within a row they stay in the order of their columns.
        order = sorted(range(len(rows)), key=rows.__getitem__)
        return [rows[k] for k in order], [columns[k] for k in order], [values[k] for k in order]

    def to_numpy(self) -> Tuple[Any, Any, Any]:
        """As `Matrix.to_numpy`, of what is read so."""
        columns, rows, values = self._matrix.to_numpy()
        order = rows.argsort(kind="stable")
        return rows[order], columns[order], values[order]

    to_coo = to_numpy

    def toarray(self) -> Any:
        """As `Matrix.toarray`, of what is read so."""
        return self._matrix.toarray().T

    def to_scipy(self) -> Any:
        """As `Matrix.to_scipy`, of what is read so."""
        shape = self.shape
        columns, rows, values = self._matrix.to_numpy()
        return convert.scipy_of_arrays(shape, rows, columns, values)

    def to_networkx(self, nodes: Optional[Iterable[Any]] = None, create_using: Any = None) -> Any:
        """As `Matrix.to_networkx`, with each edge turned round."""
        return convert.networkx_of_matrix(self.shape, self.to_lists, nodes, create_using)

    def spy(self, ax: Any = None, **options: Any) -> Any:
        """As `Matrix.spy`, of what is read so."""
        return _show.spy(self, ax, options)

    def reduce(self, monoid: Optional[str] = None) -> Value:
        """As `Matrix.reduce`."""
        return self._matrix.reduce(monoid)

    def sum(self, axis: Optional[int] = None) -> int:
        """As `Matrix.sum`."""
        return self._matrix.sum() if axis is None else super().sum(axis)

    def wait(self, mode: str = "complete") -> None:
        """As `Matrix.wait`."""
        self._matrix.wait(mode)

    def dup(self) -> Matrix:
        """A new matrix of these rows and columns. It takes two calls of the room."""
        return self._matrix.transpose()

    def copy(self) -> Matrix:
        """A new matrix, as `dup`."""
        return self.dup()

    def copy_to(self, pass_: Pass) -> Matrix:
        """A new matrix of these rows and columns by another pass, as `Matrix.copy_to`."""
        return Matrix.from_lists(pass_, *self.shape, *self.to_lists(), self.dtype)

    # Operations.

    def mxm(self, other: Union[Matrix, Transposed], semiring: Optional[str] = None, **how: Any) -> Matrix:
        """As `Matrix.mxm` with `transpose`."""
        return self._matrix.mxm(other, semiring, transpose=True, **how)

    def mxv(self, vector: Vector, semiring: Optional[str] = None, **how: Any) -> Vector:
        """As `Matrix.mxv` with `transpose`."""
        return self._matrix.mxv(vector, semiring, transpose=True, **how)

    def ewise_add(self, other: Union[Matrix, Transposed], operator: Optional[str] = None, **how: Any) -> Matrix:
        """As `Matrix.ewise_add` with `transpose`."""
        return self._matrix.ewise_add(other, operator, transpose=True, **how)

    def ewise_mult(self, other: Union[Matrix, Transposed], operator: Optional[str] = None, **how: Any) -> Matrix:
        """As `Matrix.ewise_mult` with `transpose`."""
        return self._matrix.ewise_mult(other, operator, transpose=True, **how)

    def reduce_rows(self, monoid: Optional[str] = None, **how: Any) -> Vector:
        """As `Matrix.reduce_rows` with `transpose`: the columns of the matrix, joined."""
        return self._matrix.reduce_rows(monoid, transpose=True, **how)

    def transpose(self, **how: Any) -> Matrix:
        """As `Matrix.transpose` with `transpose`: the matrix is turned twice, and written as it is."""
        return self._matrix.transpose(transpose=True, **how)

    def apply(self, operator: str, right: Optional[Value] = None, **how: Any) -> Matrix:
        """As `Matrix.apply` with `transpose`."""
        return self._matrix.apply(operator, right, transpose=True, **how)

    def select(self, test: str, value: Optional[Value] = None, **how: Any) -> Matrix:
        """As `Matrix.select` with `transpose`."""
        return self._matrix.select(test, value, transpose=True, **how)

    def kronecker(self, other: Union[Matrix, Transposed], operator: Optional[str] = None, **how: Any) -> Matrix:
        """As `Matrix.kronecker` with `transpose`."""
        return self._matrix.kronecker(other, operator, transpose=True, **how)

    def __matmul__(self, other: Any) -> Any:
        """`A.T @ B` is `A.T.mxm(B)`, and `A.T @ u` is `A.T.mxv(u)`."""
        if isinstance(other, (Matrix, Transposed)):
            return self.mxm(other)
        if isinstance(other, Vector):
            return self.mxv(other)
        return self._no_sign(other, "@")

    def __add__(self, other: Any) -> Any:
        """`A.T + B` is `A.T.ewise_add(B, "plus")`, of numbers."""
        if not isinstance(other, (Matrix, Transposed)):
            return self._no_sign(other, "+")
        return self.ewise_add(other, _operator_of_sign(self._matrix, "+"))

    def __mul__(self, other: Any) -> Any:
        """`A.T * B` is `A.T.ewise_mult(B, "times")`, of numbers."""
        if not isinstance(other, (Matrix, Transposed)):
            return self._no_sign(other, "*")
        return self.ewise_mult(other, _operator_of_sign(self._matrix, "*"))

    def _no_change(self, other: object) -> NoReturn:
        """Raises `TypeError`: a sign changes no view."""
        raise TypeError("A.T is a view of A: write the operation with out=A, as in A.ewise_add(B.T, out=A)")

    __iadd__ = __imul__ = __imatmul__ = _no_change


def _require_no_array(item: Stored, other: object) -> None:
    """Raises `TypeError` where an object is compared with an array of numpy or a matrix of scipy."""
    if convert.is_numpy_array(other):
        raise TypeError(f"{item._no_array()}, and toarray() an array of all places")
    if convert.is_scipy_matrix(other):
        raise TypeError(
            "A == S does not compare with a matrix of scipy: A.isequal(Matrix.from_scipy(A.pass_, S)) does, and "
            "A.to_scipy() != S has the places that differ"
        )


def _as_stored(other: Any, transpose: bool) -> Tuple[Any, bool]:
    """A second input as the matrix that is stored, and whether that is read with its rows as columns."""
    return (other.T, not transpose) if isinstance(other, Transposed) else (other, bool(transpose))


def _checked(what: str, check: Callable[[Any], Checked], x: Any) -> Checked:
    """What the check makes of an argument. What it raises names the argument."""
    try:
        return check(x)
    except (TypeError, ValueError, IndexError, OverflowError) as fault:
        raise type(fault)(f"{what}: {fault}") from None


def _operator_of_sign(item: Object, sign: str) -> str:
    """The operator that a sign stands for. `TypeError` where the object has truth values."""
    if item.dtype is bool:
        method, operator = ("ewise_add", "lor") if sign == "+" else ("ewise_mult", "land")
        raise TypeError(f'{sign} is of numbers: name the operation of truth values, as in A.{method}(B, "{operator}")')
    return "plus" if sign == "+" else "times"


def _of_semiring(name: str) -> Tuple[Tuple[str, str], ...]:
    """The monoid and the operator of a semiring, for what a refusal says of them."""
    monoid, operator = semiring_parts(name)
    return ("monoid", monoid), ("operator", operator)


def _row_and_column(place: Any) -> Tuple[int, int]:
    """The two indices of a place of a matrix. `TypeError` where it is not a pair."""
    if not isinstance(place, tuple) or len(place) != 2:
        if isinstance(place, slice):
            convert.index(place)
        raise TypeError(f"a place of a matrix is a row and a column, as in A[i, j], not {_show.said(place)}")
    return convert.index(place[0]), convert.index(place[1])
