"""What a matrix, a vector and a transposed matrix answer of what they store."""

from __future__ import annotations

from numbers import Number
from typing import TYPE_CHECKING, Any, Callable, ClassVar, Dict, Iterator, NoReturn, Optional, Tuple

from . import _elsewhere, _show
from .convert import Value, dense_array, is_numpy_array

if TYPE_CHECKING:
    from .objects import Object

__all__ = ["Stored"]


def _sign(sign: str, is_left: bool = False) -> Any:
    """A method for a sign that no object has: it says what to write with a number, on the left too, or an object."""

    def refuse(self: Stored, other: object) -> Any:
        """No object has this sign: `TypeError` says what to write."""
        return self._no_sign(other, sign, is_left)

    return refuse


def _alone(sign: str) -> Any:
    """A method for a sign before an object, which none has."""

    def refuse(self: Stored) -> NoReturn:
        """No object has this sign: `TypeError` says what to write."""
        hint = _elsewhere.of_sign(self._letter, sign, "alone")
        raise TypeError(f"bad operand type for unary {sign}: '{type(self).__name__}': write {hint}")

    return refuse


class _Sort(type):
    """The class of these classes. It says what to write for a name of another package, as `Matrix.from_dense`."""

    if not TYPE_CHECKING:

        def __getattr__(cls, name: str) -> NoReturn:
            raise AttributeError(_no_attribute(f"type object '{cls.__name__}'", cls._letter, name))


class Stored(metaclass=_Sort):
    """What can be read of entries, in words of this package, of scipy and of numpy."""

    _ndim: ClassVar[int]
    _letter: ClassVar[str] = ""
    """How it is written in a message."""

    # numpy leaves operators with an object to the object, and its functions raise TypeError.
    __array_ufunc__ = None

    @property
    def _object(self) -> Object:
        """The object of the store that is read."""
        raise NotImplementedError

    def _head(self) -> str:
        """What it is, as far as that is known without a call."""
        raise NotImplementedError

    # What it is.

    @property
    def dtype(self) -> type:
        """The type of its values: `bool` for truth values, `int` for numbers from 0 to 2**64 - 1."""
        raise NotImplementedError

    @property
    def shape(self) -> Tuple[int, ...]:
        """Its dimensions now."""
        raise NotImplementedError

    @property
    def ndim(self) -> int:
        """How many dimensions it has: 2 of a matrix, 1 of a vector."""
        return self._ndim

    @property
    def nvals(self) -> int:
        """How many entries it stores."""
        raise NotImplementedError

    @property
    def nnz(self) -> int:
        """How many entries it stores, as `nvals`: stored zeros count."""
        return self.nvals

    def __len__(self) -> int:
        """How many entries it stores."""
        return self.nvals

    def __repr__(self) -> str:
        """What it is, how many entries it stores, and a grid of them: of all, or of its first rows and columns.

        It is a read, but where another thread uses the pass, or a read would take long: then it says what is known
        without. The entries of a grid of all are those of one moment.
        """
        return _show.text(self)

    def _repr_html_(self) -> Optional[str]:
        """As `repr`, as a table for notebooks; None where `repr` has no grid."""
        return _show.html(self)

    # Its entries.

    def __iter__(self) -> NoReturn:
        """Raises `TypeError`: numpy runs through values, and others through places. `keys` and `values` say which."""
        raise TypeError(
            f"a {type(self).__name__} is not run through by itself: values() has its values, keys() their places and "
            f"items() both, as in sum({self._letter}.values())"
        )

    def __reversed__(self) -> NoReturn:
        """Raises `TypeError`, as `iter`."""
        raise TypeError(
            f"a {type(self).__name__} is not reversed by itself, but its places or its values are, "
            f"as in reversed(list({self._letter}.keys()))"
        )

    def keys(self) -> Iterator[Any]:
        """The places of all entries at one moment, in rising order: `i` of a vector, `(i, j)` of a matrix."""
        return (place for place, _ in self.items())

    def values(self) -> Iterator[Value]:
        """The values of all entries at one moment, in the order of their places."""
        return (value for _, value in self.items())

    def items(self) -> Iterator[Tuple[Any, Value]]:
        """The place and the value of each entry at one moment, in the order of the places."""
        raise NotImplementedError

    def to_dict(self) -> Dict[Any, Value]:
        """All entries at one moment: the value at each place that has one."""
        return dict(self.items())

    def to_numpy(self) -> Tuple[Any, ...]:
        """All entries at one moment in arrays of numpy."""
        raise NotImplementedError

    def toarray(self) -> Any:
        """A new array of numpy with the value at each place, and 0 or False where nothing is stored.

        It has all places, so it takes memory for each. Nobody may resize the object meanwhile.

        Raises:
            ImportError: there is no numpy.
            MemoryError, ValueError: numpy makes no array of so many places.
        """
        return dense_array(self.shape, *self.to_numpy())

    def reduce(self, monoid: Optional[str] = None) -> Value:
        """All values joined by a monoid."""
        raise NotImplementedError

    def sum(self, axis: Optional[int] = None) -> int:
        """The sum of all values, modulo 2**64, as `reduce("plus")`; of truth values, how many are True.

        Args:
            axis: 0 of a vector, or None. The sums of the rows of a matrix are a vector, which `reduce_rows` makes.

        Raises:
            TypeError: there is another axis.
        """
        if axis is not None and (self._ndim > 1 or axis not in (0, -1)):
            rows, columns = 'A.reduce_rows("plus")', 'A.T.reduce_rows("plus")'
            raise TypeError(f"sum() is of all values: {rows} makes a vector of the sums of rows, {columns} of columns")
        return sum(self.values()) if self.dtype is bool else self.reduce("plus")

    # Signs.

    def _no_sign(self, other: object, sign: str, is_left: bool = False) -> Any:
        """What a sign answers for what it does not take, and `TypeError` where it is known what to write instead."""
        if is_numpy_array(other):
            raise TypeError(self._no_array())
        hint = ""
        if isinstance(other, Number):
            hint = _elsewhere.of_sign(self._letter, sign, "left" if is_left else "right")
        elif isinstance(other, Stored) and other._ndim == self._ndim:
            hint = _elsewhere.of_sign(self._letter, sign, "object")
        if not hint:
            return NotImplemented
        first, second = (other, self) if is_left else (self, other)
        sorts = f"'{type(first).__name__}' and '{type(second).__name__}'"
        raise TypeError(f"unsupported operand type(s) for {sign}: {sorts}: write {hint}")

    if not TYPE_CHECKING:
        __radd__, __rmul__, __rmatmul__, __rsub__ = (_sign(each, True) for each in ("+", "*", "@", "-"))
        __sub__, __pow__, __lshift__ = _sign("-"), _sign("**"), _sign("<<")
        __and__, __or__, __xor__ = _sign("&"), _sign("|"), _sign("^")
        __lt__, __le__, __gt__, __ge__ = _sign("<"), _sign("<="), _sign(">"), _sign(">=")
        __neg__, __invert__ = _alone("-"), _alone("~")

    # What numpy makes of it.

    def _no_array(self) -> str:
        """What is said where something is made of the object as of an array."""
        return f"a {type(self).__name__} is no array of numpy: to_numpy() has its entries in arrays"

    def __array__(self, *arguments: Any, **options: Any) -> NoReturn:
        """Raises `TypeError`: what numpy would see are places."""
        raise TypeError(self._no_array())

    def __array_function__(self, function: Callable[..., Any], types: Any, arguments: Any, options: Any) -> Any:
        """What a function of numpy is of this object: `TypeError`, but of those that ask for dimensions alone."""
        name = function.__name__
        if name in ("shape", "ndim") and arguments:
            return getattr(arguments[0], name)
        hint = _elsewhere.of_numpy(self._letter, name)
        raise TypeError(f"numpy.{name}: {self._no_array()}{f'; write {hint}' if hint else ''}")

    if not TYPE_CHECKING:

        def __getattr__(self, name: str) -> NoReturn:
            """Raises `AttributeError`, which says what to write for a name of another package."""
            # networkx asks for it where it makes a graph of something. It takes an AttributeError for a no, and makes
            # one of places.
            kind = TypeError if name == "adj" and self._ndim == 2 else AttributeError
            raise kind(_no_attribute(f"'{type(self).__name__}' object", self._letter, name))


def _no_attribute(what: str, letter: str, name: str) -> str:
    """What is said where there is no attribute of this name."""
    hint = _elsewhere.of_name(letter, name)
    return f"{what} has no attribute '{name}'{f': write {hint}' if hint else ''}"
