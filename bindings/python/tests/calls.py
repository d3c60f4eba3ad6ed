"""Calls on a store as data, and how the package makes them.

An object is a key: a sort and a number, as a program in C has it.
"""

from __future__ import annotations

from typing import Any, Callable, Dict, List, NamedTuple, Optional, Tuple, Union

from support import name_of
from trowelheath import Info, Pass, Refusal
from trowelheath.errors import RoomTooSmall

Key = Tuple[str, int]

# The operations, each with the sorts of its output and of its inputs.
OPERATIONS: List[Tuple[str, str, str, Optional[str]]] = [
    ("mxm", "matrix", "matrix", "matrix"),
    ("mxv", "vector", "matrix", "vector"),
    ("vxm", "vector", "vector", "matrix"),
    ("ewise_add", "matrix", "matrix", "matrix"),
    ("ewise_add", "vector", "vector", "vector"),
    ("ewise_mult", "matrix", "matrix", "matrix"),
    ("ewise_mult", "vector", "vector", "vector"),
    ("reduce_rows", "vector", "matrix", None),
    ("transpose", "matrix", "matrix", None),
    ("apply", "matrix", "matrix", None),
    ("apply", "vector", "vector", None),
    ("select", "matrix", "matrix", None),
    ("select", "vector", "vector", None),
    ("kronecker", "matrix", "matrix", "matrix"),
]


class Refused(NamedTuple):
    """The answer of a call that is refused."""

    info: Info
    needed: Optional[int] = None
    """How many calls make the objects, where the room is too small for them."""


class Call(NamedTuple):
    """A call that makes, changes or reads one object."""

    kind: str
    on: Key
    """The object. Where one is made of none, its sort alone counts."""
    dtype: type = int
    """The dtype of the name by which it is made."""
    arguments: Tuple[Any, ...] = ()


class Operation(NamedTuple):
    """An operation. It writes into `on`, or where that is none into an object that it makes."""

    kind: str
    on: Optional[Key]
    first: Key
    second: Optional[Key]
    word: Optional[str]
    """Its semiring, operator, monoid or test."""
    mask: Optional[Key]
    accum: Optional[str]
    dtype: type = int
    """The dtype of the name of its first input."""
    structure: bool = False
    complement: bool = False
    replace: bool = False
    transpose: bool = False
    transpose_second: bool = False
    side: Optional[str] = None
    """The side of the operator of an `apply` on which the value stands; none where the operator is unary."""
    value: Any = None


Asked = Union[Call, Operation]


FLAGS = ("structure", "complement", "replace", "transpose", "transpose_second")


def sort_made(asked: Asked) -> str:
    """The sort of the object that a call makes, or an operation writes."""
    if isinstance(asked, Operation):
        return "vector" if asked.kind in ("mxv", "vxm", "reduce_rows") else asked.first[0]
    return "matrix" if asked.kind == "diag" else asked.on[0]


def described(asked: Asked) -> str:
    """The call in words, for who looks for a fault. Of long lists it has the beginning."""
    if isinstance(asked, Call):
        words = ", ".join(map(repr, asked.arguments))[:200]
        return f"{asked.kind} {_key_text(asked.on)} {asked.dtype.__name__} ({words})"
    flags = [name for name in FLAGS if getattr(asked, name)]
    value = "" if asked.side is None and asked.value is None else f" {asked.side or ''} {asked.value!r}"
    return (
        f"{asked.kind} {_key_text(asked.on)}<{_key_text(asked.mask)}> {asked.accum or '='} "
        f"{asked.word or ''}{value} {_key_text(asked.first)} {_key_text(asked.second)} "
        f"{asked.dtype.__name__} {' '.join(flags)}"
    )


def _key_text(key: Optional[Key]) -> str:
    return "-" if key is None else f"{key[0][0]}{key[1]}"


def _new(pass_: Pass, call: Call) -> Any:
    made: Any = pass_.matrix if call.on[0] == "matrix" else pass_.vector
    return made(*call.arguments, call.dtype).keep().number


def _method(name: str) -> Callable[[Pass, Call], Any]:
    return lambda pass_, call: getattr(name_of(pass_, *call.on, call.dtype), name)(*call.arguments)


def _maker(name: str) -> Callable[[Pass, Call], Any]:
    return lambda pass_, call: getattr(name_of(pass_, *call.on, call.dtype), name)(*call.arguments).keep().number


def _property(name: str) -> Callable[[Pass, Call], Any]:
    return lambda pass_, call: getattr(name_of(pass_, *call.on, call.dtype), name)


def _place(call: Call) -> Any:
    """A place as it stands between brackets."""
    return call.arguments[0] if len(call.arguments) == 1 else call.arguments


def _item(pass_: Pass, call: Call) -> Any:
    try:
        return name_of(pass_, *call.on, call.dtype)[_place(call)]
    except KeyError:
        return None


def _set(pass_: Pass, call: Call) -> None:
    *place, value = call.arguments
    name_of(pass_, *call.on, call.dtype)[place[0] if len(place) == 1 else tuple(place)] = value


def _remove(pass_: Pass, call: Call) -> None:
    del name_of(pass_, *call.on, call.dtype)[_place(call)]


def _lists(pass_: Pass, call: Call) -> Any:
    *places, values = name_of(pass_, *call.on, call.dtype).to_lists()
    return dict(zip(places[0] if len(places) == 1 else zip(*places), values))


def _rising(pass_: Pass, call: Call) -> Any:
    """All entries by an iteration, which gives them in rising order."""
    entries = list(name_of(pass_, *call.on, call.dtype).items())
    places = [place for place, _ in entries]
    return dict(entries) if places == sorted(set(places)) else places


_MAKERS: Dict[str, Callable[[Pass, Call], Any]] = {
    "new": _new,
    "dup": _maker("dup"),
    "diag": _maker("diag"),
    "free": _method("free"),
    "clear": _method("clear"),
    "resize": _method("resize"),
    "build": _method("build"),
    "set": _set,
    "remove": _remove,
    "get": _method("get"),
    "item": _item,
    "in": lambda pass_, call: _place(call) in name_of(pass_, *call.on, call.dtype),
    "nvals": _property("nvals"),
    "len": lambda pass_, call: len(name_of(pass_, *call.on, call.dtype)),
    "shape": _property("shape"),
    "to_dict": _method("to_dict"),
    "to_lists": _lists,
    "items": _rising,
    "reduce": _method("reduce"),
    "wait": _method("wait"),
}


def _operate(pass_: Pass, asked: Operation) -> Any:
    """Makes an operation. Where it makes its output, the answer is the number of that."""

    def named(key: Optional[Key]) -> Any:
        return None if key is None else name_of(pass_, *key, asked.dtype)

    how: Dict[str, Any] = {"out": named(asked.on), "mask": named(asked.mask), "accum": asked.accum}
    how.update((flag, True) for flag in FLAGS if getattr(asked, flag))
    arguments: List[Any] = [] if asked.second is None else [named(asked.second)]
    if asked.word is not None:
        arguments.append(asked.word)
    if asked.side is not None:
        how[asked.side] = asked.value
    elif asked.value is not None:
        arguments.append(asked.value)
    made = getattr(named(asked.first), asked.kind)(*arguments, **how)
    return made.keep().number if asked.on is None else None


def answered(make: Callable[[], Any]) -> Any:
    """What a call answers, or why it is refused."""
    try:
        return make()
    except RoomTooSmall as refusal:
        return Refused(refusal.code, refusal.needed)
    except Refusal as refusal:
        return Refused(refusal.code)


def ask(pass_: Pass, asked: Asked) -> Any:
    """Makes a call by a pass, and returns its answer."""
    if isinstance(asked, Call):
        return answered(lambda: _MAKERS[asked.kind](pass_, asked))
    return answered(lambda: _operate(pass_, asked))
