"""The operations on dicts, by their definitions: a vector is a dict from indices, a matrix one from pairs."""

from __future__ import annotations

from typing import Any, Callable, Dict, List, Optional, Tuple

Entries = Dict[Any, Any]
Shape = Tuple[int, ...]
Operator = Callable[[Any, Any], Any]

OPERATORS: Dict[str, Operator] = {
    "lor": lambda a, b: a or b,
    "land": lambda a, b: a and b,
    "lxor": lambda a, b: a != b,
    "lxnor": lambda a, b: a == b,
    "first_bool": lambda a, b: a,
    "second_bool": lambda a, b: b,
    "plus": lambda a, b: (a + b) % 2**64,
    "times": lambda a, b: a * b % 2**64,
    "min": min,
    "max": max,
    "minus": lambda a, b: (a - b) % 2**64,
    "first": lambda a, b: a,
    "second": lambda a, b: b,
}

UNARY_OPERATORS: Dict[str, Callable[[Any], Any]] = {
    "identity_bool": lambda a: a,
    "lnot": lambda a: not a,
    "identity": lambda a: a,
    "ainv": lambda a: -a % 2**64,
    "bnot": lambda a: 2**64 - 1 - a,
}

# Of row, column and value, and what they are compared with.
TESTS: Dict[str, Callable[[int, int, Any, Any], bool]] = {
    "tril": lambda i, j, a, x: j - i <= x,
    "triu": lambda i, j, a, x: j - i >= x,
    "diag": lambda i, j, a, x: j - i == x,
    "offdiag": lambda i, j, a, x: j - i != x,
    "rowle": lambda i, j, a, x: i <= x,
    "rowgt": lambda i, j, a, x: i > x,
    "colle": lambda i, j, a, x: j <= x,
    "colgt": lambda i, j, a, x: j > x,
    "valueeq": lambda i, j, a, x: a == x,
    "valuene": lambda i, j, a, x: a != x,
    "valuelt": lambda i, j, a, x: a < x,
    "valuele": lambda i, j, a, x: a <= x,
    "valuegt": lambda i, j, a, x: a > x,
    "valuege": lambda i, j, a, x: a >= x,
}

IDENTITIES = {
    "lor": False,
    "land": True,
    "lxor": False,
    "lxnor": True,
    "plus": 0,
    "times": 1,
    "min": 2**64 - 1,
    "max": 0,
}


def dtype_of(word: str) -> type:
    """The dtype of an operator."""
    of_bool = ("lor", "land", "lxor", "lxnor", "first_bool", "second_bool", "identity_bool", "lnot")
    return bool if word in of_bool else int


def computed_shape(name: str, first: Shape, second: Optional[Shape]) -> Optional[Shape]:
    """The dimensions of what an operation computes of inputs that are read with these; none where they do not fit."""
    if name == "transpose":
        return first[::-1]
    if name in ("apply", "select"):
        return first
    if name == "reduce_rows" or second is None:
        return first[:1]
    if name.startswith("ewise"):
        return first if first == second else None
    if name == "kronecker":
        return first[0] * second[0], first[1] * second[1]
    return first[:-1] + second[1:] if first[-1] == second[0] else None


def transposed(a: Entries) -> Entries:
    """The rows as columns."""
    return {(j, i): x for (i, j), x in a.items()}


def union(a: Entries, b: Entries, operator: str) -> Entries:
    """Where both store a value the operator of the two, and where one does, that value."""
    both = {place: OPERATORS[operator](a[place], b[place]) for place in a.keys() & b.keys()}
    return {**a, **b, **both}


def intersection(a: Entries, b: Entries, operator: str) -> Entries:
    """Where both store a value the operator of the two."""
    return {place: OPERATORS[operator](a[place], b[place]) for place in a.keys() & b.keys()}


def joined(pairs: Any, monoid: str) -> Entries:
    """The values at each place of these pairs of a place and a value, joined."""
    result: Entries = {}
    for place, x in pairs:
        result[place] = OPERATORS[monoid](result[place], x) if place in result else x
    return result


def by_row(a: Entries) -> Dict[int, List[Tuple[int, Any]]]:
    """The columns and the values of each row."""
    rows: Dict[int, List[Tuple[int, Any]]] = {}
    for (i, j), x in a.items():
        rows.setdefault(i, []).append((j, x))
    return rows


def mxm(a: Entries, b: Entries, semiring: str) -> Entries:
    """The product of two matrices."""
    add, multiply = map(OPERATORS.__getitem__, semiring.split("."))
    rows = by_row(b)
    result: Entries = {}
    for i, row in by_row(a).items():
        sums: Dict[int, Any] = {}
        for k, x in row:
            for j, y in rows.get(k, ()):
                product = multiply(x, y)
                sums[j] = add(sums[j], product) if j in sums else product
        result.update(((i, j), x) for j, x in sums.items())
    return result


def mxv(a: Entries, u: Entries, semiring: str) -> Entries:
    """The product of a matrix and a vector."""
    monoid, operator = semiring.split(".")
    return joined(((i, OPERATORS[operator](x, u[k])) for (i, k), x in a.items() if k in u), monoid)


def vxm(u: Entries, a: Entries, semiring: str) -> Entries:
    """The product of a vector and a matrix."""
    monoid, operator = semiring.split(".")
    return joined(((j, OPERATORS[operator](u[k], x)) for (k, j), x in a.items() if k in u), monoid)


def reduce_rows(a: Entries, monoid: str) -> Entries:
    """The values of each row, joined."""
    return joined(((i, x) for (i, _), x in a.items()), monoid)


def applied(a: Entries, operator: str, right: Any = None, left: Any = None) -> Entries:
    """A unary operator of each value, or a binary one with a value on one side."""
    if right is not None:
        return {place: OPERATORS[operator](x, right) for place, x in a.items()}
    if left is not None:
        return {place: OPERATORS[operator](left, x) for place, x in a.items()}
    return {place: UNARY_OPERATORS[operator](x) for place, x in a.items()}


def selected(a: Entries, test: str, x: Any = 0) -> Entries:
    """The entries that pass a test. A vector is a column."""
    places = {place: place if isinstance(place, tuple) else (place, 0) for place in a}
    return {place: value for place, value in a.items() if TESTS[test](*places[place], value, x)}


def kronecker(a: Entries, b: Entries, shape: Tuple[int, int], operator: str) -> Entries:
    """The operator of each two values, where the second matrix has these dimensions."""
    rows, columns = shape
    pairs = ((i, j, p, q) for i, j in a for p, q in b)
    return {
        (i * rows + p, j * columns + q): OPERATORS[operator](a[i, j], b[p, q]) for i, j, p, q in pairs
    }


def on_diagonal(u: Entries, k: int) -> Entries:
    """The entries of a vector on a diagonal of a matrix."""
    return {(i - min(k, 0), i + max(k, 0)): x for i, x in u.items()}


def total(a: Entries, monoid: str) -> Any:
    """All values, joined."""
    result = IDENTITIES[monoid]
    for x in a.values():
        result = OPERATORS[monoid](result, x)
    return result


def written(
    old: Entries,
    computed: Entries,
    accum: Optional[str],
    mask: Optional[Entries],
    structure: bool,
    complement: bool,
    replace: bool,
) -> Entries:
    """The output after what was computed has been written into it."""

    def is_inside(place: Any) -> bool:
        selected = mask is None or (place in mask if structure else bool(mask.get(place, False)))
        return selected != complement

    new = computed if accum is None else union(old, computed, accum)
    if mask is None and not complement:
        return new
    inside = {place: x for place, x in new.items() if is_inside(place)}
    outside = {} if replace else {place: x for place, x in old.items() if not is_inside(place)}
    return {**inside, **outside}
