"""What names and signs of numpy, scipy, networkx, python-graphblas and dicts are here.

No object of the package has them: they are looked up where something is refused, which says what to write.
"""

from __future__ import annotations

from typing import Dict, Tuple

__all__ = ["of_name", "of_numpy", "of_sign"]

# What to write for a name, of a matrix A and of a vector v.
_GRAPH = "{A}.to_networkx()"
_SCIPY = "{A}.to_scipy()"
_LISTS = "{A}.to_lists(), or {A}.to_numpy()"
_DIAGONAL = '{A}.select("diag", k), a matrix, or {A}.to_scipy().diagonal(k), an array'
_ROWS = '{A}.reduce_rows("plus")'
_COLUMNS = '{A}.T.reduce_rows("plus")'
_PART = "{A}.select, which tests rows, columns and values, or a slice of {A}.to_scipy()"

_BOTH: Dict[str, str] = {
    "S": "mask={A}, structure=True",
    "V": "mask={A}",
    "all": '{A}.reduce("land")',
    "any": '{A}.reduce("lor")',
    "assign": "{A}[..] = x for a value, or an operation with a mask and out={A}",
    "count_nonzero": '{A}.nvals, or {A}.select("valuene", 0).nvals without stored zeros',
    "eliminate_zeros": '{A}.select("valuene", 0, out={A})',
    "getnnz": "{A}.nvals",
    "isclose": "{A}.isequal(B)",
    "max": '{A}.reduce("max")',
    "maximum": '{A}.ewise_add(B, "max")',
    "mean": "{A}.sum() / {A}.nvals, of what is stored",
    "min": '{A}.reduce("min"), of what is stored: an empty place is no 0',
    "minimum": '{A}.ewise_mult(B, "min") where both store a value, or ewise_add where one does',
    "multiply": '{A}.ewise_mult(B, "times")',
    "new": "{A}.dup()",
    "nonzero": _LISTS,
    "pop": "{A}.get(..) to read a value, and del {A}[..] to remove it",
    "prod": '{A}.reduce("times")',
    "reduce_scalar": '{A}.reduce("plus")',
    "setdefault": "{A}.get(.., default) to read a value, and {A}[..] = x to store one",
    "to_dense": "{A}.toarray()",
    "to_edgelist": _LISTS,
    "to_values": _LISTS,
    "todense": "{A}.toarray()",
    "tolist": _LISTS,
    "update": "{A}[..] = x for a value, or an operation with out={A}",
}

_OF_MATRIX: Dict[str, str] = {
    "adj": _GRAPH,
    "astype": "Matrix.from_lists(p, *{A}.shape, *{A}.to_lists()[:2], True, bool), a new matrix",
    "diag": _DIAGONAL,
    "diagonal": _DIAGONAL,
    "dot": "{A} @ B",
    "edges": _GRAPH,
    "extract": _PART,
    "getcol": _PART,
    "getrow": _PART,
    "is_directed": _GRAPH,
    "is_multigraph": _GRAPH,
    "kron": "{A}.kronecker(B)",
    "nodes": _GRAPH,
    "reduce_columns": _COLUMNS,
    "reduce_columnwise": _COLUMNS,
    "reduce_rowwise": _ROWS,
    "size": "{A}.nvals for the entries, or {A}.nrows * {A}.ncols for the places",
    "transpose": "{A}.T",
    "trace": '{A}.select("diag").reduce("plus")',
    "tril": '{A}.select("tril", k)',
    "triu": '{A}.select("triu", k)',
    **dict.fromkeys("asformat tobsr tocoo tocsc tocsr todia todok tolil data indices indptr".split(), _SCIPY),
    **dict.fromkeys("from_dense from_numpy".split(), "Matrix.from_scipy(p, scipy.sparse.coo_array(array))"),
    **dict.fromkeys(
        "from_scipy_sparse from_scipy_sparse_array from_scipy_sparse_matrix".split(), "Matrix.from_scipy(p, S)"
    ),
    **dict.fromkeys("from_edgelist from_values".split(), "Matrix.from_coo(p, rows, columns, values)"),
    **dict.fromkeys("to_scipy_sparse to_scipy_sparse_array to_scipy_sparse_matrix".split(), _SCIPY),
}

_OF_VECTOR: Dict[str, str] = {
    "astype": "Vector.from_lists(p, v.size, v.to_lists()[0], True, bool), a new vector",
    "diag": "v.diag(k)",
    "dot": 'v @ A, or v.ewise_mult(u, "times").reduce("plus")',
    "extract": "v.select, which tests indices and values, or a slice of v.toarray()",
    "inner": 'v.ewise_mult(u, "times").reduce("plus")',
    "to_scipy": "v.to_numpy(), or v.toarray()",
    **dict.fromkeys("from_dense from_numpy".split(), "Vector.from_coo(p, range(len(array)), array)"),
    **dict.fromkeys("from_dict from_pairs".split(), "Vector.from_coo(p, list(d), list(d.values()))"),
    **dict.fromkeys("from_edgelist from_values".split(), "Vector.from_coo(p, indices, values)"),
}

# What is of the matrix alone and not of a view of it, which is neither an output nor a mask.
_OF_VIEW: Dict[str, str] = {
    **{
        name: f"A.{name}, of the matrix itself"
        for name in "build build_from clear free keep last_info number resize".split()
    },
    **{name: _BOTH[name].format(A="A") for name in "assign eliminate_zeros update".split()},
    **{name: _BOTH[name].format(A="A.T.dup()") for name in "SV"},
}

# Of what numpy's functions do with arrays.
_OF_NUMPY: Dict[str, str] = {
    **dict.fromkeys("allclose array_equal array_equiv isclose".split(), "{A}.isequal(B)"),
    "amax": '{A}.reduce("max")',
    "amin": '{A}.reduce("min"), of what is stored: an empty place is no 0',
    "copy": "{A}.dup()",
    "sum": "{A}.sum()",
}


# What to write for a sign: of the object alone, with a number x on its right or its left, and with an object B.
_SIGNS: Dict[str, Dict[str, str]] = {
    "alone": {"-": '{A}.apply("ainv")', "~": '{A}.apply("bnot"), or "lnot" of truth values'},
    "right": {
        "+": '{A}.apply("plus", x), of what is stored',
        "-": '{A}.apply("minus", x), of what is stored',
        "*": '{A}.apply("times", x)',
        "<": '{A}.select("valuelt", x)',
        "<=": '{A}.select("valuele", x)',
        ">": '{A}.select("valuegt", x)',
        ">=": '{A}.select("valuege", x)',
        "**": '{A}.ewise_mult({A}, "times") for squares',
    },
    "left": {
        "+": '{A}.apply("plus", x), of what is stored',
        "-": '{A}.apply("minus", left=x), of what is stored',
        "*": '{A}.apply("times", x)',
    },
    "object": {
        "-": '{A}.ewise_mult(B, "minus"), where both store a value',
        "&": '{A}.ewise_mult(B, "land")',
        "|": '{A}.ewise_add(B, "lor")',
        "^": '{A}.ewise_add(B, "lxor")',
        "<<": "an operation with out=",
    },
}

# The tables of the objects that are written so.
_TABLES: Dict[str, Tuple[Dict[str, str], ...]] = {
    "A": (_OF_MATRIX, _BOTH),
    "v": (_OF_VECTOR, _BOTH),
    "A.T": (_OF_VIEW, _OF_MATRIX, _BOTH),
}


def of_sign(letter: str, sign: str, where: str) -> str:
    """What to write for a sign of an object that is written so, as with `where` of `_SIGNS`; "" if it is not known."""
    return _SIGNS[where].get(sign, "").format(A=letter)


def of_name(letter: str, name: str) -> str:
    """What to write for a name that an object which is written so, or its class, has not; "" if it is not known."""
    return next((table[name] for table in _TABLES.get(letter, ()) if name in table), "").format(A=letter)


def of_numpy(letter: str, function: str) -> str:
    """What to write for a function of numpy of an object that is written so; "" if it is not known."""
    return _OF_NUMPY.get(function, "").format(A=letter) or of_name(letter, function)
