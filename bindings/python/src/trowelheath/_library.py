"""Finds the shared library, loads it and declares its functions."""

from __future__ import annotations

import ctypes
import functools
import os
from pathlib import Path
from typing import Any, Dict, List, Tuple

from .errors import LibraryNotFound

ENVIRONMENT_VARIABLE = "TROWELHEATH_LIBRARY"
FILE_NAMES = ("libtrowelheath.so", "libgrb_c.so")


class _Raw(ctypes.Structure):
    _fields_ = [("opaque", ctypes.c_void_p)]


class PassHandle(ctypes.Structure):
    """What C keeps of a pass (`TrB_Pass`). All bytes 0 are no pass. It is never copied."""

    _fields_ = [("is_open", ctypes.c_bool), ("raw", _Raw)]


class FactsRecord(ctypes.Structure):
    """What a pass tells of itself (`TrB_Facts`)."""

    _fields_ = [
        ("number", ctypes.c_uint32),
        ("known", ctypes.c_uint32),
        ("words", ctypes.c_uint32),
        ("settled", ctypes.c_uint32),
        ("room_left", ctypes.c_uint32),
        ("steps", ctypes.c_uint32),
        ("made", ctypes.c_uint32),
    ]


class CostsRecord(ctypes.Structure):
    """What a pass keeps and has looked at (`TrB_Costs`)."""

    _fields_ = [
        ("entries", ctypes.c_uint64),
        ("entries_left", ctypes.c_uint64),
        ("looks", ctypes.c_uint64),
    ]


# The address of a handle: a number is passed faster than a pointer with a type.
_PASS = ctypes.c_void_p
_FACTS = ctypes.POINTER(FactsRecord)
_COSTS = ctypes.POINTER(CostsRecord)
_BOOL = ctypes.c_bool
_U32 = ctypes.c_uint32
_U64 = ctypes.c_uint64
_I64 = ctypes.c_int64
_BOOL_OUT = ctypes.POINTER(ctypes.c_bool)
_I32_OUT = ctypes.POINTER(ctypes.c_int32)
_U32_OUT = ctypes.POINTER(ctypes.c_uint32)
_U64_OUT = ctypes.POINTER(ctypes.c_uint64)
# An array is the address of its first item and its number of items.
_ARRAY = (ctypes.c_void_p, ctypes.c_size_t)

# The parameters of each function. All but `trb_free` and the last two answer a status.
_PARAMETERS: Dict[str, Tuple[Any, ...]] = {
    # Stores and passes.
    "trb_open": (_U64, _U32, _PASS, ctypes.c_size_t),
    "trb_succeed": (_U64, _U32, _PASS, _U64_OUT, _PASS, ctypes.c_size_t),
    "trb_branch": (_U64, _U32, _PASS, *_ARRAY, *_ARRAY, _U64_OUT, _PASS, ctypes.c_size_t),
    "trb_is_full": (_PASS, _BOOL_OUT),
    "trb_chain_open": (_U64, _U32, _PASS, ctypes.c_size_t),
    "trb_chain_generation": (_PASS, _U64_OUT),
    "trb_chain_objects_left": (_PASS, _U64_OUT),
    "trb_chain_go_on": (_PASS, _U64_OUT, _BOOL_OUT),
    "trb_free": (_PASS,),
    "trb_meet": (_PASS, _PASS),
    "trb_adopt": (_PASS, _PASS),
    "trb_prepare": (_PASS, _U32_OUT),
    "trb_help": (_PASS, _U32_OUT),
    "trb_blocks": (_PASS, _U64_OUT),
    "trb_release": (_PASS,),
    "trb_facts": (_PASS, _FACTS),
    "trb_costs": (_PASS, _COSTS),
    "trb_matrix_last_info": (_PASS, _I32_OUT, _U32),
    "trb_vector_last_info": (_PASS, _I32_OUT, _U32),
    # Objects.
    "trb_matrix_new": (_PASS, _U32_OUT, _U32, _U64, _U64),
    "trb_vector_new": (_PASS, _U32_OUT, _U32, _U64),
    "trb_matrix_dup": (_PASS, _U32_OUT, _U32),
    "trb_vector_dup": (_PASS, _U32_OUT, _U32),
    "trb_matrix_diag": (_PASS, _U32_OUT, _U32, _I64),
    "trb_matrix_free": (_PASS, _U32),
    "trb_vector_free": (_PASS, _U32),
    "trb_matrix_clear": (_PASS, _U32),
    "trb_vector_clear": (_PASS, _U32),
    "trb_matrix_resize": (_PASS, _U32, _U64, _U64),
    "trb_vector_resize": (_PASS, _U32, _U64),
    "trb_matrix_size": (_PASS, _U64_OUT, _U64_OUT, _U32),
    "trb_vector_size": (_PASS, _U64_OUT, _U32),
    # Entries.
    "trb_matrix_set_uint64": (_PASS, _U32, _U64, _U64, _U64),
    "trb_vector_set_uint64": (_PASS, _U32, _U64, _U64),
    "trb_matrix_set_bool": (_PASS, _U32, _BOOL, _U64, _U64),
    "trb_vector_set_bool": (_PASS, _U32, _BOOL, _U64),
    "trb_matrix_get_uint64": (_PASS, _U64_OUT, _U32, _U64, _U64),
    "trb_vector_get_uint64": (_PASS, _U64_OUT, _U32, _U64),
    "trb_matrix_get_bool": (_PASS, _BOOL_OUT, _U32, _U64, _U64),
    "trb_vector_get_bool": (_PASS, _BOOL_OUT, _U32, _U64),
    "trb_matrix_remove": (_PASS, _U32, _U64, _U64),
    "trb_vector_remove": (_PASS, _U32, _U64),
    "trb_matrix_nvals": (_PASS, _U64_OUT, _U32),
    "trb_vector_nvals": (_PASS, _U64_OUT, _U32),
    # Lists of entries, and all entries of another pass's object.
    "trb_matrix_build_from": (_PASS, _U32, _PASS, _U32),
    "trb_vector_build_from": (_PASS, _U32, _PASS, _U32),
    "trb_matrix_build_uint64": (_PASS, _U32, *_ARRAY, *_ARRAY, *_ARRAY, _U32),
    "trb_vector_build_uint64": (_PASS, _U32, *_ARRAY, *_ARRAY, _U32),
    "trb_matrix_build_bool": (_PASS, _U32, *_ARRAY, *_ARRAY, *_ARRAY, _U32),
    "trb_vector_build_bool": (_PASS, _U32, *_ARRAY, *_ARRAY, _U32),
    "trb_matrix_tuples_uint64": (_PASS, *_ARRAY, *_ARRAY, *_ARRAY, _U64_OUT, _U32),
    "trb_vector_tuples_uint64": (_PASS, *_ARRAY, *_ARRAY, _U64_OUT, _U32),
    "trb_matrix_tuples_bool": (_PASS, *_ARRAY, *_ARRAY, *_ARRAY, _U64_OUT, _U32),
    "trb_vector_tuples_bool": (_PASS, *_ARRAY, *_ARRAY, _U64_OUT, _U32),
    # Operations: output, mask, accumulator, monoid and operator, inputs, descriptor.
    "trb_mxm": (_PASS, _U32, _U32, _U32, _U32, _U32, _U32, _U32, _U32),
    "trb_mxv": (_PASS, _U32, _U32, _U32, _U32, _U32, _U32, _U32, _U32),
    "trb_vxm": (_PASS, _U32, _U32, _U32, _U32, _U32, _U32, _U32, _U32),
    "trb_matrix_ewise_add": (_PASS, _U32, _U32, _U32, _U32, _U32, _U32, _U32),
    "trb_vector_ewise_add": (_PASS, _U32, _U32, _U32, _U32, _U32, _U32, _U32),
    "trb_matrix_ewise_mult": (_PASS, _U32, _U32, _U32, _U32, _U32, _U32, _U32),
    "trb_vector_ewise_mult": (_PASS, _U32, _U32, _U32, _U32, _U32, _U32, _U32),
    "trb_reduce_rows": (_PASS, _U32, _U32, _U32, _U32, _U32, _U32),
    "trb_transpose": (_PASS, _U32, _U32, _U32, _U32, _U32),
    "trb_matrix_kronecker": (_PASS, _U32, _U32, _U32, _U32, _U32, _U32, _U32),
    # Functions of each value: output, mask, accumulator, operator, a value before the input or after it, descriptor.
    "trb_matrix_apply": (_PASS, _U32, _U32, _U32, _U32, _U32, _U32),
    "trb_vector_apply": (_PASS, _U32, _U32, _U32, _U32, _U32, _U32),
    "trb_matrix_apply_first_uint64": (_PASS, _U32, _U32, _U32, _U32, _U64, _U32, _U32),
    "trb_vector_apply_first_uint64": (_PASS, _U32, _U32, _U32, _U32, _U64, _U32, _U32),
    "trb_matrix_apply_first_bool": (_PASS, _U32, _U32, _U32, _U32, _BOOL, _U32, _U32),
    "trb_vector_apply_first_bool": (_PASS, _U32, _U32, _U32, _U32, _BOOL, _U32, _U32),
    "trb_matrix_apply_second_uint64": (_PASS, _U32, _U32, _U32, _U32, _U32, _U64, _U32),
    "trb_vector_apply_second_uint64": (_PASS, _U32, _U32, _U32, _U32, _U32, _U64, _U32),
    "trb_matrix_apply_second_bool": (_PASS, _U32, _U32, _U32, _U32, _U32, _BOOL, _U32),
    "trb_vector_apply_second_bool": (_PASS, _U32, _U32, _U32, _U32, _U32, _BOOL, _U32),
    # Tests of each entry: output, mask, accumulator, test, input, what to compare with, descriptor.
    "trb_matrix_select_int64": (_PASS, _U32, _U32, _U32, _U32, _U32, _I64, _U32),
    "trb_vector_select_int64": (_PASS, _U32, _U32, _U32, _U32, _U32, _I64, _U32),
    "trb_matrix_select_uint64": (_PASS, _U32, _U32, _U32, _U32, _U32, _U64, _U32),
    "trb_vector_select_uint64": (_PASS, _U32, _U32, _U32, _U32, _U32, _U64, _U32),
    "trb_matrix_select_bool": (_PASS, _U32, _U32, _U32, _U32, _U32, _BOOL, _U32),
    "trb_vector_select_bool": (_PASS, _U32, _U32, _U32, _U32, _U32, _BOOL, _U32),
    # Totals: the value, monoid, object.
    "trb_matrix_reduce_uint64": (_PASS, _U64_OUT, _U32, _U32),
    "trb_vector_reduce_uint64": (_PASS, _U64_OUT, _U32, _U32),
    "trb_matrix_reduce_bool": (_PASS, _BOOL_OUT, _U32, _U32),
    "trb_vector_reduce_bool": (_PASS, _BOOL_OUT, _U32, _U32),
    # Waits.
    "trb_matrix_wait": (_PASS, _U32, _U32),
    "trb_vector_wait": (_PASS, _U32, _U32),
    # The version of the library, as a number.
    "trb_version": (),
    # Whether it is proved.
    "trb_is_proved": (),
}


def _places() -> List[str]:
    """Where the library may be, the first place first: in the package, as a wheel has it; where the environment says;
    and where the system's loader looks for a name without a folder."""
    package = Path(__file__).resolve().parent
    inside = [str(package / name) for name in FILE_NAMES if (package / name).exists()]
    named = os.environ.get(ENVIRONMENT_VARIABLE)
    return inside + ([os.path.abspath(named)] if named else list(FILE_NAMES))


def _open_first(places: List[str]) -> ctypes.CDLL:
    """The first of these that loads. `LibraryNotFound` where none does."""
    faults = []
    for place in places:
        try:
            return ctypes.CDLL(place)
        except OSError as fault:
            faults.append(f"  {place}: {fault}")
    raise LibraryNotFound(
        "\n".join(
            [
                "the shared library of Trowelheath was not loaded.",
                f"Set {ENVIRONMENT_VARIABLE} to its path, put {FILE_NAMES[0]} into {Path(__file__).resolve().parent},",
                "or into a folder where the system's loader looks. Tried were:",
                *faults,
            ]
        )
    )


@functools.lru_cache(maxsize=None)
def load() -> ctypes.CDLL:
    """The library, with its functions declared. It is loaded by the first call, and not again.

    Raises:
        LibraryNotFound: no file was found or loaded, or one lacks a function or is of another version.
    """
    library = _open_first(_places())
    for name, parameters in _PARAMETERS.items():
        try:
            function = getattr(library, name)
        except AttributeError:
            raise LibraryNotFound(f"{library._name} has no function {name}: it is no library of this version") from None
        function.argtypes = parameters
        function.restype = None if name == "trb_free" else ctypes.c_int32
    library.trb_is_proved.restype = ctypes.c_bool
    _require_version(library)
    return library


def is_proved() -> bool:
    """Whether the library is proved. Of one that was built before any proof, nothing is claimed.

    Raises:
        LibraryNotFound: no library was loaded.
    """
    return load().trb_is_proved()


def _require_version(library: ctypes.CDLL) -> None:
    """Raises `LibraryNotFound` where the library is not of the version of this package."""
    from . import __version__

    library.trb_version.restype = _U32
    number = library.trb_version()
    found = f"{number // 10000}.{number // 100 % 100}.{number % 100}"
    if found != __version__:
        raise LibraryNotFound(f"{library._name} has the version {found}, and the package {__version__}")
