//! The two domains of values, and the library's functions for each.

use crate::sys::{self, TrbPass};
use std::fmt::{Debug, Display};
use std::hash::Hash;

/// A type of values that a matrix or a vector stores: `bool`, the domain `GrB_BOOL`, or `u64`, the domain `GrB_UINT64`.
///
/// Sums, differences and products of numbers are modulo 2^64. A stored `false` or 0 is a stored entry.
///
/// No other type can implement this trait.
pub trait Element:
    Functions + Copy + Default + Ord + Hash + Debug + Display + Send + Sync + 'static
{
}

impl Element for bool {}

impl Element for u64 {}

/// The library's functions that take or give values of one domain.
pub trait Functions: Sized {
    /// The number of the domain, that of `GrB_Type_Code`.
    const DOMAIN: u32;
    const MATRIX_SET: MatrixSet<Self>;
    const VECTOR_SET: VectorSet<Self>;
    const MATRIX_GET: MatrixGet<Self>;
    const VECTOR_GET: VectorGet<Self>;
    const MATRIX_REDUCE: Reduce<Self>;
    const VECTOR_REDUCE: Reduce<Self>;
    const MATRIX_BUILD: MatrixBuild<Self>;
    const VECTOR_BUILD: VectorBuild<Self>;
    const MATRIX_TUPLES: MatrixTuples<Self>;
    const VECTOR_TUPLES: VectorTuples<Self>;
    const MATRIX_APPLY_FIRST: ApplyFirst<Self>;
    const VECTOR_APPLY_FIRST: ApplyFirst<Self>;
    const MATRIX_APPLY_SECOND: ApplySecond<Self>;
    const VECTOR_APPLY_SECOND: ApplySecond<Self>;
    const MATRIX_SELECT: Select<Self>;
    const VECTOR_SELECT: Select<Self>;
}

/// `(pass, a, x, i, j)`
pub type MatrixSet<T> = unsafe extern "C" fn(*mut TrbPass, u32, T, u64, u64) -> i32;

/// `(pass, v, x, i)`
pub type VectorSet<T> = unsafe extern "C" fn(*mut TrbPass, u32, T, u64) -> i32;

/// `(pass, out, a, i, j)`
pub type MatrixGet<T> = unsafe extern "C" fn(*mut TrbPass, *mut T, u32, u64, u64) -> i32;

/// `(pass, out, v, i)`
pub type VectorGet<T> = unsafe extern "C" fn(*mut TrbPass, *mut T, u32, u64) -> i32;

/// `(pass, out, monoid, object)`
pub type Reduce<T> = unsafe extern "C" fn(*mut TrbPass, *mut T, u32, u32) -> i32;

/// `(pass, a, rows, nrows, columns, ncolumns, values, nvalues, dup)`
pub type MatrixBuild<T> = unsafe extern "C" fn(
    *mut TrbPass,
    u32,
    *const u64,
    usize,
    *const u64,
    usize,
    *const T,
    usize,
    u32,
) -> i32;

/// `(pass, v, indices, nindices, values, nvalues, dup)`
pub type VectorBuild<T> =
    unsafe extern "C" fn(*mut TrbPass, u32, *const u64, usize, *const T, usize, u32) -> i32;

/// `(pass, rows, nrows, columns, ncolumns, values, nvalues, count, a)`
pub type MatrixTuples<T> = unsafe extern "C" fn(
    *mut TrbPass,
    *mut u64,
    usize,
    *mut u64,
    usize,
    *mut T,
    usize,
    *mut u64,
    u32,
) -> i32;

/// `(pass, indices, nindices, values, nvalues, count, v)`
pub type VectorTuples<T> =
    unsafe extern "C" fn(*mut TrbPass, *mut u64, usize, *mut T, usize, *mut u64, u32) -> i32;

/// `(pass, output, mask, accum, op, x, input, desc)`
pub type ApplyFirst<T> = unsafe extern "C" fn(*mut TrbPass, u32, u32, u32, u32, T, u32, u32) -> i32;

/// `(pass, output, mask, accum, op, input, y, desc)`
pub type ApplySecond<T> =
    unsafe extern "C" fn(*mut TrbPass, u32, u32, u32, u32, u32, T, u32) -> i32;

/// `(pass, output, mask, accum, test, input, x, desc)`
pub type Select<T> = unsafe extern "C" fn(*mut TrbPass, u32, u32, u32, u32, u32, T, u32) -> i32;

impl Functions for bool {
    const DOMAIN: u32 = 1;
    const MATRIX_SET: MatrixSet<bool> = sys::trb_matrix_set_bool;
    const VECTOR_SET: VectorSet<bool> = sys::trb_vector_set_bool;
    const MATRIX_GET: MatrixGet<bool> = sys::trb_matrix_get_bool;
    const VECTOR_GET: VectorGet<bool> = sys::trb_vector_get_bool;
    const MATRIX_REDUCE: Reduce<bool> = sys::trb_matrix_reduce_bool;
    const VECTOR_REDUCE: Reduce<bool> = sys::trb_vector_reduce_bool;
    const MATRIX_BUILD: MatrixBuild<bool> = sys::trb_matrix_build_bool;
    const VECTOR_BUILD: VectorBuild<bool> = sys::trb_vector_build_bool;
    const MATRIX_TUPLES: MatrixTuples<bool> = sys::trb_matrix_tuples_bool;
    const VECTOR_TUPLES: VectorTuples<bool> = sys::trb_vector_tuples_bool;
    const MATRIX_APPLY_FIRST: ApplyFirst<bool> = sys::trb_matrix_apply_first_bool;
    const VECTOR_APPLY_FIRST: ApplyFirst<bool> = sys::trb_vector_apply_first_bool;
    const MATRIX_APPLY_SECOND: ApplySecond<bool> = sys::trb_matrix_apply_second_bool;
    const VECTOR_APPLY_SECOND: ApplySecond<bool> = sys::trb_vector_apply_second_bool;
    const MATRIX_SELECT: Select<bool> = sys::trb_matrix_select_bool;
    const VECTOR_SELECT: Select<bool> = sys::trb_vector_select_bool;
}

impl Functions for u64 {
    const DOMAIN: u32 = 9;
    const MATRIX_SET: MatrixSet<u64> = sys::trb_matrix_set_uint64;
    const VECTOR_SET: VectorSet<u64> = sys::trb_vector_set_uint64;
    const MATRIX_GET: MatrixGet<u64> = sys::trb_matrix_get_uint64;
    const VECTOR_GET: VectorGet<u64> = sys::trb_vector_get_uint64;
    const MATRIX_REDUCE: Reduce<u64> = sys::trb_matrix_reduce_uint64;
    const VECTOR_REDUCE: Reduce<u64> = sys::trb_vector_reduce_uint64;
    const MATRIX_BUILD: MatrixBuild<u64> = sys::trb_matrix_build_uint64;
    const VECTOR_BUILD: VectorBuild<u64> = sys::trb_vector_build_uint64;
    const MATRIX_TUPLES: MatrixTuples<u64> = sys::trb_matrix_tuples_uint64;
    const VECTOR_TUPLES: VectorTuples<u64> = sys::trb_vector_tuples_uint64;
    const MATRIX_APPLY_FIRST: ApplyFirst<u64> = sys::trb_matrix_apply_first_uint64;
    const VECTOR_APPLY_FIRST: ApplyFirst<u64> = sys::trb_vector_apply_first_uint64;
    const MATRIX_APPLY_SECOND: ApplySecond<u64> = sys::trb_matrix_apply_second_uint64;
    const VECTOR_APPLY_SECOND: ApplySecond<u64> = sys::trb_vector_apply_second_uint64;
    const MATRIX_SELECT: Select<u64> = sys::trb_matrix_select_uint64;
    const VECTOR_SELECT: Select<u64> = sys::trb_vector_select_uint64;
}
