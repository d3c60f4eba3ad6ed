//! The functions of the library as C declares them, and the pass that they keep in the caller's memory.
//!
//! A function with a result answers a status, as [`Error`](crate::Error) lists them: 0 for success, 1 where no value is stored, and a negative
//! number for a refusal. An array is a pointer and then its length, the number of items.
//!
//! What the caller owes, since nothing checks it:
//!
//! - A `TrbPass` begins as [`TrbPass::none`], and only these functions change it. It may be moved, and is never copied.
//! - One call at a time has a given pass. A pass goes to another thread by something that orders memory.
//! - A pointer is to live and aligned memory of its type, of as many items as the length says. It is writable where the pointer is `*mut`, and
//!   nothing writes it meanwhile where it is `*const`. No two pointers of one call are to memory that overlaps. A `bool` is 0 or 1.
//! - Two stores that are open have two numbers.
//! - `malloc`, `realloc` and `free` are of one allocator. No call is made in a signal handler, or in the child of a fork of threads.

use crate::facts::{Costs, Facts};
use std::ffi::c_void;
use std::mem::{align_of, size_of};
use std::ptr::null_mut;

/// What the library keeps of a pass. Only the library reads it.
#[repr(C)]
struct Raw {
    opaque: *mut c_void,
}

/// A pass that the library has put into memory of the caller, or none.
#[repr(C)]
pub struct TrbPass {
    is_open: bool,
    raw: Raw,
}

impl TrbPass {
    /// No pass.
    pub fn none() -> TrbPass {
        TrbPass {
            is_open: false,
            raw: Raw { opaque: null_mut() },
        }
    }
}

// The library was compiled with this layout.
const _: () = assert!(size_of::<TrbPass>() == 16 && align_of::<TrbPass>() == 8);
const _: () = assert!(size_of::<Facts>() == 28 && align_of::<Facts>() == 4);

/// The version of the library that this crate is for: 10,000 times the first of its parts, 100 times the second, and the third.
pub const VERSION: u32 = 10000;

/// The number that stands for no mask. No object has it.
pub const NO_MASK: u32 = u32::MAX;

/// The number that stands for no accumulator. No operator has it.
pub const NO_ACCUM: u32 = 0;

// What is linked is linked where a program is made, and is not put into this crate's own file. The installed library has the heap in it.
#[cfg_attr(
    trowelheath_installed,
    link(name = "trowelheath", kind = "static", modifiers = "-bundle")
)]
#[cfg_attr(
    not(trowelheath_installed),
    link(name = "grb_c", kind = "static", modifiers = "-bundle")
)]
extern "C" {
    pub fn trb_version() -> u32;
    pub fn trb_is_proved() -> bool;
    pub fn trb_open(store: u64, room: u32, passes: *mut TrbPass, npasses: usize) -> i32;
    pub fn trb_succeed(
        store: u64,
        room: u32,
        pass: *mut TrbPass,
        needed: *mut u64,
        passes: *mut TrbPass,
        npasses: usize,
    ) -> i32;
    pub fn trb_branch(
        store: u64,
        room: u32,
        pass: *mut TrbPass,
        matrices: *const u32,
        nmatrices: usize,
        vectors: *const u32,
        nvectors: usize,
        needed: *mut u64,
        passes: *mut TrbPass,
        npasses: usize,
    ) -> i32;
    pub fn trb_is_full(pass: *mut TrbPass, out: *mut bool) -> i32;
    pub fn trb_chain_open(store: u64, room: u32, passes: *mut TrbPass, npasses: usize) -> i32;
    pub fn trb_chain_generation(pass: *mut TrbPass, out: *mut u64) -> i32;
    pub fn trb_chain_objects_left(pass: *mut TrbPass, out: *mut u64) -> i32;
    pub fn trb_chain_go_on(pass: *mut TrbPass, needed: *mut u64, moved: *mut bool) -> i32;
    pub fn trb_chain_seat(pass: *mut TrbPass, number: u32, into: *mut TrbPass) -> i32;
    pub fn trb_free(pass: *mut TrbPass);
    pub fn trb_meet(pass: *mut TrbPass, other: *mut TrbPass) -> i32;
    pub fn trb_adopt(pass: *mut TrbPass, other: *mut TrbPass) -> i32;
    pub fn trb_prepare(pass: *mut TrbPass, out: *mut u32) -> i32;
    pub fn trb_help(pass: *mut TrbPass, out: *mut u32) -> i32;
    pub fn trb_blocks(pass: *mut TrbPass, out: *mut u64) -> i32;
    pub fn trb_release(pass: *mut TrbPass) -> i32;
    pub fn trb_facts(pass: *mut TrbPass, out: *mut Facts) -> i32;
    pub fn trb_costs(pass: *mut TrbPass, out: *mut Costs) -> i32;
    pub fn trb_matrix_last_info(pass: *mut TrbPass, out: *mut i32, a: u32) -> i32;
    pub fn trb_vector_last_info(pass: *mut TrbPass, out: *mut i32, v: u32) -> i32;

    pub fn trb_matrix_new(
        pass: *mut TrbPass,
        out: *mut u32,
        domain: u32,
        nrows: u64,
        ncols: u64,
    ) -> i32;
    pub fn trb_vector_new(pass: *mut TrbPass, out: *mut u32, domain: u32, size: u64) -> i32;
    pub fn trb_matrix_dup(pass: *mut TrbPass, out: *mut u32, a: u32) -> i32;
    pub fn trb_vector_dup(pass: *mut TrbPass, out: *mut u32, v: u32) -> i32;
    pub fn trb_matrix_diag(pass: *mut TrbPass, out: *mut u32, v: u32, k: i64) -> i32;
    pub fn trb_matrix_free(pass: *mut TrbPass, a: u32) -> i32;
    pub fn trb_vector_free(pass: *mut TrbPass, v: u32) -> i32;
    pub fn trb_matrix_clear(pass: *mut TrbPass, a: u32) -> i32;
    pub fn trb_vector_clear(pass: *mut TrbPass, v: u32) -> i32;
    pub fn trb_matrix_resize(pass: *mut TrbPass, a: u32, nrows: u64, ncols: u64) -> i32;
    pub fn trb_vector_resize(pass: *mut TrbPass, v: u32, size: u64) -> i32;
    pub fn trb_matrix_size(pass: *mut TrbPass, nrows: *mut u64, ncols: *mut u64, a: u32) -> i32;
    pub fn trb_vector_size(pass: *mut TrbPass, out: *mut u64, v: u32) -> i32;

    pub fn trb_matrix_set_uint64(pass: *mut TrbPass, a: u32, x: u64, i: u64, j: u64) -> i32;
    pub fn trb_vector_set_uint64(pass: *mut TrbPass, v: u32, x: u64, i: u64) -> i32;
    pub fn trb_matrix_get_uint64(pass: *mut TrbPass, out: *mut u64, a: u32, i: u64, j: u64) -> i32;
    pub fn trb_vector_get_uint64(pass: *mut TrbPass, out: *mut u64, v: u32, i: u64) -> i32;
    pub fn trb_matrix_set_bool(pass: *mut TrbPass, a: u32, x: bool, i: u64, j: u64) -> i32;
    pub fn trb_vector_set_bool(pass: *mut TrbPass, v: u32, x: bool, i: u64) -> i32;
    pub fn trb_matrix_get_bool(pass: *mut TrbPass, out: *mut bool, a: u32, i: u64, j: u64) -> i32;
    pub fn trb_vector_get_bool(pass: *mut TrbPass, out: *mut bool, v: u32, i: u64) -> i32;
    pub fn trb_matrix_remove(pass: *mut TrbPass, a: u32, i: u64, j: u64) -> i32;
    pub fn trb_vector_remove(pass: *mut TrbPass, v: u32, i: u64) -> i32;
    pub fn trb_matrix_nvals(pass: *mut TrbPass, out: *mut u64, a: u32) -> i32;
    pub fn trb_vector_nvals(pass: *mut TrbPass, out: *mut u64, v: u32) -> i32;
    pub fn trb_matrix_reduce_uint64(pass: *mut TrbPass, out: *mut u64, monoid: u32, a: u32) -> i32;
    pub fn trb_vector_reduce_uint64(pass: *mut TrbPass, out: *mut u64, monoid: u32, v: u32) -> i32;
    pub fn trb_matrix_reduce_bool(pass: *mut TrbPass, out: *mut bool, monoid: u32, a: u32) -> i32;
    pub fn trb_vector_reduce_bool(pass: *mut TrbPass, out: *mut bool, monoid: u32, v: u32) -> i32;

    pub fn trb_matrix_build_from(pass: *mut TrbPass, c: u32, other: *mut TrbPass, a: u32) -> i32;
    pub fn trb_vector_build_from(pass: *mut TrbPass, w: u32, other: *mut TrbPass, v: u32) -> i32;
    pub fn trb_matrix_build_uint64(
        pass: *mut TrbPass,
        a: u32,
        rows: *const u64,
        nrows: usize,
        columns: *const u64,
        ncolumns: usize,
        values: *const u64,
        nvalues: usize,
        dup: u32,
    ) -> i32;
    pub fn trb_vector_build_uint64(
        pass: *mut TrbPass,
        v: u32,
        indices: *const u64,
        nindices: usize,
        values: *const u64,
        nvalues: usize,
        dup: u32,
    ) -> i32;
    pub fn trb_matrix_build_bool(
        pass: *mut TrbPass,
        a: u32,
        rows: *const u64,
        nrows: usize,
        columns: *const u64,
        ncolumns: usize,
        values: *const bool,
        nvalues: usize,
        dup: u32,
    ) -> i32;
    pub fn trb_vector_build_bool(
        pass: *mut TrbPass,
        v: u32,
        indices: *const u64,
        nindices: usize,
        values: *const bool,
        nvalues: usize,
        dup: u32,
    ) -> i32;
    pub fn trb_matrix_tuples_uint64(
        pass: *mut TrbPass,
        rows: *mut u64,
        nrows: usize,
        columns: *mut u64,
        ncolumns: usize,
        values: *mut u64,
        nvalues: usize,
        count: *mut u64,
        a: u32,
    ) -> i32;
    pub fn trb_vector_tuples_uint64(
        pass: *mut TrbPass,
        indices: *mut u64,
        nindices: usize,
        values: *mut u64,
        nvalues: usize,
        count: *mut u64,
        v: u32,
    ) -> i32;
    pub fn trb_matrix_tuples_bool(
        pass: *mut TrbPass,
        rows: *mut u64,
        nrows: usize,
        columns: *mut u64,
        ncolumns: usize,
        values: *mut bool,
        nvalues: usize,
        count: *mut u64,
        a: u32,
    ) -> i32;
    pub fn trb_vector_tuples_bool(
        pass: *mut TrbPass,
        indices: *mut u64,
        nindices: usize,
        values: *mut bool,
        nvalues: usize,
        count: *mut u64,
        v: u32,
    ) -> i32;

    pub fn trb_mxm(
        pass: *mut TrbPass,
        c: u32,
        mask: u32,
        accum: u32,
        monoid: u32,
        op: u32,
        a: u32,
        b: u32,
        desc: u32,
    ) -> i32;
    pub fn trb_mxv(
        pass: *mut TrbPass,
        w: u32,
        mask: u32,
        accum: u32,
        monoid: u32,
        op: u32,
        a: u32,
        u: u32,
        desc: u32,
    ) -> i32;
    pub fn trb_vxm(
        pass: *mut TrbPass,
        w: u32,
        mask: u32,
        accum: u32,
        monoid: u32,
        op: u32,
        u: u32,
        a: u32,
        desc: u32,
    ) -> i32;
    pub fn trb_matrix_ewise_add(
        pass: *mut TrbPass,
        c: u32,
        mask: u32,
        accum: u32,
        op: u32,
        a: u32,
        b: u32,
        desc: u32,
    ) -> i32;
    pub fn trb_vector_ewise_add(
        pass: *mut TrbPass,
        w: u32,
        mask: u32,
        accum: u32,
        op: u32,
        u: u32,
        v: u32,
        desc: u32,
    ) -> i32;
    pub fn trb_matrix_ewise_mult(
        pass: *mut TrbPass,
        c: u32,
        mask: u32,
        accum: u32,
        op: u32,
        a: u32,
        b: u32,
        desc: u32,
    ) -> i32;
    pub fn trb_vector_ewise_mult(
        pass: *mut TrbPass,
        w: u32,
        mask: u32,
        accum: u32,
        op: u32,
        u: u32,
        v: u32,
        desc: u32,
    ) -> i32;
    pub fn trb_reduce_rows(
        pass: *mut TrbPass,
        w: u32,
        mask: u32,
        accum: u32,
        monoid: u32,
        a: u32,
        desc: u32,
    ) -> i32;
    pub fn trb_transpose(
        pass: *mut TrbPass,
        c: u32,
        mask: u32,
        accum: u32,
        a: u32,
        desc: u32,
    ) -> i32;
    pub fn trb_matrix_apply(
        pass: *mut TrbPass,
        c: u32,
        mask: u32,
        accum: u32,
        op: u32,
        a: u32,
        desc: u32,
    ) -> i32;
    pub fn trb_matrix_apply_first_uint64(
        pass: *mut TrbPass,
        c: u32,
        mask: u32,
        accum: u32,
        op: u32,
        x: u64,
        a: u32,
        desc: u32,
    ) -> i32;
    pub fn trb_matrix_apply_second_uint64(
        pass: *mut TrbPass,
        c: u32,
        mask: u32,
        accum: u32,
        op: u32,
        a: u32,
        y: u64,
        desc: u32,
    ) -> i32;
    pub fn trb_matrix_apply_first_bool(
        pass: *mut TrbPass,
        c: u32,
        mask: u32,
        accum: u32,
        op: u32,
        x: bool,
        a: u32,
        desc: u32,
    ) -> i32;
    pub fn trb_matrix_apply_second_bool(
        pass: *mut TrbPass,
        c: u32,
        mask: u32,
        accum: u32,
        op: u32,
        a: u32,
        y: bool,
        desc: u32,
    ) -> i32;
    pub fn trb_matrix_select_int64(
        pass: *mut TrbPass,
        c: u32,
        mask: u32,
        accum: u32,
        test: u32,
        a: u32,
        k: i64,
        desc: u32,
    ) -> i32;
    pub fn trb_matrix_select_uint64(
        pass: *mut TrbPass,
        c: u32,
        mask: u32,
        accum: u32,
        test: u32,
        a: u32,
        x: u64,
        desc: u32,
    ) -> i32;
    pub fn trb_matrix_select_bool(
        pass: *mut TrbPass,
        c: u32,
        mask: u32,
        accum: u32,
        test: u32,
        a: u32,
        x: bool,
        desc: u32,
    ) -> i32;
    pub fn trb_vector_apply(
        pass: *mut TrbPass,
        w: u32,
        mask: u32,
        accum: u32,
        op: u32,
        u: u32,
        desc: u32,
    ) -> i32;
    pub fn trb_vector_apply_first_uint64(
        pass: *mut TrbPass,
        w: u32,
        mask: u32,
        accum: u32,
        op: u32,
        x: u64,
        u: u32,
        desc: u32,
    ) -> i32;
    pub fn trb_vector_apply_second_uint64(
        pass: *mut TrbPass,
        w: u32,
        mask: u32,
        accum: u32,
        op: u32,
        u: u32,
        y: u64,
        desc: u32,
    ) -> i32;
    pub fn trb_vector_apply_first_bool(
        pass: *mut TrbPass,
        w: u32,
        mask: u32,
        accum: u32,
        op: u32,
        x: bool,
        u: u32,
        desc: u32,
    ) -> i32;
    pub fn trb_vector_apply_second_bool(
        pass: *mut TrbPass,
        w: u32,
        mask: u32,
        accum: u32,
        op: u32,
        u: u32,
        y: bool,
        desc: u32,
    ) -> i32;
    pub fn trb_vector_select_int64(
        pass: *mut TrbPass,
        w: u32,
        mask: u32,
        accum: u32,
        test: u32,
        u: u32,
        k: i64,
        desc: u32,
    ) -> i32;
    pub fn trb_vector_select_uint64(
        pass: *mut TrbPass,
        w: u32,
        mask: u32,
        accum: u32,
        test: u32,
        u: u32,
        x: u64,
        desc: u32,
    ) -> i32;
    pub fn trb_vector_select_bool(
        pass: *mut TrbPass,
        w: u32,
        mask: u32,
        accum: u32,
        test: u32,
        u: u32,
        x: bool,
        desc: u32,
    ) -> i32;
    pub fn trb_matrix_kronecker(
        pass: *mut TrbPass,
        c: u32,
        mask: u32,
        accum: u32,
        op: u32,
        a: u32,
        b: u32,
        desc: u32,
    ) -> i32;
    pub fn trb_matrix_wait(pass: *mut TrbPass, a: u32, mode: u32) -> i32;
    pub fn trb_vector_wait(pass: *mut TrbPass, v: u32, mode: u32) -> i32;
}

// The heap, of which the library above asks its memory. So it comes after it.
#[cfg(not(trowelheath_installed))]
#[link(name = "libc_c", kind = "static", modifiers = "-bundle")]
extern "C" {}
