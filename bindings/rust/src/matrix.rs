//! Matrices: the handle, and the library's functions for them.

use crate::descriptor::Numbers;
use crate::element::Element;
use crate::entries::MatrixEntries;
use crate::error::{done, Error};
use crate::function::Function;
use crate::object::{Calls, Mask, Object};
use crate::pass::Pass;
use crate::slices::apart_from;
use crate::store::Store;
use crate::sys::{self, TrbPass};
use crate::test::{Bound, Test};
use std::marker::PhantomData;

/// A handle of a matrix of values of type `T`, whose rows and columns are counted from 0.
///
/// [`Pass::new_matrix`](crate::Pass::new_matrix) makes one. See [`Object`] for what a handle is.
#[derive(Clone, Copy, Debug, PartialEq, Eq, Hash)]
pub struct Matrix<T> {
    store: Store,
    number: u32,
    element: PhantomData<T>,
}

impl<T: Element> Object for Matrix<T> {
    type Element = T;
    type Index = (u64, u64);
    type Entry = (u64, u64, T);
    type Entries = MatrixEntries<T>;

    fn store(self) -> Store {
        self.store
    }
}

impl<T: Element, M: Element> Mask<Matrix<T>> for Matrix<M> {}

impl<T: Element> Matrix<T> {
    /// Its dimensions.
    pub(crate) fn size_of(self, pass: &mut Pass) -> Result<(u64, u64), Error> {
        let mut size = (0, 0);
        done(self.size(&mut pass.raw, &mut size))?;
        Ok(size)
    }

    /// Fills the matrix, which stores nothing.
    pub(crate) fn build_from(
        self,
        pass: &mut TrbPass,
        rows: &[u64],
        columns: &[u64],
        values: &[T],
        dup: u32,
    ) -> Result<(), Error> {
        let columns = apart_from(columns, rows)?;
        let values = apart_from(values, rows)?;
        let values = apart_from(&values, &columns)?;
        // SAFETY: `pass` is a mutable reference, so this call alone has the pass, and no slice is part of it. The library reads the slices and
        // writes none; each is borrowed with its own length, and no two share memory.
        done(unsafe {
            T::MATRIX_BUILD(
                pass,
                self.number,
                rows.as_ptr(),
                rows.len(),
                columns.as_ptr(),
                columns.len(),
                values.as_ptr(),
                values.len(),
                dup,
            )
        })
    }
}

// In each call below `pass` is a mutable reference, so this call alone has the pass. So is each place for an answer: it is live, aligned
// and writable, and shares no memory with the pass or another place.
impl<T: Element> Calls<T, (u64, u64), MatrixEntries<T>> for Matrix<T> {
    const IS_MATRIX: bool = true;

    fn place(index: (u64, u64)) -> (u64, u64) {
        index
    }

    fn of(store: Store, number: u32) -> Matrix<T> {
        Matrix {
            store,
            number,
            element: PhantomData,
        }
    }

    fn number(self) -> u32 {
        self.number
    }

    fn dup(self, pass: &mut TrbPass, out: &mut u32) -> i32 {
        // SAFETY: the pass and the place are mutable references.
        unsafe { sys::trb_matrix_dup(pass, out, self.number) }
    }

    fn free(self, pass: &mut TrbPass) -> i32 {
        // SAFETY: the pass is a mutable reference.
        unsafe { sys::trb_matrix_free(pass, self.number) }
    }

    fn clear(self, pass: &mut TrbPass) -> i32 {
        // SAFETY: the pass is a mutable reference.
        unsafe { sys::trb_matrix_clear(pass, self.number) }
    }

    fn resize(self, pass: &mut TrbPass, (nrows, ncols): (u64, u64)) -> i32 {
        // SAFETY: the pass is a mutable reference.
        unsafe { sys::trb_matrix_resize(pass, self.number, nrows, ncols) }
    }

    fn size(self, pass: &mut TrbPass, (nrows, ncols): &mut (u64, u64)) -> i32 {
        // SAFETY: the pass and both places are mutable references.
        unsafe { sys::trb_matrix_size(pass, nrows, ncols, self.number) }
    }

    fn set(self, pass: &mut TrbPass, (i, j): (u64, u64), value: T) -> i32 {
        // SAFETY: the pass is a mutable reference. A `bool` of Rust is 0 or 1.
        unsafe { T::MATRIX_SET(pass, self.number, value, i, j) }
    }

    fn get(self, pass: &mut TrbPass, out: &mut T, (i, j): (u64, u64)) -> i32 {
        // SAFETY: the pass and the place are mutable references.
        unsafe { T::MATRIX_GET(pass, out, self.number, i, j) }
    }

    fn remove(self, pass: &mut TrbPass, (i, j): (u64, u64)) -> i32 {
        // SAFETY: the pass is a mutable reference.
        unsafe { sys::trb_matrix_remove(pass, self.number, i, j) }
    }

    fn nvals(self, pass: &mut TrbPass, out: &mut u64) -> i32 {
        // SAFETY: the pass and the place are mutable references.
        unsafe { sys::trb_matrix_nvals(pass, out, self.number) }
    }

    fn reduce(self, pass: &mut TrbPass, out: &mut T, monoid: u32) -> i32 {
        // SAFETY: the pass and the place are mutable references.
        unsafe { T::MATRIX_REDUCE(pass, out, monoid, self.number) }
    }

    fn build(self, pass: &mut TrbPass, entries: &MatrixEntries<T>, dup: u32) -> Result<(), Error> {
        self.build_from(
            pass,
            entries.rows(),
            entries.columns(),
            entries.values(),
            dup,
        )
    }

    fn build_of(self, pass: &mut TrbPass, other: &mut TrbPass, from: Self) -> i32 {
        // SAFETY: both passes are mutable references, so they are two, and this call alone has them.
        unsafe { sys::trb_matrix_build_from(pass, self.number, other, from.number) }
    }

    fn tuples(self, pass: &mut TrbPass, entries: &mut MatrixEntries<T>, count: &mut u64) -> i32 {
        let (rows, columns, values) = entries.as_mut_slices();
        // SAFETY: the pass, the three slices and the place of the count are mutable references, and each slice goes with its own length.
        unsafe {
            T::MATRIX_TUPLES(
                pass,
                rows.as_mut_ptr(),
                rows.len(),
                columns.as_mut_ptr(),
                columns.len(),
                values.as_mut_ptr(),
                values.len(),
                count,
                self.number,
            )
        }
    }

    fn ewise_add(
        self,
        pass: &mut TrbPass,
        how: Numbers,
        op: u32,
        a: Matrix<T>,
        b: Matrix<T>,
    ) -> i32 {
        let Numbers { mask, accum, bits } = how;
        // SAFETY: the pass is a mutable reference.
        unsafe {
            sys::trb_matrix_ewise_add(pass, self.number, mask, accum, op, a.number, b.number, bits)
        }
    }

    fn ewise_mult(
        self,
        pass: &mut TrbPass,
        how: Numbers,
        op: u32,
        a: Matrix<T>,
        b: Matrix<T>,
    ) -> i32 {
        let Numbers { mask, accum, bits } = how;
        // SAFETY: the pass is a mutable reference.
        unsafe {
            sys::trb_matrix_ewise_mult(pass, self.number, mask, accum, op, a.number, b.number, bits)
        }
    }

    fn apply(self, pass: &mut TrbPass, how: Numbers, function: Function<T>, a: Matrix<T>) -> i32 {
        let Numbers { mask, accum, bits } = how;
        let (c, a) = (self.number, a.number);
        // SAFETY: the pass is a mutable reference. A `bool` of Rust is 0 or 1.
        unsafe {
            match function {
                Function::Unary(op) => {
                    sys::trb_matrix_apply(pass, c, mask, accum, op.number(), a, bits)
                }
                Function::First(x, op) => {
                    T::MATRIX_APPLY_FIRST(pass, c, mask, accum, op.number(), x, a, bits)
                }
                Function::Second(op, y) => {
                    T::MATRIX_APPLY_SECOND(pass, c, mask, accum, op.number(), a, y, bits)
                }
            }
        }
    }

    fn select(self, pass: &mut TrbPass, how: Numbers, test: Test<T>, a: Matrix<T>) -> i32 {
        let Numbers { mask, accum, bits } = how;
        let (c, a, number) = (self.number, a.number, test.number());
        // SAFETY: the pass is a mutable reference. A `bool` of Rust is 0 or 1.
        unsafe {
            match test.bound() {
                Bound::Place(k) => {
                    sys::trb_matrix_select_int64(pass, c, mask, accum, number, a, k, bits)
                }
                Bound::Value(x) => T::MATRIX_SELECT(pass, c, mask, accum, number, a, x, bits),
            }
        }
    }

    fn wait(self, pass: &mut TrbPass, mode: u32) -> i32 {
        // SAFETY: the pass is a mutable reference.
        unsafe { sys::trb_matrix_wait(pass, self.number, mode) }
    }

    fn last_info(self, pass: &mut TrbPass, out: &mut i32) -> i32 {
        // SAFETY: the pass and the place are mutable references.
        unsafe { sys::trb_matrix_last_info(pass, out, self.number) }
    }
}
