//! Vectors: the handle, and the library's functions for them.

use crate::descriptor::Numbers;
use crate::element::Element;
use crate::entries::VectorEntries;
use crate::error::{done, Error};
use crate::function::Function;
use crate::object::{Calls, Mask, Object};
use crate::pass::Pass;
use crate::slices::apart_from;
use crate::store::Store;
use crate::sys::{self, TrbPass};
use crate::test::{Bound, Test};
use std::marker::PhantomData;

/// A handle of a vector of values of type `T`, whose indices are counted from 0.
///
/// [`Pass::new_vector`](crate::Pass::new_vector) makes one. See [`Object`] for what a handle is.
#[derive(Clone, Copy, Debug, PartialEq, Eq, Hash)]
pub struct Vector<T> {
    store: Store,
    number: u32,
    element: PhantomData<T>,
}

impl<T: Element> Object for Vector<T> {
    type Element = T;
    type Index = u64;
    type Entry = (u64, T);
    type Entries = VectorEntries<T>;

    fn store(self) -> Store {
        self.store
    }
}

impl<T: Element, M: Element> Mask<Vector<T>> for Vector<M> {}

impl<T: Element> Vector<T> {
    /// Its size.
    pub(crate) fn size_of(self, pass: &mut Pass) -> Result<u64, Error> {
        let mut size = 0;
        done(self.size(&mut pass.raw, &mut size))?;
        Ok(size)
    }

    /// Fills the vector, which stores nothing.
    pub(crate) fn build_from(
        self,
        pass: &mut TrbPass,
        indices: &[u64],
        values: &[T],
        dup: u32,
    ) -> Result<(), Error> {
        let values = apart_from(values, indices)?;
        // SAFETY: `pass` is a mutable reference, so this call alone has the pass, and no slice is part of it. The library reads the slices and
        // writes none; each is borrowed with its own length, and the two share no memory.
        done(unsafe {
            T::VECTOR_BUILD(
                pass,
                self.number,
                indices.as_ptr(),
                indices.len(),
                values.as_ptr(),
                values.len(),
                dup,
            )
        })
    }
}

// In each call below `pass` is a mutable reference, so this call alone has the pass. So is each place for an answer: it is live, aligned
// and writable, and shares no memory with the pass or another place.
impl<T: Element> Calls<T, u64, VectorEntries<T>> for Vector<T> {
    const IS_MATRIX: bool = false;

    fn place(index: u64) -> (u64, u64) {
        (index, 0)
    }

    fn of(store: Store, number: u32) -> Vector<T> {
        Vector {
            store,
            number,
            element: PhantomData,
        }
    }

    fn number(self) -> u32 {
        self.number
    }

    fn dup(self, pass: &mut TrbPass, out: &mut u32) -> i32 {
        // SAFETY: the pass and the place are mutable references.
        unsafe { sys::trb_vector_dup(pass, out, self.number) }
    }

    fn free(self, pass: &mut TrbPass) -> i32 {
        // SAFETY: the pass is a mutable reference.
        unsafe { sys::trb_vector_free(pass, self.number) }
    }

    fn clear(self, pass: &mut TrbPass) -> i32 {
        // SAFETY: the pass is a mutable reference.
        unsafe { sys::trb_vector_clear(pass, self.number) }
    }

    fn resize(self, pass: &mut TrbPass, size: u64) -> i32 {
        // SAFETY: the pass is a mutable reference.
        unsafe { sys::trb_vector_resize(pass, self.number, size) }
    }

    fn size(self, pass: &mut TrbPass, out: &mut u64) -> i32 {
        // SAFETY: the pass and the place are mutable references.
        unsafe { sys::trb_vector_size(pass, out, self.number) }
    }

    fn set(self, pass: &mut TrbPass, i: u64, value: T) -> i32 {
        // SAFETY: the pass is a mutable reference. A `bool` of Rust is 0 or 1.
        unsafe { T::VECTOR_SET(pass, self.number, value, i) }
    }

    fn get(self, pass: &mut TrbPass, out: &mut T, i: u64) -> i32 {
        // SAFETY: the pass and the place are mutable references.
        unsafe { T::VECTOR_GET(pass, out, self.number, i) }
    }

    fn remove(self, pass: &mut TrbPass, i: u64) -> i32 {
        // SAFETY: the pass is a mutable reference.
        unsafe { sys::trb_vector_remove(pass, self.number, i) }
    }

    fn nvals(self, pass: &mut TrbPass, out: &mut u64) -> i32 {
        // SAFETY: the pass and the place are mutable references.
        unsafe { sys::trb_vector_nvals(pass, out, self.number) }
    }

    fn reduce(self, pass: &mut TrbPass, out: &mut T, monoid: u32) -> i32 {
        // SAFETY: the pass and the place are mutable references.
        unsafe { T::VECTOR_REDUCE(pass, out, monoid, self.number) }
    }

    fn build(self, pass: &mut TrbPass, entries: &VectorEntries<T>, dup: u32) -> Result<(), Error> {
        self.build_from(pass, entries.indices(), entries.values(), dup)
    }

    fn build_of(self, pass: &mut TrbPass, other: &mut TrbPass, from: Self) -> i32 {
        // SAFETY: both passes are mutable references, so they are two, and this call alone has them.
        unsafe { sys::trb_vector_build_from(pass, self.number, other, from.number) }
    }

    fn tuples(self, pass: &mut TrbPass, entries: &mut VectorEntries<T>, count: &mut u64) -> i32 {
        let (indices, values) = entries.as_mut_slices();
        // SAFETY: the pass, both slices and the place of the count are mutable references, and each slice goes with its own length.
        unsafe {
            T::VECTOR_TUPLES(
                pass,
                indices.as_mut_ptr(),
                indices.len(),
                values.as_mut_ptr(),
                values.len(),
                count,
                self.number,
            )
        }
    }

    fn ewise_add(
        self,
        pass: &mut TrbPass,
        how: Numbers,
        op: u32,
        u: Vector<T>,
        v: Vector<T>,
    ) -> i32 {
        let Numbers { mask, accum, bits } = how;
        // SAFETY: the pass is a mutable reference.
        unsafe {
            sys::trb_vector_ewise_add(pass, self.number, mask, accum, op, u.number, v.number, bits)
        }
    }

    fn ewise_mult(
        self,
        pass: &mut TrbPass,
        how: Numbers,
        op: u32,
        u: Vector<T>,
        v: Vector<T>,
    ) -> i32 {
        let Numbers { mask, accum, bits } = how;
        // SAFETY: the pass is a mutable reference.
        unsafe {
            sys::trb_vector_ewise_mult(pass, self.number, mask, accum, op, u.number, v.number, bits)
        }
    }

    fn apply(self, pass: &mut TrbPass, how: Numbers, function: Function<T>, u: Vector<T>) -> i32 {
        let Numbers { mask, accum, bits } = how;
        let (w, u) = (self.number, u.number);
        // SAFETY: the pass is a mutable reference. A `bool` of Rust is 0 or 1.
        unsafe {
            match function {
                Function::Unary(op) => {
                    sys::trb_vector_apply(pass, w, mask, accum, op.number(), u, bits)
                }
                Function::First(x, op) => {
                    T::VECTOR_APPLY_FIRST(pass, w, mask, accum, op.number(), x, u, bits)
                }
                Function::Second(op, y) => {
                    T::VECTOR_APPLY_SECOND(pass, w, mask, accum, op.number(), u, y, bits)
                }
            }
        }
    }

    fn select(self, pass: &mut TrbPass, how: Numbers, test: Test<T>, u: Vector<T>) -> i32 {
        let Numbers { mask, accum, bits } = how;
        let (w, u, number) = (self.number, u.number, test.number());
        // SAFETY: the pass is a mutable reference. A `bool` of Rust is 0 or 1.
        unsafe {
            match test.bound() {
                Bound::Place(k) => {
                    sys::trb_vector_select_int64(pass, w, mask, accum, number, u, k, bits)
                }
                Bound::Value(x) => T::VECTOR_SELECT(pass, w, mask, accum, number, u, x, bits),
            }
        }
    }

    fn wait(self, pass: &mut TrbPass, mode: u32) -> i32 {
        // SAFETY: the pass is a mutable reference.
        unsafe { sys::trb_vector_wait(pass, self.number, mode) }
    }

    fn last_info(self, pass: &mut TrbPass, out: &mut i32) -> i32 {
        // SAFETY: the pass and the place are mutable references.
        unsafe { sys::trb_vector_last_info(pass, out, self.number) }
    }
}
