//! What matrices and vectors have in common.

use crate::descriptor::Numbers;
use crate::element::Element;
use crate::entries::Lists;
use crate::error::Error;
use crate::function::Function;
use crate::store::Store;
use crate::sys::TrbPass;
use crate::test::Test;
use std::fmt::Debug;
use std::hash::Hash;

/// A handle of a matrix or a vector: [`Matrix`](crate::Matrix) or [`Vector`](crate::Vector).
///
/// A handle is a number, the name of its store, and in its type the domain of the values. It is copied freely, goes to any thread, and frees
/// nothing where it ends. A handle of a freed object is refused, never followed.
///
/// No other type can implement this trait.
pub trait Object:
    Calls<<Self as Object>::Element, <Self as Object>::Index, <Self as Object>::Entries>
    + Copy
    + Eq
    + Hash
    + Debug
    + Send
    + Sync
    + 'static
{
    /// The type of its values.
    type Element: Element;

    /// Where an entry stands, from 0: `(row, column)` in a matrix, the index in a vector. Dimensions have this form too: `(rows, columns)`
    /// of a matrix, the size of a vector.
    type Index: Copy + Default + Debug;

    /// An entry: `(row, column, value)` of a matrix, `(index, value)` of a vector.
    type Entry: Copy + Debug;

    /// All entries at one moment: [`MatrixEntries`](crate::MatrixEntries) or [`VectorEntries`](crate::VectorEntries).
    type Entries: Lists<Self::Entry> + IntoIterator<Item = Self::Entry>;

    /// The store that it is of.
    fn store(self) -> Store;
}

/// The library's functions for one sort of object, with references in place of pointers. All but `build`, which may need a copy of its lists
/// first, answer the status.
pub trait Calls<T, I, E>: Sized {
    const IS_MATRIX: bool;
    fn place(index: I) -> (u64, u64);
    fn of(store: Store, number: u32) -> Self;
    fn number(self) -> u32;
    fn dup(self, pass: &mut TrbPass, out: &mut u32) -> i32;
    fn free(self, pass: &mut TrbPass) -> i32;
    fn clear(self, pass: &mut TrbPass) -> i32;
    fn resize(self, pass: &mut TrbPass, size: I) -> i32;
    fn size(self, pass: &mut TrbPass, out: &mut I) -> i32;
    fn set(self, pass: &mut TrbPass, index: I, value: T) -> i32;
    fn get(self, pass: &mut TrbPass, out: &mut T, index: I) -> i32;
    fn remove(self, pass: &mut TrbPass, index: I) -> i32;
    fn nvals(self, pass: &mut TrbPass, out: &mut u64) -> i32;
    fn reduce(self, pass: &mut TrbPass, out: &mut T, monoid: u32) -> i32;
    fn build(self, pass: &mut TrbPass, entries: &E, dup: u32) -> Result<(), Error>;
    fn build_of(self, pass: &mut TrbPass, other: &mut TrbPass, from: Self) -> i32;
    fn tuples(self, pass: &mut TrbPass, entries: &mut E, count: &mut u64) -> i32;
    fn ewise_add(self, pass: &mut TrbPass, how: Numbers, op: u32, a: Self, b: Self) -> i32;
    fn ewise_mult(self, pass: &mut TrbPass, how: Numbers, op: u32, a: Self, b: Self) -> i32;
    fn apply(self, pass: &mut TrbPass, how: Numbers, function: Function<T>, a: Self) -> i32;
    fn select(self, pass: &mut TrbPass, how: Numbers, test: Test<T>, a: Self) -> i32;
    fn wait(self, pass: &mut TrbPass, mode: u32) -> i32;
    fn last_info(self, pass: &mut TrbPass, out: &mut i32) -> i32;
}

/// An object that may be the mask of an output of type `O`: a matrix of a matrix, a vector of a vector, of either domain.
///
/// No other type can implement this trait.
pub trait Mask<O>: Object {}
