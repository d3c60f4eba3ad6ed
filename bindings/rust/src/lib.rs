//! Trowelheath is a store of sparse matrices and vectors, with the operations of GraphBLAS, that many threads share without locks.
//!
//! Each thread holds a [`Pass`], its own view of the store. A call that changes the store is checked, put into one shared history and answered
//! at once. Its work waits until somebody reads a result that needs it. Each call takes effect at one moment between its start and its
//! return: the store is linearizable, and no call waits for another thread.
//!
//! The store is a static library, which is proved, unless [`is_proved`] denies it. This crate calls it, and its types see to what the library asks of its
//! callers. That they do is not proved; the source says why, next to each call. No program that uses the crate needs `unsafe`.
//!
//! # First steps
//!
//! ```no_run
//! use trowelheath::{Chain, Descriptor, Error, Monoid, Semiring};
//!
//! fn main() -> Result<(), Error> {
//!     let [mut pass] = Chain::open_array()?;
//!
//!     let v = pass.new_vector::<u64>(10)?;
//!     pass.set(v, 0, 7)?;
//!     assert_eq!(pass.get(v, 0)?, Some(7));
//!     assert_eq!(pass.get(v, 9)?, None);
//!     assert_eq!(pass.get(v, 10), Err(Error::InvalidIndex));
//!
//!     let a = pass.new_matrix::<u64>(2, 10)?;
//!     pass.build(a, [(0, 0, 1), (0, 3, 1), (1, 6, 1)], Monoid::PLUS)?;
//!     let w = pass.new_vector(2)?;
//!     pass.mxv(w, Semiring::PLUS_TIMES, a, v, Descriptor::new())?;
//!     assert_eq!(pass.get(w, 0)?, Some(7));
//!     Ok(())
//! }
//! ```
//!
//! # Objects
//!
//! [`Matrix`] and [`Vector`] are handles: numbers that are copied freely and go to any thread. Their type has the domain of the values,
//! `bool` or `u64`, so truth values and numbers are mixed by no program that compiles. Indices are counted from 0; dimensions are from 1 to
//! 4,294,967,295. Most methods of a pass take an object of either sort: an entry of a matrix stands at `(row, column)`, one of a vector
//! at an index.
//!
//! # Threads
//!
//! A chain, or a [`Store`] of bounded room, is opened with all its passes. Move one to each thread; handles go along.
//!
//! ```no_run
//! use std::thread;
//! use trowelheath::{Chain, Error};
//!
//! fn main() -> Result<(), Error> {
//!     let [mut main, mut first, mut second] = Chain::open_array()?;
//!     let v = main.new_vector::<u64>(10)?;
//!     thread::scope(|scope| {
//!         scope.spawn(move || first.set(v, 0, 5));
//!         scope.spawn(move || second.set(v, 1, 7));
//!     });
//!     assert_eq!(main.nvals(v)?, 2);
//!     Ok(())
//! }
//! ```
//!
//! # Refusals
//!
//! A call that is refused did nothing, and answers why: an [`Error`]. The page of each method lists its refusals. [`Pass::explain`] tells
//! what does not fit, with the shapes of the objects.
//!
//! # Limits
//!
//! - A store takes at most 65,536 calls that change it, in its whole life. A build or an operation is one call. When the store is full,
//!   reads go on, and [`Pass::succeed`] opens a store that goes on from there. A [`Chain`] goes on by itself, without an end. What an
//!   analysis makes in a [branch](Pass::branch) takes no room.
//! - At most 256 passes share it. Calls times passes are at most 1,048,576.
//! - Values are truth values and whole numbers below 2^64. Sums, differences and products of numbers are modulo 2^64.
//!
//! # To build
//!
//! `bindings/install.sh PREFIX` installs the library, which has to be built before, and this crate beside it, in
//! `PREFIX/share/trowelheath/rust`. There the crate finds the library by itself; elsewhere by the environment variable `TROWELHEATH_PREFIX`,
//! or by pkg-config. Without Cargo:
//!
//! ```text
//! rustc --edition 2021 -O --cfg trowelheath_installed --crate-type rlib --crate-name trowelheath src/lib.rs
//! rustc --edition 2021 -O --extern trowelheath=libtrowelheath.rlib -L native="$PREFIX/lib" examples/first.rs
//! ```
//!
//! Without an installed library, `TROWELHEATH_LIB` names the folder of `libgrb_c.a`, and `TROWELHEATH_HEAP` that of `liblibc_c.a`.

#![deny(missing_docs)]
#![deny(unsafe_op_in_unsafe_fn)]
#![warn(clippy::all)]
#![warn(clippy::undocumented_unsafe_blocks)]

pub mod algorithms;
mod chain;
mod chosen;
mod descriptor;
mod element;
mod entries;
mod error;
mod facts;
mod function;
mod matrix;
mod methods;
mod object;
mod operations;
mod operator;
mod pass;
mod refusal;
mod slices;
mod store;
mod sys;
mod test;
mod vector;

pub use chain::Chain;
pub use chosen::Chosen;
pub use descriptor::{Descriptor, Wait};
pub use element::Element;
pub use entries::{MatrixEntries, Triples, VectorEntries};
pub use error::{Error, Info};
pub use facts::{Costs, Facts};
pub use function::{Function, UnaryOp};
pub use matrix::Matrix;
pub use object::{Mask, Object};
pub use operator::{Monoid, Op, Semiring};
pub use pass::Pass;
pub use refusal::Refusal;
pub use store::{is_proved, Store};
pub use test::Test;
pub use vector::Vector;
