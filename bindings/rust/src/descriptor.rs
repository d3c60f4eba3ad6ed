//! How an operation reads its mask and writes its output, and the modes of a wait.

use crate::object::{Mask, Object};
use crate::operator::Op;
use crate::store::Store;
use crate::sys::{NO_ACCUM, NO_MASK};
use std::marker::PhantomData;

const REPLACE: u32 = 1;
const COMP: u32 = 2;
const STRUCTURE: u32 = 4;
pub(crate) const TRAN: u32 = 8;
pub(crate) const TRAN1: u32 = 16;

/// How an operation writes an output of type `O`: its mask, its accumulator, and what the standard's descriptor says of both.
///
/// Each method turns something on; the value is then given to an operation, as often as you like.
///
/// | Mask | Inside are the places |
/// |---|---|
/// | none, or [`structure`](Descriptor::structure) alone | all |
/// | [`comp`](Descriptor::comp) with no mask | none |
/// | `mask(m)` | where `m` stores `true`, or a number other than 0 |
/// | `mask(m).structure()` | where `m` stores a value, `false` and 0 too |
/// | `mask(m).comp()`, `mask(m).structure().comp()` | all but those |
///
/// What the inputs make is first combined with the old output. With [`accum`](Descriptor::accum), a place where both store a value gets
/// the operator of the old and the new one, and a place where one of them does gets that value. Without it the old values play no part.
/// Of the result, the output takes what lies inside the mask. Outside it the old entries stay, or with [`replace`](Descriptor::replace) are
/// removed.
///
/// All objects are read before the output is written, so one object may be output, input and mask at once.
///
/// ```no_run
/// # use trowelheath::{Descriptor, Error, Pass, Matrix, Semiring, Vector};
/// # fn search(pass: &mut Pass, graph: Matrix<bool>, front: Vector<bool>, seen: Vector<bool>) -> Result<(), Error> {
/// let unseen = Descriptor::new().mask(seen).structure().comp().replace();
/// pass.vxm(front, Semiring::LOR_LAND, front, graph, unseen)?;
/// # Ok(())
/// # }
/// ```
///
/// The mask is of the sort of the output. This does not compile:
///
/// ```compile_fail
/// # use trowelheath::{Descriptor, Error, Op, Pass, Matrix, Vector};
/// # fn mixed(pass: &mut Pass, a: Matrix<u64>, v: Vector<u64>) -> Result<(), Error> {
/// pass.ewise_add(v, Op::PLUS, v, v, Descriptor::new().mask(a))
/// # }
/// ```
#[derive(Clone, Copy, Debug, PartialEq, Eq, Hash)]
pub struct Descriptor<O> {
    mask: Option<(Store, u32)>,
    accum: u32,
    bits: u32,
    output: PhantomData<O>,
}

impl<O: Object> Descriptor<O> {
    /// No mask and no accumulator: the output takes all that the inputs make, and no other entry stays.
    pub const fn new() -> Descriptor<O> {
        Descriptor {
            mask: None,
            accum: NO_ACCUM,
            bits: 0,
            output: PhantomData,
        }
    }

    /// Writes inside this mask alone, which may be of either domain. A further mask takes its place.
    #[must_use]
    pub fn mask<M: Mask<O>>(mut self, mask: M) -> Descriptor<O> {
        self.mask = Some((mask.store(), mask.number()));
        self
    }

    /// Combines the old output and what the inputs make by this operator. A further one takes its place.
    #[must_use]
    pub fn accum(mut self, op: Op<O::Element>) -> Descriptor<O> {
        self.accum = op.number();
        self
    }

    /// Lets each value that the mask stores select its place, and not a true one alone (`GrB_STRUCTURE`).
    #[must_use]
    pub fn structure(self) -> Descriptor<O> {
        self.with(STRUCTURE)
    }

    /// Takes for inside what the mask does not select (`GrB_COMP`).
    #[must_use]
    pub fn comp(self) -> Descriptor<O> {
        self.with(COMP)
    }

    /// Removes from the output what lies outside the mask (`GrB_REPLACE`).
    #[must_use]
    pub fn replace(self) -> Descriptor<O> {
        self.with(REPLACE)
    }

    /// Reads the first input, a matrix, transposed: rows and columns change places (`GrB_TRAN` of `GrB_INP0`). The object itself stays as it
    /// is. Where the first input is a vector, as of [`vxm`](crate::Pass::vxm), the call is refused with
    /// [`InvalidValue`](crate::Error::InvalidValue). So is an [`apply`](crate::Pass::apply) of
    /// [`Function::First`](crate::Function::First), whose object stands second.
    #[must_use]
    pub fn tran(self) -> Descriptor<O> {
        self.with(TRAN)
    }

    /// Reads the second input, a matrix, transposed (`GrB_TRAN` of `GrB_INP1`). That is `b` of a product of matrices, of an element-wise
    /// operation on them and of [`kronecker`](crate::Pass::kronecker), the matrix of [`vxm`](crate::Pass::vxm), and the matrix that
    /// [`Function::First`](crate::Function::First) is applied to. Any other operation is refused with
    /// [`InvalidValue`](crate::Error::InvalidValue), and so is one whose second input is a vector.
    #[must_use]
    pub fn tran1(self) -> Descriptor<O> {
        self.with(TRAN1)
    }

    fn with(mut self, bit: u32) -> Descriptor<O> {
        self.bits |= bit;
        self
    }

    /// The store of its mask, if it has one.
    pub(crate) fn mask_store(&self) -> Option<Store> {
        self.mask.map(|(store, _)| store)
    }

    /// What the C interface is given.
    pub(crate) fn numbers(&self) -> Numbers {
        Numbers {
            mask: self.mask.map_or(NO_MASK, |(_, number)| number),
            accum: self.accum,
            bits: self.bits,
        }
    }
}

impl<O: Object> Default for Descriptor<O> {
    fn default() -> Descriptor<O> {
        Descriptor::new()
    }
}

/// A descriptor in the C interface.
#[derive(Clone, Copy)]
pub struct Numbers {
    pub(crate) mask: u32,
    pub(crate) accum: u32,
    pub(crate) bits: u32,
}

/// How far a wait has the work of an object done.
#[derive(Clone, Copy, Debug, PartialEq, Eq, Hash)]
pub enum Wait {
    /// The changes of the object are done (`GrB_COMPLETE`).
    Complete,
    /// The changes of all objects are done (`GrB_MATERIALIZE`).
    Materialize,
}

impl Wait {
    /// Its number in the C interface.
    pub(crate) const fn number(self) -> u32 {
        match self {
            Wait::Complete => 0,
            Wait::Materialize => 1,
        }
    }
}
