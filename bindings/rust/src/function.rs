//! Unary operators, and functions of one value, each of one domain.

use crate::element::Element;
use crate::operator::Op;
use std::fmt;
use std::marker::PhantomData;

/// A unary operator by its number in the C interface.
#[derive(Clone, Copy, PartialEq, Eq, Hash)]
#[repr(u32)]
enum Operator {
    IdentityBool = 1,
    Lnot = 2,
    Identity = 3,
    Ainv = 4,
    Bnot = 5,
}

impl Operator {
    const fn name(self) -> &'static str {
        match self {
            Operator::IdentityBool => "identity_bool",
            Operator::Lnot => "lnot",
            Operator::Identity => "identity",
            Operator::Ainv => "ainv",
            Operator::Bnot => "bnot",
        }
    }
}

/// A unary operator on values of type `T`, whose result is of that type too.
///
/// Each is a constant, as those of [`Op`] are. It is printed by its name, as `ainv`.
#[derive(Clone, Copy, PartialEq, Eq, Hash)]
pub struct UnaryOp<T> {
    operator: Operator,
    element: PhantomData<T>,
}

impl<T> UnaryOp<T> {
    const fn of(operator: Operator) -> UnaryOp<T> {
        UnaryOp {
            operator,
            element: PhantomData,
        }
    }
}

impl<T: Element> UnaryOp<T> {
    /// Its number in the C interface.
    pub(crate) const fn number(self) -> u32 {
        self.operator as u32
    }
}

impl UnaryOp<bool> {
    /// The truth value itself (`GrB_IDENTITY_BOOL`).
    pub const IDENTITY_BOOL: UnaryOp<bool> = UnaryOp::of(Operator::IdentityBool);
    /// True where the value is not (`GrB_LNOT`).
    pub const LNOT: UnaryOp<bool> = UnaryOp::of(Operator::Lnot);
}

impl UnaryOp<u64> {
    /// The number itself (`GrB_IDENTITY_UINT64`).
    pub const IDENTITY: UnaryOp<u64> = UnaryOp::of(Operator::Identity);
    /// The negative modulo 2^64 (`GrB_AINV_UINT64`).
    pub const AINV: UnaryOp<u64> = UnaryOp::of(Operator::Ainv);
    /// The number with each of its 64 bits turned (`GrB_BNOT_UINT64`).
    pub const BNOT: UnaryOp<u64> = UnaryOp::of(Operator::Bnot);
}

impl<T> fmt::Display for UnaryOp<T> {
    fn fmt(&self, f: &mut fmt::Formatter<'_>) -> fmt::Result {
        f.pad(self.operator.name())
    }
}

impl<T> fmt::Debug for UnaryOp<T> {
    fn fmt(&self, f: &mut fmt::Formatter<'_>) -> fmt::Result {
        write!(f, "UnaryOp({self})")
    }
}

/// A function of one value of type `T`, whose result is of that type too: what [`Pass::apply`](crate::Pass::apply) computes with.
///
/// A unary operator becomes one by itself. It is printed by the words of a script, as `ainv`, `9 minus` or `minus 1`.
///
/// ```
/// use trowelheath::{Function, Op, UnaryOp};
///
/// assert_eq!(Function::from(UnaryOp::AINV), Function::Unary(UnaryOp::AINV));
/// assert_eq!(Function::First(9, Op::MINUS).to_string(), "9 minus");
/// ```
///
/// Functions of one domain do not go with objects of the other:
///
/// ```compile_fail
/// # use trowelheath::{Descriptor, Error, Pass, UnaryOp, Vector};
/// # fn mixed(pass: &mut Pass, v: Vector<u64>) -> Result<(), Error> {
/// pass.apply(v, UnaryOp::LNOT, v, Descriptor::new())
/// # }
/// ```
#[derive(Clone, Copy, Debug, PartialEq, Eq, Hash)]
pub enum Function<T> {
    /// The operator of the value.
    Unary(UnaryOp<T>),
    /// The operator of this value and of the one that an object stores: `op(x, a)`. So the object is the second input
    /// (`GrB_Matrix_apply_BinaryOp1st`, `GrB_Vector_apply_BinaryOp1st`).
    First(T, Op<T>),
    /// The operator of the value that an object stores and of this one: `op(a, y)` (`GrB_Matrix_apply_BinaryOp2nd`,
    /// `GrB_Vector_apply_BinaryOp2nd`).
    Second(Op<T>, T),
}

impl<T> From<UnaryOp<T>> for Function<T> {
    fn from(op: UnaryOp<T>) -> Function<T> {
        Function::Unary(op)
    }
}

impl<T: fmt::Display> fmt::Display for Function<T> {
    fn fmt(&self, f: &mut fmt::Formatter<'_>) -> fmt::Result {
        match self {
            Function::Unary(op) => write!(f, "{op}"),
            Function::First(x, op) => write!(f, "{x} {op}"),
            Function::Second(op, y) => write!(f, "{op} {y}"),
        }
    }
}
