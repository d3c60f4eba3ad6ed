//! Binary operators, monoids and semirings, each of one domain.

use crate::element::Element;
use std::fmt;
use std::marker::PhantomData;

/// An operator by its number in the C interface.
#[derive(Clone, Copy, PartialEq, Eq, Hash)]
#[repr(u32)]
enum Operator {
    Lor = 1,
    Land = 2,
    Lxor = 3,
    Lxnor = 4,
    FirstBool = 5,
    SecondBool = 6,
    Plus = 7,
    Times = 8,
    Min = 9,
    Max = 10,
    Minus = 11,
    First = 12,
    Second = 13,
}

impl Operator {
    const fn name(self) -> &'static str {
        match self {
            Operator::Lor => "lor",
            Operator::Land => "land",
            Operator::Lxor => "lxor",
            Operator::Lxnor => "lxnor",
            Operator::FirstBool => "first_bool",
            Operator::SecondBool => "second_bool",
            Operator::Plus => "plus",
            Operator::Times => "times",
            Operator::Min => "min",
            Operator::Max => "max",
            Operator::Minus => "minus",
            Operator::First => "first",
            Operator::Second => "second",
        }
    }
}

/// A binary operator on values of type `T`, whose result is of that type too.
///
/// Each is a constant: those of truth values are `Op<bool>`, those of numbers `Op<u64>`. It is printed by its name, as `plus`.
///
/// Operators of one domain do not go with objects of the other:
///
/// ```compile_fail
/// # use trowelheath::{Descriptor, Error, Op, Pass, Vector};
/// # fn mixed(pass: &mut Pass, v: Vector<u64>) -> Result<(), Error> {
/// pass.ewise_add(v, Op::LOR, v, v, Descriptor::new())
/// # }
/// ```
#[derive(Clone, Copy, PartialEq, Eq, Hash)]
pub struct Op<T> {
    operator: Operator,
    element: PhantomData<T>,
}

impl<T> Op<T> {
    const fn of(operator: Operator) -> Op<T> {
        Op {
            operator,
            element: PhantomData,
        }
    }
}

impl<T: Element> Op<T> {
    /// Its number in the C interface.
    pub(crate) const fn number(self) -> u32 {
        self.operator as u32
    }
}

impl Op<bool> {
    /// True where one of both is true (`GrB_LOR`).
    pub const LOR: Op<bool> = Op::of(Operator::Lor);
    /// True where both are true (`GrB_LAND`).
    pub const LAND: Op<bool> = Op::of(Operator::Land);
    /// True where both differ (`GrB_LXOR`).
    pub const LXOR: Op<bool> = Op::of(Operator::Lxor);
    /// True where both are equal (`GrB_LXNOR`).
    pub const LXNOR: Op<bool> = Op::of(Operator::Lxnor);
    /// The first of two truth values (`GrB_FIRST_BOOL`).
    pub const FIRST_BOOL: Op<bool> = Op::of(Operator::FirstBool);
    /// The second of two truth values (`GrB_SECOND_BOOL`).
    pub const SECOND_BOOL: Op<bool> = Op::of(Operator::SecondBool);
}

impl Op<u64> {
    /// The sum modulo 2^64 (`GrB_PLUS_UINT64`).
    pub const PLUS: Op<u64> = Op::of(Operator::Plus);
    /// The product modulo 2^64 (`GrB_TIMES_UINT64`).
    pub const TIMES: Op<u64> = Op::of(Operator::Times);
    /// The smaller (`GrB_MIN_UINT64`).
    pub const MIN: Op<u64> = Op::of(Operator::Min);
    /// The larger (`GrB_MAX_UINT64`).
    pub const MAX: Op<u64> = Op::of(Operator::Max);
    /// The first without the second, modulo 2^64 (`GrB_MINUS_UINT64`).
    pub const MINUS: Op<u64> = Op::of(Operator::Minus);
    /// The first of two numbers (`GrB_FIRST_UINT64`).
    pub const FIRST: Op<u64> = Op::of(Operator::First);
    /// The second of two numbers (`GrB_SECOND_UINT64`).
    pub const SECOND: Op<u64> = Op::of(Operator::Second);
}

impl<T> fmt::Display for Op<T> {
    fn fmt(&self, f: &mut fmt::Formatter<'_>) -> fmt::Result {
        f.pad(self.operator.name())
    }
}

impl<T> fmt::Debug for Op<T> {
    fn fmt(&self, f: &mut fmt::Formatter<'_>) -> fmt::Result {
        write!(f, "Op({self})")
    }
}

/// An operator on values of type `T` that is associative and commutative, with the value that changes no other under it, its identity.
///
/// Each is a constant, as those of [`Op`] are.
#[derive(Clone, Copy, PartialEq, Eq, Hash)]
pub struct Monoid<T> {
    op: Op<T>,
}

impl<T: Element> Monoid<T> {
    /// Its operator.
    pub const fn op(self) -> Op<T> {
        self.op
    }

    /// Its number in the C interface, which is that of its operator.
    pub(crate) const fn number(self) -> u32 {
        self.op.number()
    }
}

impl Monoid<bool> {
    /// True where one is true; identity `false` (`GrB_LOR_MONOID_BOOL`).
    pub const LOR: Monoid<bool> = Monoid { op: Op::LOR };
    /// True where all are true; identity `true` (`GrB_LAND_MONOID_BOOL`).
    pub const LAND: Monoid<bool> = Monoid { op: Op::LAND };
    /// True where an odd number of the values are true; identity `false` (`GrB_LXOR_MONOID_BOOL`).
    pub const LXOR: Monoid<bool> = Monoid { op: Op::LXOR };
    /// True where an even number of the values are false, as where none is; identity `true` (`GrB_LXNOR_MONOID_BOOL`).
    pub const LXNOR: Monoid<bool> = Monoid { op: Op::LXNOR };
}

impl Monoid<u64> {
    /// The sum modulo 2^64; identity 0 (`GrB_PLUS_MONOID_UINT64`).
    pub const PLUS: Monoid<u64> = Monoid { op: Op::PLUS };
    /// The product modulo 2^64; identity 1 (`GrB_TIMES_MONOID_UINT64`).
    pub const TIMES: Monoid<u64> = Monoid { op: Op::TIMES };
    /// The smallest; identity 2^64 - 1 (`GrB_MIN_MONOID_UINT64`).
    pub const MIN: Monoid<u64> = Monoid { op: Op::MIN };
    /// The largest; identity 0 (`GrB_MAX_MONOID_UINT64`).
    pub const MAX: Monoid<u64> = Monoid { op: Op::MAX };
}

impl<T> fmt::Display for Monoid<T> {
    fn fmt(&self, f: &mut fmt::Formatter<'_>) -> fmt::Result {
        fmt::Display::fmt(&self.op, f)
    }
}

impl<T> fmt::Debug for Monoid<T> {
    fn fmt(&self, f: &mut fmt::Formatter<'_>) -> fmt::Result {
        write!(f, "Monoid({self})")
    }
}

/// A monoid that adds and an operator that multiplies, of one domain: what a product computes with.
///
/// Those that the standard has are constants; [`Semiring::new`] makes any other. It is printed by the names of both, as `plus.times`.
///
/// ```
/// use trowelheath::{Monoid, Op, Semiring};
///
/// assert_eq!(Semiring::PLUS_TIMES, Semiring::new(Monoid::PLUS, Op::TIMES));
/// assert_eq!(Semiring::new(Monoid::MAX, Op::SECOND).to_string(), "max.second");
/// ```
#[derive(Clone, Copy, PartialEq, Eq, Hash)]
pub struct Semiring<T> {
    monoid: Monoid<T>,
    op: Op<T>,
}

impl<T: Element> Semiring<T> {
    /// The semiring of the two. Nothing is asked of how the one distributes over the other (`GrB_Semiring_new`).
    pub const fn new(monoid: Monoid<T>, op: Op<T>) -> Semiring<T> {
        Semiring { monoid, op }
    }

    /// What combines the products.
    pub const fn monoid(self) -> Monoid<T> {
        self.monoid
    }

    /// What makes the products.
    pub const fn op(self) -> Op<T> {
        self.op
    }
}

impl Semiring<bool> {
    /// `GrB_LOR_LAND_SEMIRING_BOOL`
    pub const LOR_LAND: Semiring<bool> = Semiring::new(Monoid::LOR, Op::LAND);
    /// `GrB_LAND_LOR_SEMIRING_BOOL`
    pub const LAND_LOR: Semiring<bool> = Semiring::new(Monoid::LAND, Op::LOR);
    /// `GrB_LXOR_LAND_SEMIRING_BOOL`
    pub const LXOR_LAND: Semiring<bool> = Semiring::new(Monoid::LXOR, Op::LAND);
    /// `GrB_LXNOR_LOR_SEMIRING_BOOL`
    pub const LXNOR_LOR: Semiring<bool> = Semiring::new(Monoid::LXNOR, Op::LOR);
}

impl Semiring<u64> {
    /// `GrB_PLUS_TIMES_SEMIRING_UINT64`
    pub const PLUS_TIMES: Semiring<u64> = Semiring::new(Monoid::PLUS, Op::TIMES);
    /// `GrB_PLUS_MIN_SEMIRING_UINT64`
    pub const PLUS_MIN: Semiring<u64> = Semiring::new(Monoid::PLUS, Op::MIN);
    /// `GrB_MIN_PLUS_SEMIRING_UINT64`
    pub const MIN_PLUS: Semiring<u64> = Semiring::new(Monoid::MIN, Op::PLUS);
    /// `GrB_MIN_TIMES_SEMIRING_UINT64`
    pub const MIN_TIMES: Semiring<u64> = Semiring::new(Monoid::MIN, Op::TIMES);
    /// `GrB_MIN_FIRST_SEMIRING_UINT64`
    pub const MIN_FIRST: Semiring<u64> = Semiring::new(Monoid::MIN, Op::FIRST);
    /// `GrB_MIN_SECOND_SEMIRING_UINT64`
    pub const MIN_SECOND: Semiring<u64> = Semiring::new(Monoid::MIN, Op::SECOND);
    /// `GrB_MIN_MAX_SEMIRING_UINT64`
    pub const MIN_MAX: Semiring<u64> = Semiring::new(Monoid::MIN, Op::MAX);
    /// `GrB_MAX_PLUS_SEMIRING_UINT64`
    pub const MAX_PLUS: Semiring<u64> = Semiring::new(Monoid::MAX, Op::PLUS);
    /// `GrB_MAX_TIMES_SEMIRING_UINT64`
    pub const MAX_TIMES: Semiring<u64> = Semiring::new(Monoid::MAX, Op::TIMES);
    /// `GrB_MAX_FIRST_SEMIRING_UINT64`
    pub const MAX_FIRST: Semiring<u64> = Semiring::new(Monoid::MAX, Op::FIRST);
    /// `GrB_MAX_SECOND_SEMIRING_UINT64`
    pub const MAX_SECOND: Semiring<u64> = Semiring::new(Monoid::MAX, Op::SECOND);
    /// `GrB_MAX_MIN_SEMIRING_UINT64`
    pub const MAX_MIN: Semiring<u64> = Semiring::new(Monoid::MAX, Op::MIN);
}

impl<T> fmt::Display for Semiring<T> {
    fn fmt(&self, f: &mut fmt::Formatter<'_>) -> fmt::Result {
        write!(f, "{}.{}", self.monoid, self.op)
    }
}

impl<T> fmt::Debug for Semiring<T> {
    fn fmt(&self, f: &mut fmt::Formatter<'_>) -> fmt::Result {
        write!(f, "Semiring({self})")
    }
}
