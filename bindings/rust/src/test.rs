//! Tests of an entry, by its place or by its value.

use crate::element::Element;
use std::fmt;

/// A test of an entry at row `i` and column `j` with a value of type `T`: what [`Pass::select`](crate::Pass::select) keeps entries by.
///
/// A vector is a column: its index is the row, and the column is 0. A diagonal `k` has the places where `j` is `i + k`; 0 is the main one,
/// and a negative one lies below it. Of truth values `false` is less than `true`. A test is printed by the words of a script, as `tril -1`.
///
/// Tests of values of one domain do not go with objects of the other:
///
/// ```compile_fail
/// # use trowelheath::{Descriptor, Error, Pass, Test, Vector};
/// # fn mixed(pass: &mut Pass, v: Vector<bool>) -> Result<(), Error> {
/// pass.select(v, Test::ValueGe(9), v, Descriptor::new())
/// # }
/// ```
#[derive(Clone, Copy, Debug, PartialEq, Eq, Hash)]
pub enum Test<T> {
    /// On this diagonal or below it: `j <= i + k` (`GrB_TRIL`). A diagonal is from -4,294,967,295 to 4,294,967,295.
    Tril(i64),
    /// On this diagonal or above it: `j >= i + k` (`GrB_TRIU`).
    Triu(i64),
    /// On this diagonal: `j = i + k` (`GrB_DIAG`).
    Diag(i64),
    /// Not on this diagonal (`GrB_OFFDIAG`).
    Offdiag(i64),
    /// In this row or above it: `i` is at most the number (`GrB_ROWLE`).
    RowLe(u64),
    /// Below this row: `i` is greater than the number (`GrB_ROWGT`).
    RowGt(u64),
    /// In this column or to the left of it: `j` is at most the number (`GrB_COLLE`).
    ColLe(u64),
    /// To the right of this column: `j` is greater than the number (`GrB_COLGT`).
    ColGt(u64),
    /// The value is this one (`GrB_VALUEEQ_BOOL`, `GrB_VALUEEQ_UINT64`).
    ValueEq(T),
    /// The value is not this one (`GrB_VALUENE_BOOL`, `GrB_VALUENE_UINT64`).
    ValueNe(T),
    /// The value is less (`GrB_VALUELT_BOOL`, `GrB_VALUELT_UINT64`).
    ValueLt(T),
    /// The value is at most this one (`GrB_VALUELE_BOOL`, `GrB_VALUELE_UINT64`).
    ValueLe(T),
    /// The value is greater (`GrB_VALUEGT_BOOL`, `GrB_VALUEGT_UINT64`).
    ValueGt(T),
    /// The value is at least this one (`GrB_VALUEGE_BOOL`, `GrB_VALUEGE_UINT64`).
    ValueGe(T),
}

/// What a test compares with.
pub(crate) enum Bound<T> {
    /// A diagonal, a row or a column.
    Place(i64),
    /// A value.
    Value(T),
}

impl<T> Test<T> {
    /// Its number in the C interface.
    pub(crate) const fn number(&self) -> u32 {
        match self {
            Test::Tril(_) => 1,
            Test::Triu(_) => 2,
            Test::Diag(_) => 3,
            Test::Offdiag(_) => 4,
            Test::RowLe(_) => 5,
            Test::RowGt(_) => 6,
            Test::ColLe(_) => 7,
            Test::ColGt(_) => 8,
            Test::ValueEq(_) => 9,
            Test::ValueNe(_) => 10,
            Test::ValueLt(_) => 11,
            Test::ValueLe(_) => 12,
            Test::ValueGt(_) => 13,
            Test::ValueGe(_) => 14,
        }
    }

    /// Its name in a script.
    const fn name(&self) -> &'static str {
        match self {
            Test::Tril(_) => "tril",
            Test::Triu(_) => "triu",
            Test::Diag(_) => "diag",
            Test::Offdiag(_) => "offdiag",
            Test::RowLe(_) => "rowle",
            Test::RowGt(_) => "rowgt",
            Test::ColLe(_) => "colle",
            Test::ColGt(_) => "colgt",
            Test::ValueEq(_) => "valueeq",
            Test::ValueNe(_) => "valuene",
            Test::ValueLt(_) => "valuelt",
            Test::ValueLe(_) => "valuele",
            Test::ValueGt(_) => "valuegt",
            Test::ValueGe(_) => "valuege",
        }
    }
}

impl<T: Element> Test<T> {
    /// What it compares with, as the C interface takes it.
    pub(crate) fn bound(self) -> Bound<T> {
        match self {
            Test::Tril(k) | Test::Triu(k) | Test::Diag(k) | Test::Offdiag(k) => Bound::Place(k),
            // Rows and columns are below 2^32, so a number that does not fit lies beyond all of them, as the largest does.
            Test::RowLe(n) | Test::RowGt(n) | Test::ColLe(n) | Test::ColGt(n) => {
                Bound::Place(i64::try_from(n).unwrap_or(i64::MAX))
            }
            Test::ValueEq(x)
            | Test::ValueNe(x)
            | Test::ValueLt(x)
            | Test::ValueLe(x)
            | Test::ValueGt(x)
            | Test::ValueGe(x) => Bound::Value(x),
        }
    }
}

impl<T: fmt::Display> fmt::Display for Test<T> {
    fn fmt(&self, f: &mut fmt::Formatter<'_>) -> fmt::Result {
        let name = self.name();
        match self {
            Test::Tril(k) | Test::Triu(k) | Test::Diag(k) | Test::Offdiag(k) => {
                write!(f, "{name} {k}")
            }
            Test::RowLe(n) | Test::RowGt(n) | Test::ColLe(n) | Test::ColGt(n) => {
                write!(f, "{name} {n}")
            }
            Test::ValueEq(x)
            | Test::ValueNe(x)
            | Test::ValueLt(x)
            | Test::ValueLe(x)
            | Test::ValueGt(x)
            | Test::ValueGe(x) => write!(f, "{name} {x}"),
        }
    }
}
