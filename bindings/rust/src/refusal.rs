//! What does not fit in a call that was refused, for people.

use crate::descriptor::{TRAN, TRAN1};
use crate::error::Error;
use crate::matrix::Matrix;
use crate::object::{Calls, Object};
use crate::pass::Pass;
use crate::sys;
use crate::vector::Vector;
use std::fmt;

/// The number of an operand that is not there.
const NONE: u32 = sys::NO_MASK;

/// A refused call with what is known of it. [`Pass::explain`] makes one.
///
/// Where nothing is known of the call, it is printed as its [`Error`] is. It is equal to its error, and becomes it by `?`.
#[derive(Clone, Debug, PartialEq, Eq)]
pub struct Refusal {
    error: Error,
    said: Option<String>,
}

impl Refusal {
    /// Why the call was refused.
    pub fn error(&self) -> Error {
        self.error
    }

    /// What does not fit, as `a is 3 x 4, b is 3 x 4: the columns of a, 4, are not the rows of b, 3`, if it is known.
    pub fn said(&self) -> Option<&str> {
        self.said.as_deref()
    }
}

/// The name, and after it what does not fit, or the hint.
impl fmt::Display for Refusal {
    fn fmt(&self, f: &mut fmt::Formatter<'_>) -> fmt::Result {
        match &self.said {
            Some(said) => write!(f, "{}: {said}", self.error.name()),
            None => self.error.fmt(f),
        }
    }
}

impl std::error::Error for Refusal {}

impl From<Refusal> for Error {
    fn from(refusal: Refusal) -> Error {
        refusal.error
    }
}

impl PartialEq<Error> for Refusal {
    fn eq(&self, other: &Error) -> bool {
        self.error == *other
    }
}

/// An object of a call, under the name of its parameter.
#[derive(Clone, Copy)]
pub(crate) struct Operand {
    name: &'static str,
    is_matrix: bool,
    number: u32,
    is_transposed: bool,
}

impl Operand {
    pub(crate) fn of<O: Object>(name: &'static str, object: O) -> Operand {
        Operand {
            name,
            is_matrix: O::IS_MATRIX,
            number: object.number(),
            is_transposed: false,
        }
    }

    /// The first input of a call with these bits of a descriptor.
    pub(crate) fn first<O: Object>(name: &'static str, object: O, bits: u32) -> Operand {
        Operand {
            is_transposed: O::IS_MATRIX && bits & TRAN != 0,
            ..Operand::of(name, object)
        }
    }

    /// The second input of a call with these bits of a descriptor.
    pub(crate) fn second<O: Object>(name: &'static str, object: O, bits: u32) -> Operand {
        Operand {
            is_transposed: O::IS_MATRIX && bits & TRAN1 != 0,
            ..Operand::of(name, object)
        }
    }

    /// The same input, turned once more.
    pub(crate) fn turned(self) -> Operand {
        Operand {
            is_transposed: !self.is_transposed,
            ..self
        }
    }

    /// The mask of an output of type `O`, or none.
    pub(crate) fn mask<O: Object>(number: u32) -> Operand {
        Operand {
            name: "the mask",
            is_matrix: O::IS_MATRIX,
            number,
            is_transposed: false,
        }
    }

    /// Its dimensions as the call reads them; those of a vector are its size and 1.
    fn size(self, pass: &mut Pass) -> Result<(u64, u64), Error> {
        if self.is_matrix {
            let (nrows, ncols) = Matrix::<bool>::of(pass.store(), self.number).size_of(pass)?;
            Ok(if self.is_transposed {
                (ncols, nrows)
            } else {
                (nrows, ncols)
            })
        } else {
            Ok((
                Vector::<bool>::of(pass.store(), self.number).size_of(pass)?,
                1,
            ))
        }
    }

    fn shape(self, (nrows, ncols): (u64, u64)) -> String {
        let Operand {
            name,
            is_matrix,
            is_transposed,
            ..
        } = self;
        match (is_matrix, is_transposed) {
            (true, false) => format!("{name} is {nrows} x {ncols}"),
            (true, true) => format!("{name}, transposed, is {nrows} x {ncols}"),
            (false, _) => format!("{name} has the size {nrows}"),
        }
    }

    fn axis(self, axis: Axis) -> &'static str {
        match (self.is_matrix, axis) {
            (false, _) => "size",
            (true, Axis::Rows) => "rows",
            (true, Axis::Columns) => "columns",
        }
    }
}

/// Which dimension of an object; the size of a vector is its rows.
#[derive(Clone, Copy)]
pub(crate) enum Axis {
    Rows,
    Columns,
}

/// A dimension of the operand at a place.
type Dimension = (usize, Axis);

/// A dimension of a call that is to be another one, or the product of others.
pub(crate) type Rule = (Dimension, &'static [Dimension]);

use Axis::{Columns, Rows};

/// Output, mask, a, b of a product of matrices.
pub(crate) const MXM: &[Rule] = &[
    ((2, Columns), &[(3, Rows)]),
    ((0, Rows), &[(2, Rows)]),
    ((0, Columns), &[(3, Columns)]),
    ((1, Rows), &[(0, Rows)]),
    ((1, Columns), &[(0, Columns)]),
];

/// Output, mask, a, u.
pub(crate) const MXV: &[Rule] = &[
    ((2, Columns), &[(3, Rows)]),
    ((0, Rows), &[(2, Rows)]),
    ((1, Rows), &[(0, Rows)]),
];

/// Output, mask, u, a.
pub(crate) const VXM: &[Rule] = &[
    ((2, Rows), &[(3, Rows)]),
    ((0, Rows), &[(3, Columns)]),
    ((1, Rows), &[(0, Rows)]),
];

/// Output, mask, and two inputs of one shape. A vector has one column.
pub(crate) const EWISE: &[Rule] = &[
    ((2, Rows), &[(3, Rows)]),
    ((2, Columns), &[(3, Columns)]),
    ((0, Rows), &[(3, Rows)]),
    ((0, Columns), &[(3, Columns)]),
    ((1, Rows), &[(0, Rows)]),
    ((1, Columns), &[(0, Columns)]),
];

/// Output, mask, a.
pub(crate) const REDUCE: &[Rule] = &[((0, Rows), &[(2, Rows)]), ((1, Rows), &[(0, Rows)])];

/// Output, mask, and one input of the output's shape. A vector has one column.
pub(crate) const TERM: &[Rule] = &[
    ((0, Rows), &[(2, Rows)]),
    ((0, Columns), &[(2, Columns)]),
    ((1, Rows), &[(0, Rows)]),
    ((1, Columns), &[(0, Columns)]),
];

/// Output, mask, a, b of a Kronecker product.
pub(crate) const KRONECKER: &[Rule] = &[
    ((0, Rows), &[(2, Rows), (3, Rows)]),
    ((0, Columns), &[(2, Columns), (3, Columns)]),
    ((1, Rows), &[(0, Rows)]),
    ((1, Columns), &[(0, Columns)]),
];

/// What a refused call was.
#[derive(Clone)]
pub(crate) enum Call {
    /// An operation on these objects.
    Operation(Vec<Operand>, &'static [Rule]),
    /// A call on an entry.
    Place(Operand, (u64, u64)),
    /// A build from lists of these lengths, with the entries whose row and whose column are the largest, and their places in the list.
    Build(Operand, Vec<usize>, Vec<(usize, (u64, u64))>),
    /// The dimensions that an object should have.
    Dimensions(Vec<u64>),
    /// A matrix of this vector on this diagonal.
    Diagonal(Operand, i64),
}

/// The call that was refused last, and why.
#[derive(Clone)]
pub(crate) struct Refused {
    error: Error,
    call: Call,
}

impl Pass {
    /// Keeps what a call was, where it was refused for what it was given. No memory is taken where memory was refused.
    pub(crate) fn note<T>(
        &mut self,
        answer: Result<T, Error>,
        call: impl FnOnce() -> Call,
    ) -> Result<T, Error> {
        if let Err(error) = answer {
            self.refused = match error {
                Error::UninitializedObject
                | Error::InvalidValue
                | Error::InvalidIndex
                | Error::DimensionMismatch
                | Error::OutputNotEmpty
                | Error::IndexOutOfBounds => Some(Refused {
                    error,
                    call: call(),
                }),
                _ => None,
            };
        }
        answer
    }

    /// What does not fit in the last call that this pass refused by this error: the objects by the names of the call's parameters, their
    /// shapes, the place. The shapes are read now, so a [`last_info`](Pass::last_info) of these objects is of that read.
    ///
    /// ```no_run
    /// # use trowelheath::{Descriptor, Error, Matrix, Pass, Refusal, Semiring};
    /// # fn square(pass: &mut Pass, c: Matrix<u64>, a: Matrix<u64>) -> Result<(), Refusal> {
    /// pass.mxm(c, Semiring::PLUS_TIMES, a, a, Descriptor::new())
    ///     .map_err(|error| pass.explain(error))
    /// # }
    /// ```
    pub fn explain(&mut self, error: Error) -> Refusal {
        let said = match self.refused.clone() {
            Some(refused) if refused.error == error => self.said(refused),
            _ => None,
        };
        Refusal { error, said }
    }

    fn said(&mut self, Refused { error, call }: Refused) -> Option<String> {
        match (error, call) {
            (Error::UninitializedObject, Call::Operation(operands, _)) => {
                let freed = operands.into_iter().find(|operand| {
                    operand.number != NONE && operand.size(self) == Err(Error::UninitializedObject)
                })?;
                Some(format!("{} was freed", freed.name))
            }
            (
                Error::UninitializedObject,
                Call::Place(operand, _) | Call::Build(operand, ..) | Call::Diagonal(operand, _),
            ) => Some(format!("{} was freed", operand.name)),
            (Error::DimensionMismatch, Call::Operation(operands, rules)) => {
                rules.iter().find_map(|rule| self.mismatch(&operands, rule))
            }
            (Error::InvalidIndex, Call::Place(operand, place)) => {
                let size = operand.size(self).ok()?;
                outside(operand, size, place)
            }
            (Error::IndexOutOfBounds, Call::Build(operand, _, largest)) => {
                let size = operand.size(self).ok()?;
                largest.into_iter().find_map(|(k, place)| {
                    outside(operand, size, place)
                        .map(|said| format!("entry {k} of the list: {said}"))
                })
            }
            (Error::InvalidValue, Call::Build(_, lengths, _)) => {
                Some(format!("the lists have the lengths {}", listed(&lengths)))
            }
            (Error::InvalidValue, Call::Dimensions(dimensions)) => {
                let given: Vec<String> = dimensions.iter().map(u64::to_string).collect();
                Some(format!(
                    "{}: dimensions are from 1 to 4,294,967,295",
                    given.join(" x ")
                ))
            }
            (Error::InvalidValue, Call::Diagonal(operand, k)) => {
                let size = operand.size(self).ok()?;
                Some(format!(
                    "{}, and on the diagonal {k} it makes more rows than 4,294,967,295",
                    operand.shape(size)
                ))
            }
            (Error::OutputNotEmpty, Call::Build(operand, ..)) => Some(format!(
                "{} stores entries: clear it, or build a new one",
                operand.name
            )),
            _ => None,
        }
    }

    /// That a dimension differs from what it is to be, if it does.
    fn mismatch(&mut self, operands: &[Operand], (left, right): &Rule) -> Option<String> {
        let (operand, axis) = (operands[left.0], left.1);
        if operand.number == NONE {
            return None;
        }
        let size = operand.size(self).ok()?;
        let first = along(size, axis);
        let (mut second, mut shapes, mut names) = (1u64, vec![operand.shape(size)], vec![]);
        for &(at, axis) in right.iter() {
            let operand = operands[at];
            let size = operand.size(self).ok()?;
            // Two dimensions are below 2^32 each.
            second *= along(size, axis);
            shapes.push(operand.shape(size));
            names.push(format!("the {} of {}", operand.axis(axis), operand.name));
        }
        (first != second).then(|| {
            format!(
                "{}: the {} of {}, {first}, {} not {}, {second}",
                shapes.join(", "),
                operand.axis(axis),
                operand.name,
                if operand.is_matrix { "are" } else { "is" },
                names.join(" times "),
            )
        })
    }
}

fn along((nrows, ncols): (u64, u64), axis: Axis) -> u64 {
    match axis {
        Rows => nrows,
        Columns => ncols,
    }
}

/// That a place is outside of an object of these dimensions, if it is.
fn outside(operand: Operand, (nrows, ncols): (u64, u64), (i, j): (u64, u64)) -> Option<String> {
    let name = operand.name;
    if operand.is_matrix {
        (i >= nrows || j >= ncols)
            .then(|| format!("({i}, {j}) is outside of {name}, which is {nrows} x {ncols}"))
    } else {
        (i >= nrows).then(|| format!("the index {i} is not below the size of {name}, {nrows}"))
    }
}

fn listed(lengths: &[usize]) -> String {
    let words: Vec<String> = lengths.iter().map(usize::to_string).collect();
    match words.split_last() {
        Some((last, rest)) if !rest.is_empty() => format!("{} and {last}", rest.join(", ")),
        _ => words.join(""),
    }
}

/// What a build from these lists was: rows, columns if there are any, and so many values.
pub(crate) fn build_call(
    operand: Operand,
    rows: &[u64],
    columns: Option<&[u64]>,
    values: usize,
) -> Call {
    let mut lengths = vec![rows.len()];
    lengths.extend(columns.map(<[u64]>::len));
    lengths.push(values);
    let place = |k: usize| {
        let j = columns.map_or(0, |columns| columns.get(k).copied().unwrap_or(0));
        (k, (rows.get(k).copied().unwrap_or(0), j))
    };
    let largest = |list: &[u64]| (0..list.len()).max_by_key(|&k| (list[k], std::cmp::Reverse(k)));
    let mut entries: Vec<_> = largest(rows).into_iter().map(place).collect();
    entries.extend(columns.and_then(largest).map(place));
    entries.sort_unstable();
    Call::Build(operand, lengths, entries)
}
