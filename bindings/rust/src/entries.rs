//! All entries of an object at one moment.

use crate::element::Element;
use crate::error::Error;
use std::iter::{Copied, Zip};
use std::{slice, vec};

/// All entries of a matrix at one moment: row by row, and in each row from the lowest column up.
///
/// [`Pass::entries`](crate::Pass::entries) reads them. It is a copy: later changes of the matrix do not show. Rows and columns are counted
/// from 0.
///
/// ```no_run
/// # use trowelheath::{Error, Matrix, Pass};
/// # fn print(pass: &mut Pass, a: Matrix<u64>) -> Result<(), Error> {
/// let entries = pass.entries(a)?;
/// for (row, column, value) in &entries {
///     println!("{row} {column} {value}");
/// }
/// let (rows, columns, values) = entries.into_vecs();
/// # Ok(())
/// # }
/// ```
#[derive(Clone, Debug, Default, PartialEq, Eq)]
pub struct MatrixEntries<T> {
    rows: Vec<u64>,
    columns: Vec<u64>,
    values: Vec<T>,
}

impl<T: Element> MatrixEntries<T> {
    /// How many entries there are.
    pub fn len(&self) -> usize {
        self.values.len()
    }

    /// Whether there is none.
    pub fn is_empty(&self) -> bool {
        self.values.is_empty()
    }

    /// The row of each entry.
    pub fn rows(&self) -> &[u64] {
        &self.rows
    }

    /// The column of each entry.
    pub fn columns(&self) -> &[u64] {
        &self.columns
    }

    /// The value of each entry.
    pub fn values(&self) -> &[T] {
        &self.values
    }

    /// Each entry in turn: row, column, value.
    pub fn iter(&self) -> Triples<Copied<slice::Iter<'_, u64>>, Copied<slice::Iter<'_, T>>> {
        Triples {
            rows: self.rows.iter().copied(),
            columns: self.columns.iter().copied(),
            values: self.values.iter().copied(),
        }
    }

    /// The rows, the columns and the values, each as a vector.
    pub fn into_vecs(self) -> (Vec<u64>, Vec<u64>, Vec<T>) {
        (self.rows, self.columns, self.values)
    }

    /// Where the library writes entries.
    pub(crate) fn as_mut_slices(&mut self) -> (&mut [u64], &mut [u64], &mut [T]) {
        (&mut self.rows, &mut self.columns, &mut self.values)
    }
}

impl<'a, T: Element> IntoIterator for &'a MatrixEntries<T> {
    type Item = (u64, u64, T);
    type IntoIter = Triples<Copied<slice::Iter<'a, u64>>, Copied<slice::Iter<'a, T>>>;

    fn into_iter(self) -> Self::IntoIter {
        self.iter()
    }
}

impl<T: Element> IntoIterator for MatrixEntries<T> {
    type Item = (u64, u64, T);
    type IntoIter = Triples<vec::IntoIter<u64>, vec::IntoIter<T>>;

    fn into_iter(self) -> Self::IntoIter {
        Triples {
            rows: self.rows.into_iter(),
            columns: self.columns.into_iter(),
            values: self.values.into_iter(),
        }
    }
}

/// The entries of a matrix in turn: row, column, value.
#[derive(Clone, Debug)]
pub struct Triples<I, V> {
    rows: I,
    columns: I,
    values: V,
}

impl<I: Iterator<Item = u64>, V: Iterator> Iterator for Triples<I, V> {
    type Item = (u64, u64, V::Item);

    fn next(&mut self) -> Option<Self::Item> {
        Some((self.rows.next()?, self.columns.next()?, self.values.next()?))
    }

    fn size_hint(&self) -> (usize, Option<usize>) {
        self.values.size_hint()
    }
}

impl<I: ExactSizeIterator<Item = u64>, V: ExactSizeIterator> ExactSizeIterator for Triples<I, V> {}

/// All entries of a vector at one moment, from the lowest index up.
///
/// [`Pass::entries`](crate::Pass::entries) reads them. It is a copy: later changes of the vector do not show. Indices are counted from 0.
#[derive(Clone, Debug, Default, PartialEq, Eq)]
pub struct VectorEntries<T> {
    indices: Vec<u64>,
    values: Vec<T>,
}

impl<T: Element> VectorEntries<T> {
    /// How many entries there are.
    pub fn len(&self) -> usize {
        self.values.len()
    }

    /// Whether there is none.
    pub fn is_empty(&self) -> bool {
        self.values.is_empty()
    }

    /// The index of each entry.
    pub fn indices(&self) -> &[u64] {
        &self.indices
    }

    /// The value of each entry.
    pub fn values(&self) -> &[T] {
        &self.values
    }

    /// Each entry in turn: index, value.
    pub fn iter(&self) -> Zip<Copied<slice::Iter<'_, u64>>, Copied<slice::Iter<'_, T>>> {
        self.indices
            .iter()
            .copied()
            .zip(self.values.iter().copied())
    }

    /// The indices and the values, each as a vector.
    pub fn into_vecs(self) -> (Vec<u64>, Vec<T>) {
        (self.indices, self.values)
    }

    /// Where the library writes entries.
    pub(crate) fn as_mut_slices(&mut self) -> (&mut [u64], &mut [T]) {
        (&mut self.indices, &mut self.values)
    }
}

impl<'a, T: Element> IntoIterator for &'a VectorEntries<T> {
    type Item = (u64, T);
    type IntoIter = Zip<Copied<slice::Iter<'a, u64>>, Copied<slice::Iter<'a, T>>>;

    fn into_iter(self) -> Self::IntoIter {
        self.iter()
    }
}

impl<T: Element> IntoIterator for VectorEntries<T> {
    type Item = (u64, T);
    type IntoIter = Zip<vec::IntoIter<u64>, vec::IntoIter<T>>;

    fn into_iter(self) -> Self::IntoIter {
        self.indices.into_iter().zip(self.values)
    }
}

/// The lists of one sort of object, of one length each.
pub trait Lists<E>: Sized {
    /// Lists with so many places, whose contents say nothing. `OutOfMemory` where memory is refused.
    fn with_places(places: u64) -> Result<Self, Error>;

    /// Drops all places but the first ones, so many.
    fn truncate(&mut self, places: u64);

    /// The rows or indices, the columns if there are any, and how many values there are.
    fn lists(&self) -> (&[u64], Option<&[u64]>, usize);

    /// The lists of these entries, in their order. `OutOfMemory` where memory is refused.
    fn collect(entries: impl Iterator<Item = E>) -> Result<Self, Error>;
}

/// A list with so many places, each of which has the default of its type.
fn places<T: Default + Clone>(count: u64) -> Result<Vec<T>, Error> {
    let count = usize::try_from(count).map_err(|_| Error::OutOfMemory)?;
    let mut list = Vec::new();
    reserve(&mut list, count)?;
    list.resize(count, T::default());
    Ok(list)
}

/// Makes room for so many items more.
fn reserve<T>(list: &mut Vec<T>, more: usize) -> Result<(), Error> {
    list.try_reserve(more).map_err(|_| Error::OutOfMemory)
}

/// Keeps so many places of a list.
fn keep<T>(list: &mut Vec<T>, places: u64) {
    if let Ok(places) = usize::try_from(places) {
        list.truncate(places);
    }
}

impl<T: Element> Lists<(u64, u64, T)> for MatrixEntries<T> {
    fn with_places(count: u64) -> Result<MatrixEntries<T>, Error> {
        Ok(MatrixEntries {
            rows: places(count)?,
            columns: places(count)?,
            values: places(count)?,
        })
    }

    fn lists(&self) -> (&[u64], Option<&[u64]>, usize) {
        (&self.rows, Some(&self.columns), self.values.len())
    }

    fn truncate(&mut self, places: u64) {
        keep(&mut self.rows, places);
        keep(&mut self.columns, places);
        keep(&mut self.values, places);
    }

    fn collect(entries: impl Iterator<Item = (u64, u64, T)>) -> Result<MatrixEntries<T>, Error> {
        let mut lists = MatrixEntries::default();
        for (row, column, value) in entries {
            reserve(&mut lists.rows, 1)?;
            reserve(&mut lists.columns, 1)?;
            reserve(&mut lists.values, 1)?;
            lists.rows.push(row);
            lists.columns.push(column);
            lists.values.push(value);
        }
        Ok(lists)
    }
}

impl<T: Element> Lists<(u64, T)> for VectorEntries<T> {
    fn with_places(count: u64) -> Result<VectorEntries<T>, Error> {
        Ok(VectorEntries {
            indices: places(count)?,
            values: places(count)?,
        })
    }

    fn lists(&self) -> (&[u64], Option<&[u64]>, usize) {
        (&self.indices, None, self.values.len())
    }

    fn truncate(&mut self, places: u64) {
        keep(&mut self.indices, places);
        keep(&mut self.values, places);
    }

    fn collect(entries: impl Iterator<Item = (u64, T)>) -> Result<VectorEntries<T>, Error> {
        let mut lists = VectorEntries::default();
        for (index, value) in entries {
            reserve(&mut lists.indices, 1)?;
            reserve(&mut lists.values, 1)?;
            lists.indices.push(index);
            lists.values.push(value);
        }
        Ok(lists)
    }
}
