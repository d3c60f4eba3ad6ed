//! The methods of a pass that make, free, change or read one object.

use crate::descriptor::Wait;
use crate::element::Element;
use crate::entries::Lists;
use crate::error::{self, done, found, Error, Info};
use crate::matrix::Matrix;
use crate::object::{Calls, Object};
use crate::operator::Monoid;
use crate::pass::Pass;
use crate::refusal::{build_call, Call, Operand};
use crate::sys;
use crate::vector::Vector;

/// The methods that make, free, change or read one object.
impl Pass {
    /// Makes a matrix with no entries (`GrB_Matrix_new`).
    ///
    /// # Errors
    ///
    /// - [`Error::InvalidValue`]: rows or columns are not from 1 to 4,294,967,295.
    /// - As of each [change](Pass#changes).
    ///
    /// ```no_run
    /// # use trowelheath::{Error, Pass};
    /// # fn make(pass: &mut Pass) -> Result<(), Error> {
    /// let graph = pass.new_matrix::<bool>(1000, 1000)?;
    /// # Ok(())
    /// # }
    /// ```
    pub fn new_matrix<T: Element>(&mut self, nrows: u64, ncols: u64) -> Result<Matrix<T>, Error> {
        let mut number = 0;
        // SAFETY: the pass is borrowed mutably, so this call alone has it, and the place of the answer is a local variable.
        let answer = done(unsafe {
            sys::trb_matrix_new(&mut self.raw, &mut number, T::DOMAIN, nrows, ncols)
        });
        self.note(answer, || Call::Dimensions(vec![nrows, ncols]))?;
        Ok(Matrix::of(self.store(), number))
    }

    /// Makes a vector with no entries (`GrB_Vector_new`).
    ///
    /// # Errors
    ///
    /// - [`Error::InvalidValue`]: the size is not from 1 to 4,294,967,295.
    /// - As of each [change](Pass#changes).
    pub fn new_vector<T: Element>(&mut self, size: u64) -> Result<Vector<T>, Error> {
        let mut number = 0;
        // SAFETY: the pass is borrowed mutably, so this call alone has it, and the place of the answer is a local variable.
        let answer =
            done(unsafe { sys::trb_vector_new(&mut self.raw, &mut number, T::DOMAIN, size) });
        self.note(answer, || Call::Dimensions(vec![size]))?;
        Ok(Vector::of(self.store(), number))
    }

    /// Makes an object of the same domain, dimensions and entries (`GrB_Matrix_dup`, `GrB_Vector_dup`).
    ///
    /// # Errors
    ///
    /// - [`Error::UninitializedObject`]: the object was freed.
    /// - As of each [change](Pass#changes).
    pub fn dup<O: Object>(&mut self, object: O) -> Result<O, Error> {
        self.check(object)?;
        let mut number = 0;
        done(object.dup(&mut self.raw, &mut number))?;
        Ok(O::of(self.store(), number))
    }

    /// Makes a square matrix with the entries of the vector on the diagonal `k`, and no other (`GrB_Matrix_diag`). What `v` stores at index
    /// `i` stands at row `i` and column `i + k`; where `k` is negative, at row `i - k` and column `i`. The matrix has as many rows and columns
    /// as `v` has indices, and as many more as the diagonal lies away from the main one.
    ///
    /// # Errors
    ///
    /// - [`Error::UninitializedObject`]: the vector was freed.
    /// - [`Error::InvalidValue`]: the matrix would have more than 4,294,967,295 rows.
    /// - As of each [change](Pass#changes).
    ///
    /// ```no_run
    /// # use trowelheath::{Descriptor, Error, Matrix, Pass, Semiring, Vector};
    /// # fn scale(pass: &mut Pass, graph: Matrix<u64>, factors: Vector<u64>) -> Result<(), Error> {
    /// // Each row of the graph times its factor.
    /// let scale = pass.diag(factors, 0)?;
    /// pass.mxm(graph, Semiring::PLUS_TIMES, scale, graph, Descriptor::new())
    /// # }
    /// ```
    pub fn diag<T: Element>(&mut self, v: Vector<T>, k: i64) -> Result<Matrix<T>, Error> {
        self.check(v)?;
        let mut number = 0;
        // SAFETY: the pass is borrowed mutably, so this call alone has it, and the place of the answer is a local variable.
        let answer =
            done(unsafe { sys::trb_matrix_diag(&mut self.raw, &mut number, v.number(), k) });
        self.note(answer, || Call::Diagonal(Operand::of("v", v), k))?;
        Ok(Matrix::of(self.store(), number))
    }

    /// Ends the object. Its number is not used again, and each later call that names it is refused (`GrB_free`).
    ///
    /// # Errors
    ///
    /// - [`Error::UninitializedObject`]: the object was freed before.
    /// - As of each [change](Pass#changes).
    pub fn free<O: Object>(&mut self, object: O) -> Result<(), Error> {
        self.check(object)?;
        done(object.free(&mut self.raw))
    }

    /// Removes all entries; the dimensions stay (`GrB_Matrix_clear`, `GrB_Vector_clear`).
    ///
    /// # Errors
    ///
    /// - [`Error::UninitializedObject`]: the object was freed.
    /// - As of each [change](Pass#changes).
    pub fn clear<O: Object>(&mut self, object: O) -> Result<(), Error> {
        self.check(object)?;
        done(object.clear(&mut self.raw))
    }

    /// Gives a matrix new dimensions, `(rows, columns)`, or a vector a new size. Entries outside are gone for good (`GrB_Matrix_resize`,
    /// `GrB_Vector_resize`).
    ///
    /// # Errors
    ///
    /// - [`Error::UninitializedObject`]: the object was freed.
    /// - [`Error::InvalidValue`]: a dimension is not from 1 to 4,294,967,295.
    /// - As of each [change](Pass#changes).
    pub fn resize<O: Object>(&mut self, object: O, size: O::Index) -> Result<(), Error> {
        self.check(object)?;
        let answer = done(object.resize(&mut self.raw, size));
        self.note(answer, || {
            let (nrows, ncols) = O::place(size);
            Call::Dimensions(if O::IS_MATRIX {
                vec![nrows, ncols]
            } else {
                vec![nrows]
            })
        })
    }

    /// The dimensions of a matrix, `(rows, columns)`, or the size of a vector (`GrB_Matrix_nrows`, `GrB_Matrix_ncols`, `GrB_Vector_size`).
    ///
    /// # Errors
    ///
    /// - [`Error::UninitializedObject`]: the object was freed.
    /// - As of each [read](Pass#reads), but never for memory.
    pub fn size<O: Object>(&mut self, object: O) -> Result<O::Index, Error> {
        self.check(object)?;
        let mut size = O::Index::default();
        done(object.size(&mut self.raw, &mut size))?;
        Ok(size)
    }

    /// Stores the value in a matrix at `(row, column)`, or in a vector at the index, in place of what was stored there
    /// (`GrB_Matrix_setElement`, `GrB_Vector_setElement`). Indices are counted from 0.
    ///
    /// # Errors
    ///
    /// - [`Error::UninitializedObject`]: the object was freed.
    /// - [`Error::InvalidIndex`]: an index is not below the dimension.
    /// - As of each [change](Pass#changes).
    ///
    /// ```no_run
    /// # use trowelheath::{Error, Matrix, Pass, Vector};
    /// # fn store(pass: &mut Pass, graph: Matrix<bool>, distance: Vector<u64>) -> Result<(), Error> {
    /// pass.set(graph, (0, 7), true)?;
    /// pass.set(distance, 7, 1)?;
    /// # Ok(())
    /// # }
    /// ```
    pub fn set<O: Object>(
        &mut self,
        object: O,
        index: O::Index,
        value: O::Element,
    ) -> Result<(), Error> {
        self.check(object)?;
        let answer = done(object.set(&mut self.raw, index, value));
        self.note(answer, || {
            Call::Place(Operand::of("the object", object), O::place(index))
        })
    }

    /// The value that is stored in a matrix at `(row, column)`, or in a vector at the index; `None` where nothing is stored there
    /// (`GrB_Matrix_extractElement`, `GrB_Vector_extractElement`). Indices are counted from 0.
    ///
    /// # Errors
    ///
    /// - [`Error::UninitializedObject`]: the object was freed.
    /// - [`Error::InvalidIndex`]: an index is not below the dimension.
    /// - As of each [read](Pass#reads).
    pub fn get<O: Object>(
        &mut self,
        object: O,
        index: O::Index,
    ) -> Result<Option<O::Element>, Error> {
        self.check(object)?;
        let mut value = O::Element::default();
        let status = object.get(&mut self.raw, &mut value, index);
        let answer = found(status, value);
        self.note(answer, || {
            Call::Place(Operand::of("the object", object), O::place(index))
        })
    }

    /// Removes the entry of a matrix at `(row, column)`, or of a vector at the index, if there is one (`GrB_Matrix_removeElement`,
    /// `GrB_Vector_removeElement`). Indices are counted from 0.
    ///
    /// # Errors
    ///
    /// - [`Error::UninitializedObject`]: the object was freed.
    /// - [`Error::InvalidIndex`]: an index is not below the dimension.
    /// - As of each [change](Pass#changes).
    pub fn remove<O: Object>(&mut self, object: O, index: O::Index) -> Result<(), Error> {
        self.check(object)?;
        let answer = done(object.remove(&mut self.raw, index));
        self.note(answer, || {
            Call::Place(Operand::of("the object", object), O::place(index))
        })
    }

    /// How many entries are stored (`GrB_Matrix_nvals`, `GrB_Vector_nvals`).
    ///
    /// # Errors
    ///
    /// - [`Error::UninitializedObject`]: the object was freed.
    /// - As of each [read](Pass#reads).
    pub fn nvals<O: Object>(&mut self, object: O) -> Result<u64, Error> {
        self.check(object)?;
        let mut count = 0;
        done(object.nvals(&mut self.raw, &mut count))?;
        Ok(count)
    }

    /// All stored values combined by the monoid; its identity where none is stored (`GrB_Matrix_reduce`, `GrB_Vector_reduce`, to a scalar).
    ///
    /// # Errors
    ///
    /// - [`Error::UninitializedObject`]: the object was freed.
    /// - As of each [read](Pass#reads).
    pub fn reduce<O: Object>(
        &mut self,
        object: O,
        monoid: Monoid<O::Element>,
    ) -> Result<O::Element, Error> {
        self.check(object)?;
        let mut total = O::Element::default();
        done(object.reduce(&mut self.raw, &mut total, monoid.number()))?;
        Ok(total)
    }

    /// Fills a matrix that stores nothing: `values[k]` goes to row `rows[k]` and column `columns[k]`, and values of one place are combined by
    /// the monoid `dup` (`GrB_Matrix_build`). Rows and columns are counted from 0.
    ///
    /// It is one change, whatever the lists hold. The store keeps a copy of them for its whole life.
    ///
    /// # Errors
    ///
    /// - [`Error::UninitializedObject`]: the matrix was freed.
    /// - [`Error::InvalidValue`]: the lists are not of one length.
    /// - [`Error::OutputNotEmpty`]: the matrix stores an entry.
    /// - [`Error::IndexOutOfBounds`]: a row or a column is not below the dimension. Nothing of the lists was stored.
    /// - As of each [change](Pass#changes). Memory is taken for a copy of the lists, and to tell whether the matrix stores an entry.
    pub fn build_matrix<T: Element>(
        &mut self,
        matrix: Matrix<T>,
        rows: &[u64],
        columns: &[u64],
        values: &[T],
        dup: Monoid<T>,
    ) -> Result<(), Error> {
        self.check(matrix)?;
        let answer = matrix.build_from(&mut self.raw, rows, columns, values, dup.number());
        self.note(answer, || {
            build_call(
                Operand::of("the matrix", matrix),
                rows,
                Some(columns),
                values.len(),
            )
        })
    }

    /// Fills a vector that stores nothing: `values[k]` goes to index `indices[k]`, and values of one index are combined by the monoid `dup`
    /// (`GrB_Vector_build`). Indices are counted from 0.
    ///
    /// It is one change, whatever the lists hold. The store keeps a copy of them for its whole life.
    ///
    /// # Errors
    ///
    /// - [`Error::UninitializedObject`]: the vector was freed.
    /// - [`Error::InvalidValue`]: the lists are not of one length.
    /// - [`Error::OutputNotEmpty`]: the vector stores an entry.
    /// - [`Error::IndexOutOfBounds`]: an index is not below the size. Nothing of the lists was stored.
    /// - As of each [change](Pass#changes). Memory is taken for a copy of the lists, and to tell whether the vector stores an entry.
    pub fn build_vector<T: Element>(
        &mut self,
        vector: Vector<T>,
        indices: &[u64],
        values: &[T],
        dup: Monoid<T>,
    ) -> Result<(), Error> {
        self.check(vector)?;
        let answer = vector.build_from(&mut self.raw, indices, values, dup.number());
        self.note(answer, || {
            build_call(
                Operand::of("the vector", vector),
                indices,
                None,
                values.len(),
            )
        })
    }

    /// Fills an object that stores nothing with all entries that an object of the other pass has now: of a branch, as a rule. They are shared
    /// until one of the two is changed, and none is copied. The other object may be smaller. It is a wait for the one by the other pass, and
    /// one change.
    ///
    /// # Errors
    ///
    /// - [`Error::UninitializedObject`]: one of the objects was freed.
    /// - [`Error::OutputNotEmpty`]: the object stores an entry.
    /// - [`Error::IndexOutOfBounds`]: an entry of the other is outside of it. Nothing was stored.
    /// - As of each [change](Pass#changes).
    ///
    /// ```no_run
    /// # use trowelheath::{Error, Pass, Vector};
    /// # fn publish(pass: &mut Pass, levels: Vector<u64>, own: &mut Pass, found: Vector<u64>) -> Result<(), Error> {
    /// pass.build_from(levels, own, found)?;
    /// # Ok(())
    /// # }
    /// ```
    pub fn build_from<O: Object>(
        &mut self,
        object: O,
        other: &mut Pass,
        from: O,
    ) -> Result<(), Error> {
        self.check(object)?;
        other.check(from)?;
        done(object.build_of(&mut self.raw, &mut other.raw, from))
    }

    /// Fills an object that stores nothing from entries, `(row, column, value)` of a matrix or `(index, value)` of a vector, in any order.
    /// Those of one place are combined by the monoid `dup`. The entries are collected first, and then it is one build, as
    /// [`build_matrix`](Pass::build_matrix) and [`build_vector`](Pass::build_vector) are.
    ///
    /// # Errors
    ///
    /// - [`Error::UninitializedObject`]: the object was freed.
    /// - [`Error::OutputNotEmpty`]: the object stores an entry.
    /// - [`Error::IndexOutOfBounds`]: an index is not below the dimension. Nothing of the entries was stored.
    /// - As of each [change](Pass#changes). Memory is taken to collect the entries too.
    ///
    /// ```no_run
    /// # use trowelheath::{Error, Matrix, Monoid, Pass};
    /// # fn fill(pass: &mut Pass, graph: Matrix<u64>, edges: &[(u64, u64)]) -> Result<(), Error> {
    /// pass.build(graph, edges.iter().map(|&(i, j)| (i, j, 1)), Monoid::PLUS)?;
    /// # Ok(())
    /// # }
    /// ```
    pub fn build<O: Object>(
        &mut self,
        object: O,
        entries: impl IntoIterator<Item = O::Entry>,
        dup: Monoid<O::Element>,
    ) -> Result<(), Error> {
        self.check(object)?;
        let lists = O::Entries::collect(entries.into_iter())?;
        let answer = object.build(&mut self.raw, &lists, dup.number());
        self.note(answer, || {
            let (rows, columns, length) = lists.lists();
            build_call(Operand::of("the object", object), rows, columns, length)
        })
    }

    /// All entries as they stand at one moment of the call: of a matrix row by row, of a vector from the lowest index up
    /// (`GrB_Matrix_extractTuples`, `GrB_Vector_extractTuples`).
    ///
    /// It asks how many there are, and reads as many. Where another pass adds entries between the two, it reads again, with more
    /// places.
    ///
    /// # Errors
    ///
    /// - [`Error::UninitializedObject`]: the object was freed.
    /// - As of each [read](Pass#reads). Memory is taken for the entries too.
    pub fn entries<O: Object>(&mut self, object: O) -> Result<O::Entries, Error> {
        let mut places = self.nvals(object)?;
        loop {
            let mut entries = O::Entries::with_places(places)?;
            let mut count = 0;
            match object.tuples(&mut self.raw, &mut entries, &mut count) {
                // The next read has some places to spare, so that a pass that goes on adding does not outrun it.
                error::INSUFFICIENT_SPACE => places = count.saturating_add(count / 4),
                status => {
                    done(status)?;
                    entries.truncate(count);
                    return Ok(entries);
                }
            }
        }
    }

    /// Does the work now that changes have left: with [`Wait::Complete`] that on the object, with [`Wait::Materialize`] that on all objects
    /// (`GrB_wait`). It changes no value, takes no room, and waits for no thread.
    ///
    /// After `Materialize` the reads of this pass cannot be refused for memory until it learns of new changes, and other passes may go on
    /// from what was done.
    ///
    /// # Errors
    ///
    /// - [`Error::UninitializedObject`]: the object was freed.
    /// - As of each [read](Pass#reads). What is done is kept, and the next wait goes on there.
    pub fn wait<O: Object>(&mut self, object: O, mode: Wait) -> Result<(), Error> {
        self.check(object)?;
        done(object.wait(&mut self.raw, mode.number()))
    }

    /// The status that the pass's last call on the object left, and `None` where it made none yet. A call is on the object that it
    /// changes, reads or makes. Each pass has the statuses of its own calls alone.
    ///
    /// # Errors
    ///
    /// - [`Error::ForeignObject`]: the object is of another store.
    pub fn last_info<O: Object>(&mut self, object: O) -> Result<Option<Info>, Error> {
        self.check(object)?;
        let mut info = error::SUCCESS;
        let status = object.last_info(&mut self.raw, &mut info);
        found(status, error::info_of(info))
    }
}
