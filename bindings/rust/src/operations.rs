//! The methods of a pass that compute an object of others.

use crate::descriptor::{Descriptor, Numbers};
use crate::element::Element;
use crate::error::{done, Error};
use crate::function::Function;
use crate::matrix::Matrix;
use crate::object::{Calls, Object};
use crate::operator::{Monoid, Op, Semiring};
use crate::pass::Pass;
use crate::refusal::{Call, Operand, Rule, EWISE, KRONECKER, MXM, MXV, REDUCE, TERM, VXM};
use crate::sys::{self, TrbPass};
use crate::test::Test;
use crate::vector::Vector;

/// An operation that writes an output, as it was called: output, mask and inputs in this order.
fn operation<O: Object>(
    name: &'static str,
    output: O,
    how: Numbers,
    inputs: &[Operand],
    rules: &'static [Rule],
) -> Call {
    let mut operands = vec![Operand::of(name, output), Operand::mask::<O>(how.mask)];
    operands.extend_from_slice(inputs);
    Call::Operation(operands, rules)
}

/// The operations: each writes its output, the first object, by a [`Descriptor`].
impl Pass {
    /// `C<M> = accum(C, A + B)`: `op` of the values of `a` and `b` where both store one, else the one value, written into `c` (`GrB_eWiseAdd`).
    ///
    /// # Errors
    ///
    /// - [`Error::UninitializedObject`]: an object of the call, the mask too, was freed.
    /// - [`Error::InvalidValue`]: the objects are vectors, and one is to be transposed.
    /// - [`Error::DimensionMismatch`]: the inputs, a transposed one as it is turned, and the mask have not the dimensions of `c`.
    /// - As of each [change](Pass#changes).
    pub fn ewise_add<O: Object>(
        &mut self,
        c: O,
        op: Op<O::Element>,
        a: O,
        b: O,
        descriptor: Descriptor<O>,
    ) -> Result<(), Error> {
        self.ewise(c, a, b, descriptor, |pass, how| {
            c.ewise_add(pass, how, op.number(), a, b)
        })
    }

    /// `C<M> = accum(C, A .* B)`: `op` of the values of `a` and `b` where both store one, and nothing elsewhere, written into `c`
    /// (`GrB_eWiseMult`).
    ///
    /// # Errors
    ///
    /// - [`Error::UninitializedObject`]: an object of the call, the mask too, was freed.
    /// - [`Error::InvalidValue`]: the objects are vectors, and one is to be transposed.
    /// - [`Error::DimensionMismatch`]: the inputs, a transposed one as it is turned, and the mask have not the dimensions of `c`.
    /// - As of each [change](Pass#changes).
    pub fn ewise_mult<O: Object>(
        &mut self,
        c: O,
        op: Op<O::Element>,
        a: O,
        b: O,
        descriptor: Descriptor<O>,
    ) -> Result<(), Error> {
        self.ewise(c, a, b, descriptor, |pass, how| {
            c.ewise_mult(pass, how, op.number(), a, b)
        })
    }

    /// Makes an operation of the values of `a` and `b` at the same places, which `call` has the library make.
    fn ewise<O: Object>(
        &mut self,
        c: O,
        a: O,
        b: O,
        descriptor: Descriptor<O>,
        call: impl FnOnce(&mut TrbPass, Numbers) -> i32,
    ) -> Result<(), Error> {
        self.check(c)?;
        self.check(a)?;
        self.check(b)?;
        self.check_mask(&descriptor)?;
        let how = descriptor.numbers();
        let answer = done(call(&mut self.raw, how));
        self.note(answer, || {
            let inputs = [
                Operand::first("a", a, how.bits),
                Operand::second("b", b, how.bits),
            ];
            operation("c", c, how, &inputs, EWISE)
        })
    }

    /// `C<M> = accum(C, A * B)`: at row `i` and column `j` the products of row `i` of `a` and column `j` of `b`, where both store a value,
    /// combined, and nothing where there is no such place; written into `c` (`GrB_mxm`).
    ///
    /// # Errors
    ///
    /// - [`Error::UninitializedObject`]: an object of the call, the mask too, was freed.
    /// - [`Error::DimensionMismatch`]: `a`, as it is turned, has not the rows of `c`, `b` as it is turned not its columns, or `a` not as many
    ///   columns as `b` has rows; or the mask has not the dimensions of `c`.
    /// - As of each [change](Pass#changes).
    ///
    /// ```no_run
    /// # use trowelheath::{Descriptor, Error, Matrix, Monoid, Pass, Semiring};
    /// # fn count(pass: &mut Pass, lower: Matrix<u64>) -> Result<u64, Error> {
    /// // The triangles of a graph, of which `lower` stores a 1 for each edge, below the diagonal.
    /// let (nrows, ncols) = pass.size(lower)?;
    /// let ways = pass.new_matrix(nrows, ncols)?;
    /// let inside = Descriptor::new().mask(lower).structure();
    /// pass.mxm(ways, Semiring::PLUS_TIMES, lower, lower, inside)?;
    /// pass.reduce(ways, Monoid::PLUS)
    /// # }
    /// ```
    pub fn mxm<T: Element>(
        &mut self,
        c: Matrix<T>,
        semiring: Semiring<T>,
        a: Matrix<T>,
        b: Matrix<T>,
        descriptor: Descriptor<Matrix<T>>,
    ) -> Result<(), Error> {
        self.check(c)?;
        self.check(a)?;
        self.check(b)?;
        self.check_mask(&descriptor)?;
        let Numbers { mask, accum, bits } = descriptor.numbers();
        // SAFETY: the pass is borrowed mutably, so this call alone has it. There is no other pointer.
        let answer = done(unsafe {
            sys::trb_mxm(
                &mut self.raw,
                c.number(),
                mask,
                accum,
                semiring.monoid().number(),
                semiring.op().number(),
                a.number(),
                b.number(),
                bits,
            )
        });
        self.note(answer, || {
            operation(
                "c",
                c,
                Numbers { mask, accum, bits },
                &[Operand::first("a", a, bits), Operand::second("b", b, bits)],
                MXM,
            )
        })
    }

    /// `w<m> = accum(w, A * u)`: at row `i` the products of row `i` of `a` and `u`, where both store a value, combined, and nothing where there
    /// is no such place; written into `w` (`GrB_mxv`).
    ///
    /// # Errors
    ///
    /// - [`Error::UninitializedObject`]: an object of the call, the mask too, was freed.
    /// - [`Error::InvalidValue`]: the second input, a vector, is to be transposed.
    /// - [`Error::DimensionMismatch`]: `a`, as it is turned, has not a row for each index of `w` and a column for each of `u`, or the mask has
    ///   not the size of `w`.
    /// - As of each [change](Pass#changes).
    pub fn mxv<T: Element>(
        &mut self,
        w: Vector<T>,
        semiring: Semiring<T>,
        a: Matrix<T>,
        u: Vector<T>,
        descriptor: Descriptor<Vector<T>>,
    ) -> Result<(), Error> {
        self.check(w)?;
        self.check(a)?;
        self.check(u)?;
        self.check_mask(&descriptor)?;
        let Numbers { mask, accum, bits } = descriptor.numbers();
        // SAFETY: the pass is borrowed mutably, so this call alone has it. There is no other pointer.
        let answer = done(unsafe {
            sys::trb_mxv(
                &mut self.raw,
                w.number(),
                mask,
                accum,
                semiring.monoid().number(),
                semiring.op().number(),
                a.number(),
                u.number(),
                bits,
            )
        });
        self.note(answer, || {
            operation(
                "w",
                w,
                Numbers { mask, accum, bits },
                &[Operand::first("a", a, bits), Operand::of("u", u)],
                MXV,
            )
        })
    }

    /// `w<m> = accum(w, u * A)`: at column `j` the products of `u` and column `j` of `a`, where both store a value, the value of `u` first,
    /// combined, and nothing where there is no such place; written into `w` (`GrB_vxm`). So it goes from what `u` stores along the edges of a
    /// graph.
    ///
    /// # Errors
    ///
    /// - [`Error::UninitializedObject`]: an object of the call, the mask too, was freed.
    /// - [`Error::InvalidValue`]: the first input, a vector, is to be transposed.
    /// - [`Error::DimensionMismatch`]: `a`, as it is turned by [`tran1`](Descriptor::tran1), has not a row for each index of `u` and a column
    ///   for each of `w`, or the mask has not the size of `w`.
    /// - As of each [change](Pass#changes).
    pub fn vxm<T: Element>(
        &mut self,
        w: Vector<T>,
        semiring: Semiring<T>,
        u: Vector<T>,
        a: Matrix<T>,
        descriptor: Descriptor<Vector<T>>,
    ) -> Result<(), Error> {
        self.check(w)?;
        self.check(u)?;
        self.check(a)?;
        self.check_mask(&descriptor)?;
        let Numbers { mask, accum, bits } = descriptor.numbers();
        // SAFETY: the pass is borrowed mutably, so this call alone has it. There is no other pointer.
        let answer = done(unsafe {
            sys::trb_vxm(
                &mut self.raw,
                w.number(),
                mask,
                accum,
                semiring.monoid().number(),
                semiring.op().number(),
                u.number(),
                a.number(),
                bits,
            )
        });
        self.note(answer, || {
            operation(
                "w",
                w,
                Numbers { mask, accum, bits },
                &[Operand::of("u", u), Operand::second("a", a, bits)],
                VXM,
            )
        })
    }

    /// `w<m> = accum(w, fold of each row of A)`: the values of each row of `a` that stores one, combined by the monoid, and nothing for any
    /// other row; written into `w` (`GrB_Matrix_reduce`, to a vector). With [`tran`](Descriptor::tran) the columns of `a` are folded.
    ///
    /// # Errors
    ///
    /// - [`Error::UninitializedObject`]: an object of the call, the mask too, was freed.
    /// - [`Error::InvalidValue`]: a second input is to be transposed, and there is none.
    /// - [`Error::DimensionMismatch`]: `a`, as it is turned, has not a row for each index of `w`, or the mask has not the size of `w`.
    /// - As of each [change](Pass#changes).
    pub fn reduce_rows<T: Element>(
        &mut self,
        w: Vector<T>,
        monoid: Monoid<T>,
        a: Matrix<T>,
        descriptor: Descriptor<Vector<T>>,
    ) -> Result<(), Error> {
        self.check(w)?;
        self.check(a)?;
        self.check_mask(&descriptor)?;
        let Numbers { mask, accum, bits } = descriptor.numbers();
        // SAFETY: the pass is borrowed mutably, so this call alone has it. There is no other pointer.
        let answer = done(unsafe {
            sys::trb_reduce_rows(
                &mut self.raw,
                w.number(),
                mask,
                accum,
                monoid.number(),
                a.number(),
                bits,
            )
        });
        self.note(answer, || {
            operation(
                "w",
                w,
                Numbers { mask, accum, bits },
                &[Operand::first("a", a, bits)],
                REDUCE,
            )
        })
    }

    /// `C<M> = accum(C, A')`: at row `i` and column `j` what `a` stores at row `j` and column `i`, written into `c` (`GrB_transpose`). With
    /// [`tran`](Descriptor::tran) that is `a` itself, since it is turned twice.
    ///
    /// # Errors
    ///
    /// - [`Error::UninitializedObject`]: an object of the call, the mask too, was freed.
    /// - [`Error::InvalidValue`]: a second input is to be transposed, and there is none.
    /// - [`Error::DimensionMismatch`]: what is written, or the mask, has not the dimensions of `c`.
    /// - As of each [change](Pass#changes).
    pub fn transpose<T: Element>(
        &mut self,
        c: Matrix<T>,
        a: Matrix<T>,
        descriptor: Descriptor<Matrix<T>>,
    ) -> Result<(), Error> {
        self.check(c)?;
        self.check(a)?;
        self.check_mask(&descriptor)?;
        let Numbers { mask, accum, bits } = descriptor.numbers();
        // SAFETY: the pass is borrowed mutably, so this call alone has it. There is no other pointer.
        let answer = done(unsafe {
            sys::trb_transpose(&mut self.raw, c.number(), mask, accum, a.number(), bits)
        });
        self.note(answer, || {
            operation(
                "c",
                c,
                Numbers { mask, accum, bits },
                &[Operand::first("a", a, bits).turned()],
                TERM,
            )
        })
    }

    /// `C<M> = accum(C, f(A))`: the function of each value that `a` stores, at the place of that value, written into `c` (`GrB_apply`). A
    /// unary operator is given as it is, and a binary one with a bound value as a [`Function`].
    ///
    /// A matrix is read transposed by [`tran`](Descriptor::tran), but with [`Function::First`], where it stands second, by
    /// [`tran1`](Descriptor::tran1).
    ///
    /// # Errors
    ///
    /// - [`Error::UninitializedObject`]: an object of the call, the mask too, was freed.
    /// - [`Error::InvalidValue`]: the objects are vectors, and one is to be transposed; or the bound value of the function is, or a second
    ///   input of a unary operator.
    /// - [`Error::DimensionMismatch`]: `a`, as it is turned, or the mask has not the dimensions of `c`.
    /// - As of each [change](Pass#changes).
    ///
    /// ```no_run
    /// # use trowelheath::{Descriptor, Error, Function, Matrix, Op, Pass, UnaryOp};
    /// # fn weigh(pass: &mut Pass, graph: Matrix<u64>) -> Result<(), Error> {
    /// pass.apply(graph, UnaryOp::BNOT, graph, Descriptor::new())?;
    /// // A 1 for each edge, whatever it stored.
    /// pass.apply(graph, Function::First(1, Op::FIRST), graph, Descriptor::new())
    /// # }
    /// ```
    pub fn apply<O: Object>(
        &mut self,
        c: O,
        function: impl Into<Function<O::Element>>,
        a: O,
        descriptor: Descriptor<O>,
    ) -> Result<(), Error> {
        self.check(c)?;
        self.check(a)?;
        self.check_mask(&descriptor)?;
        let function = function.into();
        let how = descriptor.numbers();
        let answer = done(c.apply(&mut self.raw, how, function, a));
        self.note(answer, || {
            let input = match function {
                Function::First(..) => Operand::second("a", a, how.bits),
                _ => Operand::first("a", a, how.bits),
            };
            operation("c", c, how, &[input], TERM)
        })
    }

    /// `C<M> = accum(C, A where the test holds)`: the entries of `a` that pass the test, each at its place, written into `c` (`GrB_select`).
    /// A matrix that is read transposed is turned before it is tested.
    ///
    /// # Errors
    ///
    /// - [`Error::UninitializedObject`]: an object of the call, the mask too, was freed.
    /// - [`Error::InvalidValue`]: a diagonal is not from -4,294,967,295 to 4,294,967,295; the objects are vectors, and one is to be transposed;
    ///   or a second input is, and there is none.
    /// - [`Error::DimensionMismatch`]: `a`, as it is turned, or the mask has not the dimensions of `c`.
    /// - As of each [change](Pass#changes).
    ///
    /// ```no_run
    /// # use trowelheath::{Descriptor, Error, Matrix, Pass, Test};
    /// # fn split(pass: &mut Pass, graph: Matrix<u64>, lower: Matrix<u64>, heavy: Matrix<u64>) -> Result<(), Error> {
    /// pass.select(lower, Test::Tril(-1), graph, Descriptor::new())?;
    /// pass.select(heavy, Test::ValueGe(100), graph, Descriptor::new())
    /// # }
    /// ```
    pub fn select<O: Object>(
        &mut self,
        c: O,
        test: Test<O::Element>,
        a: O,
        descriptor: Descriptor<O>,
    ) -> Result<(), Error> {
        self.check(c)?;
        self.check(a)?;
        self.check_mask(&descriptor)?;
        let how = descriptor.numbers();
        let answer = done(c.select(&mut self.raw, how, test, a));
        self.note(answer, || {
            operation("c", c, how, &[Operand::first("a", a, how.bits)], TERM)
        })
    }

    /// `C<M> = accum(C, A kron B)`: for each entry of `a`, at row `i` and column `j`, and each of `b`, at row `p` and column `q`, `op` of both
    /// values at row `i * r + p` and column `j * s + q`, where `b` has `r` rows and `s` columns; written into `c` (`GrB_kronecker`).
    ///
    /// # Errors
    ///
    /// - [`Error::UninitializedObject`]: an object of the call, the mask too, was freed.
    /// - [`Error::DimensionMismatch`]: the rows of `c` are not those of `a` times those of `b`, or its columns not theirs, both as they are turned;
    ///   or the mask has not the dimensions of `c`.
    /// - As of each [change](Pass#changes). Without a mask and an accumulator `c` stores an entry for each pair of one of `a` and one of `b`;
    ///   whether there is memory for them shows at the read that does the work.
    pub fn kronecker<T: Element>(
        &mut self,
        c: Matrix<T>,
        op: Op<T>,
        a: Matrix<T>,
        b: Matrix<T>,
        descriptor: Descriptor<Matrix<T>>,
    ) -> Result<(), Error> {
        self.check(c)?;
        self.check(a)?;
        self.check(b)?;
        self.check_mask(&descriptor)?;
        let Numbers { mask, accum, bits } = descriptor.numbers();
        // SAFETY: the pass is borrowed mutably, so this call alone has it. There is no other pointer.
        let answer = done(unsafe {
            sys::trb_matrix_kronecker(
                &mut self.raw,
                c.number(),
                mask,
                accum,
                op.number(),
                a.number(),
                b.number(),
                bits,
            )
        });
        self.note(answer, || {
            operation(
                "c",
                c,
                Numbers { mask, accum, bits },
                &[Operand::first("a", a, bits), Operand::second("b", b, bits)],
                KRONECKER,
            )
        })
    }
}
