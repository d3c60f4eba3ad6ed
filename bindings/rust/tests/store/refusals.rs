//! Each refusal, of each method that has it, and that nothing changes by it.
//!
//! Three are left out. `DomainMismatch` is a program that does not compile. `OutOfMemory` and `Panic` do not come where memory is there.

use crate::{matrix, open, stored, vector};
use trowelheath::{
    Descriptor, Error, Monoid, Object, Op, Pass, Semiring, Store, Test, UnaryOp, Wait,
};

/// The refusals of all methods that take one object and an index of it, in turn.
fn calls_on<O: Object>(
    pass: &mut Pass,
    object: O,
    index: O::Index,
    value: O::Element,
    monoid: Monoid<O::Element>,
) -> Vec<Option<Error>> {
    vec![
        pass.dup(object).err(),
        pass.free(object).err(),
        pass.clear(object).err(),
        pass.resize(object, index).err(),
        pass.size(object).err(),
        pass.set(object, index, value).err(),
        pass.get(object, index).err(),
        pass.remove(object, index).err(),
        pass.nvals(object).err(),
        pass.reduce(object, monoid).err(),
        pass.build(object, [], monoid).err(),
        pass.entries(object).err(),
        pass.wait(object, Wait::Complete).err(),
        pass.wait(object, Wait::Materialize).err(),
    ]
}

/// That each of them is this one.
fn assert_all(refusals: Vec<Option<Error>>, expected: Error) {
    for (at, refusal) in refusals.into_iter().enumerate() {
        assert_eq!(refusal, Some(expected), "call {at}");
    }
}

#[test]
fn a_freed_object_is_refused() {
    let mut pass = open();
    let a = matrix(&mut pass, (2, 2), &[(0, 0, 1u64)]);
    let v = vector(&mut pass, 2, &[(0, true)]);
    pass.free(a).unwrap();
    pass.free(v).unwrap();
    let known = pass.facts().unwrap().known;
    let refused = Error::UninitializedObject;
    assert_all(calls_on(&mut pass, a, (0, 0), 1, Monoid::PLUS), refused);
    assert_all(calls_on(&mut pass, v, 0, true, Monoid::LOR), refused);
    let lists = [0];
    assert_eq!(
        pass.build_matrix(a, &lists, &lists, &[1], Monoid::PLUS),
        Err(refused)
    );
    assert_eq!(
        pass.build_vector(v, &lists, &[true], Monoid::LOR),
        Err(refused)
    );
    assert_eq!(pass.facts().unwrap().known, known);
}

#[test]
fn a_freed_operand_is_refused() {
    let mut pass = open();
    let a = matrix(&mut pass, (2, 2), &[(0, 0, 1u64)]);
    let v = vector(&mut pass, 2, &[(0, 1u64)]);
    let gone = pass.new_matrix::<u64>(2, 2).unwrap();
    let lost = pass.new_vector::<u64>(2).unwrap();
    pass.free(gone).unwrap();
    pass.free(lost).unwrap();
    let known = pass.facts().unwrap().known;
    let s = Semiring::PLUS_TIMES;
    let d = Descriptor::new();
    let masked = Descriptor::new().mask(gone);
    let refusals = vec![
        pass.ewise_add(gone, Op::PLUS, a, a, d).err(),
        pass.ewise_add(a, Op::PLUS, gone, a, d).err(),
        pass.ewise_add(a, Op::PLUS, a, gone, d).err(),
        pass.ewise_add(a, Op::PLUS, a, a, masked).err(),
        pass.ewise_mult(gone, Op::PLUS, a, a, d).err(),
        pass.ewise_mult(a, Op::PLUS, gone, a, d).err(),
        pass.ewise_mult(a, Op::PLUS, a, gone, d).err(),
        pass.ewise_mult(a, Op::PLUS, a, a, masked).err(),
        pass.mxm(gone, s, a, a, d).err(),
        pass.mxm(a, s, gone, a, d).err(),
        pass.mxm(a, s, a, gone, d).err(),
        pass.mxm(a, s, a, a, masked).err(),
        pass.transpose(gone, a, d).err(),
        pass.transpose(a, gone, d).err(),
        pass.transpose(a, a, masked).err(),
        pass.apply(gone, UnaryOp::AINV, a, d).err(),
        pass.apply(a, UnaryOp::AINV, gone, d).err(),
        pass.apply(a, UnaryOp::AINV, a, masked).err(),
        pass.select(gone, Test::Tril(0), a, d).err(),
        pass.select(a, Test::Tril(0), gone, d).err(),
        pass.select(a, Test::Tril(0), a, masked).err(),
        pass.kronecker(gone, Op::PLUS, a, a, d).err(),
        pass.kronecker(a, Op::PLUS, gone, a, d).err(),
        pass.kronecker(a, Op::PLUS, a, gone, d).err(),
        pass.kronecker(a, Op::PLUS, a, a, masked).err(),
    ];
    assert_all(refusals, Error::UninitializedObject);
    let d = Descriptor::new();
    let masked = Descriptor::new().mask(lost);
    let refusals = vec![
        pass.ewise_add(lost, Op::PLUS, v, v, d).err(),
        pass.ewise_add(v, Op::PLUS, lost, v, d).err(),
        pass.ewise_add(v, Op::PLUS, v, lost, d).err(),
        pass.ewise_add(v, Op::PLUS, v, v, masked).err(),
        pass.ewise_mult(lost, Op::PLUS, v, v, d).err(),
        pass.ewise_mult(v, Op::PLUS, lost, v, d).err(),
        pass.ewise_mult(v, Op::PLUS, v, lost, d).err(),
        pass.ewise_mult(v, Op::PLUS, v, v, masked).err(),
        pass.mxv(lost, s, a, v, d).err(),
        pass.mxv(v, s, gone, v, d).err(),
        pass.mxv(v, s, a, lost, d).err(),
        pass.mxv(v, s, a, v, masked).err(),
        pass.vxm(lost, s, v, a, d).err(),
        pass.vxm(v, s, lost, a, d).err(),
        pass.vxm(v, s, v, gone, d).err(),
        pass.vxm(v, s, v, a, masked).err(),
        pass.reduce_rows(lost, Monoid::PLUS, a, d).err(),
        pass.reduce_rows(v, Monoid::PLUS, gone, d).err(),
        pass.reduce_rows(v, Monoid::PLUS, a, masked).err(),
        pass.apply(lost, UnaryOp::AINV, v, d).err(),
        pass.apply(v, UnaryOp::AINV, lost, d).err(),
        pass.apply(v, UnaryOp::AINV, v, masked).err(),
        pass.select(lost, Test::Tril(0), v, d).err(),
        pass.select(v, Test::Tril(0), lost, d).err(),
        pass.select(v, Test::Tril(0), v, masked).err(),
        pass.diag(lost, 0).err(),
    ];
    assert_all(refusals, Error::UninitializedObject);
    assert_eq!(pass.facts().unwrap().known, known);
    assert_eq!(stored(&mut pass, a), [(0, 0, 1)]);
    assert_eq!(stored(&mut pass, v), [(0, 1)]);
}

#[test]
fn a_dimension_out_of_range_is_an_invalid_value() {
    let mut pass = open();
    let a = matrix(&mut pass, (2, 2), &[(1, 1, 1u64)]);
    let v = vector(&mut pass, 2, &[(1, true)]);
    let refused = Err(Error::InvalidValue);
    for out in [0, 1 << 32, u64::MAX] {
        assert_eq!(pass.new_matrix::<u64>(out, 1).map(|_| ()), refused);
        assert_eq!(pass.new_matrix::<bool>(1, out).map(|_| ()), refused);
        assert_eq!(pass.new_vector::<u64>(out).map(|_| ()), refused);
        assert_eq!(pass.resize(a, (out, 1)), refused);
        assert_eq!(pass.resize(a, (1, out)), refused);
        assert_eq!(pass.resize(v, out), refused);
    }
    assert_eq!(stored(&mut pass, a), [(1, 1, 1)]);
    assert_eq!(stored(&mut pass, v), [(1, true)]);
}

#[test]
fn lists_of_two_lengths_are_an_invalid_value() {
    let mut pass = open();
    let refused = Err(Error::InvalidValue);
    let a = pass.new_matrix::<u64>(4, 4).unwrap();
    let three = [0, 1, 2];
    for (rows, columns, values) in [(2, 3, 3), (3, 2, 3), (3, 3, 2), (0, 3, 3), (3, 3, 0)] {
        let values = &[5, 6, 7][..values];
        let built = pass.build_matrix(a, &three[..rows], &three[..columns], values, Monoid::PLUS);
        assert_eq!(built, refused);
    }
    let b = pass.new_matrix(4, 4).unwrap();
    assert_eq!(
        pass.build_matrix(b, &three, &three, &[true], Monoid::LOR),
        refused
    );
    let v = pass.new_vector(4).unwrap();
    assert_eq!(pass.build_vector(v, &three, &[5], Monoid::PLUS), refused);
    let w = pass.new_vector(4).unwrap();
    assert_eq!(pass.build_vector(w, &[], &[true], Monoid::LOR), refused);
    assert_eq!(pass.nvals(a), Ok(0));
    assert_eq!(pass.nvals(v), Ok(0));
}

#[test]
fn an_index_that_is_not_below_the_dimension_is_invalid() {
    let mut pass = open();
    let a = matrix(&mut pass, (2, 3), &[(1, 2, 1u64)]);
    let v = vector(&mut pass, 2, &[(1, true)]);
    for out in [(2, 0), (0, 3), (u64::MAX, 0), (0, u64::MAX)] {
        assert_eq!(pass.set(a, out, 1), Err(Error::InvalidIndex));
        assert_eq!(pass.get(a, out), Err(Error::InvalidIndex));
        assert_eq!(pass.remove(a, out), Err(Error::InvalidIndex));
    }
    for out in [2, u64::MAX] {
        assert_eq!(pass.set(v, out, true), Err(Error::InvalidIndex));
        assert_eq!(pass.get(v, out), Err(Error::InvalidIndex));
        assert_eq!(pass.remove(v, out), Err(Error::InvalidIndex));
    }
    assert_eq!(stored(&mut pass, a), [(1, 2, 1)]);
    assert_eq!(stored(&mut pass, v), [(1, true)]);
}

#[test]
fn matrices_that_do_not_fit_together_are_a_dimension_mismatch() {
    let mut pass = open();
    let s = Semiring::PLUS_TIMES;
    let d = Descriptor::new();
    let wide = pass.new_matrix::<u64>(2, 3).unwrap();
    let high = pass.new_matrix::<u64>(3, 2).unwrap();
    let square = pass.new_matrix::<u64>(2, 2).unwrap();
    let one = pass.new_matrix::<u64>(1, 1).unwrap();
    let masked = Descriptor::new().mask(high);
    let refusals = vec![
        pass.ewise_add(wide, Op::PLUS, high, wide, d).err(),
        pass.ewise_add(wide, Op::PLUS, wide, high, d).err(),
        pass.ewise_add(high, Op::PLUS, wide, wide, d).err(),
        pass.ewise_add(wide, Op::PLUS, wide, wide, masked).err(),
        pass.ewise_add(wide, Op::PLUS, wide, wide, d.tran()).err(),
        pass.ewise_mult(wide, Op::PLUS, high, wide, d).err(),
        pass.ewise_mult(wide, Op::PLUS, wide, high, d).err(),
        pass.ewise_mult(high, Op::PLUS, wide, wide, d).err(),
        pass.ewise_mult(wide, Op::PLUS, wide, wide, masked).err(),
        pass.mxm(square, s, wide, wide, d).err(),
        pass.mxm(wide, s, wide, high, d).err(),
        pass.mxm(square, s, high, high, d).err(),
        pass.mxm(square, s, wide, high, masked).err(),
        pass.mxm(square, s, wide, high, d.tran()).err(),
        pass.mxm(square, s, wide, high, d.tran1()).err(),
        pass.transpose(wide, wide, d).err(),
        pass.transpose(wide, high, d.tran()).err(),
        pass.transpose(wide, high, masked).err(),
        pass.apply(wide, UnaryOp::AINV, high, d).err(),
        pass.apply(wide, UnaryOp::AINV, wide, d.tran()).err(),
        pass.apply(wide, UnaryOp::AINV, wide, masked).err(),
        pass.select(wide, Test::Tril(0), high, d).err(),
        pass.select(wide, Test::Tril(0), wide, d.tran()).err(),
        pass.select(wide, Test::Tril(0), wide, masked).err(),
        pass.kronecker(wide, Op::PLUS, wide, one, d.tran()).err(),
        pass.kronecker(wide, Op::PLUS, one, wide, d.tran1()).err(),
        pass.kronecker(wide, Op::PLUS, one, one, d).err(),
        pass.kronecker(wide, Op::PLUS, one, wide, masked).err(),
    ];
    assert_all(refusals, Error::DimensionMismatch);
    pass.mxm(square, s, wide, high, d).unwrap();
    pass.ewise_add(wide, Op::PLUS, high, wide, d.tran())
        .unwrap();
    pass.ewise_add(wide, Op::PLUS, wide, high, d.tran1())
        .unwrap();
    pass.mxm(square, s, wide, wide, d.tran1()).unwrap();
    pass.transpose(wide, high, d).unwrap();
    pass.kronecker(wide, Op::PLUS, one, wide, d).unwrap();
}

#[test]
fn vectors_that_do_not_fit_together_are_a_dimension_mismatch() {
    let mut pass = open();
    let s = Semiring::PLUS_TIMES;
    let d = Descriptor::new();
    let wide = pass.new_matrix::<u64>(2, 3).unwrap();
    let two = pass.new_vector::<u64>(2).unwrap();
    let three = pass.new_vector::<u64>(3).unwrap();
    let masked = Descriptor::new().mask(three);
    let refusals = vec![
        pass.ewise_add(two, Op::PLUS, three, two, d).err(),
        pass.ewise_add(two, Op::PLUS, two, three, d).err(),
        pass.ewise_add(three, Op::PLUS, two, two, d).err(),
        pass.ewise_add(two, Op::PLUS, two, two, masked).err(),
        pass.ewise_mult(two, Op::PLUS, three, two, d).err(),
        pass.ewise_mult(two, Op::PLUS, two, three, d).err(),
        pass.ewise_mult(three, Op::PLUS, two, two, d).err(),
        pass.ewise_mult(two, Op::PLUS, two, two, masked).err(),
        pass.mxv(three, s, wide, three, d).err(),
        pass.mxv(two, s, wide, two, d).err(),
        pass.mxv(two, s, wide, three, masked).err(),
        pass.mxv(two, s, wide, three, d.tran()).err(),
        pass.vxm(two, s, two, wide, d).err(),
        pass.vxm(three, s, three, wide, d).err(),
        pass.vxm(three, s, two, wide, Descriptor::new().mask(two))
            .err(),
        pass.reduce_rows(three, Monoid::PLUS, wide, d).err(),
        pass.reduce_rows(two, Monoid::PLUS, wide, d.tran()).err(),
        pass.reduce_rows(two, Monoid::PLUS, wide, masked).err(),
        pass.vxm(three, s, two, wide, d.tran1()).err(),
        pass.apply(two, UnaryOp::AINV, three, d).err(),
        pass.apply(two, UnaryOp::AINV, two, masked).err(),
        pass.select(two, Test::Tril(0), three, d).err(),
        pass.select(two, Test::Tril(0), two, masked).err(),
    ];
    assert_all(refusals, Error::DimensionMismatch);
    pass.mxv(two, s, wide, three, d).unwrap();
    pass.vxm(three, s, two, wide, d).unwrap();
    pass.vxm(two, s, three, wide, d.tran1()).unwrap();
    pass.reduce_rows(two, Monoid::PLUS, wide, d).unwrap();
}

#[test]
fn a_build_of_an_object_that_stores_something_is_refused() {
    let mut pass = open();
    let refused = Err(Error::OutputNotEmpty);
    let a = matrix(&mut pass, (2, 2), &[(1, 1, 1u64)]);
    assert_eq!(pass.build(a, [(0, 0, 2)], Monoid::PLUS), refused);
    assert_eq!(
        pass.build_matrix(a, &[0], &[0], &[2], Monoid::PLUS),
        refused
    );
    let v = vector(&mut pass, 2, &[(1, true)]);
    assert_eq!(pass.build(v, [(0, false)], Monoid::LOR), refused);
    assert_eq!(pass.build_vector(v, &[0], &[false], Monoid::LOR), refused);
    // What is stored is told before what is out of bounds.
    assert_eq!(pass.build(v, [(2, false)], Monoid::LOR), refused);
    assert_eq!(stored(&mut pass, a), [(1, 1, 1)]);
    assert_eq!(stored(&mut pass, v), [(1, true)]);
    pass.clear(a).unwrap();
    pass.build(a, [(0, 0, 2)], Monoid::PLUS).unwrap();
    assert_eq!(stored(&mut pass, a), [(0, 0, 2)]);
}

#[test]
fn a_list_with_an_index_out_of_bounds_is_refused_whole() {
    let mut pass = open();
    let refused = Err(Error::IndexOutOfBounds);
    let a = pass.new_matrix::<u64>(2, 3).unwrap();
    assert_eq!(pass.build(a, [(0, 0, 1), (2, 0, 1)], Monoid::PLUS), refused);
    assert_eq!(pass.build(a, [(0, 0, 1), (0, 3, 1)], Monoid::PLUS), refused);
    assert_eq!(
        pass.build_matrix(a, &[0, u64::MAX], &[0, 0], &[1, 1], Monoid::PLUS),
        refused
    );
    assert_eq!(pass.nvals(a), Ok(0));
    let v = pass.new_vector::<bool>(2).unwrap();
    assert_eq!(pass.build(v, [(0, true), (2, true)], Monoid::LOR), refused);
    assert_eq!(pass.build_vector(v, &[2], &[true], Monoid::LOR), refused);
    assert_eq!(pass.nvals(v), Ok(0));
}

#[test]
fn a_full_store_refuses_changes_and_answers_reads() {
    let [mut pass] = Store::open_array(5).unwrap();
    let a = matrix(&mut pass, (2, 2), &[(0, 1, 5u64)]);
    let v = vector(&mut pass, 2, &[(1, 6u64)]);
    let one = pass.new_matrix::<u64>(1, 1).unwrap();
    assert_eq!(pass.facts().unwrap().room_left, 0);
    let d = Descriptor::new();
    let s = Semiring::PLUS_TIMES;
    let m = Descriptor::new();
    let refusals = vec![
        pass.new_matrix::<u64>(2, 2).err(),
        pass.new_vector::<bool>(2).err(),
        pass.dup(a).err(),
        pass.dup(v).err(),
        pass.free(a).err(),
        pass.clear(v).err(),
        pass.resize(a, (1, 1)).err(),
        pass.set(a, (0, 0), 1).err(),
        pass.set(v, 0, 1).err(),
        pass.remove(a, (0, 1)).err(),
        pass.ewise_add(v, Op::PLUS, v, v, d).err(),
        pass.ewise_mult(a, Op::PLUS, a, a, m).err(),
        pass.mxm(a, s, a, a, m).err(),
        pass.mxv(v, s, a, v, d).err(),
        pass.vxm(v, s, v, a, d).err(),
        pass.reduce_rows(v, Monoid::PLUS, a, d).err(),
        pass.transpose(a, a, m).err(),
        pass.apply(a, UnaryOp::AINV, a, m).err(),
        pass.apply(v, UnaryOp::AINV, v, d).err(),
        pass.select(a, Test::Tril(0), a, m).err(),
        pass.select(v, Test::Tril(0), v, d).err(),
        pass.kronecker(a, Op::PLUS, one, a, m).err(),
        pass.diag(v, 0).err(),
    ];
    assert_all(refusals, Error::OrderFull);
    // What else refuses a call is told first.
    assert_eq!(pass.set(v, 2, 1), Err(Error::InvalidIndex));
    assert_eq!(pass.get(a, (0, 1)), Ok(Some(5)));
    assert_eq!(pass.nvals(v), Ok(1));
    assert_eq!(pass.size(a), Ok((2, 2)));
    assert_eq!(pass.reduce(a, Monoid::PLUS), Ok(5));
    pass.wait(a, Wait::Materialize).unwrap();
    assert_eq!(stored(&mut pass, a), [(0, 1, 5)]);
    assert_eq!(stored(&mut pass, v), [(1, 6)]);
}

#[test]
fn a_full_store_refuses_a_build() {
    let [mut pass] = Store::open_array(1).unwrap();
    let v = pass.new_vector(2).unwrap();
    assert_eq!(pass.build(v, [(0, 1)], Monoid::PLUS), Err(Error::OrderFull));
    assert_eq!(pass.nvals(v), Ok(0));
}

#[test]
fn an_object_of_another_store_is_refused() {
    let mut here = open();
    let mut there = open();
    // Both have the number 0 in their store, so they would be taken for each other.
    let a = matrix(&mut here, (2, 2), &[(0, 0, 1u64)]);
    let v = vector(&mut here, 2, &[(0, 2u64)]);
    let b = matrix(&mut there, (2, 2), &[(1, 1, 3u64)]);
    let w = vector(&mut there, 2, &[(1, 4u64)]);
    assert_ne!(a, b);
    assert_ne!(v, w);
    let refused = Error::ForeignObject;
    assert_all(calls_on(&mut here, b, (0, 0), 1, Monoid::PLUS), refused);
    assert_all(calls_on(&mut here, w, 0, 1, Monoid::PLUS), refused);
    assert_eq!(here.last_info(b), Err(refused));
    assert_eq!(here.last_info(w), Err(refused));
    assert_eq!(
        here.build_matrix(b, &[], &[], &[], Monoid::PLUS),
        Err(refused)
    );
    assert_eq!(here.build_vector(w, &[], &[], Monoid::PLUS), Err(refused));
    let s = Semiring::PLUS_TIMES;
    let d = Descriptor::new();
    let masked = Descriptor::new().mask(b);
    let refusals = vec![
        here.ewise_add(b, Op::PLUS, a, a, d).err(),
        here.ewise_add(a, Op::PLUS, b, a, d).err(),
        here.ewise_add(a, Op::PLUS, a, b, d).err(),
        here.ewise_add(a, Op::PLUS, a, a, masked).err(),
        here.ewise_mult(b, Op::PLUS, a, a, d).err(),
        here.ewise_mult(a, Op::PLUS, b, a, d).err(),
        here.ewise_mult(a, Op::PLUS, a, b, d).err(),
        here.ewise_mult(a, Op::PLUS, a, a, masked).err(),
        here.mxm(b, s, a, a, d).err(),
        here.mxm(a, s, b, a, d).err(),
        here.mxm(a, s, a, b, d).err(),
        here.mxm(a, s, a, a, masked).err(),
        here.transpose(b, a, d).err(),
        here.transpose(a, b, d).err(),
        here.transpose(a, a, masked).err(),
        here.apply(b, UnaryOp::AINV, a, d).err(),
        here.apply(a, UnaryOp::AINV, b, d).err(),
        here.apply(a, UnaryOp::AINV, a, masked).err(),
        here.select(b, Test::Tril(0), a, d).err(),
        here.select(a, Test::Tril(0), b, d).err(),
        here.select(a, Test::Tril(0), a, masked).err(),
        here.kronecker(b, Op::PLUS, a, a, d).err(),
        here.kronecker(a, Op::PLUS, b, a, d).err(),
        here.kronecker(a, Op::PLUS, a, b, d).err(),
        here.kronecker(a, Op::PLUS, a, a, masked).err(),
    ];
    assert_all(refusals, refused);
    let d = Descriptor::new();
    let masked = Descriptor::new().mask(w);
    let refusals = vec![
        here.mxv(w, s, a, v, d).err(),
        here.mxv(v, s, b, v, d).err(),
        here.mxv(v, s, a, w, d).err(),
        here.mxv(v, s, a, v, masked).err(),
        here.vxm(w, s, v, a, d).err(),
        here.vxm(v, s, w, a, d).err(),
        here.vxm(v, s, v, b, d).err(),
        here.vxm(v, s, v, a, masked).err(),
        here.reduce_rows(w, Monoid::PLUS, a, d).err(),
        here.reduce_rows(v, Monoid::PLUS, b, d).err(),
        here.reduce_rows(v, Monoid::PLUS, a, masked).err(),
        here.apply(w, UnaryOp::AINV, v, d).err(),
        here.apply(v, UnaryOp::AINV, w, d).err(),
        here.apply(v, UnaryOp::AINV, v, masked).err(),
        here.select(w, Test::Tril(0), v, d).err(),
        here.select(v, Test::Tril(0), w, d).err(),
        here.select(v, Test::Tril(0), v, masked).err(),
        here.diag(w, 0).err(),
    ];
    assert_all(refusals, refused);
    assert_eq!(stored(&mut here, a), [(0, 0, 1)]);
    assert_eq!(stored(&mut here, v), [(0, 2)]);
    assert_eq!(stored(&mut there, b), [(1, 1, 3)]);
    assert_eq!(stored(&mut there, w), [(1, 4)]);
}

#[test]
fn a_pass_of_another_store_is_refused() {
    let mut here = open();
    let mut there = open();
    there.new_vector::<u64>(2).unwrap();
    assert_eq!(here.meet(&mut there), Err(Error::ForeignPass));
    assert_eq!(here.adopt(&mut there), Err(Error::ForeignPass));
    assert_eq!(here.facts().unwrap().known, 0);
}

#[test]
fn a_refusal_has_a_name_a_hint_and_a_status() {
    let mut pass = open();
    let refusal = pass.new_vector::<u64>(0).unwrap_err();
    assert_eq!(refusal.name(), "GrB_INVALID_VALUE");
    assert_eq!(refusal.status(), Some(-3));
    let text = refusal.to_string();
    assert!(text.starts_with("GrB_INVALID_VALUE: Give"), "{text}");
    assert!(text.ends_with(refusal.hint()), "{text}");
    let boxed: Box<dyn std::error::Error> = refusal.into();
    assert_eq!(boxed.to_string(), text);
}

/// The text of a refusal of this pass, by a call that is refused.
fn text<T: std::fmt::Debug>(
    pass: &mut Pass,
    error: Error,
    call: impl FnOnce(&mut Pass) -> Result<T, Error>,
) -> String {
    assert_eq!(call(pass).unwrap_err(), error);
    let refusal = pass.explain(error);
    assert_eq!(
        (refusal.error(), Error::from(refusal.clone())),
        (error, error)
    );
    assert_eq!(refusal, error);
    refusal.to_string()
}

#[test]
fn shapes_that_do_not_fit_are_told() {
    let mut pass = open();
    let a = pass.new_matrix::<u64>(3, 4).unwrap();
    let c = pass.new_matrix::<u64>(3, 3).unwrap();
    let u = pass.new_vector::<u64>(3).unwrap();
    let v = pass.new_vector::<u64>(4).unwrap();
    let mask = pass.new_matrix::<bool>(2, 2).unwrap();
    let tran = Descriptor::new().tran();
    let mut told = |call: &dyn Fn(&mut Pass) -> Result<(), Error>| {
        let said = text(&mut pass, Error::DimensionMismatch, |pass| call(pass));
        said.strip_prefix("GrB_DIMENSION_MISMATCH: ")
            .unwrap()
            .to_string()
    };
    let product = Semiring::PLUS_TIMES;
    assert_eq!(
        told(&|pass| pass.mxm(c, product, a, a, Descriptor::new())),
        "a is 3 x 4, b is 3 x 4: the columns of a, 4, are not the rows of b, 3"
    );
    assert_eq!(
        told(&|pass| pass.mxm(c, product, a, a, tran)),
        "c is 3 x 3, a, transposed, is 4 x 3: the rows of c, 3, are not the rows of a, 4"
    );
    assert_eq!(
        told(&|pass| pass.mxm(c, product, c, c, Descriptor::new().mask(mask))),
        "the mask is 2 x 2, c is 3 x 3: the rows of the mask, 2, are not the rows of c, 3"
    );
    assert_eq!(
        told(&|pass| pass.mxv(u, product, a, u, Descriptor::new())),
        "a is 3 x 4, u has the size 3: the columns of a, 4, are not the size of u, 3"
    );
    assert_eq!(
        told(&|pass| pass.vxm(u, product, u, a, Descriptor::new())),
        "w has the size 3, a is 3 x 4: the size of w, 3, is not the columns of a, 4"
    );
    assert_eq!(
        told(&|pass| pass.ewise_add(c, Op::PLUS, a, a, tran)),
        "a, transposed, is 4 x 3, b is 3 x 4: the rows of a, 4, are not the rows of b, 3"
    );
    assert_eq!(
        told(&|pass| pass.ewise_mult(u, Op::PLUS, u, v, Descriptor::new())),
        "a has the size 3, b has the size 4: the size of a, 3, is not the size of b, 4"
    );
    assert_eq!(
        told(&|pass| pass.reduce_rows(v, Monoid::PLUS, a, Descriptor::new())),
        "w has the size 4, a is 3 x 4: the size of w, 4, is not the rows of a, 3"
    );
}

#[test]
fn places_and_lists_that_do_not_fit_are_told() {
    let mut pass = open();
    let a = pass.new_matrix::<u64>(3, 4).unwrap();
    let v = pass.new_vector::<bool>(5).unwrap();
    let pass = &mut pass;
    assert_eq!(
        text(pass, Error::InvalidIndex, |pass| pass.set(a, (4, 2), 1)),
        "GrB_INVALID_INDEX: (4, 2) is outside of the object, which is 3 x 4"
    );
    assert_eq!(
        text(pass, Error::InvalidIndex, |pass| pass.get(v, 5)),
        "GrB_INVALID_INDEX: the index 5 is not below the size of the object, 5"
    );
    assert_eq!(
        text(pass, Error::InvalidIndex, |pass| pass.remove(v, 7)),
        "GrB_INVALID_INDEX: the index 7 is not below the size of the object, 5"
    );
    let far = [(0, 0, 1), (1, 9, 2), (2, 4, 3)];
    assert_eq!(
        text(pass, Error::IndexOutOfBounds, |pass| pass.build(a, far, Monoid::PLUS)),
        "GrB_INDEX_OUT_OF_BOUNDS: entry 1 of the list: (1, 9) is outside of the object, which is 3 x 4"
    );
    assert_eq!(
        text(pass, Error::IndexOutOfBounds, |pass| {
            pass.build_vector(v, &[0, 6, 5], &[true; 3], Monoid::LOR)
        }),
        "GrB_INDEX_OUT_OF_BOUNDS: entry 1 of the list: the index 6 is not below the size of the vector, 5"
    );
    assert_eq!(
        text(pass, Error::InvalidValue, |pass| {
            pass.build_matrix(a, &[0, 1], &[0], &[7, 8, 9], Monoid::PLUS)
        }),
        "GrB_INVALID_VALUE: the lists have the lengths 2, 1 and 3"
    );
    pass.set(v, 0, false).unwrap();
    assert_eq!(
        text(pass, Error::OutputNotEmpty, |pass| pass.build(
            v,
            [(1, true)],
            Monoid::LOR
        )),
        "GrB_OUTPUT_NOT_EMPTY: the object stores entries: clear it, or build a new one"
    );
    assert_eq!(
        text(pass, Error::InvalidValue, |pass| pass
            .new_matrix::<bool>(0, 5)),
        "GrB_INVALID_VALUE: 0 x 5: dimensions are from 1 to 4,294,967,295"
    );
    assert_eq!(
        text(pass, Error::InvalidValue, |pass| pass.resize(v, 0)),
        "GrB_INVALID_VALUE: 0: dimensions are from 1 to 4,294,967,295"
    );
}

#[test]
fn a_freed_object_is_named() {
    let mut pass = open();
    let v = pass.new_vector::<u64>(2).unwrap();
    let mask = pass.new_vector::<bool>(2).unwrap();
    pass.free(mask).unwrap();
    let said = text(&mut pass, Error::UninitializedObject, |pass| {
        pass.ewise_add(v, Op::PLUS, v, v, Descriptor::new().mask(mask))
    });
    assert_eq!(said, "GrB_UNINITIALIZED_OBJECT: the mask was freed");
}

#[test]
fn an_error_of_another_call_is_told_by_its_hint() {
    let mut pass = open();
    let v = pass.new_vector::<u64>(2).unwrap();
    assert_eq!(pass.set(v, 2, 7), Err(Error::InvalidIndex));
    let refusal = pass.explain(Error::OrderFull);
    assert_eq!(
        (refusal.said(), refusal.to_string()),
        (None, Error::OrderFull.to_string())
    );
}
