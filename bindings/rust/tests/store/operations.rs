//! Each operation by small examples, worked out by hand.

use crate::{matrix, open, stored, vector};
use trowelheath::{Descriptor, Error, Monoid, Op, Semiring};

#[test]
fn ewise_add_is_over_the_union() {
    let mut pass = open();
    let a = matrix(&mut pass, (2, 2), &[(0, 0, 7u64), (0, 1, 5)]);
    let b = matrix(&mut pass, (2, 2), &[(0, 1, 3u64), (1, 1, 2)]);
    let c = pass.new_matrix(2, 2).unwrap();
    for (op, both) in [
        (Op::PLUS, 8),
        (Op::TIMES, 15),
        (Op::MIN, 3),
        (Op::MAX, 5),
        (Op::MINUS, 2),
        (Op::FIRST, 5),
        (Op::SECOND, 3),
    ] {
        pass.ewise_add(c, op, a, b, Descriptor::new()).unwrap();
        assert_eq!(
            stored(&mut pass, c),
            [(0, 0, 7), (0, 1, both), (1, 1, 2)],
            "{op}"
        );
    }
    let u = vector(&mut pass, 3, &[(0, true), (1, true)]);
    let v = vector(&mut pass, 3, &[(1, false), (2, false)]);
    let w = pass.new_vector(3).unwrap();
    for (op, both) in [
        (Op::LOR, true),
        (Op::LAND, false),
        (Op::LXOR, true),
        (Op::LXNOR, false),
        (Op::FIRST_BOOL, true),
        (Op::SECOND_BOOL, false),
    ] {
        pass.ewise_add(w, op, u, v, Descriptor::new()).unwrap();
        assert_eq!(
            stored(&mut pass, w),
            [(0, true), (1, both), (2, false)],
            "{op}"
        );
    }
}

#[test]
fn ewise_mult_is_over_the_intersection() {
    let mut pass = open();
    let a = matrix(&mut pass, (2, 2), &[(0, 0, true), (0, 1, true)]);
    let b = matrix(&mut pass, (2, 2), &[(0, 1, false), (1, 1, true)]);
    let c = pass.new_matrix(2, 2).unwrap();
    pass.ewise_mult(c, Op::FIRST_BOOL, a, b, Descriptor::new())
        .unwrap();
    assert_eq!(stored(&mut pass, c), [(0, 1, true)]);
    let u = vector(&mut pass, 3, &[(0, 4u64), (1, 5)]);
    let v = vector(&mut pass, 3, &[(1, 7u64), (2, 8)]);
    let w = pass.new_vector(3).unwrap();
    pass.ewise_mult(w, Op::MINUS, u, v, Descriptor::new())
        .unwrap();
    assert_eq!(stored(&mut pass, w), [(1, u64::MAX - 1)]);
}

#[test]
fn the_first_input_of_an_element_wise_operation_may_be_transposed() {
    let mut pass = open();
    let a = matrix(&mut pass, (2, 3), &[(0, 2, 9u64), (1, 0, 4)]);
    let b = matrix(&mut pass, (3, 2), &[(2, 0, 1u64), (1, 1, 2)]);
    let c = pass.new_matrix(3, 2).unwrap();
    pass.ewise_add(c, Op::MINUS, a, b, Descriptor::new().tran())
        .unwrap();
    assert_eq!(stored(&mut pass, c), [(0, 1, 4), (1, 1, 2), (2, 0, 8)]);
    pass.ewise_mult(c, Op::MINUS, a, b, Descriptor::new().tran())
        .unwrap();
    assert_eq!(stored(&mut pass, c), [(2, 0, 8)]);
    assert_eq!(stored(&mut pass, a), [(0, 2, 9), (1, 0, 4)]);
}

#[test]
fn mxm_multiplies_rows_by_columns() {
    let mut pass = open();
    let a = matrix(&mut pass, (2, 3), &[(0, 0, 1u64), (0, 2, 2), (1, 1, 3)]);
    let b = matrix(&mut pass, (3, 2), &[(0, 1, 4u64), (1, 0, 5), (2, 1, 6)]);
    let c = pass.new_matrix(2, 2).unwrap();
    for (semiring, first, second) in [
        (Semiring::PLUS_TIMES, 4 + 12, 15),
        (Semiring::MIN_PLUS, 5, 8),
        (Semiring::MAX_PLUS, 8, 8),
        (Semiring::MIN_FIRST, 1, 3),
        (Semiring::MAX_SECOND, 6, 5),
        (Semiring::new(Monoid::PLUS, Op::SECOND), 10, 5),
    ] {
        pass.mxm(c, semiring, a, b, Descriptor::new()).unwrap();
        assert_eq!(
            stored(&mut pass, c),
            [(0, 1, first), (1, 0, second)],
            "{semiring}"
        );
    }
}

#[test]
fn mxm_reads_its_first_input_transposed() {
    let mut pass = open();
    let a = matrix(&mut pass, (3, 2), &[(0, 0, 1u64), (2, 0, 2), (1, 1, 3)]);
    let b = matrix(&mut pass, (3, 2), &[(0, 1, 4u64), (1, 0, 5), (2, 1, 6)]);
    let c = pass.new_matrix(2, 2).unwrap();
    pass.mxm(c, Semiring::PLUS_TIMES, a, b, Descriptor::new().tran())
        .unwrap();
    assert_eq!(stored(&mut pass, c), [(0, 1, 16), (1, 0, 15)]);
}

#[test]
fn mxm_by_a_mask_counts_triangles() {
    let mut pass = open();
    // Two triangles over the edge between 1 and 0.
    let edges = [(1, 0, 1u64), (2, 0, 1), (2, 1, 1), (3, 0, 1), (3, 1, 1)];
    let l = matrix(&mut pass, (4, 4), &edges);
    let c = pass.new_matrix(4, 4).unwrap();
    let inside = Descriptor::new().mask(l).structure();
    pass.mxm(c, Semiring::PLUS_TIMES, l, l, inside).unwrap();
    assert_eq!(stored(&mut pass, c), [(2, 0, 1), (3, 0, 1)]);
    assert_eq!(pass.reduce(c, Monoid::PLUS), Ok(2));
}

#[test]
fn mxv_folds_rows() {
    let mut pass = open();
    let a = matrix(&mut pass, (3, 2), &[(0, 0, 2u64), (0, 1, 3), (1, 1, 5)]);
    let u = vector(&mut pass, 2, &[(0, 10u64), (1, 1)]);
    let w = pass.new_vector(3).unwrap();
    pass.mxv(w, Semiring::PLUS_TIMES, a, u, Descriptor::new())
        .unwrap();
    assert_eq!(stored(&mut pass, w), [(0, 23), (1, 5)]);
    // The value of the matrix comes first.
    pass.mxv(
        w,
        Semiring::new(Monoid::PLUS, Op::FIRST),
        a,
        u,
        Descriptor::new(),
    )
    .unwrap();
    assert_eq!(stored(&mut pass, w), [(0, 5), (1, 5)]);
    let t = vector(&mut pass, 3, &[(0, 1u64), (1, 100)]);
    pass.mxv(u, Semiring::PLUS_TIMES, a, t, Descriptor::new().tran())
        .unwrap();
    assert_eq!(stored(&mut pass, u), [(0, 2), (1, 503)]);
}

#[test]
fn vxm_folds_columns() {
    let mut pass = open();
    let a = matrix(&mut pass, (2, 3), &[(0, 0, 2u64), (1, 0, 3), (1, 1, 5)]);
    let u = vector(&mut pass, 2, &[(0, 10u64), (1, 1)]);
    let w = pass.new_vector(3).unwrap();
    pass.vxm(w, Semiring::PLUS_TIMES, u, a, Descriptor::new())
        .unwrap();
    assert_eq!(stored(&mut pass, w), [(0, 23), (1, 5)]);
    // The value of the vector comes first.
    pass.vxm(
        w,
        Semiring::new(Monoid::PLUS, Op::FIRST),
        u,
        a,
        Descriptor::new(),
    )
    .unwrap();
    assert_eq!(stored(&mut pass, w), [(0, 11), (1, 1)]);
}

#[test]
fn a_vector_is_not_transposed() {
    let mut pass = open();
    let a = matrix(&mut pass, (2, 3), &[(0, 0, 2u64), (0, 1, 3), (1, 1, 5)]);
    let u = vector(&mut pass, 2, &[(0, 10u64), (1, 1)]);
    let w = vector(&mut pass, 3, &[(2, 7u64)]);
    let tran = Descriptor::new().tran();
    let refused = Err(Error::InvalidValue);
    assert_eq!(pass.vxm(w, Semiring::PLUS_TIMES, u, a, tran), refused);
    assert_eq!(pass.ewise_add(w, Op::PLUS, w, w, tran), refused);
    assert_eq!(pass.ewise_mult(w, Op::PLUS, w, w, tran), refused);
    assert_eq!(stored(&mut pass, w), [(2, 7)]);
}

#[test]
fn products_of_truth_values_find_neighbours() {
    let mut pass = open();
    let graph = matrix(
        &mut pass,
        (4, 4),
        &[(0, 1, true), (1, 2, true), (2, 3, true), (1, 3, false)],
    );
    let front = vector(&mut pass, 4, &[(1, true)]);
    pass.vxm(front, Semiring::LOR_LAND, front, graph, Descriptor::new())
        .unwrap();
    assert_eq!(stored(&mut pass, front), [(2, true), (3, false)]);
    pass.mxv(front, Semiring::LOR_LAND, graph, front, Descriptor::new())
        .unwrap();
    assert_eq!(stored(&mut pass, front), [(1, true), (2, false)]);
    let two = pass.new_matrix(4, 4).unwrap();
    pass.mxm(two, Semiring::LOR_LAND, graph, graph, Descriptor::new())
        .unwrap();
    assert_eq!(
        stored(&mut pass, two),
        [(0, 2, true), (0, 3, false), (1, 3, true)]
    );
}

#[test]
fn reduce_rows_folds_each_row_that_stores_something() {
    let mut pass = open();
    let a = matrix(&mut pass, (3, 4), &[(0, 1, 2u64), (0, 3, 5), (2, 0, 7)]);
    let w = pass.new_vector(3).unwrap();
    pass.reduce_rows(w, Monoid::PLUS, a, Descriptor::new())
        .unwrap();
    assert_eq!(stored(&mut pass, w), [(0, 7), (2, 7)]);
    pass.reduce_rows(w, Monoid::MIN, a, Descriptor::new().accum(Op::MINUS))
        .unwrap();
    assert_eq!(stored(&mut pass, w), [(0, 5), (2, 0)]);
    let columns = pass.new_vector(4).unwrap();
    pass.reduce_rows(columns, Monoid::MAX, a, Descriptor::new().tran())
        .unwrap();
    assert_eq!(stored(&mut pass, columns), [(0, 7), (1, 2), (3, 5)]);
    let truths = matrix(&mut pass, (2, 2), &[(1, 0, true), (1, 1, false)]);
    let any = pass.new_vector(2).unwrap();
    pass.reduce_rows(any, Monoid::LOR, truths, Descriptor::new())
        .unwrap();
    assert_eq!(stored(&mut pass, any), [(1, true)]);
}

#[test]
fn operators_are_printed_by_their_names() {
    assert_eq!(Op::SECOND_BOOL.to_string(), "second_bool");
    assert_eq!(Monoid::LXNOR.to_string(), "lxnor");
    assert_eq!(Semiring::PLUS_TIMES.to_string(), "plus.times");
    assert_eq!(format!("{:?}", Op::MINUS), "Op(minus)");
    assert_eq!(format!("{:?}", Monoid::MAX), "Monoid(max)");
    assert_eq!(format!("{:?}", Semiring::LOR_LAND), "Semiring(lor.land)");
    assert_eq!(Semiring::MIN_PLUS.monoid(), Monoid::MIN);
    assert_eq!(Semiring::MIN_PLUS.op(), Op::PLUS);
    assert_eq!(Monoid::LAND.op(), Op::LAND);
}
