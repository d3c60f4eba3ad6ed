//! What is made of the entries of one object, Kronecker products, and a second input that is read transposed.

use crate::{matrix, open, stored, vector};
use trowelheath::{
    Descriptor, Error, Function, Matrix, Monoid, Op, Pass, Semiring, Test, UnaryOp, Vector,
};

/// A matrix of two rows and three columns.
fn wide(pass: &mut Pass) -> Matrix<u64> {
    matrix(pass, (2, 3), &[(0, 1, 2), (0, 2, 5), (1, 1, 7)])
}

/// A matrix of three rows and as many columns.
fn square(pass: &mut Pass) -> Matrix<u64> {
    let entries = [(0, 0, 1), (0, 2, 3), (1, 1, 5), (2, 0, 7), (2, 1, 8)];
    matrix(pass, (3, 3), &entries)
}

/// A vector of five indices.
fn thin(pass: &mut Pass) -> Vector<u64> {
    vector(pass, 5, &[(0, 10), (1, 11), (3, 13)])
}

#[test]
fn transpose_exchanges_rows_and_columns() {
    let mut pass = open();
    let a = wide(&mut pass);
    let c = pass.new_matrix(3, 2).unwrap();
    pass.transpose(c, a, Descriptor::new()).unwrap();
    assert_eq!(stored(&mut pass, c), [(1, 0, 2), (1, 1, 7), (2, 0, 5)]);
    // Turned twice it is as it was.
    let b = pass.new_matrix(2, 3).unwrap();
    pass.transpose(b, a, Descriptor::new().tran()).unwrap();
    assert_eq!(stored(&mut pass, b), stored(&mut pass, a));
    // The old output is combined as it stands.
    let s = square(&mut pass);
    pass.transpose(s, s, Descriptor::new().accum(Op::MINUS))
        .unwrap();
    let four = u64::MAX - 3;
    assert_eq!(
        stored(&mut pass, s),
        [
            (0, 0, 0),
            (0, 2, four),
            (1, 1, 0),
            (1, 2, 8),
            (2, 0, 4),
            (2, 1, 8)
        ]
    );
    let truths = matrix(&mut pass, (2, 2), &[(0, 1, true), (1, 1, false)]);
    pass.transpose(truths, truths, Descriptor::new()).unwrap();
    assert_eq!(stored(&mut pass, truths), [(1, 0, true), (1, 1, false)]);
}

#[test]
fn apply_binds_one_side_of_an_operator() {
    let mut pass = open();
    let a = wide(&mut pass);
    let c = pass.new_matrix(3, 2).unwrap();
    let (tran, tran1) = (Descriptor::new().tran(), Descriptor::new().tran1());
    pass.apply(c, UnaryOp::AINV, a, tran).unwrap();
    assert_eq!(
        stored(&mut pass, c),
        [
            (1, 0, 18446744073709551614),
            (1, 1, 18446744073709551609),
            (2, 0, 18446744073709551611)
        ]
    );
    pass.apply(c, Function::Second(Op::MINUS, 1), a, tran)
        .unwrap();
    assert_eq!(stored(&mut pass, c), [(1, 0, 1), (1, 1, 6), (2, 0, 4)]);
    // The matrix stands second.
    let nine = Function::First(9, Op::MINUS);
    pass.apply(c, nine, a, tran1).unwrap();
    let made = [(1, 0, 7), (1, 1, 2), (2, 0, 4)];
    assert_eq!(stored(&mut pass, c), made);
    assert_eq!(
        pass.apply(c, nine, a, Descriptor::new()),
        Err(Error::DimensionMismatch)
    );
    assert_eq!(stored(&mut pass, c), made);
}

#[test]
fn each_unary_operator_is_applied() {
    let mut pass = open();
    let a = matrix(&mut pass, (2, 2), &[(0, 1, 0u64), (1, 0, 1)]);
    let u = vector(&mut pass, 3, &[(0, 0u64), (2, 1)]);
    let c = pass.new_matrix(2, 2).unwrap();
    let w = pass.new_vector(3).unwrap();
    for (op, of_zero, of_one) in [
        (UnaryOp::IDENTITY, 0, 1),
        (UnaryOp::AINV, 0, u64::MAX),
        (UnaryOp::BNOT, u64::MAX, u64::MAX - 1),
    ] {
        pass.apply(c, op, a, Descriptor::new()).unwrap();
        let made = [(0, 1, of_zero), (1, 0, of_one)];
        assert_eq!(stored(&mut pass, c), made, "{op}");
        pass.apply(w, op, u, Descriptor::new()).unwrap();
        assert_eq!(stored(&mut pass, w), [(0, of_zero), (2, of_one)], "{op}");
    }
    let a = matrix(&mut pass, (2, 2), &[(0, 1, false), (1, 0, true)]);
    let u = vector(&mut pass, 3, &[(0, false), (2, true)]);
    let c = pass.new_matrix(2, 2).unwrap();
    let w = pass.new_vector(3).unwrap();
    for (op, of_false, of_true) in [
        (UnaryOp::IDENTITY_BOOL, false, true),
        (UnaryOp::LNOT, true, false),
    ] {
        pass.apply(c, op, a, Descriptor::new()).unwrap();
        let made = [(0, 1, of_false), (1, 0, of_true)];
        assert_eq!(stored(&mut pass, c), made, "{op}");
        pass.apply(w, op, u, Descriptor::new()).unwrap();
        assert_eq!(stored(&mut pass, w), [(0, of_false), (2, of_true)], "{op}");
    }
}

#[test]
fn a_value_is_bound_in_each_domain_and_sort() {
    let mut pass = open();
    let u = thin(&mut pass);
    let w = pass.new_vector(5).unwrap();
    for (function, made) in [
        (Function::First(20, Op::MINUS), [10, 9, 7]),
        (Function::Second(Op::MINUS, 10), [0, 1, 3]),
        (Function::First(1, Op::FIRST), [1, 1, 1]),
        (Function::Second(Op::MIN, 11), [10, 11, 11]),
    ] {
        pass.apply(w, function, u, Descriptor::new()).unwrap();
        let [first, second, third] = made;
        assert_eq!(
            stored(&mut pass, w),
            [(0, first), (1, second), (3, third)],
            "{function}"
        );
    }
    let a = matrix(&mut pass, (2, 2), &[(0, 1, false), (1, 0, true)]);
    let v = vector(&mut pass, 2, &[(0, false), (1, true)]);
    let c = pass.new_matrix(2, 2).unwrap();
    let z = pass.new_vector(2).unwrap();
    for (function, of_false, of_true) in [
        (Function::First(true, Op::LXOR), true, false),
        (Function::First(true, Op::FIRST_BOOL), true, true),
        (Function::Second(Op::LXNOR, false), true, false),
        (Function::Second(Op::FIRST_BOOL, true), false, true),
    ] {
        pass.apply(c, function, a, Descriptor::new()).unwrap();
        let made = [(0, 1, of_false), (1, 0, of_true)];
        assert_eq!(stored(&mut pass, c), made, "{function}");
        pass.apply(z, function, v, Descriptor::new()).unwrap();
        let made = [(0, of_false), (1, of_true)];
        assert_eq!(stored(&mut pass, z), made, "{function}");
    }
}

#[test]
fn apply_writes_by_its_mask_and_accumulator() {
    let mut pass = open();
    let u = thin(&mut pass);
    let mask = vector(&mut pass, 5, &[(0, true), (1, false), (3, true)]);
    let w = vector(&mut pass, 5, &[(0, 100), (1, 100), (4, 100)]);
    let added = Descriptor::new().mask(mask).accum(Op::PLUS);
    pass.apply(w, UnaryOp::IDENTITY, u, added).unwrap();
    assert_eq!(
        stored(&mut pass, w),
        [(0, 110), (1, 100), (3, 13), (4, 100)]
    );
    pass.apply(w, UnaryOp::IDENTITY, u, added.structure().replace())
        .unwrap();
    assert_eq!(stored(&mut pass, w), [(0, 120), (1, 111), (3, 26)]);
}

/// The values of the entries of a matrix that pass each test, in turn.
fn selected(pass: &mut Pass, a: Matrix<u64>, tests: &[(Test<u64>, &[u64])]) {
    let (nrows, ncols) = pass.size(a).unwrap();
    let c = pass.new_matrix(nrows, ncols).unwrap();
    let all = stored(pass, a);
    for &(test, values) in tests {
        pass.select(c, test, a, Descriptor::new()).unwrap();
        let kept: Vec<_> = (all.iter().copied())
            .filter(|(_, _, value)| values.contains(value))
            .collect();
        assert_eq!(stored(pass, c), kept, "{test}");
    }
}

#[test]
fn a_matrix_is_selected_by_places() {
    let mut pass = open();
    let a = square(&mut pass);
    selected(
        &mut pass,
        a,
        &[
            (Test::Tril(0), &[1, 5, 7, 8]),
            (Test::Tril(-1), &[7, 8]),
            (Test::Tril(2), &[1, 3, 5, 7, 8]),
            (Test::Triu(0), &[1, 3, 5]),
            (Test::Triu(1), &[3]),
            (Test::Triu(-1), &[1, 3, 5, 8]),
            (Test::Diag(0), &[1, 5]),
            (Test::Diag(2), &[3]),
            (Test::Diag(-2), &[7]),
            (Test::Offdiag(0), &[3, 7, 8]),
            (Test::Offdiag(-1), &[1, 3, 5, 7]),
            (Test::RowLe(0), &[1, 3]),
            (Test::RowGt(1), &[7, 8]),
            (Test::ColLe(0), &[1, 7]),
            (Test::ColGt(1), &[3]),
        ],
    );
}

#[test]
fn a_matrix_is_selected_by_values() {
    let mut pass = open();
    let a = square(&mut pass);
    selected(
        &mut pass,
        a,
        &[
            (Test::ValueEq(5), &[5]),
            (Test::ValueNe(5), &[1, 3, 7, 8]),
            (Test::ValueLt(5), &[1, 3]),
            (Test::ValueLe(5), &[1, 3, 5]),
            (Test::ValueGt(5), &[7, 8]),
            (Test::ValueGe(5), &[5, 7, 8]),
        ],
    );
    let a = matrix(&mut pass, (2, 2), &[(0, 0, false), (1, 0, true)]);
    let c = pass.new_matrix(2, 2).unwrap();
    pass.select(c, Test::ValueGt(false), a, Descriptor::new())
        .unwrap();
    assert_eq!(stored(&mut pass, c), [(1, 0, true)]);
}

#[test]
fn a_vector_is_selected_as_a_column() {
    let mut pass = open();
    let u = thin(&mut pass);
    let w = pass.new_vector(5).unwrap();
    let tests: [(_, &[_]); 11] = [
        (Test::RowLe(1), &[(0, 10), (1, 11)]),
        (Test::RowGt(1), &[(3, 13)]),
        (Test::ColLe(0), &[(0, 10), (1, 11), (3, 13)]),
        (Test::ColGt(0), &[]),
        (Test::Tril(-1), &[(1, 11), (3, 13)]),
        (Test::Triu(-1), &[(0, 10), (1, 11)]),
        (Test::Diag(-3), &[(3, 13)]),
        (Test::Offdiag(0), &[(1, 11), (3, 13)]),
        (Test::ValueEq(11), &[(1, 11)]),
        (Test::ValueNe(11), &[(0, 10), (3, 13)]),
        (Test::ValueGe(11), &[(1, 11), (3, 13)]),
    ];
    for (test, kept) in tests {
        pass.select(w, test, u, Descriptor::new()).unwrap();
        assert_eq!(stored(&mut pass, w), kept, "{test}");
    }
    let v = vector(&mut pass, 3, &[(0, false), (2, true)]);
    let z = pass.new_vector(3).unwrap();
    let tests: [(_, &[_]); 6] = [
        (Test::ValueEq(true), &[(2, true)]),
        (Test::ValueNe(true), &[(0, false)]),
        (Test::ValueLt(true), &[(0, false)]),
        (Test::ValueLe(false), &[(0, false)]),
        (Test::ValueGt(true), &[]),
        (Test::ValueGe(false), &[(0, false), (2, true)]),
    ];
    for (test, kept) in tests {
        pass.select(z, test, v, Descriptor::new()).unwrap();
        assert_eq!(stored(&mut pass, z), kept, "{test}");
    }
}

#[test]
fn select_turns_before_it_tests_and_writes_by_its_mask() {
    let mut pass = open();
    let a = wide(&mut pass);
    let c = pass.new_matrix(3, 2).unwrap();
    pass.select(c, Test::RowGt(1), a, Descriptor::new().tran())
        .unwrap();
    assert_eq!(stored(&mut pass, c), [(2, 0, 5)]);
    let mask = matrix(&mut pass, (2, 3), &[(0, 1, true), (1, 1, true)]);
    let c = matrix(&mut pass, (2, 3), &[(0, 0, 1), (0, 1, 40)]);
    let inside = Descriptor::new().mask(mask).accum(Op::PLUS);
    pass.select(c, Test::ColLe(1), a, inside).unwrap();
    assert_eq!(stored(&mut pass, c), [(0, 0, 1), (0, 1, 42), (1, 1, 7)]);
    let outside = Descriptor::new().mask(mask).comp().replace();
    pass.select(c, Test::ValueGt(2), a, outside).unwrap();
    assert_eq!(stored(&mut pass, c), [(0, 2, 5)]);
}

#[test]
fn a_place_may_lie_beyond_all_others() {
    let mut pass = open();
    let u = thin(&mut pass);
    let w = pass.new_vector(5).unwrap();
    for (test, kept) in [
        (Test::RowLe(u64::MAX), 3),
        (Test::RowGt(u64::MAX), 0),
        (Test::ColLe(1 << 63), 3),
        (Test::ColGt(1 << 32), 0),
        (Test::Tril(4294967295), 3),
        (Test::Triu(-4294967295), 3),
        (Test::Diag(4294967295), 0),
    ] {
        pass.select(w, test, u, Descriptor::new()).unwrap();
        assert_eq!(pass.nvals(w), Ok(kept), "{test}");
    }
    let a = square(&mut pass);
    for k in [1 << 32, -(1 << 32), i64::MAX, i64::MIN] {
        for test in [Test::Tril(k), Test::Triu(k), Test::Diag(k)] {
            let refused = pass.select(a, test, a, Descriptor::new());
            assert_eq!(refused, Err(Error::InvalidValue), "{test}");
        }
        let refused = pass.select(w, Test::Offdiag(k), w, Descriptor::new());
        assert_eq!(refused, Err(Error::InvalidValue), "{k}");
    }
    assert_eq!(pass.nvals(a), Ok(5));
}

#[test]
fn kronecker_takes_each_pair_of_entries() {
    let mut pass = open();
    let a = matrix(&mut pass, (2, 2), &[(0, 0, 2u64), (1, 1, 3)]);
    let b = matrix(&mut pass, (2, 2), &[(0, 1, 10u64), (1, 0, 20)]);
    let c = pass.new_matrix(4, 4).unwrap();
    pass.kronecker(c, Op::TIMES, a, b, Descriptor::new())
        .unwrap();
    assert_eq!(
        stored(&mut pass, c),
        [(0, 1, 20), (1, 0, 40), (2, 3, 30), (3, 2, 60)]
    );
    pass.kronecker(c, Op::MINUS, b, a, Descriptor::new())
        .unwrap();
    assert_eq!(
        stored(&mut pass, c),
        [(0, 2, 8), (1, 3, 7), (2, 0, 18), (3, 1, 17)]
    );
    let truths = matrix(&mut pass, (1, 2), &[(0, 0, true), (0, 1, false)]);
    let all = pass.new_matrix(1, 4).unwrap();
    pass.kronecker(all, Op::LOR, truths, truths, Descriptor::new())
        .unwrap();
    assert_eq!(
        stored(&mut pass, all),
        [(0, 0, true), (0, 1, true), (0, 2, true), (0, 3, false)]
    );
}

#[test]
fn kronecker_reads_either_input_transposed() {
    let mut pass = open();
    let a = matrix(&mut pass, (1, 2), &[(0, 0, 2u64), (0, 1, 3)]);
    let b = matrix(&mut pass, (2, 1), &[(1, 0, 5u64)]);
    let d = Descriptor::new();
    for (descriptor, size, made) in [
        (d, (2, 2), [(1, 0, 10), (1, 1, 15)]),
        (d.tran(), (4, 1), [(1, 0, 10), (3, 0, 15)]),
        (d.tran1(), (1, 4), [(0, 1, 10), (0, 3, 15)]),
        (d.tran().tran1(), (2, 2), [(0, 1, 10), (1, 1, 15)]),
    ] {
        let c = pass.new_matrix(size.0, size.1).unwrap();
        pass.kronecker(c, Op::TIMES, a, b, descriptor).unwrap();
        assert_eq!(stored(&mut pass, c), made);
    }
}

#[test]
fn diag_makes_a_matrix_of_a_vector() {
    let mut pass = open();
    let v = vector(&mut pass, 3, &[(0, 10u64), (2, 30)]);
    for (k, size, made) in [
        (0, 3, [(0, 0, 10), (2, 2, 30)]),
        (2, 5, [(0, 2, 10), (2, 4, 30)]),
        (-1, 4, [(1, 0, 10), (3, 2, 30)]),
    ] {
        let d = pass.diag(v, k).unwrap();
        assert_eq!(pass.size(d), Ok((size, size)));
        assert_eq!(stored(&mut pass, d), made);
    }
    // Matrix and vector change apart.
    let d = pass.diag(v, 0).unwrap();
    pass.set(v, 1, 20).unwrap();
    assert_eq!(pass.nvals(d), Ok(2));
    let truths = vector(&mut pass, 2, &[(1, false)]);
    let d = pass.diag(truths, 0).unwrap();
    assert_eq!(stored(&mut pass, d), [(1, 1, false)]);
}

#[test]
fn a_diagonal_reaches_to_the_largest_dimension() {
    let mut pass = open();
    let most = u64::from(u32::MAX);
    let v = pass.new_vector::<bool>(most).unwrap();
    let refused = Error::InvalidValue;
    assert_eq!(pass.diag(v, 1).err(), Some(refused));
    assert_eq!(
        pass.explain(refused).to_string(),
        "GrB_INVALID_VALUE: v has the size 4294967295, and on the diagonal 1 it makes more rows than 4,294,967,295"
    );
    let e = pass.diag(v, 0).unwrap();
    assert_eq!(pass.size(e), Ok((most, most)));
    let u = vector(&mut pass, 1, &[(0, 3u64)]);
    let f = pass.diag(u, -4294967294).unwrap();
    assert_eq!(stored(&mut pass, f), [(4294967294, 0, 3)]);
    for k in [4294967295, -4294967295, i64::MAX, i64::MIN] {
        assert_eq!(pass.diag(u, k).err(), Some(refused), "{k}");
    }
    pass.free(u).unwrap();
    let refused = Error::UninitializedObject;
    assert_eq!(pass.diag(u, 0).err(), Some(refused));
    assert_eq!(
        pass.explain(refused).to_string(),
        "GrB_UNINITIALIZED_OBJECT: v was freed"
    );
}

#[test]
fn all_entries_are_read_as_a_build_makes_them() {
    let mut pass = open();
    let u = thin(&mut pass);
    assert_eq!(stored(&mut pass, u), [(0, 10), (1, 11), (3, 13)]);
    let b = pass.new_matrix(2, 2).unwrap();
    assert_eq!(stored(&mut pass, b), []);
    pass.build(b, [(1, 0, false), (0, 1, true)], Monoid::LOR)
        .unwrap();
    assert_eq!(stored(&mut pass, b), [(0, 1, true), (1, 0, false)]);
    pass.free(b).unwrap();
    assert_eq!(pass.entries(b), Err(Error::UninitializedObject));
}

#[test]
fn mxm_reads_its_second_input_transposed() {
    let mut pass = open();
    let a = wide(&mut pass);
    let s = Semiring::PLUS_TIMES;
    let c = pass.new_matrix(2, 2).unwrap();
    pass.mxm(c, s, a, a, Descriptor::new().tran1()).unwrap();
    assert_eq!(
        stored(&mut pass, c),
        [(0, 0, 29), (0, 1, 14), (1, 0, 14), (1, 1, 49)]
    );
    let b = matrix(&mut pass, (3, 2), &[(0, 1, 4u64), (2, 0, 6)]);
    let c = pass.new_matrix(3, 3).unwrap();
    pass.mxm(c, s, a, b, Descriptor::new().tran().tran1())
        .unwrap();
    assert_eq!(stored(&mut pass, c), [(1, 0, 28), (1, 2, 12), (2, 2, 30)]);
}

#[test]
fn an_element_wise_operation_reads_its_second_input_transposed() {
    let mut pass = open();
    let a = wide(&mut pass);
    let b = matrix(&mut pass, (3, 2), &[(0, 1, 4u64), (2, 0, 6)]);
    let c = pass.new_matrix(2, 3).unwrap();
    let tran1 = Descriptor::new().tran1();
    pass.ewise_add(c, Op::MINUS, a, b, tran1).unwrap();
    assert_eq!(
        stored(&mut pass, c),
        [(0, 1, 2), (0, 2, u64::MAX), (1, 0, 4), (1, 1, 7)]
    );
    pass.ewise_mult(c, Op::MINUS, a, b, tran1).unwrap();
    assert_eq!(stored(&mut pass, c), [(0, 2, u64::MAX)]);
    let c = pass.new_matrix(3, 2).unwrap();
    pass.ewise_add(c, Op::MINUS, a, a, tran1.tran()).unwrap();
    assert_eq!(stored(&mut pass, c), [(1, 0, 0), (1, 1, 0), (2, 0, 0)]);
}

#[test]
fn vxm_reads_its_matrix_transposed() {
    let mut pass = open();
    let a = wide(&mut pass);
    let u = vector(&mut pass, 3, &[(1, 10u64), (2, 1)]);
    let w = pass.new_vector(2).unwrap();
    let tran1 = Descriptor::new().tran1();
    pass.vxm(w, Semiring::PLUS_TIMES, u, a, tran1).unwrap();
    assert_eq!(stored(&mut pass, w), [(0, 25), (1, 70)]);
    // The value of the vector comes first.
    let first = Semiring::new(Monoid::PLUS, Op::FIRST);
    pass.vxm(w, first, u, a, tran1).unwrap();
    assert_eq!(stored(&mut pass, w), [(0, 11), (1, 10)]);
}

#[test]
fn what_is_no_matrix_is_not_transposed() {
    let mut pass = open();
    let a = square(&mut pass);
    let u = vector(&mut pass, 3, &[(0, 10u64), (1, 1)]);
    let s = Semiring::PLUS_TIMES;
    let add_one = Function::Second(Op::PLUS, 1);
    let one_add = Function::First(1, Op::PLUS);
    let known = pass.facts().unwrap().known;
    let (tran, tran1) = (Descriptor::new().tran(), Descriptor::new().tran1());
    let of_matrices = [
        pass.transpose(a, a, tran1),
        pass.apply(a, UnaryOp::AINV, a, tran1),
        pass.apply(a, add_one, a, tran1),
        pass.apply(a, one_add, a, tran),
        pass.apply(a, one_add, a, tran.tran1()),
        pass.select(a, Test::Tril(0), a, tran1),
        pass.select(a, Test::ValueEq(1), a, tran1),
    ];
    let (tran, tran1) = (Descriptor::new().tran(), Descriptor::new().tran1());
    let of_vectors = [
        pass.mxv(u, s, a, u, tran1),
        pass.vxm(u, s, u, a, tran),
        pass.vxm(u, s, u, a, tran.tran1()),
        pass.reduce_rows(u, Monoid::PLUS, a, tran1),
        pass.ewise_add(u, Op::PLUS, u, u, tran1),
        pass.ewise_mult(u, Op::PLUS, u, u, tran1),
        pass.apply(u, UnaryOp::AINV, u, tran),
        pass.apply(u, UnaryOp::AINV, u, tran1),
        pass.apply(u, add_one, u, tran),
        pass.apply(u, one_add, u, tran1),
        pass.select(u, Test::RowGt(0), u, tran),
        pass.select(u, Test::ValueEq(1), u, tran1),
    ];
    for (at, answer) in of_matrices.into_iter().chain(of_vectors).enumerate() {
        assert_eq!(answer, Err(Error::InvalidValue), "call {at}");
    }
    assert_eq!(pass.facts().unwrap().known, known);
}

/// What does not fit in a call that is refused for its dimensions.
fn told(pass: &mut Pass, answer: Result<(), Error>) -> String {
    assert_eq!(answer, Err(Error::DimensionMismatch));
    let refusal = pass.explain(Error::DimensionMismatch);
    refusal.said().unwrap().to_string()
}

#[test]
fn shapes_are_told_as_they_are_turned() {
    let mut pass = open();
    let a = pass.new_matrix::<u64>(3, 4).unwrap();
    let c = pass.new_matrix::<u64>(3, 3).unwrap();
    let u = pass.new_vector::<u64>(4).unwrap();
    let w = pass.new_vector::<u64>(3).unwrap();
    let pass = &mut pass;
    let (d, tran1) = (Descriptor::new(), Descriptor::new().tran1());
    let turned = "c is 3 x 3, a, transposed, is 4 x 3: the rows of c, 3, are not the rows of a, 4";
    let answer = pass.transpose(c, a, d);
    assert_eq!(told(pass, answer), turned);
    let answer = pass.apply(c, Function::First(9, Op::MINUS), a, tran1);
    assert_eq!(told(pass, answer), turned);
    let answer = pass.apply(c, UnaryOp::AINV, a, d.tran());
    assert_eq!(told(pass, answer), turned);
    let upright = "c is 3 x 3, a is 3 x 4: the columns of c, 3, are not the columns of a, 4";
    let answer = pass.transpose(c, a, d.tran());
    assert_eq!(told(pass, answer), upright);
    let answer = pass.select(c, Test::Diag(0), a, d);
    assert_eq!(told(pass, answer), upright);
    let answer = pass.mxm(c, Semiring::PLUS_TIMES, a, c, tran1);
    assert_eq!(
        told(pass, answer),
        "a is 3 x 4, b, transposed, is 3 x 3: the columns of a, 4, are not the rows of b, 3"
    );
    let answer = pass.kronecker(c, Op::PLUS, a, a, tran1);
    assert_eq!(
        told(pass, answer),
        "c is 3 x 3, a is 3 x 4, b, transposed, is 4 x 3: the rows of c, 3, are not the rows of a times the rows of b, 12"
    );
    let answer = pass.select(w, Test::ValueEq(0), u, Descriptor::new());
    assert_eq!(
        told(pass, answer),
        "c has the size 3, a has the size 4: the size of c, 3, is not the size of a, 4"
    );
    let answer = pass.vxm(w, Semiring::PLUS_TIMES, w, a, Descriptor::new().tran1());
    assert_eq!(
        told(pass, answer),
        "u has the size 3, a, transposed, is 4 x 3: the size of u, 3, is not the rows of a, 4"
    );
}

#[test]
fn functions_and_tests_are_printed_by_the_words_of_a_script() {
    assert_eq!(UnaryOp::IDENTITY_BOOL.to_string(), "identity_bool");
    assert_eq!(format!("{:?}", UnaryOp::BNOT), "UnaryOp(bnot)");
    assert_eq!(Function::from(UnaryOp::LNOT).to_string(), "lnot");
    assert_eq!(Function::First(9, Op::MINUS).to_string(), "9 minus");
    assert_eq!(Function::Second(Op::LOR, true).to_string(), "lor true");
    assert_eq!(Test::<bool>::Tril(-1).to_string(), "tril -1");
    assert_eq!(
        Test::<u64>::RowGt(u64::MAX).to_string(),
        "rowgt 18446744073709551615"
    );
    assert_eq!(Test::ValueNe(false).to_string(), "valuene false");
}
