//! What a descriptor says: masks, accumulators and what stays outside.

use crate::{matrix, open, stored, vector};
use trowelheath::{Descriptor, Op, Pass, Vector};

/// An output that stores 100 everywhere, a mask that stores something true at 0, something not true at 1 and nothing at 2, and inputs
/// whose sum is 1 everywhere.
fn prepare(pass: &mut Pass) -> (Vector<u64>, Vector<u64>, Vector<u64>) {
    let output = vector(pass, 3, &[(0, 100), (1, 100), (2, 100)]);
    let mask = vector(pass, 3, &[(0, 8), (1, 0)]);
    let ones = vector(pass, 3, &[(0, 1), (1, 1), (2, 1)]);
    (output, mask, ones)
}

/// What the output stores after an `ewise_mult` of ones by this descriptor.
fn written(
    describe: impl Fn(Descriptor<Vector<u64>>, Vector<u64>) -> Descriptor<Vector<u64>>,
) -> Vec<(u64, u64)> {
    let mut pass = open();
    let (output, mask, ones) = prepare(&mut pass);
    let descriptor = describe(Descriptor::new(), mask);
    pass.ewise_mult(output, Op::TIMES, ones, ones, descriptor)
        .unwrap();
    stored(&mut pass, output)
}

#[test]
fn each_way_of_a_mask_selects_its_places() {
    let all = written(|d, _| d);
    assert_eq!(all, [(0, 1), (1, 1), (2, 1)]);
    assert_eq!(written(|d, _| d.structure()), all);
    assert_eq!(written(|d, _| d.comp()), [(0, 100), (1, 100), (2, 100)]);
    assert_eq!(written(|d, m| d.mask(m)), [(0, 1), (1, 100), (2, 100)]);
    assert_eq!(
        written(|d, m| d.mask(m).structure()),
        [(0, 1), (1, 1), (2, 100)]
    );
    assert_eq!(written(|d, m| d.mask(m).comp()), [(0, 100), (1, 1), (2, 1)]);
    assert_eq!(
        written(|d, m| d.mask(m).structure().comp()),
        [(0, 100), (1, 100), (2, 1)]
    );
}

#[test]
fn replace_removes_what_lies_outside() {
    assert_eq!(written(|d, _| d.replace()).len(), 3);
    assert_eq!(written(|d, _| d.comp().replace()), []);
    assert_eq!(written(|d, m| d.mask(m).replace()), [(0, 1)]);
    assert_eq!(
        written(|d, m| d.mask(m).structure().replace()),
        [(0, 1), (1, 1)]
    );
    assert_eq!(written(|d, m| d.mask(m).comp().replace()), [(1, 1), (2, 1)]);
    assert_eq!(
        written(|d, m| d.mask(m).structure().comp().replace()),
        [(2, 1)]
    );
}

#[test]
fn an_accumulator_combines_old_and_new() {
    let add = Op::PLUS;
    assert_eq!(written(|d, _| d.accum(add)), [(0, 101), (1, 101), (2, 101)]);
    assert_eq!(
        written(|d, m| d.mask(m).accum(add)),
        [(0, 101), (1, 100), (2, 100)]
    );
    assert_eq!(
        written(|d, _| d.accum(Op::MINUS)),
        [(0, 99), (1, 99), (2, 99)]
    );
    assert_eq!(
        written(|d, m| d.mask(m).structure().accum(Op::SECOND).replace()),
        [(0, 1), (1, 1)]
    );
}

#[test]
fn an_accumulator_keeps_what_only_one_of_both_stores() {
    let mut pass = open();
    let w = vector(&mut pass, 3, &[(0, 10u64), (1, 20)]);
    let u = vector(&mut pass, 3, &[(1, 1), (2, 2)]);
    pass.ewise_mult(w, Op::FIRST, u, u, Descriptor::new().accum(Op::PLUS))
        .unwrap();
    assert_eq!(stored(&mut pass, w), [(0, 10), (1, 21), (2, 2)]);
    pass.ewise_mult(w, Op::FIRST, u, u, Descriptor::default())
        .unwrap();
    assert_eq!(stored(&mut pass, w), [(1, 1), (2, 2)]);
}

#[test]
fn a_mask_may_be_of_the_other_domain() {
    let mut pass = open();
    let numbers = vector(&mut pass, 2, &[(0, 0u64), (1, 7)]);
    let truths = vector(&mut pass, 2, &[(0, true), (1, false)]);
    let w = pass.new_vector(2).unwrap();
    pass.ewise_add(
        w,
        Op::PLUS,
        numbers,
        numbers,
        Descriptor::new().mask(truths),
    )
    .unwrap();
    assert_eq!(stored(&mut pass, w), [(0, 0)]);
    let w = pass.new_vector(2).unwrap();
    pass.ewise_add(w, Op::LOR, truths, truths, Descriptor::new().mask(numbers))
        .unwrap();
    assert_eq!(stored(&mut pass, w), [(1, false)]);
}

#[test]
fn a_matrix_masks_a_matrix() {
    let mut pass = open();
    let a = matrix(&mut pass, (2, 2), &[(0, 0, 1u64), (0, 1, 2), (1, 1, 3)]);
    let mask = matrix(&mut pass, (2, 2), &[(0, 1, true), (1, 1, false)]);
    let c = matrix(&mut pass, (2, 2), &[(1, 0, 9u64)]);
    pass.ewise_add(c, Op::PLUS, a, a, Descriptor::new().mask(mask))
        .unwrap();
    assert_eq!(stored(&mut pass, c), [(0, 1, 4), (1, 0, 9)]);
    let rest = Descriptor::new().mask(mask).comp().replace();
    pass.ewise_add(c, Op::PLUS, a, a, rest).unwrap();
    assert_eq!(stored(&mut pass, c), [(0, 0, 2), (1, 1, 6)]);
}

#[test]
fn a_later_mask_or_accumulator_takes_the_place_of_the_former() {
    let mut pass = open();
    let first = vector(&mut pass, 2, &[(0, true)]);
    let second = vector(&mut pass, 2, &[(1, true)]);
    let u = vector(&mut pass, 2, &[(0, 3u64), (1, 4)]);
    let w = vector(&mut pass, 2, &[(0, 10), (1, 10)]);
    let descriptor = Descriptor::new()
        .mask(first)
        .mask(second)
        .accum(Op::PLUS)
        .accum(Op::TIMES);
    pass.ewise_add(w, Op::MIN, u, u, descriptor).unwrap();
    assert_eq!(stored(&mut pass, w), [(0, 10), (1, 40)]);
}

#[test]
fn one_object_may_be_output_input_and_mask() {
    let mut pass = open();
    let v = vector(&mut pass, 3, &[(0, 5u64), (1, 0)]);
    pass.ewise_add(v, Op::PLUS, v, v, Descriptor::new().mask(v))
        .unwrap();
    assert_eq!(stored(&mut pass, v), [(0, 10), (1, 0)]);
}
