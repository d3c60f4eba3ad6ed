//! Builds, and reads of all entries.

use crate::{matrix, open, stored, vector};
use trowelheath::{Error, Monoid};

#[test]
fn a_matrix_is_built_from_slices() {
    let mut pass = open();
    let a = pass.new_matrix(3, 4).unwrap();
    let (rows, columns, values) = ([2, 0, 1], [3, 1, 0], [30, 10, 20]);
    pass.build_matrix(a, &rows, &columns, &values, Monoid::PLUS)
        .unwrap();
    assert_eq!(stored(&mut pass, a), [(0, 1, 10), (1, 0, 20), (2, 3, 30)]);
    let b = pass.new_matrix(3, 4).unwrap();
    let values = [true, false, true];
    pass.build_matrix(b, &rows, &columns, &values, Monoid::LOR)
        .unwrap();
    assert_eq!(
        stored(&mut pass, b),
        [(0, 1, false), (1, 0, true), (2, 3, true)]
    );
}

#[test]
fn a_vector_is_built_from_slices() {
    let mut pass = open();
    let v = pass.new_vector(9).unwrap();
    pass.build_vector(v, &[8, 0], &[80, 1], Monoid::PLUS)
        .unwrap();
    assert_eq!(stored(&mut pass, v), [(0, 1), (8, 80)]);
    let w = pass.new_vector(9).unwrap();
    pass.build_vector(w, &[8, 0], &[true, false], Monoid::LOR)
        .unwrap();
    assert_eq!(stored(&mut pass, w), [(0, false), (8, true)]);
}

#[test]
fn an_object_is_built_from_an_iterator() {
    let mut pass = open();
    let a = pass.new_matrix(5, 5).unwrap();
    let diagonal = (0..5).rev().map(|k| (k, k, 10 * k));
    pass.build(a, diagonal, Monoid::PLUS).unwrap();
    assert_eq!(
        stored(&mut pass, a),
        [(0, 0, 0), (1, 1, 10), (2, 2, 20), (3, 3, 30), (4, 4, 40)]
    );
    let v = pass.new_vector(5).unwrap();
    pass.build(v, [(4, true), (1, false)], Monoid::LAND)
        .unwrap();
    assert_eq!(stored(&mut pass, v), [(1, false), (4, true)]);
}

#[test]
fn values_of_one_place_are_combined() {
    let mut pass = open();
    for (dup, value) in [
        (Monoid::PLUS, 9),
        (Monoid::TIMES, 24),
        (Monoid::MIN, 2),
        (Monoid::MAX, 4),
    ] {
        let a = pass.new_matrix(2, 2).unwrap();
        pass.build(a, [(0, 1, 2), (1, 1, 7), (0, 1, 3), (0, 1, 4)], dup)
            .unwrap();
        assert_eq!(stored(&mut pass, a), [(0, 1, value), (1, 1, 7)], "{dup}");
        let v = pass.new_vector(2).unwrap();
        pass.build_vector(v, &[1, 1, 1], &[2, 3, 4], dup).unwrap();
        assert_eq!(stored(&mut pass, v), [(1, value)], "{dup}");
    }
    for (dup, value) in [
        (Monoid::LOR, true),
        (Monoid::LAND, false),
        (Monoid::LXOR, false),
        (Monoid::LXNOR, false),
    ] {
        let v = pass.new_vector(2).unwrap();
        pass.build(v, [(1, true), (1, false), (1, true)], dup)
            .unwrap();
        assert_eq!(stored(&mut pass, v), [(1, value)], "{dup}");
    }
}

#[test]
fn one_slice_may_be_given_twice() {
    let mut pass = open();
    let all = [0, 1, 2, 3];
    let a = pass.new_matrix(4, 4).unwrap();
    pass.build_matrix(a, &all, &all, &all, Monoid::PLUS)
        .unwrap();
    assert_eq!(
        stored(&mut pass, a),
        [(0, 0, 0), (1, 1, 1), (2, 2, 2), (3, 3, 3)]
    );
    let b = pass.new_matrix(4, 4).unwrap();
    pass.build_matrix(b, &all[..3], &all[1..], &all[..3], Monoid::PLUS)
        .unwrap();
    assert_eq!(stored(&mut pass, b), [(0, 1, 0), (1, 2, 1), (2, 3, 2)]);
    let v = pass.new_vector(4).unwrap();
    pass.build_vector(v, &all[..3], &all[1..], Monoid::PLUS)
        .unwrap();
    assert_eq!(stored(&mut pass, v), [(0, 1), (1, 2), (2, 3)]);
}

#[test]
fn an_empty_list_builds_nothing() {
    let mut pass = open();
    let a = pass.new_matrix::<u64>(2, 2).unwrap();
    pass.build_matrix(a, &[], &[], &[], Monoid::PLUS).unwrap();
    pass.build(a, [], Monoid::PLUS).unwrap();
    assert_eq!(pass.nvals(a), Ok(0));
    let v = pass.new_vector::<bool>(2).unwrap();
    pass.build_vector(v, &[], &[], Monoid::LOR).unwrap();
    pass.build(v, [], Monoid::LOR).unwrap();
    assert_eq!(pass.nvals(v), Ok(0));
}

#[test]
fn a_build_is_one_change() {
    let mut pass = open();
    let v = pass.new_vector(1_000).unwrap();
    let before = pass.facts().unwrap().room_left;
    pass.build(v, (0..1_000).map(|k| (k, k)), Monoid::PLUS)
        .unwrap();
    assert_eq!(pass.facts().unwrap().room_left, before - 1);
    assert_eq!(pass.nvals(v), Ok(1_000));
}

#[test]
fn entries_are_read_in_rising_order() {
    let mut pass = open();
    let a = matrix(
        &mut pass,
        (3, 3),
        &[(2, 0, 5u64), (0, 2, 1), (2, 2, 6), (0, 0, 0), (1, 1, 4)],
    );
    let entries = pass.entries(a).unwrap();
    assert_eq!(entries.len(), 5);
    assert!(!entries.is_empty());
    assert_eq!(entries.rows(), [0, 0, 1, 2, 2]);
    assert_eq!(entries.columns(), [0, 2, 1, 0, 2]);
    assert_eq!(entries.values(), [0, 1, 4, 5, 6]);
    assert_eq!(entries.iter().len(), 5);
    assert_eq!(entries.iter().nth(3), Some((2, 0, 5)));
    let mut sum = 0;
    for (i, j, value) in &entries {
        sum += i + j + value;
    }
    assert_eq!(sum, 26);
    let (rows, columns, values) = entries.into_vecs();
    assert_eq!(rows, [0, 0, 1, 2, 2]);
    assert_eq!(columns, [0, 2, 1, 0, 2]);
    assert_eq!(values, [0, 1, 4, 5, 6]);

    let v = vector(&mut pass, 9, &[(7, true), (0, false), (3, true)]);
    let entries = pass.entries(v).unwrap();
    assert_eq!(entries.len(), 3);
    assert_eq!(entries.indices(), [0, 3, 7]);
    assert_eq!(entries.values(), [false, true, true]);
    assert_eq!(entries.iter().next(), Some((0, false)));
    assert_eq!((&entries).into_iter().next_back(), Some((7, true)));
    assert_eq!(entries.into_iter().len(), 3);
}

#[test]
fn entries_of_each_domain_and_sort_are_read() {
    let mut pass = open();
    let a = matrix(&mut pass, (2, 2), &[(1, 0, true), (0, 1, false)]);
    assert_eq!(stored(&mut pass, a), [(0, 1, false), (1, 0, true)]);
    let v = vector(&mut pass, 2, &[(1, u64::MAX), (0, 0)]);
    let entries = pass.entries(v).unwrap();
    assert_eq!(entries.into_vecs(), (vec![0, 1], vec![0, u64::MAX]));
}

#[test]
fn no_entries_are_read_of_an_empty_object() {
    let mut pass = open();
    let a = pass.new_matrix::<u64>(2, 2).unwrap();
    let entries = pass.entries(a).unwrap();
    assert!(entries.is_empty());
    assert_eq!(entries.into_iter().next(), None);
    let v = pass.new_vector::<bool>(2).unwrap();
    assert!(pass.entries(v).unwrap().is_empty());
}

#[test]
fn what_was_read_does_not_change() {
    let mut pass = open();
    let v = vector(&mut pass, 3, &[(0, 1u64)]);
    let before = pass.entries(v).unwrap();
    pass.set(v, 0, 2).unwrap();
    pass.set(v, 1, 3).unwrap();
    assert_eq!(before.values(), [1]);
    assert_ne!(pass.entries(v).unwrap(), before);
}

#[test]
fn an_object_is_carried_over_to_another_store() {
    let mut old = open();
    let mut new = open();
    let a = matrix(&mut old, (3, 3), &[(0, 2, 5u64), (2, 1, 6)]);
    let entries = old.entries(a).unwrap();
    let (nrows, ncols) = old.size(a).unwrap();
    let b = new.new_matrix(nrows, ncols).unwrap();
    new.build(b, &entries, Monoid::PLUS).unwrap();
    assert_eq!(new.entries(b).unwrap(), entries);
    assert_eq!(new.entries(a), Err(Error::ForeignObject));
}
