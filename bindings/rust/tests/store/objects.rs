//! Making, freeing, changing and reading one object.

use crate::{matrix, open, stored, vector};
use trowelheath::{Error, Info, Monoid, Object, Wait};

#[test]
fn a_new_object_has_its_dimensions_and_stores_nothing() {
    let mut pass = open();
    let a = pass.new_matrix::<u64>(3, 5).unwrap();
    assert_eq!(pass.size(a), Ok((3, 5)));
    assert_eq!(pass.nvals(a), Ok(0));
    let v = pass.new_vector::<bool>(7).unwrap();
    assert_eq!(pass.size(v), Ok(7));
    assert_eq!(pass.nvals(v), Ok(0));
}

#[test]
fn dimensions_go_up_to_the_largest() {
    let mut pass = open();
    let most = u64::from(u32::MAX);
    let a = pass.new_matrix::<bool>(most, most).unwrap();
    pass.set(a, (most - 1, most - 1), true).unwrap();
    assert_eq!(pass.get(a, (most - 1, most - 1)), Ok(Some(true)));
    let v = pass.new_vector::<u64>(most).unwrap();
    pass.set(v, most - 1, u64::MAX).unwrap();
    assert_eq!(pass.get(v, most - 1), Ok(Some(u64::MAX)));
}

#[test]
fn a_set_takes_the_place_of_what_was_stored() {
    let mut pass = open();
    let a = pass.new_matrix(2, 3).unwrap();
    pass.set(a, (1, 2), 5).unwrap();
    pass.set(a, (1, 2), 7).unwrap();
    assert_eq!(pass.get(a, (1, 2)), Ok(Some(7u64)));
    assert_eq!(pass.get(a, (0, 2)), Ok(None));
    assert_eq!(pass.nvals(a), Ok(1));
    let v = pass.new_vector(3).unwrap();
    pass.set(v, 2, true).unwrap();
    pass.set(v, 2, false).unwrap();
    assert_eq!(pass.get(v, 2), Ok(Some(false)));
    assert_eq!(pass.get(v, 1), Ok(None));
    assert_eq!(pass.nvals(v), Ok(1));
}

#[test]
fn row_and_column_are_not_exchanged() {
    let mut pass = open();
    let a = pass.new_matrix(2, 9).unwrap();
    pass.set(a, (1, 8), true).unwrap();
    assert_eq!(stored(&mut pass, a), [(1, 8, true)]);
    pass.resize(a, (9, 2)).unwrap();
    assert_eq!(pass.size(a), Ok((9, 2)));
    assert_eq!(pass.set(a, (1, 8), true), Err(Error::InvalidIndex));
    pass.set(a, (8, 1), true).unwrap();
    assert_eq!(pass.get(a, (8, 1)), Ok(Some(true)));
    pass.remove(a, (8, 1)).unwrap();
    assert_eq!(pass.nvals(a), Ok(0));
}

#[test]
fn a_removed_entry_is_gone_and_may_have_been_none() {
    let mut pass = open();
    let a = matrix(&mut pass, (2, 2), &[(0, 1, 4u64), (1, 0, 6)]);
    pass.remove(a, (0, 1)).unwrap();
    pass.remove(a, (0, 0)).unwrap();
    assert_eq!(stored(&mut pass, a), [(1, 0, 6)]);
    let v = vector(&mut pass, 4, &[(0, true), (3, true)]);
    pass.remove(v, 3).unwrap();
    pass.remove(v, 1).unwrap();
    assert_eq!(stored(&mut pass, v), [(0, true)]);
}

#[test]
fn a_clear_leaves_the_dimensions() {
    let mut pass = open();
    let a = matrix(&mut pass, (2, 3), &[(0, 1, 4u64), (1, 2, 6)]);
    pass.clear(a).unwrap();
    assert_eq!(pass.nvals(a), Ok(0));
    assert_eq!(pass.size(a), Ok((2, 3)));
    let v = vector(&mut pass, 4, &[(0, true)]);
    pass.clear(v).unwrap();
    assert_eq!(pass.nvals(v), Ok(0));
    assert_eq!(pass.size(v), Ok(4));
}

#[test]
fn entries_outside_new_dimensions_are_gone_for_good() {
    let mut pass = open();
    let a = matrix(&mut pass, (4, 4), &[(0, 0, 1u64), (0, 3, 2), (3, 0, 3)]);
    pass.resize(a, (2, 2)).unwrap();
    pass.resize(a, (4, 4)).unwrap();
    assert_eq!(stored(&mut pass, a), [(0, 0, 1)]);
    let v = vector(&mut pass, 4, &[(0, 1u64), (3, 2)]);
    pass.resize(v, 3).unwrap();
    pass.resize(v, 9).unwrap();
    assert_eq!(pass.size(v), Ok(9));
    assert_eq!(stored(&mut pass, v), [(0, 1)]);
}

#[test]
fn a_copy_and_its_source_change_apart() {
    let mut pass = open();
    let a = matrix(&mut pass, (2, 2), &[(0, 1, true)]);
    let b = pass.dup(a).unwrap();
    assert_ne!(a, b);
    pass.set(a, (1, 1), false).unwrap();
    pass.remove(b, (0, 1)).unwrap();
    assert_eq!(stored(&mut pass, a), [(0, 1, true), (1, 1, false)]);
    assert_eq!(stored(&mut pass, b), []);
    let v = vector(&mut pass, 5, &[(2, 8u64)]);
    let w = pass.dup(v).unwrap();
    pass.clear(v).unwrap();
    assert_eq!(stored(&mut pass, w), [(2, 8)]);
    assert_eq!(pass.size(w), Ok(5));
}

#[test]
fn a_number_is_not_used_again() {
    let mut pass = open();
    let a = pass.new_matrix::<u64>(2, 2).unwrap();
    pass.free(a).unwrap();
    let b = pass.new_matrix::<u64>(2, 2).unwrap();
    assert_ne!(a, b);
    assert_eq!(pass.nvals(a), Err(Error::UninitializedObject));
    assert_eq!(pass.nvals(b), Ok(0));
    let v = pass.new_vector::<u64>(2).unwrap();
    pass.free(v).unwrap();
    let w = pass.new_vector::<u64>(2).unwrap();
    assert_ne!(v, w);
    assert_eq!(pass.nvals(v), Err(Error::UninitializedObject));
}

#[test]
fn a_total_combines_all_values() {
    let mut pass = open();
    let a = matrix(&mut pass, (3, 3), &[(0, 1, 3u64), (1, 0, 5), (2, 2, 4)]);
    for (monoid, total) in [
        (Monoid::PLUS, 12),
        (Monoid::TIMES, 60),
        (Monoid::MIN, 3),
        (Monoid::MAX, 5),
    ] {
        assert_eq!(pass.reduce(a, monoid), Ok(total), "{monoid}");
    }
    let v = vector(&mut pass, 3, &[(0, true), (1, false), (2, true)]);
    for (monoid, total) in [
        (Monoid::LOR, true),
        (Monoid::LAND, false),
        (Monoid::LXOR, false),
        (Monoid::LXNOR, false),
    ] {
        assert_eq!(pass.reduce(v, monoid), Ok(total), "{monoid}");
    }
}

#[test]
fn a_total_of_nothing_is_the_identity() {
    let mut pass = open();
    let v = pass.new_vector(3).unwrap();
    for (monoid, identity) in [
        (Monoid::PLUS, 0),
        (Monoid::TIMES, 1),
        (Monoid::MIN, u64::MAX),
        (Monoid::MAX, 0),
    ] {
        assert_eq!(pass.reduce(v, monoid), Ok(identity), "{monoid}");
    }
    let a = pass.new_matrix(3, 3).unwrap();
    for (monoid, identity) in [
        (Monoid::LOR, false),
        (Monoid::LAND, true),
        (Monoid::LXOR, false),
        (Monoid::LXNOR, true),
    ] {
        assert_eq!(pass.reduce(a, monoid), Ok(identity), "{monoid}");
    }
}

#[test]
fn sums_are_modulo_two_to_the_64() {
    let mut pass = open();
    let v = vector(&mut pass, 2, &[(0, u64::MAX), (1, 3)]);
    assert_eq!(pass.reduce(v, Monoid::PLUS), Ok(2));
    assert_eq!(pass.reduce(v, Monoid::TIMES), Ok(u64::MAX - 2));
}

#[test]
fn a_wait_changes_no_value() {
    let mut pass = open();
    let a = matrix(&mut pass, (2, 2), &[(0, 1, 4u64)]);
    let v = vector(&mut pass, 2, &[(1, true)]);
    let room_left = pass.facts().unwrap().room_left;
    for mode in [Wait::Complete, Wait::Materialize] {
        pass.wait(a, mode).unwrap();
        pass.wait(v, mode).unwrap();
    }
    assert_eq!(stored(&mut pass, a), [(0, 1, 4)]);
    assert_eq!(stored(&mut pass, v), [(1, true)]);
    let facts = pass.facts().unwrap();
    assert_eq!(facts.settled, facts.known);
    assert_eq!(facts.room_left, room_left);
}

#[test]
fn the_status_is_that_of_the_last_call_on_the_object() {
    let [mut pass, mut other] = trowelheath::Store::open_array(100).unwrap();
    let a = pass.new_matrix::<u64>(2, 2).unwrap();
    let v = pass.new_vector::<bool>(2).unwrap();
    assert_eq!(pass.last_info(a), Ok(Some(Info::Success)));
    assert_eq!(other.last_info(a), Ok(None));
    assert_eq!(pass.get(a, (1, 1)), Ok(None));
    assert_eq!(pass.last_info(a), Ok(Some(Info::NoValue)));
    assert_eq!(pass.last_info(v), Ok(Some(Info::Success)));
    assert_eq!(pass.set(v, 2, true), Err(Error::InvalidIndex));
    let refused = Info::Refused(Error::InvalidIndex);
    assert_eq!(pass.last_info(v), Ok(Some(refused)));
    assert_eq!(pass.last_info(a), Ok(Some(Info::NoValue)));
    assert_eq!(other.size(v), Ok(2));
    assert_eq!(other.last_info(v), Ok(Some(Info::Success)));
    assert_eq!(pass.last_info(v), Ok(Some(refused)));
}

#[test]
fn a_handle_knows_its_store() {
    let mut pass = open();
    let a = pass.new_matrix::<u64>(2, 2).unwrap();
    let v = pass.new_vector::<bool>(2).unwrap();
    assert_eq!(a.store(), pass.store());
    assert_eq!(v.store(), pass.store());
}
