//! Opening a store, its passes, and what they tell each other.

use crate::open;
use std::thread;
use trowelheath::{
    Chain, Chosen, Descriptor, Error, Matrix, Monoid, Object, Pass, Semiring, Store, Wait,
};

#[test]
fn a_store_is_opened_within_its_limits() {
    for (room, passes) in [(1, 1), (65_536, 16), (4_096, 256)] {
        let opened = Store::open(room, passes).unwrap();
        assert_eq!(opened.len(), passes, "room {room}");
    }
    for (room, passes) in [
        (0, 1),
        (65_537, 1),
        (1, 0),
        (1, 257),
        (65_536, 17),
        (4_097, 256),
        (u32::MAX, usize::MAX),
    ] {
        assert_eq!(
            Store::open(room, passes).map(|_| ()),
            Err(Error::InvalidValue),
            "room {room}, passes {passes}"
        );
    }
    assert_eq!(
        Store::open_array::<0>(1).map(|_| ()),
        Err(Error::InvalidValue)
    );
}

#[test]
fn the_library_says_whether_it_is_proved() {
    let wanted = std::env::var("TROWELHEATH_PROVED").map_or(true, |word| word != "no");
    assert_eq!(
        trowelheath::is_proved(),
        wanted,
        "TROWELHEATH_PROVED is no where the library is not proved"
    );
}

#[test]
fn passes_are_numbered_from_0() {
    let mut passes = Store::open(10, 5).unwrap();
    for (number, pass) in (0..).zip(&mut passes) {
        let facts = pass.facts().unwrap();
        assert_eq!(facts.number, number);
        assert_eq!(facts.known, 0);
        assert_eq!(facts.settled, 0);
        assert_eq!(facts.room_left, 10);
    }
}

#[test]
fn costs_tell_what_a_pass_keeps_and_has_left() {
    let [mut own, mut other] = Store::open_array(10).unwrap();
    let v = own.new_vector::<u64>(3).unwrap();
    own.set(v, 0, 1).unwrap();
    own.set(v, 2, 1).unwrap();
    let before = own.costs().unwrap();
    assert_eq!((before.entries, before.entries_left), (0, 0));

    own.wait(v, Wait::Materialize).unwrap();
    let after = own.costs().unwrap();
    assert_eq!((after.entries, after.entries_left), (2, 2));
    assert!(after.looks > before.looks);
    let others = other.costs().unwrap();
    assert_eq!((others.entries, others.entries_left, others.looks), (0, 2, 0));

    own.release().unwrap();
    let released = own.costs().unwrap();
    assert_eq!((released.entries, released.entries_left, released.looks), (0, 2, after.looks));
}

#[test]
fn changes_take_room_and_reads_take_none() {
    let [mut pass] = Store::open_array(10).unwrap();
    let v = pass.new_vector::<u64>(3).unwrap();
    pass.set(v, 0, 1).unwrap();
    assert_eq!(pass.facts().unwrap().room_left, 8);
    for _ in 0..20 {
        assert_eq!(pass.get(v, 0), Ok(Some(1)));
        assert_eq!(pass.nvals(v), Ok(1));
        assert_eq!(pass.size(v), Ok(3));
        assert_eq!(pass.reduce(v, Monoid::PLUS), Ok(1));
        assert_eq!(pass.entries(v).unwrap().len(), 1);
        pass.wait(v, Wait::Complete).unwrap();
    }
    let facts = pass.facts().unwrap();
    assert_eq!(facts.room_left, 8);
    assert_eq!(facts.known, 2);
    assert!(facts.words >= facts.known);
}

#[test]
fn a_refused_call_takes_no_room() {
    let [mut pass] = Store::open_array(10).unwrap();
    let v = pass.new_vector::<u64>(3).unwrap();
    assert_eq!(pass.set(v, 3, 1), Err(Error::InvalidIndex));
    assert_eq!(pass.facts().unwrap().room_left, 9);
}

#[test]
fn a_pass_that_meets_another_knows_what_it_knows() {
    let [mut first, mut second] = Store::open_array(10).unwrap();
    let v = first.new_vector::<u64>(3).unwrap();
    first.set(v, 1, 7).unwrap();
    assert_eq!(second.facts().unwrap().known, 0);
    second.meet(&mut first).unwrap();
    assert_eq!(second.facts().unwrap().known, 2);
    assert_eq!(first.facts().unwrap().known, 2);
    assert_eq!(second.get(v, 1), Ok(Some(7)));
}

#[test]
fn a_pass_that_adopts_another_knows_what_it_knows() {
    let [mut first, mut second] = Store::open_array(10).unwrap();
    let v = first.new_vector::<u64>(3).unwrap();
    first.set(v, 1, 7).unwrap();
    let evaluated = first.prepare().unwrap();
    assert!(evaluated <= first.facts().unwrap().known);
    second.adopt(&mut first).unwrap();
    assert_eq!(second.facts().unwrap().known, 2);
    assert_eq!(second.get(v, 1), Ok(Some(7)));
    second.set(v, 1, 8).unwrap();
    assert_eq!(first.get(v, 1), Ok(Some(8)));
}

#[test]
fn there_is_nothing_to_help_with_where_no_product_is_dear() {
    let [mut first, mut second] = Store::open_array(10).unwrap();
    assert_eq!(second.help(), Ok(0));
    let a = first.new_matrix::<u64>(2, 2).unwrap();
    first.set(a, (0, 1), 2).unwrap();
    first.set(a, (1, 0), 3).unwrap();
    first
        .mxm(a, Semiring::PLUS_TIMES, a, a, Descriptor::new())
        .unwrap();
    assert_eq!(first.get(a, (1, 1)), Ok(Some(6)));
    assert_eq!(second.help(), Ok(0));
    assert_eq!(second.blocks(), Ok(0));
    assert_eq!(second.facts().unwrap().known, 0);
}

#[test]
fn a_dear_product_is_made_by_blocks_where_there_are_two_passes() {
    const SIDE: u64 = 128;
    let [mut first, mut second] = Store::open_array(10).unwrap();
    let a = first.new_matrix::<u64>(SIDE, SIDE).unwrap();
    let ones = (0..SIDE * SIDE).map(|k| (k / SIDE, k % SIDE, 1));
    first.build(a, ones, Monoid::PLUS).unwrap();
    first
        .mxm(a, Semiring::PLUS_TIMES, a, a, Descriptor::new())
        .unwrap();
    // Ones times ones are as many everywhere as there are rows.
    assert_eq!(first.reduce(a, Monoid::MIN), Ok(SIDE));
    assert_eq!(first.reduce(a, Monoid::PLUS), Ok(SIDE * SIDE * SIDE));
    let blocks = first.blocks().unwrap();
    assert!(blocks > 0);
    assert_eq!(second.blocks(), Ok(blocks));
}

#[test]
fn a_pass_that_is_released_knows_what_it_knew() {
    let mut pass = open();
    let v = pass.new_vector::<u64>(3).unwrap();
    pass.set(v, 1, 7).unwrap();
    pass.wait(v, Wait::Materialize).unwrap();
    assert_eq!(pass.facts().unwrap().settled, 2);
    pass.release().unwrap();
    let facts = pass.facts().unwrap();
    assert_eq!((facts.known, facts.settled, facts.made), (2, 0, 0));
    assert_eq!(pass.get(v, 1), Ok(Some(7)));
    assert_eq!(pass.facts().unwrap().made, 2);
}

#[test]
fn a_call_learns_what_others_entered_before() {
    let [mut first, mut second] = Store::open_array(10).unwrap();
    let v = first.new_vector::<u64>(3).unwrap();
    second.set(v, 2, 5).unwrap();
    assert_eq!(first.get(v, 2), Ok(Some(5)));
}

#[test]
fn a_wait_for_all_settles_what_is_known() {
    let mut pass = open();
    let v = pass.new_vector::<u64>(3).unwrap();
    pass.set(v, 2, 5).unwrap();
    assert_eq!(pass.facts().unwrap().settled, 0);
    pass.wait(v, Wait::Materialize).unwrap();
    assert_eq!(pass.facts().unwrap().settled, 2);
}

#[test]
fn a_branch_keeps_the_moment_of_its_objects_and_gives_a_result_back() {
    let [mut pass] = Store::open_array(12).unwrap();
    let gone = pass.new_vector::<bool>(3).unwrap();
    pass.free(gone).unwrap();
    let v = pass.new_vector::<u64>(3).unwrap();
    pass.set(v, 0, 5).unwrap();
    let a = pass.new_matrix::<bool>(2, 2).unwrap();
    pass.set(a, (1, 1), true).unwrap();
    let out = pass.new_vector::<u64>(4).unwrap();

    let chosen = Chosen::new().with(a).with(v).with(gone).with(v);
    let mut branch = pass.branch(&chosen, 10, 2).unwrap();
    let facts = branch[1].facts().unwrap();
    assert_eq!((facts.number, facts.known, facts.room_left), (1, 6, 10));
    let (w, b) = (
        branch[0].inherited(v).unwrap(),
        branch[0].inherited(a).unwrap(),
    );
    let lost = branch[0].inherited(gone).unwrap();
    assert_eq!(branch[0].inherited(out), Err(Error::ForeignObject));
    pass.clear(v).unwrap();
    pass.set(a, (0, 0), true).unwrap();
    branch[0].set(w, 2, 6).unwrap();
    assert_eq!(branch[1].get(w, 0), Ok(Some(5)));
    assert_eq!(branch[1].nvals(b), Ok(1));
    assert_eq!(branch[1].nvals(lost), Err(Error::UninitializedObject));
    assert_eq!(pass.nvals(v), Ok(0));

    let left = pass.facts().unwrap().room_left;
    pass.build_from(out, &mut branch[1], w).unwrap();
    assert_eq!(pass.facts().unwrap().room_left, left - 1);
    assert_eq!(pass.get(out, 0), Ok(Some(5)));
    assert_eq!(pass.get(out, 2), Ok(Some(6)));
    assert_eq!(
        pass.build_from(out, &mut branch[1], w),
        Err(Error::OutputNotEmpty)
    );
    assert_eq!(
        pass.build_from(out, &mut branch[1], v),
        Err(Error::ForeignObject)
    );
    assert_eq!(
        branch[0].branch(&chosen, 10, 1).map(|_| ()),
        Err(Error::ForeignObject)
    );
}

#[test]
fn a_full_store_has_a_successor() {
    let [mut first, mut second] = Store::open_array(4).unwrap();
    let v = first.new_vector::<u64>(3).unwrap();
    let gone = first.new_vector::<bool>(3).unwrap();
    first.free(gone).unwrap();
    second.set(v, 0, 5).unwrap();
    assert_eq!(first.is_full(), Ok(false));
    first.meet(&mut second).unwrap();
    assert_eq!(first.is_full(), Ok(true));
    assert_eq!(first.set(v, 1, 6), Err(Error::OrderFull));

    let mut next = first.succeed(10, 3).unwrap();
    assert_eq!(next.len(), 3);
    for (number, pass) in (0..).zip(&mut next) {
        let facts = pass.facts().unwrap();
        assert_eq!((facts.number, facts.known), (number, 4));
        assert_eq!((facts.room_left, facts.settled), (10, 0));
        assert_eq!(pass.is_full(), Ok(false));
    }
    let (w, lost) = (
        next[1].inherited(v).unwrap(),
        next[1].inherited(gone).unwrap(),
    );
    assert_eq!(w.store(), next[1].store());
    assert_eq!(next[1].last_info(w), Ok(None));
    assert_eq!(next[1].get(w, 0), Ok(Some(5)));
    assert_eq!(next[1].nvals(lost), Err(Error::UninitializedObject));
    next[2].set(w, 1, 6).unwrap();
    assert_eq!(next[0].get(w, 1), Ok(Some(6)));

    // The old store stays as it was, and the new one outlives it.
    assert_eq!(second.get(v, 1), Ok(None));
    drop((first, second));
    assert_eq!(next[0].nvals(w), Ok(2));
}

#[test]
fn a_successor_before_the_end_is_a_branch() {
    let mut pass = open();
    let v = pass.new_vector::<u64>(3).unwrap();
    let mut next = pass.succeed(10, 1).unwrap();
    pass.set(v, 0, 5).unwrap();
    let w = next[0].inherited(v).unwrap();
    assert_eq!(next[0].nvals(w), Ok(0));
    assert_eq!(pass.nvals(v), Ok(1));
}

/// So many edges of a path, from this vertex on.
fn add_edges(pass: &mut Pass, graph: Matrix<u64>, from: u64, count: u64) {
    for k in from..from + count {
        pass.set(graph, (k, k + 1), 1).unwrap();
    }
}

#[test]
fn a_branch_of_a_pass_that_has_not_read_begins_with_all_that_others_entered() {
    let store = Store::open_array(40).unwrap();
    let chain = Chain::open_with(8, 2).unwrap().try_into();
    for (what, [mut opens, mut enters]) in [("store", store), ("chain", chain.unwrap())] {
        let gone = enters.new_matrix::<u64>(1, 1).unwrap();
        let graph = enters.new_matrix::<u64>(19, 19).unwrap();
        enters.free(gone).unwrap();
        for from in [0, 9] {
            add_edges(&mut enters, graph, from, 9);
            let chosen = Chosen::new().with(graph);
            let mut branch = opens.branch(&chosen, 10, 1).unwrap();
            let there = branch[0].inherited(graph).unwrap();
            assert_eq!(branch[0].nvals(there), Ok(from + 9), "of a {what}");
        }
    }
}

#[test]
fn a_successor_of_a_pass_that_has_not_read_gives_no_number_anew() {
    let [mut opens, mut enters] = Store::open_array(40).unwrap();
    let graph = enters.new_matrix::<u64>(19, 19).unwrap();
    for from in [0, 9] {
        add_edges(&mut enters, graph, from, 9);
        let mut next = opens.succeed(10, 1).unwrap();
        let made = next[0].new_matrix::<u64>(19, 19).unwrap();
        next[0].set(made, (2, 2), 99).unwrap();
        let there = next[0].inherited(graph).unwrap();
        assert_ne!(there, made);
        assert_eq!(next[0].nvals(there), Ok(from + 9));
        assert_eq!(next[0].get(there, (2, 2)), Ok(None));
        assert_eq!(next[0].nvals(made), Ok(1));
    }
}

#[test]
fn objects_that_no_store_of_so_many_passes_takes_are_counted() {
    const VECTORS: u64 = 522_241;
    let mut passes = Store::open(65_536, 1).unwrap();
    let v = passes[0].new_vector::<u64>(3).unwrap();
    passes[0].set(v, 0, 5).unwrap();
    let mut last = v;
    for _ in 1..VECTORS {
        if passes[0].facts().unwrap().room_left == 0 {
            passes = passes[0].succeed(65_536, 1).unwrap();
            last = passes[0].inherited(last).unwrap();
        }
        last = passes[0].dup(last).unwrap();
    }
    // Two calls make each of them. With a room of 4,095 they are one more than 256 passes may share.
    let refusal = passes[0].succeed(4_095, 256).map(|_| ()).unwrap_err();
    assert_eq!(
        refusal,
        Error::RoomTooSmall {
            needed: 2 * VECTORS
        }
    );
    assert!(
        refusal.to_string().ends_with("They are 1044482."),
        "{refusal}"
    );
}

#[test]
fn a_successor_is_refused_with_its_reason() {
    let mut pass = open();
    let v = pass.new_vector::<u64>(3).unwrap();
    pass.set(v, 0, 5).unwrap();
    for (room, passes) in [(0, 1), (65_537, 1), (2, 0), (2, 257), (65_536, 17)] {
        let answer = pass.succeed(room, passes).map(|_| ());
        assert_eq!(
            answer,
            Err(Error::InvalidValue),
            "room {room}, passes {passes}"
        );
    }
    let mut next = pass.succeed(1, 1).unwrap();
    assert_eq!(next[0].facts().map(|facts| facts.room_left), Ok(1));
}

#[test]
fn a_handle_is_inherited_from_the_store_before_alone() {
    let (mut pass, mut other) = (open(), open());
    let v = pass.new_vector::<u64>(3).unwrap();
    let u = other.new_vector::<u64>(3).unwrap();
    let mut next = pass.succeed(10, 1).unwrap();
    assert_eq!(pass.inherited(v), Err(Error::ForeignObject));
    assert_eq!(next[0].inherited(u), Err(Error::ForeignObject));
    let w = next[0].inherited(v).unwrap();
    assert_eq!(next[0].nvals(v), Err(Error::ForeignObject));
    assert_eq!(pass.nvals(w), Err(Error::ForeignObject));
    let last = next[0].succeed(10, 1).unwrap();
    assert_eq!(last[0].inherited(v), Err(Error::ForeignObject));
    assert!(last[0].inherited(w).is_ok());
}

#[test]
fn what_a_pass_entered_outlives_it() {
    let [mut first, mut second] = Store::open_array(10).unwrap();
    let v = first.new_vector::<u64>(3).unwrap();
    first.set(v, 0, 9).unwrap();
    drop(first);
    assert_eq!(second.get(v, 0), Ok(Some(9)));
    second.set(v, 1, 1).unwrap();
    assert_eq!(second.nvals(v), Ok(2));
}

#[test]
fn a_pass_goes_to_a_thread_and_comes_back() {
    let mut pass = open();
    let v = pass.new_vector::<u64>(3).unwrap();
    let mut pass = thread::spawn(move || {
        pass.set(v, 0, 4).unwrap();
        pass
    })
    .join()
    .unwrap();
    assert_eq!(pass.get(v, 0), Ok(Some(4)));
}

#[test]
fn no_two_stores_have_one_name() {
    let gone = {
        let mut pass = open();
        let v = pass.new_vector::<u64>(3).unwrap();
        assert_eq!(v.store(), pass.store());
        v
    };
    for _ in 0..100 {
        let mut pass = open();
        let v = pass.new_vector::<u64>(3).unwrap();
        assert_ne!(pass.store(), gone.store());
        assert_ne!(v, gone);
        assert_eq!(pass.nvals(gone), Err(Error::ForeignObject));
    }
}

#[test]
fn a_pass_is_printed_without_its_contents() {
    let text = format!("{:?}", open());
    assert!(text.starts_with("Pass { store: Store"), "{text}");
}
