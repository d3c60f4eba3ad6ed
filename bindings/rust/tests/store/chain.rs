//! Chains: what goes on, what a generation tells of itself, and what is refused.

use crate::stored;
use std::thread;
use trowelheath::{Chain, Chosen, Descriptor, Error, Info, Monoid, Op, Pass, Store, Vector, Wait};

/// So many changes, of which the last one stays.
fn fill(pass: &mut Pass, v: Vector<u64>, times: u64) {
    for k in 0..times {
        pass.set(v, 0, k).unwrap();
    }
}

/// A chain of small generations with two passes, and a vector in it.
fn open() -> (Pass, Pass, Vector<u64>) {
    let mut passes = Chain::open_with(64, 2).unwrap();
    let other = passes.pop().unwrap();
    let mut own = passes.pop().unwrap();
    let v = own.new_vector(3).unwrap();
    (own, other, v)
}

/// A chain whose generations have so little room, with two passes.
fn open_small(room: u32) -> [Pass; 2] {
    let passes = Chain::open_with(room, 2).unwrap();
    passes.try_into().expect("it has two passes")
}

#[test]
fn more_changes_than_a_generation_takes_are_all_there() {
    let (mut own, mut other, v) = open();
    fill(&mut own, v, 640);
    assert_eq!(own.generation(), Ok(10));
    assert_eq!(other.generation(), Ok(0));
    assert_eq!(other.get(v, 0), Ok(Some(639)));
    assert_eq!(other.generation(), Ok(10));
}

#[test]
fn a_pass_that_was_idle_reads_the_latest_generation() {
    let [mut busy, mut idle] = open_small(4);
    let v = busy.new_vector(10).unwrap();
    // It knows a part of the first generation, and not that it is full.
    assert_eq!(idle.get(v, 0), Ok(None));
    fill(&mut busy, v, 700);
    // The first generation takes three of the sets, and each later one four.
    assert_eq!(busy.generation(), Ok(175));
    assert_eq!(idle.go_on(), Ok(false));
    assert_eq!(idle.generation(), Ok(0));
    assert_eq!(idle.get(v, 0), Ok(Some(699)));
    assert_eq!(idle.generation(), Ok(175));
    assert_eq!(idle.facts().unwrap().number, 1);
}

#[test]
fn a_change_of_what_a_later_generation_made_is_done() {
    let [mut busy, mut idle] = open_small(8);
    let first = busy.new_vector(10).unwrap();
    fill(&mut busy, first, 100);
    let second = busy.new_vector(10).unwrap();
    assert_eq!(idle.generation(), Ok(0));
    idle.set(second, 3, 5).unwrap();
    assert_eq!(stored(&mut busy, second), [(3, 5)]);
    assert_eq!(stored(&mut busy, first), [(0, 99)]);
    assert_eq!(idle.generation(), busy.generation());
}

#[test]
fn a_pass_stays_while_its_generation_takes_calls() {
    let [mut busy, _idle] = open_small(4);
    let v = busy.new_vector(10).unwrap();
    fill(&mut busy, v, 2);
    // One call is left.
    assert_eq!(busy.go_on(), Ok(false));
    fill(&mut busy, v, 1);
    // The generation is full, and no other stands.
    assert_eq!(busy.get(v, 0), Ok(Some(0)));
    assert_eq!(busy.generation(), Ok(0));
    assert_eq!(busy.go_on(), Ok(true));
    assert_eq!(busy.generation(), Ok(1));
    // Two calls make the vector and its entry.
    let facts = busy.facts().unwrap();
    assert_eq!((facts.known, facts.room_left), (2, 4));
    assert_eq!(stored(&mut busy, v), [(0, 0)]);
}

#[test]
fn a_generation_has_its_room_beside_what_makes_the_objects() {
    let (mut own, _other, v) = open();
    fill(&mut own, v, 63);
    assert_eq!(own.facts().unwrap().room_left, 0);
    assert_eq!(own.go_on(), Ok(true));
    assert_eq!(own.go_on(), Ok(false));
    assert_eq!(own.is_full(), Ok(false));
    let facts = own.facts().unwrap();
    assert_eq!((facts.known, facts.room_left), (2, 64));
}

#[test]
fn a_new_generation_knows_no_status_and_nothing_is_settled() {
    let (mut own, _other, v) = open();
    own.wait(v, Wait::Materialize).unwrap();
    assert_eq!(own.facts().unwrap().settled, 1);
    assert_eq!(own.last_info(v), Ok(Some(Info::Success)));
    fill(&mut own, v, 63);
    let w = own.new_vector::<u64>(3).unwrap();
    assert_eq!(own.facts().unwrap().settled, 0);
    assert_eq!(own.last_info(v), Ok(None));
    assert_eq!(own.last_info(w), Ok(Some(Info::Success)));
}

#[test]
fn numbers_of_freed_objects_are_not_given_again() {
    let (mut own, _other, v) = open();
    let first = own.new_vector::<u64>(3).unwrap();
    own.free(first).unwrap();
    for _ in 0..200 {
        let made = own.new_vector::<u64>(3).unwrap();
        assert_eq!(own.nvals(made), Ok(0));
        assert_eq!(own.nvals(first), Err(Error::UninitializedObject));
        own.free(made).unwrap();
    }
    assert_eq!(own.nvals(v), Ok(0));
}

#[test]
fn threads_that_count_miss_nothing() {
    const WORKERS: usize = 4;
    let mut passes = Chain::open_with(64, WORKERS).unwrap();
    let counts = passes[0].new_vector::<u64>(4).unwrap();
    thread::scope(|scope| {
        for (own, pass) in (0..).zip(&mut passes) {
            scope.spawn(move || {
                for k in 1..=500 {
                    let one = pass.new_vector::<u64>(4).unwrap();
                    pass.set(one, own, k).unwrap();
                    let count = pass.get(one, own).unwrap().unwrap();
                    pass.set(counts, own, count).unwrap();
                    pass.free(one).unwrap();
                }
            });
        }
    });
    assert_eq!(passes[0].reduce(counts, Monoid::PLUS), Ok(2_000));
    assert!(passes[0].generation().unwrap() > 50);
}

#[test]
fn a_pass_meets_another_one_in_its_later_generation_and_knows_all_that_it_knows() {
    for adopts in [false, true] {
        let [mut behind, mut ahead] = open_small(8);
        let v = ahead.new_vector(3).unwrap();
        fill(&mut ahead, v, 20);
        assert_eq!(ahead.meet(&mut behind), Ok(true));
        assert_eq!((ahead.generation(), behind.generation()), (Ok(2), Ok(0)));
        let met = if adopts {
            behind.adopt(&mut ahead)
        } else {
            behind.meet(&mut ahead)
        };
        assert_eq!((met, behind.generation()), (Ok(true), Ok(2)));
        let known = |pass: &mut Pass| pass.facts().unwrap().known;
        assert_eq!(known(&mut behind), known(&mut ahead));
    }
}

#[test]
fn passes_meet_in_each_generation() {
    let (mut own, mut other, v) = open();
    for _ in 0..5 {
        fill(&mut own, v, 40);
        other.meet(&mut own).unwrap();
        own.adopt(&mut other).unwrap();
        assert_eq!(other.get(v, 0), Ok(Some(39)));
    }
}

#[test]
fn the_pass_of_a_thread_that_has_ended_is_had_anew() {
    let (mut own, other, v) = open();
    assert!(own.seat(1).unwrap().is_none());
    assert!(own.seat(2).unwrap().is_none());
    drop(other);
    let mut again = own.seat(1).unwrap().unwrap();
    assert!(own.seat(1).unwrap().is_none());
    assert_eq!(again.facts().unwrap().number, 1);
    fill(&mut again, v, 100);
    assert_eq!(own.get(v, 0), Ok(Some(99)));
    again.meet(&mut own).unwrap();
}

#[test]
fn the_seat_of_a_dropped_pass_is_taken_anew() {
    let [mut own, other] = open_small(6);
    assert!(own.seat(1).unwrap().is_none(), "it is not dropped yet");
    drop(other);
    let v = own.new_vector(1).unwrap();
    // So many sets end in this generation: the first one takes five of them, and each later one six.
    for (times, generation) in [(3, 0), (40, 7), (0, 7), (40, 13), (1, 14)] {
        fill(&mut own, v, times);
        let entry = own.get(v, 0).unwrap();
        let mut again = own.seat(1).unwrap().expect("a seat is free");
        assert!(own.seat(1).unwrap().is_none(), "it is taken");
        assert_eq!(again.facts().unwrap().number, 1);
        assert_eq!(again.get(v, 0), Ok(entry), "after {times} sets");
        assert_eq!(again.generation(), Ok(generation), "after {times} sets");
    }
    assert!(own.seat(2).unwrap().is_none(), "there is no such number");
}

#[test]
fn a_branch_has_what_is_there_and_brings_a_result_back() {
    let (mut own, _other, v) = open();
    let squares = own.new_vector::<u64>(3).unwrap();
    fill(&mut own, v, 100);
    let mut apart = own.branch(&Chosen::new().with(v), 10, 1).unwrap();
    own.set(v, 1, 7).unwrap();
    let there = apart[0].inherited(v).unwrap();
    let made = apart[0].new_vector(3).unwrap();
    apart[0]
        .ewise_mult(made, Op::TIMES, there, there, Descriptor::new())
        .unwrap();
    own.build_from(squares, &mut apart[0], made).unwrap();
    assert_eq!(stored(&mut own, squares), [(0, 99 * 99)]);
}

#[test]
fn a_generation_of_the_most_room_has_a_next_one() {
    let mut passes = Chain::open_with(Store::MOST_ROOM, 1).unwrap();
    let own = &mut passes[0];
    let v = own.new_vector::<u64>(3).unwrap();
    fill(own, v, 65_535);
    assert_eq!(own.facts().unwrap().room_left, 0);
    own.set(v, 1, 1).unwrap();
    assert_eq!((own.generation(), own.is_full()), (Ok(1), Ok(false)));
    assert_eq!(stored(own, v), [(0, 65_534), (1, 1)]);
}

/// How many more objects there is place for in the next generation, before it takes a change. The vector is changed as often as this one
/// takes changes yet.
fn left_in_next(pass: &mut Pass, v: Vector<u64>) -> u64 {
    let room_left = pass.facts().unwrap().room_left;
    fill(pass, v, room_left.into());
    assert_eq!(pass.go_on(), Ok(true));
    pass.objects_left().unwrap()
}

#[test]
fn many_objects_are_changed_and_freed_and_the_place_for_more_is_told() {
    const VECTORS: u64 = 40_000;
    let [mut own, mut other] = open_small(4_096);
    let first = own.objects_left().unwrap();
    let all: Vec<Vector<u64>> = (0..VECTORS)
        .map(|k| {
            let v = own.new_vector(4).unwrap();
            own.set(v, 3, k).unwrap();
            v
        })
        .collect();
    assert_eq!(left_in_next(&mut own, all[0]), first - VECTORS);
    fill(&mut other, all[0], 10_000);
    assert_eq!(own.get(all[0], 0), Ok(Some(9_999)));
    for (k, &v) in (0..).zip(&all) {
        assert_eq!(own.get(v, 3), Ok(Some(k)));
    }

    for &v in all.iter().skip(1).step_by(2) {
        own.free(v).unwrap();
    }
    assert_eq!(left_in_next(&mut own, all[0]), first - VECTORS / 2);
    for (k, &v) in (0..).zip(&all) {
        let wanted = if k % 2 == 0 {
            Ok(Some(k))
        } else {
            Err(Error::UninitializedObject)
        };
        assert_eq!(other.get(v, 3), wanted);
    }
}

#[test]
fn each_number_of_passes_opens() {
    for (passes, room) in [(1, 4_096), (64, 4_096), (65, 4_032), (256, 1_024)] {
        let mut opened = Chain::open(passes).unwrap();
        assert_eq!(opened.len(), passes);
        assert_eq!(opened[passes - 1].facts().unwrap().room_left, room);
    }
}

#[test]
fn openings_outside_the_limits_are_refused() {
    for (room, passes) in [(0, 1), (65_537, 1), (1, 0), (1, 257), (65_536, 17)] {
        let refused = Chain::open_with(room, passes).map(|_| ());
        assert_eq!(refused, Err(Error::InvalidValue), "{room} and {passes}");
    }
    for passes in [0, 257] {
        assert_eq!(Chain::open(passes).map(|_| ()), Err(Error::InvalidValue));
    }
}

#[test]
fn a_store_is_no_chain_and_a_chain_has_no_successor() {
    let (mut own, _other, _v) = open();
    assert_eq!(own.succeed(10, 1).map(|_| ()), Err(Error::InvalidValue));
    let [mut pass] = Store::open_array(10).unwrap();
    assert_eq!(pass.generation(), Err(Error::InvalidValue));
    assert_eq!(pass.objects_left(), Err(Error::InvalidValue));
    assert_eq!(pass.go_on(), Err(Error::InvalidValue));
    assert_eq!(pass.seat(0).map(|_| ()), Err(Error::InvalidValue));
    assert_eq!(pass.meet(&mut own), Err(Error::ForeignPass));
}
