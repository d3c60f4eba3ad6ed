//! Passes that are used at the same time.

use crate::{at_once, stored};
use std::thread;
use trowelheath::{Matrix, Monoid, Pass, Store};

const THREADS: u64 = 4;
const EACH: u64 = 200;

/// Adds the entries of one thread's rows.
fn fill(pass: &mut Pass, a: Matrix<u64>, thread: u64) {
    for k in 0..EACH {
        let at = (16 * thread + k % 16, k / 16);
        let value = 1_000 * thread + k;
        pass.set(a, at, value).unwrap();
        assert_eq!(pass.get(a, at), Ok(Some(value)));
        assert!(pass.nvals(a).unwrap() > k);
    }
}

#[test]
fn all_passes_see_what_all_threads_did() {
    let mut passes = Store::open(1_000, THREADS as usize).unwrap();
    let a = passes[0].new_matrix(64, 64).unwrap();
    thread::scope(|scope| {
        for (thread, pass) in (0..).zip(&mut passes) {
            scope.spawn(move || fill(pass, a, thread));
        }
    });
    let values = (0..THREADS).flat_map(|thread| (0..EACH).map(move |k| 1_000 * thread + k));
    let sum = values.sum::<u64>();
    let all = passes[0].entries(a).unwrap();
    for pass in &mut passes {
        assert_eq!(pass.nvals(a), Ok(THREADS * EACH));
        assert_eq!(pass.reduce(a, Monoid::PLUS), Ok(sum));
        assert_eq!(pass.entries(a).unwrap(), all);
    }
}

#[test]
fn entries_are_of_one_moment_while_others_are_added() {
    const ENTRIES: u64 = 2_000;
    let [mut adding, mut reading] = Store::open_array(10_000).unwrap();
    let v = adding.new_vector::<u64>(ENTRIES).unwrap();
    thread::scope(|scope| {
        scope.spawn(move || {
            for k in 0..ENTRIES {
                adding.set(v, k, k).unwrap();
            }
        });
        let mut before = 0;
        while before < ENTRIES as usize {
            let entries = reading.entries(v).unwrap();
            assert!(entries.len() >= before);
            before = entries.len();
            // They were added from the lowest index up, so no index is left out.
            for (k, entry) in (0..).zip(entries) {
                assert_eq!(entry, (k, k));
            }
        }
    });
}

#[test]
fn one_room_is_shared_by_all_threads() {
    const ROOM: u32 = 100;
    let mut passes = Store::open(ROOM, 4).unwrap();
    let v = passes[0].new_vector::<u64>(1_000).unwrap();
    let taken: u64 = thread::scope(|scope| {
        let threads: Vec<_> = (0..)
            .zip(&mut passes)
            .map(|(thread, pass)| {
                scope.spawn(move || {
                    let own = (0..250).map(|k| 250 * thread + k);
                    own.map(|i| pass.set(v, i, 1)).filter(Result::is_ok).count() as u64
                })
            })
            .collect();
        threads
            .into_iter()
            .map(|thread| thread.join().unwrap())
            .sum()
    });
    assert_eq!(taken, u64::from(ROOM) - 1);
    for pass in &mut passes {
        assert_eq!(pass.nvals(v), Ok(taken));
    }
}

/// So many threads begin at one moment, and each sets so many entries of its own, for which there is just room. All are there.
fn expect_all_sets(threads: u64, each: u64) {
    let all = threads * each;
    let mut passes = Store::open(all as u32 + 1, threads as usize + 1).unwrap();
    let mut last = passes.pop().unwrap();
    let v = last.new_vector(all).unwrap();
    let numbered = (0..).zip(&mut passes).collect();
    let refused = at_once(numbered, |(thread, pass): (u64, &mut Pass)| {
        let own = thread * each..(thread + 1) * each;
        own.map(|i| pass.set(v, i, i)).find(Result::is_err)
    });
    assert_eq!(refused, vec![None; threads as usize]);
    let wanted: Vec<_> = (0..all).map(|i| (i, i)).collect();
    assert_eq!(stored(&mut last, v), wanted);
    for pass in passes.iter_mut().chain([&mut last]) {
        assert_eq!(pass.nvals(v), Ok(all));
        let facts = pass.facts().unwrap();
        assert_eq!((u64::from(facts.known), facts.room_left), (all + 1, 0));
    }
}

#[test]
fn two_threads_set_all_their_entries() {
    for _ in 0..200 {
        expect_all_sets(2, 100);
    }
}

#[test]
fn sixty_three_threads_set_all_their_entries() {
    expect_all_sets(63, 64);
}

#[test]
fn two_hundred_and_fifty_five_threads_set_all_their_entries() {
    expect_all_sets(255, 16);
}
