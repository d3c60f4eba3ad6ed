//! Threads on one chain, over many generations.

use crate::{at_once, stored};
use std::collections::HashSet;
use std::sync::atomic::{AtomicU64, Ordering};
use std::thread;
use trowelheath::{Chain, Descriptor, Error, Op, Pass, Vector};

/// The answer to a call of a chain. One that is refused since the next generation was not to be had was made nowhere, and is made again.
fn answer<T>(mut call: impl FnMut() -> Result<T, Error>) -> Result<T, Error> {
    for _ in 0..1_000 {
        match call() {
            Err(Error::OrderFull) => thread::yield_now(),
            answer => return answer,
        }
    }
    Err(Error::OrderFull)
}

/// The number that the entry was set to last, as it is told once the set was answered.
struct Told(AtomicU64);

impl Told {
    /// The entry is set to 1, 2 and so on up to this.
    const LAST: u64 = 700;

    fn tell(&self, number: u64) {
        self.0.store(number, Ordering::SeqCst);
    }

    fn told(&self) -> u64 {
        self.0.load(Ordering::SeqCst)
    }
}

/// Tells the last number where the thread that has it ends, also by a panic. So the other threads end too.
struct Telling<'a>(&'a Told);

impl Drop for Telling<'_> {
    fn drop(&mut self) {
        self.0.tell(Told::LAST);
    }
}

/// Raises the entry, and tells each number.
fn raise(pass: &mut Pass, v: Vector<u64>, told: &Told) {
    let _telling = Telling(told);
    for number in 1..=Told::LAST {
        answer(|| pass.set(v, 0, number)).unwrap();
        told.tell(number);
    }
}

/// Reads the entry until the last number is told. It is never less than what was told or read before, nor more than what is set then.
fn follow(pass: &mut Pass, v: Vector<u64>, told: &Told) {
    let mut read = 0;
    loop {
        let least = read.max(told.told());
        read = pass.get(v, 0).unwrap().unwrap_or(0);
        // One more may be set than is told.
        let most = Told::LAST.min(told.told() + 1);
        assert!((least..=most).contains(&read), "{read}: {least} to {most}");
        if least == Told::LAST {
            return;
        }
    }
}

#[test]
fn a_read_sees_each_change_that_was_answered_before_it() {
    let mut passes = Chain::open_with(6, 4).unwrap();
    let v = passes[0].new_vector(1).unwrap();
    let told = Told(AtomicU64::new(0));
    let generations = at_once((0..).zip(passes).collect(), |(thread, mut pass)| {
        if thread == 0 {
            raise(&mut pass, v, &told);
        } else {
            follow(&mut pass, v, &told);
        }
        pass.generation()
    });
    // The first generation takes the vector and five sets, and each later one six.
    assert_eq!(generations, [Ok(116); 4]);
}

const THREADS: u64 = 8;

/// How often each thread goes round.
const ROUNDS: u64 = 128;

/// The vectors that all threads change.
#[derive(Clone, Copy)]
struct Shared {
    /// Each round of a thread sets an entry of its own.
    cells: Vector<u64>,
    /// A thread sets one entry again in each round.
    last: Vector<u64>,
    /// A thread adds one to an entry in each round.
    sums: Vector<u64>,
}

/// What a thread does: it makes a vector with a one at its number, and goes round. It reads what it added.
fn work(pass: &mut Pass, number: u64, shared: Shared) -> Vector<u64> {
    let Shared { cells, last, sums } = shared;
    let ones = answer(|| pass.new_vector(THREADS)).unwrap();
    answer(|| pass.set(ones, number, 1)).unwrap();
    let adding = Descriptor::new().accum(Op::PLUS);
    for round in 0..ROUNDS {
        let own = number * ROUNDS + round;
        answer(|| pass.set(cells, own, own)).unwrap();
        answer(|| pass.set(last, number, round)).unwrap();
        answer(|| pass.ewise_add(sums, Op::FIRST, ones, ones, adding)).unwrap();
        assert_eq!(pass.get(sums, number), Ok(Some(round + 1)));
    }
    ones
}

#[test]
fn what_eight_threads_changed_over_many_generations_is_there_once() {
    let mut passes = Chain::open_with(24, THREADS as usize + 1).unwrap();
    let mut idle = passes.pop().unwrap();
    let shared = Shared {
        cells: idle.new_vector(THREADS * ROUNDS).unwrap(),
        last: idle.new_vector(THREADS).unwrap(),
        sums: idle.new_vector(THREADS).unwrap(),
    };
    let made = at_once((0..).zip(passes).collect(), |(number, mut pass)| {
        work(&mut pass, number, shared)
    });

    assert_eq!(idle.generation(), Ok(0));
    let numbered: Vec<_> = (0..THREADS * ROUNDS).map(|k| (k, k)).collect();
    assert_eq!(stored(&mut idle, shared.cells), numbered);
    // Three vectors, of each thread one with an entry, and three changes a round, where each generation takes 24.
    assert_eq!(
        idle.generation(),
        Ok((3 + THREADS * (2 + 3 * ROUNDS) - 1) / 24)
    );
    for (number, ones) in (0..).zip(&made) {
        assert_eq!(idle.get(shared.last, number), Ok(Some(ROUNDS - 1)));
        assert_eq!(idle.get(shared.sums, number), Ok(Some(ROUNDS)));
        assert_eq!(stored(&mut idle, *ones), [(number, 1)]);
    }
    let vectors = [shared.cells, shared.last, shared.sums];
    let all: HashSet<_> = made.iter().chain(&vectors).collect();
    assert_eq!(all.len(), 11, "each vector has a number of its own");
}
