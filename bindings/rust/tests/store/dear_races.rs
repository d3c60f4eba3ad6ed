//! Four threads on one store, whose reads are dear: one changes what all read, and each reads it, so that stores are made, left and taken at
//! one moment. Each read is what a plain model answers after as many calls of the one history as the pass then knows.

use crate::at_once;
use std::sync::Barrier;
use trowelheath::{Descriptor, Error, Matrix, Monoid, Op, Pass, Semiring, Store};

/// How often the threads run, each time on a new store.
const TIMES: usize = 1_000;

/// On how many stores at one moment.
const SIDE_BY_SIDE: usize = 8;

const THREADS: usize = 4;

/// The rows and the columns of a product that stores all its entries. Three of them are dear, as 3 * 16 * 74 * 74 is more than 4096 * 64.
const SIDE: usize = 74;

/// How many calls make the objects.
const FIRST_CALLS: u32 = 5;

/// A column and a row, which store 1, 2 and so on, and the matrix to which their product is added.
#[derive(Clone, Copy)]
struct Objects {
    column: Matrix<u64>,
    row: Matrix<u64>,
    sums: Matrix<u64>,
}

/// A call that changes the objects.
#[derive(Clone, Copy)]
enum Change {
    /// Sets an entry of the column.
    SetColumn(usize, u64),
    /// Sets an entry of the sums.
    SetSum(usize, usize, u64),
    /// Adds the product to the sums.
    Add,
}

use Change::{Add, SetColumn, SetSum};

/// What one thread changes in a round.
type Round = [Change; 4];

const ROUNDS: [Round; 2] = [
    [SetColumn(5, 70), Add, Add, Add],
    [Add, SetSum(0, 9, 7), Add, Add],
];

impl Objects {
    fn new(pass: &mut Pass) -> Objects {
        let side = SIDE as u64;
        let column = pass.new_matrix(side, 1).unwrap();
        let row = pass.new_matrix(1, side).unwrap();
        let sums = pass.new_matrix(side, side).unwrap();
        let down = (0..side).map(|k| (k, 0, k + 1));
        let along = (0..side).map(|k| (0, k, k + 1));
        pass.build(column, down, Monoid::PLUS).unwrap();
        pass.build(row, along, Monoid::PLUS).unwrap();
        assert_eq!(pass.facts().unwrap().known, FIRST_CALLS);
        Objects { column, row, sums }
    }

    fn change(&self, pass: &mut Pass, change: Change) -> Result<(), Error> {
        match change {
            SetColumn(i, value) => pass.set(self.column, (i as u64, 0), value),
            SetSum(i, j, value) => pass.set(self.sums, (i as u64, j as u64), value),
            Add => pass.mxm(
                self.sums,
                Semiring::PLUS_TIMES,
                self.column,
                self.row,
                Descriptor::new().accum(Op::PLUS),
            ),
        }
    }

    fn total(&self, pass: &mut Pass) -> Result<u64, Error> {
        pass.reduce(self.sums, Monoid::PLUS)
    }
}

/// The total of the sums after each number of calls of the history, by plain loops; 0 as long as they store nothing.
fn plain_totals() -> Vec<u64> {
    let mut column: Vec<u64> = (1..=SIDE as u64).collect();
    let row = column.clone();
    let mut sums = vec![[0; SIDE]; SIDE];
    let mut totals = vec![0; FIRST_CALLS as usize + 1];
    for change in ROUNDS.into_iter().flatten() {
        match change {
            SetColumn(i, value) => column[i] = value,
            SetSum(i, j, value) => sums[i][j] = value,
            Add => {
                for (sums, x) in sums.iter_mut().zip(&column) {
                    for (sum, y) in sums.iter_mut().zip(&row) {
                        *sum += x * y;
                    }
                }
            }
        }
        totals.push(sums.iter().flatten().sum());
    }
    totals
}

/// What a thread saw.
#[derive(Default)]
struct Seen {
    /// What the thread's changes were answered.
    changes: Vec<Result<(), Error>>,
    /// Of each read how many calls the pass knew, how many it made for it, and the answer.
    reads: Vec<(u32, u32, Result<u64, Error>)>,
}

/// In each round, once all threads are there, one of them changes the objects, and all read.
fn see((mut pass, changes, objects, all): (Pass, bool, Objects, &Barrier)) -> Seen {
    let mut seen = Seen::default();
    for round in ROUNDS {
        all.wait();
        if changes {
            let answers = round.map(|change| objects.change(&mut pass, change));
            seen.changes.extend(answers);
        }
        for _ in 0..2 {
            let total = objects.total(&mut pass);
            let facts = pass.facts().unwrap();
            seen.reads.push((facts.known, facts.made, total));
        }
    }
    seen
}

/// No change of a thread is refused, and its reads are those of the history. How many reads took what another thread had made.
fn reads_taken(seen: &Seen, totals: &[u64]) -> usize {
    assert!(seen.changes.iter().all(Result::is_ok), "{:?}", seen.changes);
    let mut taken = 0;
    let mut before = FIRST_CALLS;
    for &(known, made, total) in &seen.reads {
        assert!(known >= before, "{known} calls after {before}");
        let wanted = totals[known as usize];
        assert_eq!(total, Ok(wanted), "after {known} calls");
        if made == 0 && wanted != totals[before as usize] {
            taken += 1;
        }
        before = known;
    }
    taken
}

/// The threads run on new stores, all at one moment. How many reads took what another thread had made.
fn run(totals: &[u64]) -> usize {
    let mut stores = [(); SIDE_BY_SIDE].map(|()| {
        let mut passes = Store::open(32, THREADS + 1).unwrap();
        let mut first = passes.pop().unwrap();
        let objects = Objects::new(&mut first);
        (first, objects, Barrier::new(THREADS), passes)
    });
    let threads = stores.iter_mut().flat_map(|(_, objects, all, passes)| {
        let numbered = passes.drain(..).zip(1..);
        numbered.map(|(pass, number)| (pass, number == THREADS, *objects, &*all))
    });
    let seen = at_once(threads.collect(), see);
    for (first, objects, ..) in &mut stores {
        assert_eq!(objects.total(first).ok(), totals.last().copied());
        assert_eq!(first.facts().unwrap().known as usize + 1, totals.len());
    }
    seen.iter().map(|seen| reads_taken(seen, totals)).sum()
}

#[test]
fn threads_that_make_leave_and_take_stores_read_one_history() {
    let totals = plain_totals();
    let taken: usize = (0..TIMES / SIDE_BY_SIDE).map(|_| run(&totals)).sum();
    assert!(taken > 0, "no read took what another thread had made");
}
