//! Passes make a dear product together: some only help, and two that read it at the same time make different blocks of it. What each reads is
//! what one pass makes alone.

use std::sync::atomic::{AtomicBool, Ordering};
use std::thread;
use std::time::Duration;
use trowelheath::{Descriptor, Error, Matrix, Monoid, Pass, Semiring, Store};

const SIDE: u64 = 128;
const VERTICES: u64 = 256;
const READERS: usize = 2;
const HELPERS: usize = 3;
const ROUNDS: usize = 8;

/// In a graph with all edges each three vertices are a triangle.
const TRIANGLES: u64 = VERTICES * (VERTICES - 1) * (VERTICES - 2) / 6;

/// Ones times ones, one at each place: as many at each place as there are rows. One pass of two makes it, and nobody helps.
fn square() -> Result<(), Error> {
    let [mut own, mut other] = Store::open_array(16)?;
    assert_eq!(other.help()?, 0);
    assert_eq!(other.blocks()?, 0);
    let a = own.new_matrix::<u64>(SIDE, SIDE)?;
    let places = (0..SIDE * SIDE).map(|k| (k / SIDE, k % SIDE, 1));
    own.build(a, places, Monoid::PLUS)?;
    let c = own.new_matrix::<u64>(SIDE, SIDE)?;
    own.mxm(c, Semiring::PLUS_TIMES, a, a, Descriptor::new())?;
    let entries = own.entries(c)?;
    let wanted = (0..SIDE * SIDE).map(|k| (k / SIDE, k % SIDE, SIDE));
    assert!(entries.into_iter().eq(wanted));
    assert!(own.blocks()? > 0);
    println!(
        "two passes: {SIDE} at each of {} places, by blocks",
        SIDE * SIDE
    );
    Ok(())
}

/// Helps until the readers are done.
fn help(pass: &mut Pass, is_over: &AtomicBool) -> Result<(), Error> {
    while !is_over.load(Ordering::Relaxed) {
        if pass.help()? == 0 {
            thread::sleep(Duration::from_micros(100));
        }
    }
    Ok(())
}

/// Counts the triangles again and again, each time in a matrix of its own.
fn count(pass: &mut Pass, graph: Matrix<u64>) -> Result<(), Error> {
    for _ in 0..ROUNDS {
        let t = pass.new_matrix::<u64>(VERTICES, VERTICES)?;
        pass.mxm(
            t,
            Semiring::PLUS_TIMES,
            graph,
            graph,
            Descriptor::new().mask(graph).structure(),
        )?;
        assert_eq!(pass.reduce(t, Monoid::PLUS)?, TRIANGLES);
        pass.free(t)?;
    }
    Ok(())
}

/// Two passes count the same triangles at the same time, and the others help them.
fn count_together() -> Result<(), Error> {
    let mut passes = Store::open(256, READERS + HELPERS)?;
    let graph = passes[0].new_matrix::<u64>(VERTICES, VERTICES)?;
    let edges = (0..VERTICES).flat_map(|i| (0..i).map(move |j| (i, j, 1)));
    passes[0].build(graph, edges, Monoid::PLUS)?;
    let is_over = AtomicBool::new(false);
    let (readers, helpers) = passes.split_at_mut(READERS);
    thread::scope(|scope| {
        let is_over = &is_over;
        let helps: Vec<_> = helpers
            .iter_mut()
            .map(|pass| scope.spawn(move || help(pass, is_over)))
            .collect();
        let counts: Vec<_> = readers
            .iter_mut()
            .map(|pass| scope.spawn(move || count(pass, graph)))
            .collect();
        let counted: Vec<_> = counts.into_iter().map(|thread| thread.join()).collect();
        is_over.store(true, Ordering::Relaxed);
        counted
            .into_iter()
            .chain(helps.into_iter().map(|thread| thread.join()))
            .try_for_each(|done| done.expect("no thread panics"))
    })?;
    assert!(passes[0].blocks()? > 0);
    println!(
        "{READERS} passes, {HELPERS} that help: {TRIANGLES} triangles in each of {ROUNDS} rounds"
    );
    Ok(())
}

fn main() -> Result<(), Error> {
    square()?;
    count_together()
}
