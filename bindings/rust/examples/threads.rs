//! Four threads add their edges to one graph, each by its own pass. After they have ended, each pass sees all edges.

mod graph;

use std::thread;
use trowelheath::{Error, Matrix, Monoid, Pass, Store};

const VERTICES: u64 = 1_000;
const EDGES: usize = 4_000;
const THREADS: usize = 4;

/// Adds the edges, and sees each as soon as it is added. What other threads add meanwhile is seen or not.
fn add(pass: &mut Pass, graph: Matrix<u64>, share: &[(u64, u64, u64)]) -> Result<(), Error> {
    let mut seen = 0;
    for &(from, to, weight) in share {
        pass.set(graph, (from, to), weight)?;
        assert_eq!(pass.get(graph, (from, to))?, Some(weight));
        let count = pass.nvals(graph)?;
        assert!(count > seen, "no edge is lost");
        seen = count;
    }
    Ok(())
}

fn main() -> Result<(), Error> {
    let edges: Vec<(u64, u64, u64)> = graph::draw_edges(VERTICES, EDGES, 4)
        .into_iter()
        .map(|(from, to)| (from, to, from + to))
        .collect();
    println!("vertices: {VERTICES}");
    println!("edges: {}", edges.len());

    let mut passes = Store::open(8_192, THREADS)?;
    let graph = passes[0].new_matrix::<u64>(VERTICES, VERTICES)?;

    let shares: Vec<_> = edges.chunks(EDGES / THREADS).collect();
    thread::scope(|scope| {
        let threads: Vec<_> = passes
            .iter_mut()
            .zip(&shares)
            .map(|(pass, share)| scope.spawn(move || add(pass, graph, share)))
            .collect();
        threads
            .into_iter()
            .try_for_each(|thread| thread.join().expect("no thread panics"))
    })?;
    for (thread, share) in shares.iter().enumerate() {
        println!("thread {thread} added {}", share.len());
    }

    for (number, pass) in passes.iter_mut().enumerate() {
        let count = pass.nvals(graph)?;
        let weight = pass.reduce(graph, Monoid::PLUS)?;
        println!("pass {number} sees {count}, of weight {weight}");
        assert!(pass.entries(graph)?.into_iter().eq(edges.iter().copied()));
    }
    Ok(())
}
