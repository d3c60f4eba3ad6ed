//! Shortest paths by products over min and plus, and by the algorithm of Bellman and Ford.

mod graph;

use std::collections::BTreeMap;
use trowelheath::{Descriptor, Error, Matrix, Monoid, Op, Pass, Semiring, Store, Vector};

const VERTICES: u64 = 1_000;
const EDGES: usize = 4_000;
const START: u64 = 0;

/// The length of an edge, from 1 to 100.
fn length_of(from: u64, to: u64) -> u64 {
    1 + (31 * from + 17 * to) % 100
}

/// A vector with the distance of each vertex that the start reaches. `lengths` has the length of each edge.
fn distances_from(pass: &mut Pass, lengths: Matrix<u64>, start: u64) -> Result<Vector<u64>, Error> {
    let (vertices, _) = pass.size(lengths)?;
    let distances = pass.new_vector(vertices)?;
    pass.set(distances, start, 0)?;
    // The shorter of the way that is known and the one over a further edge.
    let shorter = Descriptor::new().accum(Op::MIN);
    let mut before = pass.entries(distances)?;
    loop {
        pass.vxm(distances, Semiring::MIN_PLUS, distances, lengths, shorter)?;
        let after = pass.entries(distances)?;
        if after == before {
            return Ok(distances);
        }
        before = after;
    }
}

/// The same by going over all edges until nothing is shorter.
fn distances_by_hand(lengths: &[(u64, u64, u64)], start: u64) -> BTreeMap<u64, u64> {
    let mut distances = BTreeMap::from([(start, 0)]);
    loop {
        let mut is_shorter = false;
        for &(from, to, length) in lengths {
            let Some(&distance) = distances.get(&from) else {
                continue;
            };
            let further = distance + length;
            match distances.get(&to) {
                Some(&known) if known <= further => {}
                _ => {
                    distances.insert(to, further);
                    is_shorter = true;
                }
            }
        }
        if !is_shorter {
            return distances;
        }
    }
}

fn main() -> Result<(), Error> {
    let edges: Vec<(u64, u64, u64)> = graph::draw_edges(VERTICES, EDGES, 3)
        .into_iter()
        .map(|(from, to)| (from, to, length_of(from, to)))
        .collect();
    println!("vertices: {VERTICES}");
    println!("edges: {}", edges.len());

    let [mut pass] = Store::open_array(2_000)?;
    let lengths = pass.new_matrix::<u64>(VERTICES, VERTICES)?;
    pass.build(lengths, edges.iter().copied(), Monoid::MIN)?;
    let distances = distances_from(&mut pass, lengths, START)?;
    println!("reached: {}", pass.nvals(distances)?);
    println!("farthest: {}", pass.reduce(distances, Monoid::MAX)?);
    println!("sum: {}", pass.reduce(distances, Monoid::PLUS)?);

    let distances: BTreeMap<u64, u64> = pass.entries(distances)?.into_iter().collect();
    assert_eq!(distances, distances_by_hand(&edges, START));
    Ok(())
}
