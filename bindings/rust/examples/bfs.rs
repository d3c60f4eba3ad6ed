//! A breadth-first search by products of a vector and a matrix, and by hand.

mod graph;

use std::collections::btree_map::Entry;
use std::collections::{BTreeMap, BTreeSet, VecDeque};
use trowelheath::{Descriptor, Error, Matrix, Monoid, Op, Pass, Semiring, Store, Vector};

const VERTICES: u64 = 1_000;
const EDGES: usize = 2_500;
const START: u64 = 0;

/// A vector with the level of each vertex that the start reaches. `graph` has a 1 for each edge.
fn levels_from(pass: &mut Pass, graph: Matrix<u64>, start: u64) -> Result<Vector<u64>, Error> {
    let (vertices, _) = pass.size(graph)?;
    let levels = pass.new_vector(vertices)?;
    let front = pass.new_vector(vertices)?;
    pass.set(levels, start, 0)?;
    pass.set(front, start, 0)?;
    // A vertex is reached once: what the levels store lies outside, and the new front has nothing else.
    let unreached = Descriptor::new().mask(levels).structure().comp().replace();
    while pass.nvals(front)? > 0 {
        pass.vxm(front, Semiring::MIN_PLUS, front, graph, unreached)?;
        pass.ewise_add(levels, Op::MIN, levels, front, Descriptor::new())?;
    }
    pass.free(front)?;
    Ok(levels)
}

/// The same by a queue.
fn levels_by_hand(edges: &BTreeSet<(u64, u64)>, start: u64) -> BTreeMap<u64, u64> {
    let mut levels = BTreeMap::from([(start, 0)]);
    let mut queue = VecDeque::from([start]);
    while let Some(i) = queue.pop_front() {
        let level = levels[&i] + 1;
        for &(_, j) in edges.range((i, 0)..(i + 1, 0)) {
            if let Entry::Vacant(unreached) = levels.entry(j) {
                unreached.insert(level);
                queue.push_back(j);
            }
        }
    }
    levels
}

fn main() -> Result<(), Error> {
    let edges = graph::draw_edges(VERTICES, EDGES, 6);
    println!("vertices: {VERTICES}");
    println!("edges: {}", edges.len());

    let [mut pass] = Store::open_array(200)?;
    let graph = pass.new_matrix::<u64>(VERTICES, VERTICES)?;
    pass.build(graph, edges.iter().map(|&(i, j)| (i, j, 1)), Monoid::PLUS)?;
    let levels = levels_from(&mut pass, graph, START)?;

    let levels: BTreeMap<u64, u64> = pass.entries(levels)?.into_iter().collect();
    println!("reached: {}", levels.len());
    let mut sizes = BTreeMap::new();
    for &level in levels.values() {
        *sizes.entry(level).or_insert(0) += 1;
    }
    for (level, size) in sizes {
        println!("level {level}: {size}");
    }

    assert_eq!(levels, levels_by_hand(&edges, START));
    Ok(())
}
