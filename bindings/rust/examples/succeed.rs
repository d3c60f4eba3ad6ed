//! A store of little room takes the edges of a graph. Each time it is full, a successor goes on.

mod graph;

use trowelheath::{Error, Matrix, Monoid, Object, Pass, Store};

const VERTICES: u64 = 1_000;
const EDGES: usize = 500;
const ROOM: u32 = 100;
const PASSES: usize = 2;

/// The passes of a successor of a full store, and the graph there.
fn go_on(passes: &mut [Pass], graph: Matrix<u64>) -> Result<(Vec<Pass>, Matrix<u64>), Error> {
    let (own, others) = passes.split_first_mut().expect("a store has a pass");
    let edges = own.nvals(graph)?;
    assert!(own.is_full()?);

    // What makes the objects takes none of its room.
    let mut next = own.succeed(ROOM, PASSES)?;
    let facts = next[0].facts()?;
    println!(
        "full with {edges} edges; a successor begins with {} changes",
        facts.known
    );
    assert_eq!(facts.room_left, ROOM);

    // The new passes see the same graph, but no object has a status yet. The old store goes on to answer.
    let there = next[1].inherited(graph)?;
    assert_eq!(next[1].last_info(there)?, None);
    assert_eq!(next[1].nvals(there)?, edges);
    assert_eq!(next[1].nvals(graph), Err(Error::ForeignObject));
    assert_eq!(others[0].set(graph, (0, 0), 0), Err(Error::OrderFull));
    assert_eq!(others[0].nvals(graph)?, edges);
    Ok((next, there))
}

fn main() -> Result<(), Error> {
    let edges: Vec<(u64, u64, u64)> = graph::draw_edges(VERTICES, EDGES, 8)
        .into_iter()
        .map(|(from, to)| (from, to, from + to))
        .collect();

    let mut passes = Store::open(ROOM, PASSES)?;
    let mut graph = passes[0].new_matrix::<u64>(VERTICES, VERTICES)?;
    let mut gone = passes[0].new_matrix::<bool>(1, 1)?;
    passes[0].free(gone)?;
    for (k, &(from, to, weight)) in edges.iter().enumerate() {
        match passes[k % PASSES].set(graph, (from, to), weight) {
            Err(Error::OrderFull) => {
                // The passes of the full store are dropped, and so it ends.
                (passes, graph) = go_on(&mut passes, graph)?;
                gone = passes[0].inherited(gone)?;
                passes[k % PASSES].set(graph, (from, to), weight)?;
            }
            answer => answer?,
        }
    }

    let count = passes[0].nvals(graph)?;
    let weight = passes[0].reduce(graph, Monoid::PLUS)?;
    println!("{count} edges of weight {weight} in the last store");
    assert!(passes[0].entries(graph)?.into_iter().eq(edges));

    // A freed matrix stays freed.
    assert_eq!(passes[0].nvals(gone), Err(Error::UninitializedObject));
    assert_eq!(graph.store(), passes[0].store());
    Ok(())
}
