//! Graph algorithms by the names of LAGraph.
//!
//! A graph is a square matrix of either domain with an entry at `(i, j)` for each edge from vertex `i` to vertex `j`, `false` and 0 too.
//! [`connected_components`], [`triangle_count`], [`k_truss`] and [`k_core`] are of undirected graphs: there an edge connects both ends
//! whichever way it leads, and an edge from a vertex to itself does not count.
//!
//! # One moment
//!
//! Each function reads the entries of the graph at one moment and computes on what it read, so other passes may go on changing the graph,
//! but for its dimensions: nobody may resize it meanwhile. The computation is done by products and masks in a store of its own, which ends
//! with it. Of the graph's store it takes the room of its result alone: two changes for each object that it answers.
//!
//! # Errors
//!
//! Each function is refused for
//!
//! - [`Error::DimensionMismatch`]: the matrix is not square.
//! - [`Error::UninitializedObject`], [`Error::ForeignObject`]: the graph was freed, or is of another store.
//! - What a [read](Pass#reads) and a [change](Pass#changes) can be refused for.
//!
//! and names what else. Then no object is left.
//!
//! ```no_run
//! use trowelheath::{algorithms, Error, Monoid, Store};
//!
//! fn main() -> Result<(), Error> {
//!     let [mut pass] = Store::open_array(100)?;
//!     let roads = pass.new_matrix::<u64>(4, 4)?;
//!     pass.build(roads, [(0, 1, 1), (1, 2, 1), (2, 3, 1), (0, 3, 9)], Monoid::PLUS)?;
//!     let lengths = algorithms::single_source_shortest_paths(&mut pass, roads, 0)?;
//!     assert_eq!(pass.get(lengths, 3)?, Some(3));
//!     Ok(())
//! }
//! ```

use crate::descriptor::Descriptor;
use crate::element::Element;
use crate::error::Error;
use crate::function::Function;
use crate::matrix::Matrix;
use crate::object::Object;
use crate::operator::{Monoid, Op, Semiring};
use crate::pass::Pass;
use crate::store::Store;
use crate::test::Test;
use crate::vector::Vector;

/// The room of the store that an algorithm computes in. Where it is used up, the algorithm goes on in a successor.
const ROOM: u32 = 256;

/// Three lists of one length.
type ThreeLists = (Vec<u64>, Vec<u64>, Vec<u64>);

/// The edges of a graph at one moment.
struct Graph<T> {
    size: u64,
    rows: Vec<u64>,
    columns: Vec<u64>,
    values: Vec<T>,
}

impl<T: Element> Graph<T> {
    /// `DimensionMismatch` where the matrix is not square.
    fn read(pass: &mut Pass, graph: Matrix<T>) -> Result<Graph<T>, Error> {
        let (size, ncols) = pass.size(graph)?;
        if size != ncols {
            return Err(Error::DimensionMismatch);
        }
        let (rows, columns, values) = pass.entries(graph)?.into_vecs();
        Ok(Graph {
            size,
            rows,
            columns,
            values,
        })
    }

    /// `InvalidIndex` where it is no vertex.
    fn check_source(&self, source: u64) -> Result<(), Error> {
        if source < self.size {
            Ok(())
        } else {
            Err(Error::InvalidIndex)
        }
    }

    /// Each vertex in turn.
    fn vertices(&self) -> Vec<u64> {
        (0..self.size).collect()
    }
}

/// A store for one computation.
struct Workshop {
    pass: Pass,
}

impl Workshop {
    fn open() -> Result<Workshop, Error> {
        let [pass] = Store::open_array(ROOM)?;
        Ok(Workshop { pass })
    }

    /// Goes on in a successor where there is no room for so many changes. The objects are then those of the successor.
    fn make_room(
        &mut self,
        changes: u32,
        matrices: &mut [&mut Matrix<u64>],
        vectors: &mut [&mut Vector<u64>],
    ) -> Result<(), Error> {
        if self.pass.facts()?.room_left >= changes {
            return Ok(());
        }
        let mut passes = self.pass.succeed(ROOM, 1)?;
        let next = passes.pop().expect("a store has a pass");
        for matrix in matrices {
            **matrix = next.inherited(**matrix)?;
        }
        for vector in vectors {
            **vector = next.inherited(**vector)?;
        }
        self.pass = next;
        Ok(())
    }

    fn vector(&mut self, size: u64, indices: &[u64], values: &[u64]) -> Result<Vector<u64>, Error> {
        let made = self.pass.new_vector(size)?;
        self.pass
            .build_vector(made, indices, values, Monoid::PLUS)?;
        Ok(made)
    }

    fn matrix(
        &mut self,
        size: u64,
        rows: &[u64],
        columns: &[u64],
        values: &[u64],
    ) -> Result<Matrix<u64>, Error> {
        let made = self.pass.new_matrix(size, size)?;
        self.pass
            .build_matrix(made, rows, columns, values, Monoid::MIN)?;
        Ok(made)
    }

    /// A matrix that stores 1 at each edge.
    fn edges<T>(&mut self, graph: &Graph<T>) -> Result<Matrix<u64>, Error> {
        let ones = vec![1; graph.rows.len()];
        self.matrix(graph.size, &graph.rows, &graph.columns, &ones)
    }

    /// A matrix that stores 1 at each undirected edge, its larger end as the row. No vertex is its own neighbour.
    fn below_diagonal<T>(&mut self, graph: &Graph<T>) -> Result<Matrix<u64>, Error> {
        let edges = graph.rows.iter().zip(&graph.columns);
        let ends = edges.filter(|(i, j)| i != j);
        let (rows, columns): (Vec<u64>, Vec<u64>) =
            ends.map(|(&i, &j)| (i.max(j), i.min(j))).unzip();
        let ones = vec![1; rows.len()];
        self.matrix(graph.size, &rows, &columns, &ones)
    }

    /// A matrix that stores 1 at each undirected edge, both ways. No vertex is its own neighbour.
    fn undirected<T>(&mut self, graph: &Graph<T>) -> Result<Matrix<u64>, Error> {
        let below = self.below_diagonal(graph)?;
        let edges = self.pass.new_matrix(graph.size, graph.size)?;
        self.pass
            .ewise_add(edges, Op::FIRST, below, below, Descriptor::new().tran())?;
        Ok(edges)
    }
}

/// An object of the caller's store that `fill` fills. Where that is refused, it is freed.
fn filled<O: Object>(
    pass: &mut Pass,
    made: O,
    fill: impl FnOnce(&mut Pass, O) -> Result<(), Error>,
) -> Result<O, Error> {
    match fill(pass, made) {
        Ok(()) => Ok(made),
        Err(error) => {
            // A store without room has none for this either.
            let _ = pass.free(made);
            Err(error)
        }
    }
}

/// A new vector with these entries.
fn answer(
    pass: &mut Pass,
    size: u64,
    indices: &[u64],
    values: &[u64],
) -> Result<Vector<u64>, Error> {
    let made = pass.new_vector(size)?;
    filled(pass, made, |pass, made| {
        pass.build_vector(made, indices, values, Monoid::PLUS)
    })
}

/// The levels and the parents of a search along the edges, from a source (`LAGr_BreadthFirstSearch`).
///
/// Both vectors have an entry for each vertex that is reached. Its level is the least number of edges from the source. Its parent is the
/// least vertex of the level before that has an edge to it; the source is its own. An undirected graph has each edge both ways.
///
/// # Errors
///
/// As of [each](self#errors), and [`Error::InvalidIndex`] where the source is no vertex.
pub fn breadth_first_search<T: Element>(
    pass: &mut Pass,
    graph: Matrix<T>,
    source: u64,
) -> Result<(Vector<u64>, Vector<u64>), Error> {
    let graph = Graph::read(pass, graph)?;
    graph.check_source(source)?;
    let (found, levels, parents) = search(&graph, source)?;
    let levels = answer(pass, graph.size, &found, &levels)?;
    let mut of_parents = None;
    filled(pass, levels, |pass, _| {
        of_parents = Some(answer(pass, graph.size, &found, &parents)?);
        Ok(())
    })?;
    Ok((levels, of_parents.expect("the vector was made")))
}

/// The vertices that are reached, and the level and the parent of each.
fn search<T>(graph: &Graph<T>, source: u64) -> Result<ThreeLists, Error> {
    let (mut found, mut levels, mut parents) = (vec![source], vec![0], vec![source]);
    let mut work = Workshop::open()?;
    let mut edges = work.edges(graph)?;
    let all: Vec<u64> = (0..graph.size).collect();
    let mut names = work.vector(graph.size, &all, &all)?;
    // The front stores at each of its vertices the vertex itself, and what is reached its parent.
    let mut front = work.vector(graph.size, &[source], &[source])?;
    let mut reached = work.vector(graph.size, &[source], &[source])?;
    for level in 1.. {
        work.make_room(
            3,
            &mut [&mut edges],
            &mut [&mut names, &mut front, &mut reached],
        )?;
        let unseen = Descriptor::new().mask(reached).structure().comp().replace();
        work.pass
            .vxm(front, Semiring::MIN_FIRST, front, edges, unseen)?;
        let (vertices, from) = work.pass.entries(front)?.into_vecs();
        if vertices.is_empty() {
            break;
        }
        levels.resize(levels.len() + vertices.len(), level);
        found.extend(vertices);
        parents.extend(from);
        work.pass
            .ewise_add(reached, Op::FIRST, reached, front, Descriptor::new())?;
        work.pass
            .ewise_mult(front, Op::SECOND, front, names, Descriptor::new())?;
    }
    Ok((found, levels, parents))
}

/// The lengths of the shortest paths from a source (`LAGr_SingleSourceShortestPath`), where the values are the lengths of edges.
///
/// The vector has an entry for each vertex that is reached: the length of a shortest path to it; 0 at the source. An undirected graph has
/// each edge both ways.
///
/// # Errors
///
/// As of [each](self#errors), and
///
/// - [`Error::InvalidIndex`]: the source is no vertex.
/// - [`Error::InvalidValue`]: the largest length of an edge times the number of vertices is 2^64 or more.
pub fn single_source_shortest_paths(
    pass: &mut Pass,
    graph: Matrix<u64>,
    source: u64,
) -> Result<Vector<u64>, Error> {
    let graph = Graph::read(pass, graph)?;
    graph.check_source(source)?;
    let longest = graph.values.iter().copied().max().unwrap_or(0);
    longest.checked_mul(graph.size).ok_or(Error::InvalidValue)?;
    let (found, lengths) = best_paths(&graph, source, Op::MIN, Semiring::MIN_PLUS, 0)?;
    answer(pass, graph.size, &found, &lengths)
}

/// The widths of the widest paths from a source, where the values are the widths of edges. A path is as wide as its narrowest edge.
///
/// The vector has an entry for each vertex that is reached: the width of a widest path to it; 2^64 - 1 at the source, which no edge
/// narrows. An undirected graph has each edge both ways.
///
/// # Errors
///
/// As of [each](self#errors), and [`Error::InvalidIndex`] where the source is no vertex.
pub fn widest_paths(
    pass: &mut Pass,
    graph: Matrix<u64>,
    source: u64,
) -> Result<Vector<u64>, Error> {
    let graph = Graph::read(pass, graph)?;
    graph.check_source(source)?;
    let (found, widths) = best_paths(&graph, source, Op::MAX, Semiring::MAX_MIN, u64::MAX)?;
    answer(pass, graph.size, &found, &widths)
}

/// The vertices that are reached, and the best path to each, where `best` chooses and `semiring` goes on by an edge.
fn best_paths(
    graph: &Graph<u64>,
    source: u64,
    best: Op<u64>,
    semiring: Semiring<u64>,
    at_source: u64,
) -> Result<(Vec<u64>, Vec<u64>), Error> {
    let mut work = Workshop::open()?;
    let mut edges = work.matrix(graph.size, &graph.rows, &graph.columns, &graph.values)?;
    // The best paths so far, and those of them that became better in the last round.
    let mut paths = work.vector(graph.size, &[source], &[at_source])?;
    let mut better = work.vector(graph.size, &[source], &[at_source])?;
    let mut before = work.pass.new_vector(graph.size)?;
    let mut change = work.pass.new_vector(graph.size)?;
    let plain = Descriptor::new;
    while work.pass.nvals(better)? > 0 {
        work.make_room(
            5,
            &mut [&mut edges],
            &mut [&mut paths, &mut better, &mut before, &mut change],
        )?;
        std::mem::swap(&mut paths, &mut before);
        work.pass.vxm(better, semiring, better, edges, plain())?;
        work.pass.ewise_add(paths, best, before, better, plain())?;
        // A path is better where its value differs from the one before, or there was none.
        work.pass
            .ewise_mult(change, Op::MINUS, paths, before, plain())?;
        let changed = plain().mask(change).replace();
        work.pass
            .ewise_mult(better, Op::FIRST, paths, paths, changed)?;
        let new = plain().mask(before).structure().comp();
        work.pass.ewise_mult(better, Op::FIRST, paths, paths, new)?;
    }
    Ok(work.pass.entries(paths)?.into_vecs())
}

/// The connected components of an undirected graph (`LAGr_ConnectedComponents`).
///
/// The vector has an entry for each vertex: the least vertex of its component. Of a directed graph these are the weakly connected ones.
///
/// # Errors
///
/// As of [each](self#errors).
pub fn connected_components<T: Element>(
    pass: &mut Pass,
    graph: Matrix<T>,
) -> Result<Vector<u64>, Error> {
    let graph = Graph::read(pass, graph)?;
    let labels = components(&graph)?;
    answer(pass, graph.size, &graph.vertices(), &labels)
}

/// The least vertex of each vertex's component.
fn components<T: Element>(graph: &Graph<T>) -> Result<Vec<u64>, Error> {
    // Each vertex has a label, which is a vertex of its component and at most itself. The labels are trees: the label of a label that is
    // its own is a root, and the least of its tree.
    let all = graph.vertices();
    let mut labels = all.clone();
    let mut work = Workshop::open()?;
    let mut edges = work.undirected(graph)?;
    let mut told = work.vector(graph.size, &all, &labels)?;
    let mut least = work.pass.new_vector(graph.size)?;
    loop {
        work.make_room(3, &mut [&mut edges], &mut [&mut told, &mut least])?;
        work.pass
            .mxv(least, Semiring::MIN_SECOND, edges, told, Descriptor::new())?;
        let mut is_joined = false;
        for (i, label) in &work.pass.entries(least)? {
            let root = labels[i as usize] as usize;
            if label < labels[root] {
                labels[root] = label;
                is_joined = true;
            }
        }
        if !is_joined {
            return Ok(labels);
        }
        flatten(&mut labels);
        work.pass.clear(told)?;
        work.pass.build_vector(told, &all, &labels, Monoid::MIN)?;
    }
}

/// Gives each vertex the root of its tree. A label is at most its vertex, so its own label is final before.
fn flatten(labels: &mut [u64]) {
    for i in 0..labels.len() {
        labels[i] = labels[labels[i] as usize];
    }
}

/// The number of triangles of an undirected graph, each counted once (`LAGr_TriangleCount`): of sets of three vertices that are all
/// neighbours of each other.
///
/// # Errors
///
/// As of [each](self#errors).
pub fn triangle_count<T: Element>(pass: &mut Pass, graph: Matrix<T>) -> Result<u64, Error> {
    let graph = Graph::read(pass, graph)?;
    let mut work = Workshop::open()?;
    let below = work.below_diagonal(&graph)?;
    let triangles = work.pass.new_matrix(graph.size, graph.size)?;
    let inside = Descriptor::new().mask(below).structure();
    work.pass
        .mxm(triangles, Semiring::PLUS_TIMES, below, below, inside)?;
    work.pass.reduce(triangles, Monoid::PLUS)
}

/// The k-truss of an undirected graph (`LAGraph_KTruss`): the largest subgraph whose edges are each in `k - 2` or more of its triangles.
///
/// The matrix has an entry for each edge of the truss, both ways: the number of the truss's triangles that the edge is in.
///
/// # Errors
///
/// As of [each](self#errors), and [`Error::InvalidValue`] where `k` is below 3.
pub fn k_truss<T: Element>(
    pass: &mut Pass,
    graph: Matrix<T>,
    k: u64,
) -> Result<Matrix<u64>, Error> {
    if k < 3 {
        return Err(Error::InvalidValue);
    }
    let graph = Graph::read(pass, graph)?;
    let (rows, columns, values) = truss(&graph, k)?;
    let made = pass.new_matrix(graph.size, graph.size)?;
    filled(pass, made, |pass, made| {
        pass.build_matrix(made, &rows, &columns, &values, Monoid::MIN)
    })
}

/// The edges of the truss, both ways, and the number of triangles of each.
fn truss<T: Element>(graph: &Graph<T>, k: u64) -> Result<ThreeLists, Error> {
    let mut work = Workshop::open()?;
    let mut edges = work.undirected(graph)?;
    let mut stored = work.pass.nvals(edges)?;
    let mut triangles = work.pass.new_matrix(graph.size, graph.size)?;
    let enough = Test::ValueGe(k - 2);
    let one = Function::First(1, Op::FIRST);
    let plain = Descriptor::new;
    loop {
        work.make_room(3, &mut [&mut edges, &mut triangles], &mut [])?;
        let inside = plain().mask(edges).structure().replace();
        work.pass
            .mxm(triangles, Semiring::PLUS_TIMES, edges, edges, inside)?;
        work.pass.select(triangles, enough, triangles, plain())?;
        work.pass.apply(edges, one, triangles, plain())?;
        let left = work.pass.nvals(edges)?;
        if left == stored {
            return Ok(work.pass.entries(triangles)?.into_vecs());
        }
        stored = left;
    }
}

/// The k-core of an undirected graph (`LAGraph_KCore`): the largest subgraph whose vertices each have `k` or more neighbours in it.
///
/// The vector has an entry for each vertex of the core: the number of its neighbours there.
///
/// # Errors
///
/// As of [each](self#errors), and [`Error::InvalidValue`] where `k` is 0.
pub fn k_core<T: Element>(pass: &mut Pass, graph: Matrix<T>, k: u64) -> Result<Vector<u64>, Error> {
    if k < 1 {
        return Err(Error::InvalidValue);
    }
    let graph = Graph::read(pass, graph)?;
    let (found, degrees) = core(&graph, k)?;
    answer(pass, graph.size, &found, &degrees)
}

/// The vertices of the core, and the number of neighbours of each.
fn core<T: Element>(graph: &Graph<T>, k: u64) -> Result<(Vec<u64>, Vec<u64>), Error> {
    let mut work = Workshop::open()?;
    let mut edges = work.undirected(graph)?;
    // The number of neighbours of each vertex that is left; of those that are kept, and that go now.
    let mut left = work.pass.new_vector(graph.size)?;
    let mut kept = work.pass.new_vector(graph.size)?;
    let mut gone = work.pass.new_vector(graph.size)?;
    let plain = Descriptor::new;
    work.pass.reduce_rows(left, Monoid::PLUS, edges, plain())?;
    loop {
        let objects: &mut [_] = &mut [&mut left, &mut kept, &mut gone];
        work.make_room(3, &mut [&mut edges], objects)?;
        work.pass.select(kept, Test::ValueGe(k), left, plain())?;
        work.pass.select(gone, Test::ValueLt(k), left, plain())?;
        if work.pass.nvals(gone)? == 0 {
            return Ok(work.pass.entries(left)?.into_vecs());
        }
        std::mem::swap(&mut left, &mut kept);
        let fewer = plain().mask(left).structure().accum(Op::MINUS);
        let neighbours = Semiring::new(Monoid::PLUS, Op::SECOND);
        work.pass.vxm(left, neighbours, gone, edges, fewer)?;
    }
}

/// How [`pagerank`] counts.
#[derive(Clone, Copy, Debug, PartialEq, Eq)]
pub struct PageRank {
    /// How many of 100 steps go along an edge, from 0 to 99.
    pub damping: u64,
    /// What all ranks are together, but for what is lost where a division leaves a rest: from 1 to [`PageRank::MOST_SCALE`]. It should
    /// be far above the number of vertices.
    pub scale: u64,
    /// How many rounds there are at most.
    pub rounds: u32,
}

impl PageRank {
    /// The largest scale.
    pub const MOST_SCALE: u64 = 100_000_000_000_000_000;
}

impl Default for PageRank {
    /// 85 steps of 100, a scale of 10^12, and 100 rounds.
    fn default() -> PageRank {
        PageRank {
            damping: 85,
            scale: 1_000_000_000_000,
            rounds: 100,
        }
    }
}

/// The PageRank of each vertex, in whole numbers (`LAGr_PageRank`).
///
/// Who walks along the edges takes each edge of a vertex alike, whatever its value; begins anew at any vertex where there is none; and
/// does so after each step in `100 - damping` of 100 cases. An edge to itself counts. An undirected graph has each edge both ways.
///
/// The vector has an entry for each vertex: its rank times the scale, rounded down in each round. It is the result of the first round in
/// which no more than one for each vertex changes in all, or of the last round.
///
/// # Errors
///
/// As of [each](self#errors), and [`Error::InvalidValue`] where damping or scale is out of its range.
pub fn pagerank<T: Element>(
    pass: &mut Pass,
    graph: Matrix<T>,
    how: PageRank,
) -> Result<Vector<u64>, Error> {
    if how.damping > 99 || !(1..=PageRank::MOST_SCALE).contains(&how.scale) {
        return Err(Error::InvalidValue);
    }
    let graph = Graph::read(pass, graph)?;
    let ranks = ranks(&graph, how)?;
    answer(pass, graph.size, &graph.vertices(), &ranks)
}

/// The rank of each vertex.
fn ranks<T: Element>(graph: &Graph<T>, how: PageRank) -> Result<Vec<u64>, Error> {
    let PageRank {
        damping,
        scale,
        rounds,
    } = how;
    let all = graph.vertices();
    let mut ranks = vec![scale / graph.size; all.len()];
    let mut work = Workshop::open()?;
    let mut edges = work.edges(graph)?;
    let mut leaving = vec![0; all.len()];
    for &i in &graph.rows {
        leaving[i as usize] += 1;
    }
    let mut given = work.pass.new_vector(graph.size)?;
    let mut taken = work.pass.new_vector(graph.size)?;
    for _ in 0..rounds {
        work.make_room(3, &mut [&mut edges], &mut [&mut given, &mut taken])?;
        // A rank is at most the scale, so a hundred times it is below 2^64.
        let shares: Vec<u64> = (ranks.iter().zip(&leaving))
            .map(|(rank, edges)| {
                if *edges == 0 {
                    0
                } else {
                    rank * damping / (100 * edges)
                }
            })
            .collect();
        work.pass.clear(given)?;
        work.pass.build_vector(given, &all, &shares, Monoid::PLUS)?;
        let along = Semiring::new(Monoid::PLUS, Op::FIRST);
        work.pass
            .vxm(taken, along, given, edges, Descriptor::new())?;
        let ended: u64 = (ranks.iter().zip(&leaving))
            .filter_map(|(rank, edges)| (*edges == 0).then_some(rank))
            .sum();
        let anew = (scale * (100 - damping) + ended * damping) / (100 * graph.size);
        let mut next = vec![anew; all.len()];
        for (i, rank) in &work.pass.entries(taken)? {
            next[i as usize] += rank;
        }
        let changes: u64 = ranks
            .iter()
            .zip(&next)
            .map(|(old, new)| old.abs_diff(*new))
            .sum();
        ranks = next;
        if changes <= graph.size {
            break;
        }
    }
    Ok(ranks)
}
