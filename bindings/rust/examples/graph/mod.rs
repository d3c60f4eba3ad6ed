//! Graphs that the examples draw, the same in each run.

use std::collections::BTreeSet;

/// A linear congruential generator, with the factor and the step of Knuth's MMIX.
struct Generator {
    state: u64,
}

impl Generator {
    /// A number below the bound.
    fn below(&mut self, bound: u64) -> u64 {
        self.state = self
            .state
            .wrapping_mul(6_364_136_223_846_793_005)
            .wrapping_add(1_442_695_040_888_963_407);
        (self.state >> 33) % bound
    }
}

/// So many edges of a directed graph: pairs of two vertices, from 0 up to `vertices`, no pair twice.
pub fn draw_edges(vertices: u64, edges: usize, seed: u64) -> BTreeSet<(u64, u64)> {
    let mut generator = Generator { state: seed };
    let mut drawn = BTreeSet::new();
    while drawn.len() < edges {
        let from = generator.below(vertices);
        let to = generator.below(vertices);
        if from != to {
            drawn.insert((from, to));
        }
    }
    drawn
}
