//! What a pass tells of itself.

/// What a pass tells of itself, as of its last call. [`Pass::facts`](crate::Pass::facts) answers them.
#[derive(Clone, Copy, Debug, Default, PartialEq, Eq, Hash)]
#[repr(C)]
pub struct Facts {
    /// The number of the pass in its store, from 0.
    pub number: u32,
    /// How many calls of the history it knows.
    pub known: u32,
    /// How many places of the history it has learnt. It is the number of known calls, or more where a record was not shown.
    pub words: u32,
    /// How many calls it knew at its last wait with [`Wait::Materialize`](crate::Wait::Materialize) that was done; 0 before the first. As long as
    /// it knows no more, none of its reads is refused for lack of memory.
    pub settled: u32,
    /// How many more changes the store takes, as far as the pass has learnt.
    pub room_left: u32,
    /// How many atomic steps its last call, or its last meeting, made on the history.
    pub steps: u32,
    /// How many calls of the history its last call made to answer, so what a read cost. 0 after a change that is no build.
    pub made: u32,
}

/// What a pass keeps and has looked at: counts for who watches what a store costs. [`Pass::costs`](crate::Pass::costs) answers them.
#[derive(Clone, Copy, Debug, Default, PartialEq, Eq, Hash)]
#[repr(C)]
pub struct Costs {
    /// How many entries the results have that it keeps; what it shares with others counts with each.
    pub entries: u64,
    /// How many entries the results have that the passes of its store left to one another.
    pub entries_left: u64,
    /// How many objects, results and calls it has looked at so far without that one of them was made.
    pub looks: u64,
}
