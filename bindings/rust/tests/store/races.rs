//! Calls at one moment: they are answered as in one of their orders, which all passes then know.

use crate::{at_once, stored};
use std::sync::Barrier;
use trowelheath::{Error, Monoid, Pass, Store, Vector};

/// How often each race is run, each time in a new store.
const TIMES: usize = 1_000;

/// On how many stores at one moment, each by threads of its own.
const SIDE_BY_SIDE: usize = 8;

#[derive(Clone, Copy, Debug, PartialEq)]
enum Reply {
    Done,
    Count(u64),
    Entry(Option<u64>),
    /// A vector was made. Its number is the next one, or another.
    Made {
        is_next: bool,
    },
}

type Answer = Result<Reply, Error>;

/// A call on the first of two vectors, or a read of the second, which is there once a call has made it.
type Call = fn(&mut Pass, [Vector<u64>; 2]) -> Answer;

/// What a thread saw: the answer to its call, how many calls its pass knew then, and the answer to a read after it.
type Seen = (Answer, u32, Answer);

/// What both threads saw; what the pass that made the vector then reads, and how many calls it knows.
type Outcome = (Seen, Seen, Answer, u32);

/// A vector of eight numbers, with no entry, meets a call, and then two calls at one moment, each by a thread that then reads.
struct Race {
    name: &'static str,
    before: Call,
    first: Call,
    second: Call,
    read: Call,
    /// The outcomes of the two orders. A thread whose call came first reads before the other call, or after it.
    lawful: &'static [Outcome],
}

const DONE: Answer = Ok(Reply::Done);

const COPIED: Answer = Ok(Reply::Made { is_next: true });

const GONE: Answer = Err(Error::UninitializedObject);

const BAD_INDEX: Answer = Err(Error::InvalidIndex);

const NOT_EMPTY: Answer = Err(Error::OutputNotEmpty);

const FIVE: Answer = Ok(Reply::Entry(Some(5)));

const SEVEN: Answer = Ok(Reply::Entry(Some(7)));

const NONE: Answer = Ok(Reply::Count(0));

const ONE: Answer = Ok(Reply::Count(1));

const TWO: Answer = Ok(Reply::Count(2));

const READ_SIZE: Call = |pass, [v, _]| pass.size(v).map(Reply::Count);

const COUNT: Call = |pass, [v, _]| pass.nvals(v).map(Reply::Count);

const GET: Call = |pass, [v, _]| pass.get(v, 0).map(Reply::Entry);

const GET_OF_COPY: Call = |pass, [_, copy]| pass.get(copy, 0).map(Reply::Entry);

const SET_FIVE: Call = |pass, [v, _]| pass.set(v, 0, 5).map(done);

const SET_SEVEN: Call = |pass, [v, _]| pass.set(v, 0, 7).map(done);

const SET_LATER: Call = |pass, [v, _]| pass.set(v, 6, 1).map(done);

const CLEAR: Call = |pass, [v, _]| pass.clear(v).map(done);

const FREE: Call = |pass, [v, _]| pass.free(v).map(done);

const CUT: Call = |pass, [v, _]| pass.resize(v, 4).map(done);

const BUILD_FIVE: Call = |pass, [v, _]| {
    let entries = [(0, 1), (0, 2), (0, 2)];
    pass.build(v, entries, Monoid::PLUS).map(done)
};

const BUILD_SEVEN: Call = |pass, [v, _]| {
    let entries = [(0, 3), (1, 1), (0, 4)];
    pass.build(v, entries, Monoid::PLUS).map(done)
};

const COPY: Call = |pass, [v, copy]| {
    let made = pass.dup(v)?;
    let is_next = made == copy;
    Ok(Reply::Made { is_next })
};

fn done(_: ()) -> Reply {
    Reply::Done
}

static RACES: [Race; 7] = [
    Race {
        name: "two sets of one index",
        before: READ_SIZE,
        first: SET_FIVE,
        second: SET_SEVEN,
        read: GET,
        lawful: &[
            ((DONE, 2, FIVE), (DONE, 3, SEVEN), SEVEN, 3),
            ((DONE, 2, SEVEN), (DONE, 3, SEVEN), SEVEN, 3),
            ((DONE, 3, FIVE), (DONE, 2, SEVEN), FIVE, 3),
            ((DONE, 3, FIVE), (DONE, 2, FIVE), FIVE, 3),
        ],
    },
    Race {
        name: "a resize, and a set at an index that it cuts off",
        before: READ_SIZE,
        first: CUT,
        second: SET_LATER,
        read: COUNT,
        lawful: &[
            ((DONE, 3, NONE), (DONE, 2, ONE), NONE, 3),
            ((DONE, 3, NONE), (DONE, 2, NONE), NONE, 3),
            ((DONE, 2, NONE), (BAD_INDEX, 2, NONE), NONE, 2),
        ],
    },
    Race {
        name: "a free and a set",
        before: READ_SIZE,
        first: FREE,
        second: SET_FIVE,
        read: GET,
        lawful: &[
            ((DONE, 3, GONE), (DONE, 2, FIVE), GONE, 3),
            ((DONE, 3, GONE), (DONE, 2, GONE), GONE, 3),
            ((DONE, 2, GONE), (GONE, 2, GONE), GONE, 2),
        ],
    },
    Race {
        name: "a set and a clear, which takes another entry away in either order",
        before: SET_LATER,
        first: SET_FIVE,
        second: CLEAR,
        read: COUNT,
        lawful: &[
            ((DONE, 3, TWO), (DONE, 4, NONE), NONE, 4),
            ((DONE, 3, NONE), (DONE, 4, NONE), NONE, 4),
            ((DONE, 4, ONE), (DONE, 3, NONE), ONE, 4),
            ((DONE, 4, ONE), (DONE, 3, ONE), ONE, 4),
        ],
    },
    Race {
        name: "a set and a build, which is refused after the set",
        before: READ_SIZE,
        first: SET_LATER,
        second: BUILD_FIVE,
        read: COUNT,
        lawful: &[
            ((DONE, 2, ONE), (NOT_EMPTY, 2, ONE), ONE, 2),
            ((DONE, 3, TWO), (DONE, 2, ONE), TWO, 3),
            ((DONE, 3, TWO), (DONE, 2, TWO), TWO, 3),
        ],
    },
    Race {
        name: "two builds of one empty object",
        before: READ_SIZE,
        first: BUILD_FIVE,
        second: BUILD_SEVEN,
        read: GET,
        lawful: &[
            ((DONE, 2, FIVE), (NOT_EMPTY, 2, FIVE), FIVE, 2),
            ((NOT_EMPTY, 2, SEVEN), (DONE, 2, SEVEN), SEVEN, 2),
        ],
    },
    Race {
        name: "a copy and a set of its source, whose value of before it has where it came first",
        before: SET_SEVEN,
        first: SET_FIVE,
        second: COPY,
        read: GET_OF_COPY,
        lawful: &[
            ((DONE, 3, GONE), (COPIED, 4, FIVE), FIVE, 4),
            ((DONE, 3, FIVE), (COPIED, 4, FIVE), FIVE, 4),
            ((DONE, 4, SEVEN), (COPIED, 3, SEVEN), SEVEN, 4),
        ],
    },
];

/// A new store in which a race is about to begin.
struct Begun {
    race: &'static Race,
    /// The pass that made the vector, and those of the threads, which know nothing yet.
    last: Pass,
    passes: Vec<Pass>,
    /// The vector, and the copy that is not there yet.
    vectors: [Vector<u64>; 2],
}

/// A thread of a race: its pass, its call, the read after it, and the vectors.
type Racing = (Pass, Call, Call, [Vector<u64>; 2]);

impl Race {
    fn begin(&'static self) -> Begun {
        // The handles of the first two vectors are those of a store that this one went on from when it had none.
        let [mut before] = Store::open_array(2).unwrap();
        let mut passes = before.succeed(4, 3).unwrap();
        let mut last = passes.pop().unwrap();
        let vectors = [(); 2].map(|()| before.new_vector::<u64>(8).unwrap());
        let vectors = vectors.map(|v| last.inherited(v).unwrap());
        assert_eq!(last.new_vector(8), Ok(vectors[0]), "{}", self.name);
        assert!((self.before)(&mut last, vectors).is_ok(), "{}", self.name);
        Begun {
            race: self,
            last,
            passes,
            vectors,
        }
    }
}

impl Begun {
    fn threads(&mut self) -> impl Iterator<Item = Racing> + '_ {
        let (read, vectors) = (self.race.read, self.vectors);
        let calls = [self.race.first, self.race.second];
        let threads = self.passes.drain(..).zip(calls);
        threads.map(move |(pass, call)| (pass, call, read, vectors))
    }

    /// What was seen is of one of the two orders, which all passes know then.
    fn expect_lawful(mut self, seen: &mut [(Seen, Pass)]) {
        let Race { name, read, .. } = self.race;
        let [(first, first_pass), (second, second_pass)] = seen else {
            panic!("{name}: two threads answer")
        };
        let answer = read(&mut self.last, self.vectors);
        let known = self.last.facts().unwrap().known;
        let outcome = (*first, *second, answer, known);
        assert!(self.race.lawful.contains(&outcome), "{name}: {outcome:?}");
        for pass in [first_pass, second_pass] {
            assert_eq!(read(pass, self.vectors), answer, "{name}: {outcome:?}");
            assert_eq!(pass.facts().unwrap().known, known, "{name}: {outcome:?}");
        }
    }
}

/// Makes the call, and then the read.
fn see((mut pass, call, read, vectors): Racing) -> (Seen, Pass) {
    let answer = call(&mut pass, vectors);
    let known = pass.facts().unwrap().known;
    let seen = (answer, known, read(&mut pass, vectors));
    (seen, pass)
}

#[test]
fn two_calls_at_one_moment_are_answered_as_in_one_of_their_orders() {
    for turn in 0..TIMES / SIDE_BY_SIDE {
        let each = RACES.iter().flat_map(|race| [race; SIDE_BY_SIDE]);
        let mut races: Vec<Begun> = each.map(Race::begin).collect();
        let mut threads: Vec<Racing> = races.iter_mut().flat_map(Begun::threads).collect();
        // The thread that comes last often goes first.
        if turn % 2 == 1 {
            threads.reverse();
        }
        let mut seen = at_once(threads, see);
        if turn % 2 == 1 {
            seen.reverse();
        }
        for (race, seen) in races.into_iter().zip(seen.chunks_mut(2)) {
            race.expect_lawful(seen);
        }
    }
}

/// A new store with a vector, which the last of its passes has made.
struct Opened {
    vector: Vector<u64>,
    last: Pass,
    passes: Vec<Pass>,
}

/// So many as are raced for at one moment, with so much room, and with a pass for each of so many threads.
fn open_side_by_side(room: u32, threads: usize) -> Vec<Opened> {
    let open = |_| {
        let mut passes = Store::open(room, threads + 1).unwrap();
        let mut last = passes.pop().unwrap();
        let vector = last.new_vector(threads as u64).unwrap();
        Opened {
            vector,
            last,
            passes,
        }
    };
    (0..SIDE_BY_SIDE).map(open).collect()
}

impl Opened {
    /// For each thread its pass, its number, and the vector.
    fn threads(&mut self) -> impl Iterator<Item = (Pass, u64, Vector<u64>)> + '_ {
        let vector = self.vector;
        let numbered = self.passes.drain(..).zip(0..);
        numbered.map(move |(pass, number)| (pass, number, vector))
    }
}

#[test]
fn threads_that_set_at_one_moment_are_shown_all_records() {
    const ALL: usize = 2 * SIDE_BY_SIDE;
    for _ in 0..TIMES / SIDE_BY_SIDE {
        let mut stores = open_side_by_side(3, 2);
        let threads = stores.iter_mut().flat_map(Opened::threads).collect();
        let all_have_set = Barrier::new(ALL);
        let seen = at_once(threads, |(mut pass, number, v)| {
            let answer = pass.set(v, number, number);
            all_have_set.wait();
            (answer, pass.nvals(v))
        });
        assert_eq!(seen, [(Ok(()), Ok(2)); ALL]);
        for store in &mut stores {
            assert_eq!(stored(&mut store.last, store.vector), [(0, 0), (1, 1)]);
        }
    }
}

/// A thread of a race for the last word: the number that it set, the answer, the room that was left then, and its pass.
struct Tried {
    number: u64,
    answer: Result<(), Error>,
    room_left: u32,
    pass: Pass,
}

impl Opened {
    /// One of the threads entered its set, and no pass has room left.
    fn expect_one_entered(mut self, tried: &mut [Tried]) {
        let entered = tried.iter().filter(|it| it.answer.is_ok());
        let entered: Vec<u64> = entered.map(|it| it.number).collect();
        assert_eq!(entered.len(), 1, "{entered:?} were entered");
        let value = Ok(Some(entered[0]));
        assert_eq!(self.last.get(self.vector, 0), value);
        assert_eq!(self.last.facts().unwrap().room_left, 0);
        for it in tried {
            let number = it.number;
            if number != entered[0] {
                assert_eq!(it.answer, Err(Error::OrderFull), "thread {number}");
            }
            assert_eq!(it.room_left, 0, "thread {number}");
            assert_eq!(it.pass.get(self.vector, 0), value, "thread {number}");
        }
    }
}

#[test]
fn one_of_the_threads_enters_the_last_word() {
    for threads in [2, 4] {
        for _ in 0..TIMES / SIDE_BY_SIDE {
            let mut stores = open_side_by_side(2, threads);
            let all = stores.iter_mut().flat_map(Opened::threads).collect();
            let mut tried = at_once(all, |(mut pass, number, v)| Tried {
                number,
                answer: pass.set(v, 0, number),
                room_left: pass.facts().unwrap().room_left,
                pass,
            });
            for (store, tried) in stores.into_iter().zip(tried.chunks_mut(threads)) {
                store.expect_one_entered(tried);
            }
        }
    }
}
