//! A service without an end: 50,000 requests of four threads in a chain of stores, each with two temporaries, and an analysis in a branch,
//! whose result comes back. The memory stays what it is.

use std::thread;
use trowelheath::{Chain, Chosen, Descriptor, Error, Monoid, Op, Pass, Vector};

const WORKERS: usize = 4;
const REQUESTS: usize = 50_000;
const SIZE: u64 = 16;

/// How many pages of memory the process may grow between its first thousand requests and its last.
const MOST_GROWTH: u64 = 16_384;

/// The pages of the process that are not given back.
fn resident() -> u64 {
    let text = std::fs::read_to_string("/proc/self/statm").expect("this is Linux");
    let used = text.split(' ').nth(1).expect("it has a second number");
    used.parse().expect("it is a number")
}

/// So many requests: what is counted there, one more than before each, by way of two temporaries.
fn serve(pass: &mut Pass, counts: Vector<u64>, own: u64, times: usize) -> Result<(), Error> {
    for _ in 0..times {
        let one = pass.new_vector::<u64>(SIZE)?;
        let sum = pass.new_vector::<u64>(SIZE)?;
        pass.set(one, own, 1)?;
        pass.ewise_add(sum, Op::PLUS, counts, one, Descriptor::new())?;
        let count = pass.get(sum, own)?.expect("it is counted");
        pass.set(counts, own, count)?;
        pass.free(one)?;
        pass.free(sum)?;
    }
    Ok(())
}

/// The squares of the counts, found in a branch while the chain goes on, and brought back.
fn publish(pass: &mut Pass, counts: Vector<u64>, squares: Vector<u64>) -> Result<(), Error> {
    let mut apart = pass.branch(&Chosen::new().with(counts), 10, 1)?;
    let own = &mut apart[0];
    pass.clear(counts)?;
    let there = own.inherited(counts)?;
    let made = own.new_vector(SIZE)?;
    own.ewise_mult(made, Op::TIMES, there, there, Descriptor::new())?;
    pass.build_from(squares, own, made)?;
    assert_eq!(own.generation(), Err(Error::InvalidValue));
    Ok(())
}

fn main() -> Result<(), Error> {
    let mut passes = Chain::open(WORKERS)?;
    let counts = passes[0].new_vector::<u64>(SIZE)?;
    let squares = passes[0].new_vector::<u64>(SIZE)?;
    serve(&mut passes[0], counts, WORKERS as u64, 1_000)?;
    let before = resident();
    thread::scope(|scope| {
        let served: Vec<_> = (0..)
            .zip(&mut passes)
            .map(|(own, pass)| scope.spawn(move || serve(pass, counts, own, REQUESTS / WORKERS)))
            .collect();
        served
            .into_iter()
            .try_for_each(|each| each.join().expect("no panic"))
    })?;
    assert!(resident() < before + MOST_GROWTH);

    let total = passes[0].reduce(counts, Monoid::PLUS)?;
    println!("{total} requests are counted");
    assert!(passes[0].generation()? > 50);
    assert!(!passes[0].go_on()?);

    publish(&mut passes[0], counts, squares)?;
    let total = passes[1].reduce(squares, Monoid::PLUS)?;
    println!("their squares are {total}");

    // The pass of a thread that has ended is had anew.
    drop(passes.remove(1));
    let mut again = passes[0].seat(1)?.expect("it was dropped");
    assert_eq!(again.facts()?.number, 1);
    assert_eq!(again.nvals(counts)?, 0);
    Ok(())
}
