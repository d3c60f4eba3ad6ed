//! The first steps: a vector, a matrix, a product, a mask, and what a refusal says.

use trowelheath::{Descriptor, Error, Monoid, Op, Semiring, Store, Wait};

fn main() -> Result<(), Error> {
    let [mut pass] = Store::open_array(100)?;

    // A value that is set takes the place of the one before.
    let v = pass.new_vector::<u64>(10)?;
    pass.set(v, 0, 5)?;
    pass.set(v, 0, 7)?;
    pass.set(v, 3, 10)?;
    pass.set(v, 6, 20)?;
    println!("get 0: {:?}", pass.get(v, 0)?);
    println!("get 9: {:?}", pass.get(v, 9)?);
    match pass.get(v, 10) {
        Ok(value) => println!("get 10: {value:?}"),
        Err(refusal) => println!("get 10: {refusal}"),
    }

    // A matrix is filled by one call.
    let a = pass.new_matrix::<u64>(2, 10)?;
    pass.build(a, [(0, 0, 1), (0, 3, 1), (1, 6, 1)], Monoid::PLUS)?;
    println!("dimensions: {:?}", pass.size(a)?);
    println!("entries: {}", pass.nvals(a)?);

    // w = A * v
    let w = pass.new_vector(2)?;
    pass.mxv(w, Semiring::PLUS_TIMES, a, v, Descriptor::new())?;
    for (row, value) in pass.entries(w)? {
        println!("row {row}: {value}");
    }
    assert_eq!(pass.entries(w)?.into_vecs(), (vec![0, 1], vec![17, 20]));

    // w = w + A * v, where the mask stores something.
    let inside = pass.new_vector::<bool>(2)?;
    pass.set(inside, 1, false)?;
    let added = Descriptor::new().mask(inside).structure().accum(Op::PLUS);
    pass.mxv(w, Semiring::PLUS_TIMES, a, v, added)?;
    for (row, value) in pass.entries(w)? {
        println!("row {row}: {value}");
    }
    assert_eq!(pass.entries(w)?.into_vecs(), (vec![0, 1], vec![17, 40]));

    println!("sum: {}", pass.reduce(w, Monoid::PLUS)?);
    println!("largest: {}", pass.reduce(w, Monoid::MAX)?);

    // All work is done now, and the store has taken twelve changes.
    pass.wait(w, Wait::Materialize)?;
    let facts = pass.facts()?;
    println!("settled: {} of {}", facts.settled, facts.known);
    println!("room left: {}", facts.room_left);

    // A freed object is refused, never followed.
    pass.free(v)?;
    match pass.nvals(v) {
        Ok(count) => println!("nvals: {count}"),
        Err(refusal) => println!("nvals: {refusal}"),
    }
    Ok(())
}
