//! The objects that a branch begins with.

use crate::error::Error;
use crate::object::Object;
use crate::store::Store;
use std::sync::Arc;

/// Matrices and vectors of one store, of any type, that a branch begins with. [`Pass::branch`](crate::Pass::branch) opens it.
///
/// ```no_run
/// # use trowelheath::{Chosen, Error, Matrix, Pass, Vector};
/// # fn part(pass: &mut Pass, graph: Matrix<bool>, weights: Vector<u64>) -> Result<(), Error> {
/// let mut branch = pass.branch(&Chosen::new().with(graph).with(weights), 1000, 1)?;
/// let graph = branch[0].inherited(graph)?;
/// # Ok(())
/// # }
/// ```
#[derive(Clone, Debug, Default)]
pub struct Chosen {
    // The stores of the objects: one, or none where there is no object.
    stores: Vec<Store>,
    matrices: Vec<u32>,
    vectors: Vec<u32>,
}

impl Chosen {
    /// No object.
    pub fn new() -> Chosen {
        Chosen::default()
    }

    /// These, and one more. One that is there already is there once.
    pub fn with<O: Object>(mut self, object: O) -> Chosen {
        if !self.stores.contains(&object.store()) {
            self.stores.push(object.store());
        }
        if self.place_of(object).is_none() {
            let numbers = if O::IS_MATRIX {
                &mut self.matrices
            } else {
                &mut self.vectors
            };
            numbers.push(object.number());
        }
        self
    }

    /// The numbers of the matrices, in turn.
    pub(crate) fn matrices(&self) -> &[u32] {
        &self.matrices
    }

    /// The numbers of the vectors, in turn.
    pub(crate) fn vectors(&self) -> &[u32] {
        &self.vectors
    }

    /// `ForeignObject` where an object is of another store than this.
    pub(crate) fn check(&self, store: Store) -> Result<(), Error> {
        if self.stores.iter().all(|of| *of == store) {
            Ok(())
        } else {
            Err(Error::ForeignObject)
        }
    }

    /// The number of the object in a branch of these, if it is one of them.
    fn place_of<O: Object>(&self, object: O) -> Option<u32> {
        let numbers = if O::IS_MATRIX {
            &self.matrices
        } else {
            &self.vectors
        };
        let place = numbers.iter().position(|number| *number == object.number());
        place.map(|place| place as u32)
    }
}

/// What a store goes on from: another store, with all of its objects or with some.
#[derive(Clone, Debug)]
pub(crate) struct Before {
    store: Store,
    // None where each object keeps its number.
    chosen: Option<Arc<Chosen>>,
}

impl Before {
    /// All objects of the store.
    pub(crate) fn all(store: Store) -> Before {
        Before {
            store,
            chosen: None,
        }
    }

    /// These objects of the store.
    pub(crate) fn some(store: Store, chosen: &Chosen) -> Before {
        Before {
            store,
            chosen: Some(Arc::new(chosen.clone())),
        }
    }

    /// The number that an object of the store became, if it went over.
    pub(crate) fn number_of<O: Object>(&self, object: O) -> Option<u32> {
        if object.store() != self.store {
            return None;
        }
        match &self.chosen {
            Some(chosen) => chosen.place_of(object),
            None => Some(object.number()),
        }
    }
}
