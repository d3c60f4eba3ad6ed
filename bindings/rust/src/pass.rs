//! A pass: one thread's way into a store, and what it tells another.

use crate::chosen::{Before, Chosen};
use crate::descriptor::Descriptor;
use crate::error::{done, found, Error};
use crate::facts::{Costs, Facts};
use crate::object::Object;
use crate::refusal::Refused;
use crate::store::Store;
use crate::sys::{self, TrbPass};
use std::fmt;
use std::sync::Arc;

/// One thread's way into a store: all calls are made by a pass.
///
/// A pass may go to another thread. One thread at a time uses it, since each method borrows it mutably. Where it is dropped the pass
/// ends; what it entered stays, and with the last pass of a store the store's memory is given back. No method waits for another thread.
///
/// Each call takes effect at one moment between its start and its return, in one history that all passes share: the store is linearizable.
/// A pass sees its own calls at once, and those of other passes as soon as they are entered.
///
/// # Changes
///
/// A call that changes the store enters its history and takes one of the calls that there is room for. It does none of its work: that
/// is done by the first read that needs it, or by a [`wait`](Pass::wait). Beside its own refusals, each change can be refused for
///
/// - [`Error::OrderFull`]: the room is used up. A store that is full stays so, and reads go on. Go on in its successor, which
///   [`succeed`](Pass::succeed) opens; or use a [`Chain`](crate::Chain) from the start, which goes on by itself, and refuses a change so only
///   where it has no next generation, and [`go_on`](Pass::go_on) tells why; or where the change makes an object, and
///   [`objects_left`](Pass::objects_left) tells that there is no place for one more.
/// - [`Error::OutOfMemory`]: memory was refused to the call's record. Nothing has changed.
/// - [`Error::Panic`]: the call's record could not be kept, or an earlier one of another pass was not shown. Make the call again; if it
///   comes again, stop using the store.
///
/// # Reads
///
/// A read takes no room. It does the work that its answer depends on and that is not done. Beside its own refusals, it can be refused
/// for
///
/// - [`Error::OutOfMemory`]: memory was refused to that work. Nothing is lost.
/// - [`Error::Panic`]: the record of an earlier call of another pass was not shown. Make the call again.
///
/// # Objects of other stores
///
/// A handle of another store's object is refused by [`Error::ForeignObject`], whatever the call. Its number would mean another object here.
/// In the successor of a store, and in a branch, [`inherited`](Pass::inherited) gives the handle of what the object became.
///
/// # Not in two threads at once
///
/// A pass is `Send`, and not `Sync`. This does not compile:
///
/// ```compile_fail
/// fn shared<T: Sync>() {}
/// shared::<trowelheath::Pass>();
/// ```
///
/// No call may be made in a signal handler, or in the child of a fork of a process with threads. Safe Rust does neither.
pub struct Pass {
    pub(crate) raw: TrbPass,
    store: Store,
    // What this store goes on from.
    before: Option<Before>,
    // The call that was refused last.
    pub(crate) refused: Option<Refused>,
    // Its address is the number under which the library knows the store, so it is kept until the pass has ended.
    _byte: Arc<u8>,
}

// SAFETY: what the library keeps of a pass is bound to no thread. It has to be handed on by something that orders memory, and so is every
// move of a value to another thread in safe Rust, as by a spawn, a join, a channel or a lock.
unsafe impl Send for Pass {}

impl Drop for Pass {
    fn drop(&mut self) {
        // SAFETY: the pass is borrowed mutably, so this call alone has it. Its byte is dropped after this.
        unsafe { sys::trb_free(&mut self.raw) }
    }
}

impl fmt::Debug for Pass {
    fn fmt(&self, f: &mut fmt::Formatter<'_>) -> fmt::Result {
        f.debug_struct("Pass")
            .field("store", &self.store)
            .finish_non_exhaustive()
    }
}

impl Pass {
    /// A pass that the library has handed out, or none.
    pub(crate) fn of(raw: TrbPass, store: Store, before: Option<Before>, byte: Arc<u8>) -> Pass {
        Pass {
            raw,
            store,
            before,
            refused: None,
            _byte: byte,
        }
    }

    /// Another pass of the same store, which the library has handed out.
    pub(crate) fn beside(&self, raw: TrbPass) -> Pass {
        Pass::of(
            raw,
            self.store,
            self.before.clone(),
            Arc::clone(&self._byte),
        )
    }

    /// The store that the pass is of.
    pub fn store(&self) -> Store {
        self.store
    }

    /// `ForeignObject` where the object is of another store.
    pub(crate) fn check(&self, object: impl Object) -> Result<(), Error> {
        self.check_store(Some(object.store()))
    }

    /// `ForeignObject` where the mask of the descriptor is of another store.
    pub(crate) fn check_mask<O: Object>(&self, descriptor: &Descriptor<O>) -> Result<(), Error> {
        self.check_store(descriptor.mask_store())
    }

    fn check_store(&self, of: Option<Store>) -> Result<(), Error> {
        match of {
            Some(store) if store != self.store => Err(Error::ForeignObject),
            _ => Ok(()),
        }
    }

    /// Lets the pass learn all that the other knows, without a call; whether it knows all of that then. Each call looks for news by itself, so
    /// this is for a moment that suits you, as the end of a phase. Of one store it is always true. In a chain the pass moves on first, where
    /// the other sits in a later generation, and false says that it could not move there now: then try again.
    ///
    /// # Errors
    ///
    /// - [`Error::ForeignPass`]: the passes are of two stores.
    /// - [`Error::Panic`]: the record of a call was not shown. Ask again.
    pub fn meet(&mut self, other: &mut Pass) -> Result<bool, Error> {
        self.check_pass(other)?;
        // SAFETY: both passes are borrowed mutably, so they are two, and this call alone has them.
        let status = unsafe { sys::trb_meet(&mut self.raw, &mut other.raw) };
        Ok(found(status, ())?.is_some())
    }

    /// Lets the pass learn all that the other knows, and go on from what the other has evaluated: its next answer does the work that is left.
    /// Both share the objects until one of them changes one. Where memory is refused for that, the pass evaluates for itself. It tells whether
    /// the pass knows all that the other knows, as [`meet`](Pass::meet); in a chain the two share work where both sit in one generation then.
    ///
    /// # Errors
    ///
    /// As of [`meet`](Pass::meet).
    ///
    /// ```no_run
    /// # use trowelheath::{Error, Pass};
    /// # fn begin(loading: &mut Pass, serving: &mut Pass) -> Result<(), Error> {
    /// loading.prepare()?;
    /// serving.adopt(loading)?;
    /// # Ok(())
    /// # }
    /// ```
    pub fn adopt(&mut self, other: &mut Pass) -> Result<bool, Error> {
        self.check_pass(other)?;
        // SAFETY: both passes are borrowed mutably, so they are two, and this call alone has them.
        let status = unsafe { sys::trb_adopt(&mut self.raw, &mut other.raw) };
        Ok(found(status, ())?.is_some())
    }

    fn check_pass(&self, other: &Pass) -> Result<(), Error> {
        if self.store == other.store {
            Ok(())
        } else {
            Err(Error::ForeignPass)
        }
    }

    /// Evaluates what the pass knows, where that is dear, so that others may [`adopt`](Pass::adopt) it. It changes no answer. It tells before
    /// how many of the calls that the pass knows no answer makes one any more; where memory is refused, before fewer.
    ///
    /// # Errors
    ///
    /// The library refuses only a pass that has ended, and this one has not.
    pub fn prepare(&mut self) -> Result<u32, Error> {
        let mut evaluated = 0;
        // SAFETY: the pass is borrowed mutably, so this call alone has it, and the place of the answer is a local variable.
        done(unsafe { sys::trb_prepare(&mut self.raw, &mut evaluated) })?;
        Ok(evaluated)
    }

    /// Makes blocks of the dear products that other passes of the store make at the moment, and tells how many: 0 where there is none to make.
    /// It ends when no block is left to begin, changes no answer, and waits for nobody. It takes memory for the blocks; where that is refused,
    /// fewer are made. A product is dear that takes millions of multiplications. A store of one pass has nobody to help.
    ///
    /// A thread that has nothing else to do calls it by a pass of its own, and sleeps a little after each 0. A pass of a chain helps in the
    /// generation in which it sits, and holds that: let it make a read now and then, as [`size`](Pass::size), by which it follows the others.
    ///
    /// # Errors
    ///
    /// The library refuses only a pass that has ended, and this one has not.
    ///
    /// ```no_run
    /// # use std::{sync::atomic::{AtomicBool, Ordering}, thread, time::Duration};
    /// # use trowelheath::{Error, Pass};
    /// fn help(pass: &mut Pass, is_over: &AtomicBool) -> Result<(), Error> {
    ///     while !is_over.load(Ordering::Relaxed) {
    ///         if pass.help()? == 0 {
    ///             thread::sleep(Duration::from_millis(1));
    ///         }
    ///     }
    ///     Ok(())
    /// }
    /// ```
    pub fn help(&mut self) -> Result<u32, Error> {
        let mut made = 0;
        // SAFETY: the pass is borrowed mutably, so this call alone has it, and the place of the answer is a local variable.
        done(unsafe { sys::trb_help(&mut self.raw, &mut made) })?;
        Ok(made)
    }

    /// How many blocks of dear products were made so far in the store, by whatever pass; of a chain, in the generation in which this one sits.
    /// One that two passes made counts twice.
    ///
    /// # Errors
    ///
    /// The library refuses only a pass that has ended, and this one has not.
    pub fn blocks(&mut self) -> Result<u64, Error> {
        let mut count = 0;
        // SAFETY: the pass is borrowed mutably, so this call alone has it, and the place of the answer is a local variable.
        done(unsafe { sys::trb_blocks(&mut self.raw, &mut count) })?;
        Ok(count)
    }

    /// Drops what the pass has evaluated, so that its memory is given back. What the pass knows stays, and other passes keep what they have.
    /// What a later answer needs is made anew, or found with other passes; no change is settled any more.
    ///
    /// # Errors
    ///
    /// The library refuses only a pass that has ended, and this one has not.
    pub fn release(&mut self) -> Result<(), Error> {
        // SAFETY: the pass is borrowed mutably, so this call alone has it.
        done(unsafe { sys::trb_release(&mut self.raw) })
    }

    /// What the pass tells of itself, as of its last call. It learns nothing by this.
    ///
    /// # Errors
    ///
    /// The library refuses only a pass that has ended, and this one has not.
    pub fn facts(&mut self) -> Result<Facts, Error> {
        let mut facts = Facts::default();
        // SAFETY: the pass is borrowed mutably, so this call alone has it, and the place of the answer is a local variable.
        done(unsafe { sys::trb_facts(&mut self.raw, &mut facts) })?;
        Ok(facts)
    }

    /// What the pass keeps and has looked at. It learns nothing by this.
    ///
    /// # Errors
    ///
    /// The library refuses only a pass that has ended, and this one has not.
    pub fn costs(&mut self) -> Result<Costs, Error> {
        let mut costs = Costs::default();
        // SAFETY: the pass is borrowed mutably, so this call alone has it, and the place of the answer is a local variable.
        done(unsafe { sys::trb_costs(&mut self.raw, &mut costs) })?;
        Ok(costs)
    }

    /// Whether the room is used up and the pass knows every change. Then no pass of the store will ever know another one. It learns nothing
    /// by this: let it [`meet`](Pass::meet) the others before. Of a chain, whether the pass was refused a next generation, or place for an
    /// object, in the generation in which it sits.
    ///
    /// # Errors
    ///
    /// The library refuses only a pass that has ended, and this one has not.
    pub fn is_full(&mut self) -> Result<bool, Error> {
        let mut is_full = false;
        // SAFETY: the pass is borrowed mutably, so this call alone has it, and the place of the answer is a local variable.
        done(unsafe { sys::trb_is_full(&mut self.raw, &mut is_full) })?;
        Ok(is_full)
    }

    /// Opens the successor of the store, and hands out its passes: a store of its own that begins with this one as it is at a moment of the
    /// call. This pass looks for news first, as in each call. Room and passes are as of [`Store::open`].
    ///
    /// Every object goes over, whoever made it, with its number, and [`inherited`](Pass::inherited) gives its handle there. A freed number stays
    /// freed, and the next object is given the next number, so none is given anew. The history begins with the calls that make these objects,
    /// one or two for each number that was ever given, and has the room beside them. The new passes know them, and share what is evaluated of
    /// them. No object has a status, and nothing is settled. This store stays as it is, and ends with its last pass; objects are shared until
    /// one of the two changes one.
    ///
    /// Where the room is used up, as it is after [`Error::OrderFull`], nothing is lost. Called earlier it makes a store beside this one: what is
    /// changed here later is not there. Of some objects alone [`branch`](Pass::branch) makes one.
    ///
    /// # Errors
    ///
    /// - [`Error::InvalidValue`]: as of [`Store::open`]; or the pass is of a chain, which goes on by itself.
    /// - [`Error::RoomTooSmall`]: no store has room for the calls that make the objects, and for `room` more.
    /// - [`Error::OutOfMemory`]: memory was refused.
    /// - [`Error::Panic`]: the record of a call was not shown. Ask again.
    ///
    /// ```no_run
    /// # use trowelheath::{Error, Matrix, Pass};
    /// # fn go_on(mut passes: Vec<Pass>, graph: Matrix<u64>) -> Result<(), Error> {
    /// let next = passes[0].succeed(4096, 8)?;
    /// let graph = next[0].inherited(graph)?;
    /// # Ok(())
    /// # }
    /// ```
    pub fn succeed(&mut self, room: u32, passes: usize) -> Result<Vec<Pass>, Error> {
        let before = Some(Before::all(self.store));
        Store::open_by(room, passes, before, |number, opened| {
            let mut needed = 0;
            // SAFETY: the pass is borrowed mutably, so this call alone has it; each item of the slice is none yet, and the slice goes with
            // its own length; the place of the count is a local variable. No open store has the number.
            let status = unsafe {
                sys::trb_succeed(
                    number,
                    room,
                    &mut self.raw,
                    &mut needed,
                    opened.as_mut_ptr(),
                    opened.len(),
                )
            };
            done(status).map_err(|refusal| refusal.of_room(needed))
        })
    }

    /// Opens a branch, and hands out its passes: a store of its own that begins with these objects, all of them as they are at one moment of
    /// the call. This pass looks for news first, as in each call. Passes are as of [`Store::open`]. `room` is how many calls that change it the
    /// branch takes; those that make its objects take none of it.
    ///
    /// [`inherited`](Pass::inherited) gives the handle of an object there. An object that was freed is not there. What is made or changed in
    /// either store is not seen in the other, and a branch's objects take no room here: so an analysis of many calls reads one moment, and
    /// [`build_from`](Pass::build_from) brings a result back by one call. Objects are shared until one of the two stores changes one; no entry
    /// is copied, and of this store only what was chosen is evaluated.
    ///
    /// # Errors
    ///
    /// - [`Error::ForeignObject`]: an object is of another store.
    /// - [`Error::InvalidValue`]: as of [`Store::open`].
    /// - [`Error::RoomTooSmall`]: no store has room for the calls that make the objects, and for `room` more.
    /// - [`Error::OutOfMemory`]: memory was refused.
    /// - [`Error::Panic`]: the record of a call was not shown. Ask again.
    pub fn branch(
        &mut self,
        chosen: &Chosen,
        room: u32,
        passes: usize,
    ) -> Result<Vec<Pass>, Error> {
        chosen.check(self.store)?;
        let before = Some(Before::some(self.store, chosen));
        let (matrices, vectors) = (chosen.matrices(), chosen.vectors());
        Store::open_by(room, passes, before, |number, opened| {
            let mut needed = 0;
            // SAFETY: the pass is borrowed mutably, so this call alone has it; each item of the slice is none yet, and each slice goes with its
            // own length; the place of the count is a local variable. No open store has the number.
            let status = unsafe {
                sys::trb_branch(
                    number,
                    room,
                    &mut self.raw,
                    matrices.as_ptr(),
                    matrices.len(),
                    vectors.as_ptr(),
                    vectors.len(),
                    &mut needed,
                    opened.as_mut_ptr(),
                    opened.len(),
                )
            };
            done(status).map_err(|refusal| refusal.of_room(needed))
        })
    }

    /// The handle of what an object became in this store, which is the successor of the object's store, or a branch of it. An object that
    /// was made there after a successor was opened became none: its handle is that of another object, or of none.
    ///
    /// # Errors
    ///
    /// - [`Error::ForeignObject`]: this store was not opened by a pass of the object's store, or is a branch that did not begin with the object.
    pub fn inherited<O: Object>(&self, object: O) -> Result<O, Error> {
        let number = self
            .before
            .as_ref()
            .and_then(|before| before.number_of(object));
        match number {
            Some(number) => Ok(O::of(self.store, number)),
            None => Err(Error::ForeignObject),
        }
    }
}
