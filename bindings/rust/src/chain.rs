//! Chains: stores without an end.

use crate::error::{done, found, Error};
use crate::pass::Pass;
use crate::store::Store;
use crate::sys;

/// A chain: a store without an end.
///
/// [`Chain::open`] opens one, and hands out its passes. A chain has generations, each with room for so many changes. Where the room of one
/// is used up, the next goes on by itself, with all objects: a handle means the same object for good. The pass that finds it so makes
/// the next generation, and each other one follows at its next call. All calls are made as with any [`Store`], but that a chain has no
/// successor.
///
/// A generation begins with one or two changes for each object. These, and the room beside them, are at most 4,194,304, and times the passes
/// at most 268,435,456: so a chain of up to 64 passes takes some 2,090,000 objects. Where one more could leave no room for the next
/// generation, a call that makes an object is refused by [`Error::OrderFull`], and calls that free, clear or change objects go on.
/// [`Pass::objects_left`] tells how many more there is place for.
///
/// A generation's memory is given back when the last pass has left it. So let an idle pass make a read now and then, or drop it:
/// [`Pass::seat`] has it anew.
///
/// This type has no values.
///
/// ```no_run
/// # use trowelheath::{Chain, Error};
/// # fn main() -> Result<(), Error> {
/// let [mut own, mut other] = Chain::open_array()?;
/// let v = own.new_vector::<u64>(10)?;
/// for k in 0..100_000 {
///     other.set(v, 0, k)?;
/// }
/// assert_eq!(own.get(v, 0)?, Some(99_999));
/// # Ok(())
/// # }
/// ```
pub enum Chain {}

impl Chain {
    /// Opens a chain with so many passes, and hands them out. The one at index k has the number k. Each generation has a room of 4,096, and
    /// less with more than 64 passes, so that room for objects is left.
    ///
    /// # Errors
    ///
    /// As of [`Store::open`].
    pub fn open(passes: usize) -> Result<Vec<Pass>, Error> {
        Chain::open_with(default_room(passes), passes)
    }

    /// The same with generations of so much room, from 1 to [`Store::MOST_ROOM`], and times the passes at most [`Store::MOST_SEATS`]. Each has
    /// it beside the calls that make the objects.
    ///
    /// # Errors
    ///
    /// As of [`Store::open`].
    pub fn open_with(room: u32, passes: usize) -> Result<Vec<Pass>, Error> {
        Store::open_by(room, passes, None, |number, opened| {
            // SAFETY: each item of the slice is none yet, and the slice goes with its own length. No open store has the number.
            done(unsafe { sys::trb_chain_open(number, room, opened.as_mut_ptr(), opened.len()) })
        })
    }

    /// Opens a chain as [`Chain::open`] does, and hands its passes out in an array.
    ///
    /// # Errors
    ///
    /// As of [`Store::open`].
    pub fn open_array<const PASSES: usize>() -> Result<[Pass; PASSES], Error> {
        let passes = Chain::open(PASSES)?;
        Ok(passes
            .try_into()
            .expect("there are as many passes as were asked for"))
    }
}

/// The room of each generation of a chain with so many passes, where none is given.
fn default_room(passes: usize) -> u32 {
    let quarter = Store::MOST_SEATS as usize / 4;
    (quarter / passes.clamp(1, Store::MOST_PASSES)).min(4_096) as u32
}

/// What a pass does in a chain.
impl Pass {
    /// The number of the generation of the chain in which the pass sits, from 0. It learns nothing by this.
    ///
    /// # Errors
    ///
    /// - [`Error::InvalidValue`]: the pass is of no chain.
    pub fn generation(&mut self) -> Result<u64, Error> {
        let mut generation = 0;
        // SAFETY: the pass is borrowed mutably, so this call alone has it, and the place of the answer is a local variable.
        done(unsafe { sys::trb_chain_generation(&mut self.raw, &mut generation) })?;
        Ok(generation)
    }

    /// How many more objects the chain has place for, beside all that there can be where the generation ends in which the pass sits: those
    /// that it began with or made, and one for each change that it takes yet. Where it is 0, a call that makes an object is refused by
    /// [`Error::OrderFull`]. A change that makes none raises it by one, as far as it is not 0. A new generation lowers it: what was freed
    /// counts no more, and one object for each change of its own does. The pass learns nothing by this.
    ///
    /// # Errors
    ///
    /// - [`Error::InvalidValue`]: the pass is of no chain.
    pub fn objects_left(&mut self) -> Result<u64, Error> {
        let mut left = 0;
        // SAFETY: the pass is borrowed mutably, so this call alone has it, and the place of the answer is a local variable.
        done(unsafe { sys::trb_chain_objects_left(&mut self.raw, &mut left) })?;
        Ok(left)
    }

    /// Goes to a later generation of the chain, where its own is used up and the pass knows every change of that, and makes the next one where
    /// there is none; whether it moved. It does not where others make the next one: then try again. Each call does so by itself: this is for
    /// who was answered [`Error::OrderFull`] and asks why, where [`objects_left`](Pass::objects_left) is not 0, and for who makes the next
    /// generation ahead of the call that needs it. Where it is refused, the pass sits where it sat, and may try again.
    ///
    /// # Errors
    ///
    /// - [`Error::InvalidValue`]: the pass is of no chain.
    /// - [`Error::RoomTooSmall`]: no history has the room of a generation beside the calls that make the objects. A
    ///   [`branch`](Pass::branch) with less room goes on.
    /// - [`Error::OutOfMemory`]: memory was refused.
    /// - [`Error::Panic`]: the record of a call was not taken. Ask again.
    /// - [`Error::OrderFull`]: all numbers of objects were given.
    pub fn go_on(&mut self) -> Result<bool, Error> {
        let (mut needed, mut moved) = (0, false);
        // SAFETY: the pass is borrowed mutably, so this call alone has it, and the places of the answers are local variables.
        let status = unsafe { sys::trb_chain_go_on(&mut self.raw, &mut needed, &mut moved) };
        let went = found(status, moved).map_err(|refusal| refusal.of_room(needed))?;
        Ok(went.unwrap_or(false))
    }

    /// The pass of the chain with this number anew, which was dropped: that of a thread that has ended. It sits where this pass sits, or in a
    /// later generation. None where it is not to be had: there is none of this number, or it was not dropped, or it was dropped in a generation
    /// that others have left, and they have not left the next one.
    ///
    /// # Errors
    ///
    /// - [`Error::InvalidValue`]: this pass is of no chain.
    /// - [`Error::OutOfMemory`]: memory was refused.
    pub fn seat(&mut self, number: u32) -> Result<Option<Pass>, Error> {
        let mut raw = sys::TrbPass::none();
        // SAFETY: the pass is borrowed mutably, so this call alone has it, and the place of the other is a local variable, which is none.
        let status = unsafe { sys::trb_chain_seat(&mut self.raw, number, &mut raw) };
        Ok(found(status, raw)?.map(|raw| self.beside(raw)))
    }
}
