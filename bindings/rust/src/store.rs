//! Stores: opening one, and which store a pass or an object is of.

use crate::chosen::Before;
use crate::error::{done, Error};
use crate::pass::Pass;
use crate::sys::{self, TrbPass};
use std::sync::atomic::{AtomicU64, Ordering};
use std::sync::Arc;

/// Which store a pass or an object is of.
///
/// [`Store::open`] opens a store and hands out its passes, through which all else is done. The store's memory is given back with the last of
/// them. This value is no more than its name: two are equal where they name one store, also when it is gone.
///
/// # Limits
///
/// A store is opened with its room, the number of calls that may change it in its whole life, and with all its passes. Choose the room for
/// the whole life of the store, since it does not grow; [`Pass::succeed`] opens a store that goes on from there, and a
/// [`Chain`](crate::Chain) goes on by itself. Reads take no room. Each
/// pass reserves some 200 bytes for each call that there is room for; these are addresses at first, and memory is used when calls come.
///
/// # Other languages in the process
///
/// Code in other languages may open stores in the same process. The library tells open stores apart by a number of the opener. This crate
/// gives it the address of a byte that it keeps as long as the store is open. So no other opener has that number that does the same, as
/// those for C and Python do.
#[derive(Clone, Copy, Debug, PartialEq, Eq, Hash)]
pub struct Store {
    number: u64,
}

/// The number of the next store that is opened. No number is given twice.
static NEXT: AtomicU64 = AtomicU64::new(0);

/// Whether the library that was linked is proved. Of one that was built before any proof, as by `bindings/library.sh --unproved`, nothing
/// is claimed.
pub fn is_proved() -> bool {
    // SAFETY: the function takes nothing and answers a truth value.
    unsafe { sys::trb_is_proved() }
}

impl Store {
    /// The largest room of a store; the smallest is 1.
    pub const MOST_ROOM: u32 = 65_536;

    /// The most passes of a store; the fewest are 1.
    pub const MOST_PASSES: usize = 256;

    /// The most that the room times the number of passes may be.
    pub const MOST_SEATS: u32 = 1_048_576;

    /// Opens a store with room for so many changes, and hands out its passes. The one at index k has the number k.
    ///
    /// # Errors
    ///
    /// - [`Error::InvalidValue`]: the room is not from 1 to [`Store::MOST_ROOM`], the passes are not from 1 to [`Store::MOST_PASSES`], or one times
    ///   the other is above [`Store::MOST_SEATS`].
    /// - [`Error::OtherVersion`]: the library that was linked is not of this crate's version.
    /// - [`Error::OutOfMemory`]: memory was refused.
    ///
    /// ```no_run
    /// # use trowelheath::{Error, Store};
    /// # fn main() -> Result<(), Error> {
    /// let passes = Store::open(4096, 8)?;
    /// assert_eq!(passes.len(), 8);
    /// # Ok(())
    /// # }
    /// ```
    pub fn open(room: u32, passes: usize) -> Result<Vec<Pass>, Error> {
        Store::open_by(room, passes, None, |number, opened| {
            // SAFETY: each item of the slice is none yet, and the slice goes with its own length. No open store has the number.
            done(unsafe { sys::trb_open(number, room, opened.as_mut_ptr(), opened.len()) })
        })
    }

    /// Has a store opened, which goes on from `before`, and hands its passes out. What opens it is given a number that no other open
    /// store has, and a place for each pass, which is none yet.
    pub(crate) fn open_by(
        room: u32,
        passes: usize,
        before: Option<Before>,
        opening: impl FnOnce(u64, &mut [TrbPass]) -> Result<(), Error>,
    ) -> Result<Vec<Pass>, Error> {
        if !is_within_limits(room, passes) {
            return Err(Error::InvalidValue);
        }
        // SAFETY: the function takes nothing and answers a number.
        let library = unsafe { sys::trb_version() };
        if library != sys::VERSION {
            return Err(Error::OtherVersion { library });
        }
        let store = Store {
            number: NEXT.fetch_add(1, Ordering::Relaxed),
        };
        // The byte is kept by the passes. While one of them lives, no other byte has its address. A counted number would be free to be the
        // address of another opener, or the count of another version of this crate in the process. The number in `store` is not given
        // to the library: it has to differ from those of stores that are gone too, whose addresses may come again.
        let byte: Arc<u8> = Arc::new(0);
        let address = Arc::as_ptr(&byte) as usize as u64;
        let mut opened: Vec<TrbPass> = (0..passes).map(|_| TrbPass::none()).collect();
        let answer = opening(address, &mut opened);
        // Where the opening was refused, this ends the passes that were handed out before.
        let passes = opened
            .into_iter()
            .map(|pass| Pass::of(pass, store, before.clone(), Arc::clone(&byte)))
            .collect();
        answer.map(|()| passes)
    }

    /// Opens a store as [`Store::open`] does, and hands its passes out in an array.
    ///
    /// # Errors
    ///
    /// As of [`Store::open`].
    ///
    /// ```no_run
    /// # use trowelheath::{Error, Store};
    /// # fn main() -> Result<(), Error> {
    /// let [mut loading, mut serving] = Store::open_array(4096)?;
    /// # Ok(())
    /// # }
    /// ```
    pub fn open_array<const PASSES: usize>(room: u32) -> Result<[Pass; PASSES], Error> {
        let passes = Store::open(room, PASSES)?;
        Ok(passes
            .try_into()
            .expect("there are as many passes as were asked for"))
    }
}

/// Whether a store may be opened so.
fn is_within_limits(room: u32, passes: usize) -> bool {
    (1..=Store::MOST_ROOM).contains(&room)
        && (1..=Store::MOST_PASSES).contains(&passes)
        && room as usize * passes <= Store::MOST_SEATS as usize
}
