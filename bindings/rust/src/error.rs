//! Why a call is refused, and the status of an object.

use std::fmt;

/// Why a call did nothing. A refused call stands nowhere in the history, and no value has changed.
///
/// Where several of the first seven apply, the first of them in this order is answered. They depend on the call and the store alone, so the
/// same call is refused again until somebody changes the store.
///
/// [`ForeignObject`](Error::ForeignObject) and [`ForeignPass`](Error::ForeignPass) are told before all others, and before the library is asked.
#[derive(Clone, Copy, Debug, PartialEq, Eq, Hash)]
#[non_exhaustive]
pub enum Error {
    /// An object of the call, its mask too, was freed (`GrB_UNINITIALIZED_OBJECT`).
    UninitializedObject,
    /// A dimension is not from 1 to 4,294,967,295, or a diagonal lies farther than that from the main one; a
    /// [`Descriptor`](crate::Descriptor) transposes what is no matrix; the lists of a build are not of one length; an opening asks for more
    /// than the [limits](crate::Store) of a store, or for none; or a pass of a chain is asked for a successor, one of another store for its
    /// generation (`GrB_INVALID_VALUE`).
    InvalidValue,
    /// An index of a set, remove or get is not below the dimension (`GrB_INVALID_INDEX`).
    InvalidIndex,
    /// Truth values and numbers are mixed (`GrB_DOMAIN_MISMATCH`). The types of this crate leave no way to do so.
    DomainMismatch,
    /// The dimensions of output, inputs and mask do not fit together (`GrB_DIMENSION_MISMATCH`).
    DimensionMismatch,
    /// A build found an entry in its object (`GrB_OUTPUT_NOT_EMPTY`).
    OutputNotEmpty,
    /// An index in the list of a build is not below the dimension; nothing of the list was stored (`GrB_INDEX_OUT_OF_BOUNDS`).
    IndexOutOfBounds,
    /// The room of the store is used up, and the call was refused for nothing else. Reads go on. A chain refuses a call so where it has no
    /// next generation: [`Pass::go_on`](crate::Pass::go_on) tells why; or the call makes an object, and
    /// [`Pass::objects_left`](crate::Pass::objects_left) tells that there is no place for one more.
    OrderFull,
    /// Memory was refused (`GrB_OUT_OF_MEMORY`).
    OutOfMemory,
    /// The record of a call was not taken or not shown (`GrB_PANIC`).
    Panic,
    /// Arrays are too short for the entries of an object (`GrB_INSUFFICIENT_SPACE`). [`Pass::entries`](crate::Pass::entries) makes longer ones, so
    /// it does not answer this.
    InsufficientSpace,
    /// No store has so much room beside the calls that make the objects (`GrB_INSUFFICIENT_SPACE`): of a successor, a branch, or a chain's next
    /// generation.
    RoomTooSmall {
        /// How many calls make the objects.
        needed: u64,
    },
    /// An object of the call, its mask too, is of another store than the pass. It would be taken for the object of the same number.
    ForeignObject,
    /// The two passes that should meet are of two stores.
    ForeignPass,
    /// The library is of another version than this crate. No store is opened.
    OtherVersion {
        /// Its version: 10,000 times the first of three parts, 100 times the second, and the third.
        library: u32,
    },
    /// The library answered a status that this crate does not know: the two are not of one version.
    Unknown(i32),
}

impl Error {
    /// The refusal of a status that is not success.
    pub(crate) fn of(status: i32) -> Error {
        match status {
            -1 => Error::UninitializedObject,
            -3 => Error::InvalidValue,
            -4 => Error::InvalidIndex,
            -5 => Error::DomainMismatch,
            -6 => Error::DimensionMismatch,
            -7 => Error::OutputNotEmpty,
            -101 => Error::Panic,
            -102 => Error::OutOfMemory,
            -103 => Error::InsufficientSpace,
            -105 => Error::IndexOutOfBounds,
            -1001 => Error::OrderFull,
            other => Error::Unknown(other),
        }
    }

    /// The refusal of an opening or of a move: a room that is too small beside so many calls is told as such.
    pub(crate) fn of_room(self, needed: u64) -> Error {
        match self {
            Error::InsufficientSpace => Error::RoomTooSmall { needed },
            other => other,
        }
    }

    /// Its status in the C interface, a number of `GrB_Info` but for `OrderFull`; `None` where this crate refused the call itself.
    pub fn status(self) -> Option<i32> {
        match self {
            Error::UninitializedObject => Some(-1),
            Error::InvalidValue => Some(-3),
            Error::InvalidIndex => Some(-4),
            Error::DomainMismatch => Some(-5),
            Error::DimensionMismatch => Some(-6),
            Error::OutputNotEmpty => Some(-7),
            Error::Panic => Some(-101),
            Error::OutOfMemory => Some(-102),
            Error::InsufficientSpace | Error::RoomTooSmall { .. } => Some(-103),
            Error::IndexOutOfBounds => Some(-105),
            Error::OrderFull => Some(-1001),
            Error::Unknown(status) => Some(status),
            Error::ForeignObject | Error::ForeignPass | Error::OtherVersion { .. } => None,
        }
    }

    /// Its name: that of the standard, or our own.
    pub fn name(self) -> &'static str {
        match self {
            Error::UninitializedObject => "GrB_UNINITIALIZED_OBJECT",
            Error::InvalidValue => "GrB_INVALID_VALUE",
            Error::InvalidIndex => "GrB_INVALID_INDEX",
            Error::DomainMismatch => "GrB_DOMAIN_MISMATCH",
            Error::DimensionMismatch => "GrB_DIMENSION_MISMATCH",
            Error::OutputNotEmpty => "GrB_OUTPUT_NOT_EMPTY",
            Error::IndexOutOfBounds => "GrB_INDEX_OUT_OF_BOUNDS",
            Error::OrderFull => "OrderFull",
            Error::OutOfMemory => "GrB_OUT_OF_MEMORY",
            Error::Panic => "GrB_PANIC",
            Error::InsufficientSpace | Error::RoomTooSmall { .. } => "GrB_INSUFFICIENT_SPACE",
            Error::ForeignObject => "ForeignObject",
            Error::ForeignPass => "ForeignPass",
            Error::OtherVersion { .. } => "OtherVersion",
            Error::Unknown(_) => "Unknown",
        }
    }

    /// What to do about it, in one sentence for a person.
    pub fn hint(self) -> &'static str {
        match self {
            Error::UninitializedObject => "Use an object that was made and not freed.",
            Error::InvalidValue => {
                "Give dimensions from 1 to 4,294,967,295, lists of one length, and room and passes within the limits."
            }
            Error::InvalidIndex => "Give an index below the dimension; the first is 0.",
            Error::DomainMismatch => "Give values, objects and operators of one domain.",
            Error::DimensionMismatch => "Give objects whose dimensions fit together.",
            Error::OutputNotEmpty => "Clear the object, or build a new one.",
            Error::IndexOutOfBounds => "Give a list whose indices are below the dimensions.",
            Error::OrderFull => {
                "A store with a room: open its successor. A chain: free objects, where objects_left is 0; else ask go_on. Reads go on."
            }
            Error::OutOfMemory => "Nothing has changed: free memory, and make the call again.",
            Error::Panic => "The call did nothing: make it again.",
            Error::InsufficientSpace => "Give arrays with a place for each entry.",
            Error::RoomTooSmall { .. } => "Give less room, or begin with fewer objects: no store has it beside the calls that make them.",
            Error::ForeignObject => "Give objects of the store that the pass is of.",
            Error::ForeignPass => "Give two passes of one store.",
            Error::OtherVersion { .. } | Error::Unknown(_) => {
                "Link the library of this crate's version."
            }
        }
    }
}

/// The name, and the hint after it.
impl fmt::Display for Error {
    fn fmt(&self, f: &mut fmt::Formatter<'_>) -> fmt::Result {
        match self {
            Error::Unknown(status) => write!(f, "{} ({status}): {}", self.name(), self.hint()),
            Error::OtherVersion { library } => {
                let (major, minor, patch) = (library / 10000, library / 100 % 100, library % 100);
                write!(
                    f,
                    "{}: {} It has {major}.{minor}.{patch}.",
                    self.name(),
                    self.hint()
                )
            }
            Error::RoomTooSmall { needed } => {
                write!(f, "{}: {} They are {needed}.", self.name(), self.hint())
            }
            _ => write!(f, "{}: {}", self.name(), self.hint()),
        }
    }
}

impl std::error::Error for Error {}

/// The status that a pass's last call on an object left.
#[derive(Clone, Copy, Debug, PartialEq, Eq, Hash)]
pub enum Info {
    /// The call was answered, with a value where it asked for one.
    Success,
    /// The call asked for an entry that is not stored.
    NoValue,
    /// The call was refused.
    Refused(Error),
}

/// The status of a call that was answered.
pub(crate) const SUCCESS: i32 = 0;

/// The status of a call that asked for what is not there.
pub(crate) const NO_VALUE: i32 = 1;

/// The status of a read of all entries into arrays that are too short.
pub(crate) const INSUFFICIENT_SPACE: i32 = -103;

/// What the status of a call says that is answered or refused.
pub(crate) fn done(status: i32) -> Result<(), Error> {
    match status {
        SUCCESS => Ok(()),
        refused => Err(Error::of(refused)),
    }
}

/// What the status of a call says that asks for what may not be there.
pub(crate) fn found<T>(status: i32, value: T) -> Result<Option<T>, Error> {
    match status {
        SUCCESS => Ok(Some(value)),
        NO_VALUE => Ok(None),
        refused => Err(Error::of(refused)),
    }
}

/// The status of an object, of its number.
pub(crate) fn info_of(status: i32) -> Info {
    match status {
        SUCCESS => Info::Success,
        NO_VALUE => Info::NoValue,
        refused => Info::Refused(Error::of(refused)),
    }
}

#[cfg(test)]
mod tests {
    use super::{done, found, info_of, Error, Info};

    /// The refusals of the library, each with its status and its name.
    const REFUSALS: [(Error, i32, &str); 11] = [
        (Error::UninitializedObject, -1, "GrB_UNINITIALIZED_OBJECT"),
        (Error::InvalidValue, -3, "GrB_INVALID_VALUE"),
        (Error::InvalidIndex, -4, "GrB_INVALID_INDEX"),
        (Error::DomainMismatch, -5, "GrB_DOMAIN_MISMATCH"),
        (Error::DimensionMismatch, -6, "GrB_DIMENSION_MISMATCH"),
        (Error::OutputNotEmpty, -7, "GrB_OUTPUT_NOT_EMPTY"),
        (Error::Panic, -101, "GrB_PANIC"),
        (Error::OutOfMemory, -102, "GrB_OUT_OF_MEMORY"),
        (Error::InsufficientSpace, -103, "GrB_INSUFFICIENT_SPACE"),
        (Error::IndexOutOfBounds, -105, "GrB_INDEX_OUT_OF_BOUNDS"),
        (Error::OrderFull, -1001, "OrderFull"),
    ];

    #[test]
    fn each_status_is_one_refusal() {
        for (refusal, status, name) in REFUSALS {
            assert_eq!(Error::of(status), refusal);
            assert_eq!(refusal.status(), Some(status));
            assert_eq!(refusal.name(), name);
            assert_eq!(refusal.to_string(), format!("{name}: {}", refusal.hint()));
            assert_eq!(done(status), Err(refusal));
            assert_eq!(found(status, 7), Err(refusal));
            assert_eq!(info_of(status), Info::Refused(refusal));
        }
    }

    #[test]
    fn success_and_no_value_are_no_refusals() {
        assert_eq!(done(0), Ok(()));
        assert_eq!(found(0, 7), Ok(Some(7)));
        assert_eq!(found(1, 7), Ok(None));
        assert_eq!(info_of(0), Info::Success);
        assert_eq!(info_of(1), Info::NoValue);
    }

    #[test]
    fn a_room_that_is_too_small_is_told_with_what_is_needed() {
        let refusal = Error::of(-103).of_room(7);
        assert_eq!(refusal, Error::RoomTooSmall { needed: 7 });
        assert_eq!(refusal.status(), Some(-103));
        assert!(refusal.to_string().ends_with("They are 7."), "{refusal}");
        assert_eq!(Error::OutOfMemory.of_room(7), Error::OutOfMemory);
    }

    #[test]
    fn what_the_library_does_not_say_has_no_status() {
        assert_eq!(Error::ForeignObject.status(), None);
        assert_eq!(Error::ForeignPass.status(), None);
        assert_eq!(Error::of(-2), Error::Unknown(-2));
        assert!(Error::Unknown(-2).to_string().starts_with("Unknown (-2): "));
        let other = Error::OtherVersion { library: 20103 };
        assert_eq!(other.status(), None);
        assert_eq!(
            other.to_string(),
            "OtherVersion: Link the library of this crate's version. It has 2.1.3."
        );
    }
}
