//! Why a call is refused.

use core::error::Error;
use core::fmt;

/// Declares [`Refusal`] with its numbers and texts.
macro_rules! refusals {
    ($($(#[$says:meta])* $value:ident = $number:literal => $text:literal,)+) => {
        /// Why a call is refused (rule 2). A refused call changes nothing.
        ///
        /// Further refusals may be added, each with a number of its own.
        ///
        /// ```
        /// use powerlink_cn::{Node, Refusal, Setup};
        ///
        /// let refusal = Node::start(&Setup::new(241), &[]).unwrap_err();
        /// assert_eq!(refusal, Refusal::NodeNumber);
        /// assert_eq!(refusal.number(), 1);
        /// assert_eq!(
        ///     refusal.to_string(),
        ///     "the node's number is not 1 to 240, 253, 254 or 255",
        /// );
        /// ```
        #[derive(Debug, Clone, Copy, PartialEq, Eq, Hash)]
        #[non_exhaustive]
        pub enum Refusal {
            $($(#[$says])* $value,)+
            /// A number that this crate does not know: the archive is of another version.
            Other(
                /// The number.
                u32,
            ),
        }

        impl Refusal {
            /// All that this crate knows, by their numbers from 1.
            pub const ALL: &[Self] = &[$(Self::$value),+];

            /// Its number in the library.
            pub const fn number(self) -> u32 {
                match self {
                    $(Self::$value => $number,)+
                    Self::Other(number) => number,
                }
            }

            /// The refusal of a number that is not 0.
            const fn of(number: u32) -> Self {
                match number {
                    $($number => Self::$value,)+
                    other => Self::Other(other),
                }
            }

            /// Why the call is refused, as a text without a full stop.
            pub const fn text(self) -> &'static str {
                match self {
                    $(Self::$value => $text,)+
                    Self::Other(_) => "the refusal is none that this version knows",
                }
            }
        }
    };
}

refusals! {
    /// A node's number is not 1 to 240, 253, 254 or 255.
    NodeNumber = 1 => "the node's number is not 1 to 240, 253, 254 or 255",
    /// The emergency queue is to hold more than 32 entries.
    QueueCapacity = 2 => "the emergency queue is to hold more than 32 entries",
    /// The run of watched nodes is not well formed (rule 8.2).
    WatchedNodes = 3 => "the run of watched nodes is not well formed",
    /// A number names no NMT state, NMT event, command, DLL event or kind of error.
    UnknownNumber = 4 =>
        "the number names no NMT state, NMT event, command, DLL event or kind of error",
    /// A time is above 2^62 − 1 µs.
    TimeLimit = 5 => "the time is above 2^62 - 1 microseconds",
    /// The time is before a watched node was last heard.
    BeforeHeard = 6 => "the time is before a watched node was last heard",
    /// The node is not watched.
    NotWatched = 7 => "the node is not watched",
    /// The ready word can't be withdrawn at ReadyToOperate.
    ReadyToOperate = 8 => "the ready word can't be withdrawn at ReadyToOperate",
    /// 32 nodes are watched already.
    AllWatched = 9 => "32 nodes are watched already",
    /// The node is watched already.
    AlreadyWatched = 10 => "the node is watched already",
    /// Fewer than 20 bytes are left from the place on.
    BufferTooShort = 11 => "fewer than 20 bytes are left from the place on",
    /// The profile of an entry is above 4095.
    ProfileLimit = 12 => "the profile of the entry is above 4095",
    /// An error code names no single kind.
    NoSingleKind = 13 => "the error code names no single kind",
    /// A threshold is above 1,000,000.
    ThresholdLimit = 14 => "a threshold is above 1,000,000",
    /// A recipe is outside its limits (rule 12.1).
    RecipeLimits = 15 => "the recipe is outside its limits",
    /// A recipe is loaded in PreOperational2 alone.
    NotPreOperational2 = 16 => "a recipe is loaded in PreOperational2 alone",
    /// No weight is told for the place now.
    NoWeight = 17 => "no weight is told for the place now",
    /// A frame has fewer bytes than its kind needs (rule 13.2).
    FrameTooShort = 18 => "the frame is too short",
    /// A frame's EtherType is not 0x88AB.
    OtherEtherType = 19 => "the frame's EtherType is not POWERLINK's",
    /// A frame's message type is none of SoC, PReq, PRes, SoA and ASnd.
    OtherMessageType = 20 => "the frame's message type is unknown",
    /// The earliest reading of a clock is after the latest.
    EarliestAfterLatest = 21 => "the earliest reading is after the latest",
}

impl fmt::Display for Refusal {
    fn fmt(&self, f: &mut fmt::Formatter<'_>) -> fmt::Result {
        f.pad(self.text())
    }
}

impl Error for Refusal {}

/// What a function of the library answers: 0, or the number of a refusal.
pub(crate) fn taken(number: u32) -> Result<(), Refusal> {
    match number {
        0 => Ok(()),
        number => Err(Refusal::of(number)),
    }
}

/// Of a call that the library refuses with no argument that it can get here.
pub(crate) fn never_refused(number: u32) {
    debug_assert_eq!(
        number, 0,
        "a call was refused that never is: the archive is of another version"
    );
}
