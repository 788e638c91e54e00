//! Why a call is refused.

use std::error::Error;
use std::fmt;

macro_rules! refusals {
    ($($(#[$about:meta])* $name:ident = $number:literal,)*) => {
        /// Why a call is refused: by the library, or by the daemon in a session. A call that is refused has changed nothing, but for
        /// what is said at [`Client::map`](crate::Client::map) and [`Domain::close_one`](crate::Domain::close_one).
        #[derive(Clone, Copy, Debug, PartialEq, Eq, Hash)]
        #[non_exhaustive]
        pub enum Refusal {
            $($(#[$about])* $name,)*
            /// A refusal of a later library or daemon: its number.
            Other(u64),
        }

        impl Refusal {
            /// The refusal with this number of `enum iova_refusal`; 0 is none.
            pub const fn of(number: u64) -> Option<Refusal> {
                match number {
                    0 => None,
                    $($number => Some(Refusal::$name),)*
                    _ => Some(Refusal::Other(number)),
                }
            }

            /// Its number, as the library and the daemon have it.
            pub const fn number(self) -> u64 {
                match self {
                    $(Refusal::$name => $number,)*
                    Refusal::Other(number) => number,
                }
            }

            /// Its name as `iovad` prints it, one word; empty for one of a later library.
            pub const fn name(self) -> &'static str {
                match self {
                    $(Refusal::$name => stringify!($name),)*
                    Refusal::Other(_) => "",
                }
            }
        }
    };
}

refusals! {
    /// No frame was asked for.
    Zero = 1,
    /// More than 1,048,576 frames (4 GiB of 4,096 bytes) were asked for.
    TooBig = 2,
    /// The worker has no such client.
    NoClient = 3,
    /// The client is closing.
    Closing = 4,
    /// The client has 4,096 holdings.
    HoldingsFull = 5,
    /// Nothing fits, with all caches emptied.
    NoSpace = 6,
    /// The worker's ring has 255 ranges that no flush has covered: flush, and try again.
    RingFull = 7,
    /// No holding of the client begins there.
    NotHeld = 8,
    /// The window meets a frame that is a client's, cached or in a ring.
    Taken = 9,
    /// The window or the bounds are out of order or out of range.
    BadWindow = 10,
    /// There would be more than 64 windows.
    WindowsFull = 11,
    /// There is no such worker, or the number of workers isn't 1 to 16.
    NoWorker = 12,
    /// 32 flushes are in flight.
    FlightsFull = 13,
    /// No flush of that number is in flight.
    NoFlight = 14,
    /// The numbers of clients or flushes are used up, after 2^63 - 1 of them.
    Worn = 15,
    /// There are 1,024 clients.
    ClientsFull = 16,
    /// There was no memory.
    NoMemory = 17,
    /// Of sessions: the sink failed.
    SinkFault = 18,
    /// Of sessions: the link failed.
    LinkFault = 19,
    /// Of sessions: not a line of the protocol.
    BadLine = 20,
    /// Of sessions: a limit was passed.
    TooMany = 21,
    /// Of sessions: not a line of a trace.
    BadTrace = 22,
    /// There is no such domain.
    NoDomain = 23,
    /// Of sessions: a second hello.
    Twice = 24,
    /// A depot of more than 32, bytes that are no granule, or single address cycles with another granule than 4,096.
    BadProfile = 25,
    /// The library doesn't serve a program that was built for this version of the crate.
    OtherVersion = 200,
    /// Of caches: there is none in the room.
    NoCache = 201,
    /// Of caches: not a length of magazines, which have ranges of 1, 2, 4, 8, 16 and 32 frames.
    NoOrder = 202,
    /// Of caches: the magazine of that length is empty.
    Dry = 203,
    /// Of caches: they have ranges, and the newest has a frame above the limit.
    Miss = 204,
    /// Of caches: the magazine of that length is full.
    Full = 205,
}

impl fmt::Display for Refusal {
    fn fmt(&self, f: &mut fmt::Formatter<'_>) -> fmt::Result {
        match self {
            Refusal::Other(number) => write!(f, "refusal {number}"),
            _ => f.write_str(self.name()),
        }
    }
}

impl Error for Refusal {}

/// The value, or the refusal with this number.
#[inline(always)]
pub(crate) fn told<T>(refused: u64, value: T) -> Result<T, Refusal> {
    match Refusal::of(refused) {
        None => Ok(value),
        Some(refusal) => Err(refusal),
    }
}

/// The refusal with this number, which isn't 0.
#[cold]
pub(crate) fn refusal(number: u64) -> Refusal {
    Refusal::of(number).unwrap_or(Refusal::Other(number))
}
