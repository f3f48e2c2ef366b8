//! Why a call is refused.
use std::ffi::CStr;
use std::fmt;
use std::os::raw::c_int;

use crate::ffi;

macro_rules! statuses {
    ($($(#[$doc:meta])* $name:ident = $number:literal,)*) => {
        /// Why a call is refused. A refused call has changed nothing, unless its description says
        /// otherwise. [`Error::status`] gives the number that C has for it.
        #[derive(Clone, Copy, Debug, PartialEq, Eq, Hash)]
        #[non_exhaustive]
        pub enum Error {
            $($(#[$doc])* $name,)*
            /// The bytes of the page are in use: it has a [`PinMut`](crate::PinMut), or a
            /// [`Pin`](crate::Pin) and a `PinMut` is wanted. Nothing waits for it longer than
            /// [`Options::latch_wait`](crate::Options::latch_wait) says.
            Latched,
            /// A device of the replica is in a call of this thread: such a call may use no handle
            /// of its own replica.
            InDevice,
            /// The thread has less stack left than a call needs: 132 KiB.
            SmallStack,
            /// A status that this crate does not know.
            Unknown(i32),
        }

        impl Error {
            /// The number of the status in warm.h; none if the crate refused the call itself.
            pub fn status(self) -> Option<i32> {
                match self {
                    $(Error::$name => Some($number),)*
                    Error::Unknown(number) => Some(number),
                    Error::Latched | Error::InDevice | Error::SmallStack => None,
                }
            }

            pub(crate) fn of(status: c_int) -> Error {
                match status {
                    $($number => Error::$name,)*
                    other => Error::Unknown(other),
                }
            }

            /// The names of all that have a number.
            #[cfg(test)]
            pub(crate) const NAMES: &'static [&'static str] = &[$(stringify!($name)),*];
        }
    };
}

statuses! {
    /// An allocation failed.
    Memory = 1,
    /// A shard has 1 to 65,536 frames.
    BadFrames = 2,
    /// A page has 1 to 65,536 bytes.
    BadPageSize = 3,
    /// There is no such device.
    NoDevice = 4,
    /// The device has fewer pages.
    NoPage = 5,
    /// Each frame of the shard has a pinned page.
    AllPinned = 6,
    /// The page could not be read.
    ReadFault = 7,
    /// The page to evict could not be written.
    EvictFault = 8,
    /// The page has 2^32 - 1 pins.
    PinsFull = 9,
    /// The bytes reach beyond the page.
    OutOfPage = 10,
    /// A page that is to leave its frame is pinned.
    Pinned = 11,
    /// A page could not be written, or a device not flushed.
    WriteFault = 12,
    /// The slot has no pinned page.
    StaleSlot = 13,
    /// A message ends too early.
    Truncated = 34,
    /// The first bytes are no message's.
    BadMagic = 35,
    /// The message is of no kind.
    BadKind = 36,
    /// The sender of the message is no replica.
    BadSender = 37,
    /// The length of the message is not that of its content.
    BadLength = 38,
    /// The message has too many entries.
    BadCount = 39,
    /// An entry begins with no tag.
    BadTag = 40,
    /// An entry has a stamp of no replica, or two in the wrong order.
    BadStamp = 41,
    /// The entries are not in the order of their pages.
    BadOrder = 42,
    /// The handle is closed.
    Closed = 64,
    /// The handle is open already.
    AlreadyOpen = 65,
    /// The message does not fit.
    BufferTooSmall = 66,
    /// A replica is 1 to 64.
    BadReplica = 67,
    /// A bucket is 0 to 63.
    BadBucket = 68,
    /// Two devices have one file.
    SameFile = 69,
    /// The horizon of the message is later than a limit.
    LateHorizon = 70,
    /// A stamp of the message is later than the limit.
    LateStamp = 71,
    /// A replica has 1, 2, 4, 8, 16, 32 or 64 shards.
    BadShards = 72,
    /// The frames do not divide by the shards.
    UnevenFrames = 73,
    /// Other handles are attached.
    Attached = 74,
    /// The handle has pins, or the replica.
    PinsLeft = 75,
    /// There is no such shard.
    NoShard = 76,
    /// The dump ends too early.
    CutShort = 77,
    /// The digests of the dump are not those of its entries.
    DigestsDiffer = 78,
    /// The messages of the dump have different horizons.
    HorizonsDiffer = 79,
    /// Bytes follow the dump.
    MoreFollows = 80,
    /// The dump could not be read.
    DumpNotRead = 81,
    /// The dump could not be written.
    DumpNotWritten = 82,
    /// The file of a device is open for appending.
    Appends = 83,
    /// The message has more pages than the limit leaves room for.
    TooManyPages = 84,
    /// The library is of another version than this crate.
    BadOptions = 85,
    /// There are too many devices, or one is too large.
    BadDevice = 86,
    /// Pages are dirty, and would be lost.
    Dirty = 87,
    /// `before_write` of a device skipped pages. Nothing has failed.
    Skipped = 88,
    /// The call has waited for others as long as its handle may.
    Busy = 89,
}

/// What a call returns.
pub type Result<T> = std::result::Result<T, Error>;

/// The result of a status.
pub(crate) fn result(status: c_int) -> Result<()> {
    if status == 0 {
        Ok(())
    } else {
        Err(Error::of(status))
    }
}

impl fmt::Display for Error {
    fn fmt(&self, f: &mut fmt::Formatter<'_>) -> fmt::Result {
        match self {
            Error::Latched => f.write_str("the bytes of the page are in use"),
            Error::InDevice => f.write_str("a device of the replica is in a call of this thread"),
            Error::SmallStack => f.write_str("the thread has too little stack left"),
            other => f.write_str(&words(other.status().unwrap_or(-1))),
        }
    }
}

impl std::error::Error for Error {}

fn words(status: i32) -> std::borrow::Cow<'static, str> {
    // SAFETY: warm_strerror takes any number, and returns a text that is never freed.
    unsafe { CStr::from_ptr(ffi::warm_strerror(status)) }.to_string_lossy()
}
