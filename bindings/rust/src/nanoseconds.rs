//! Times that a call takes.

use core::time::Duration;

/// A time in nanoseconds, of a number of these or of a [`Duration`]; one beyond 64 bits is beyond the limits of every call.
#[derive(Clone, Copy, PartialEq, Eq, PartialOrd, Ord, Hash, Debug)]
pub struct Nanoseconds(pub u64);

impl From<u64> for Nanoseconds {
    fn from(count: u64) -> Nanoseconds {
        Nanoseconds(count)
    }
}

impl From<Duration> for Nanoseconds {
    fn from(time: Duration) -> Nanoseconds {
        Nanoseconds(u64::try_from(time.as_nanos()).unwrap_or(u64::MAX))
    }
}
