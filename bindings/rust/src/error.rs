//! Why a call didn't do what it says.

use core::fmt;

/// Why a call didn't do what it says. It has then changed nothing. There may be more reasons in another version:
///
/// ```compile_fail,E0004
/// use eevdf::Error::*;
///
/// fn code(error: eevdf::Error) -> i64 {
///     match error {
///         Absent => -2,
///         Balanced => -11,
///         NoMemory => -12,
///         Busy => -16,
///         Present => -17,
///         Invalid => -22,
///         Range => -34,
///     }
/// }
/// ```
#[non_exhaustive]
#[derive(Clone, Copy, PartialEq, Eq, Hash, Debug)]
pub enum Error {
    /// No task such as the call asks for is here, or in the hand.
    Absent,
    /// A task would bring two loads no closer.
    Balanced,
    /// The allocator gave none.
    NoMemory,
    /// The hand holds a task already.
    Busy,
    /// The task is here already.
    Present,
    /// A number is out of its limits.
    Invalid,
    /// A virtual time would leave its range.
    Range,
}

/// What a call answers.
pub type Result<T> = core::result::Result<T, Error>;

impl Error {
    /// The error of a code of the C library.
    fn of(code: i64) -> Error {
        match code {
            -2 => Error::Absent,
            -11 => Error::Balanced,
            -12 => Error::NoMemory,
            -16 => Error::Busy,
            -17 => Error::Present,
            -34 => Error::Range,
            _ => Error::Invalid,
        }
    }
}

/// A number that a call answers: at least 0, or the code of an error.
pub(crate) fn checked(answer: i64) -> Result<u64> {
    u64::try_from(answer).map_err(|_| Error::of(answer))
}

/// A call that answers 0 where it has done what it says.
pub(crate) fn done(answer: i64) -> Result<()> {
    checked(answer).map(|_| ())
}

#[cfg(has_core_error)]
impl core::error::Error for Error {}

impl fmt::Display for Error {
    fn fmt(&self, f: &mut fmt::Formatter<'_>) -> fmt::Result {
        f.write_str(match self {
            Error::Absent => "no such task here",
            Error::Balanced => "the loads would come no closer",
            Error::NoMemory => "no memory for a task",
            Error::Busy => "the hand holds a task already",
            Error::Present => "the task is here already",
            Error::Invalid => "a number is out of its limits",
            Error::Range => "a virtual time would leave its range",
        })
    }
}
