//! Why a call did nothing.

use std::error;
use std::fmt;

/// Why a call did nothing: it left every version as it was.
///
/// ```
/// use naipselu::{Error, Lists};
///
/// let mut lists: Lists<u64> = Lists::new()?;
/// let one = lists.from_iter([1])?;
/// assert_eq!(lists.set(one, 1, 7), Err(Error::Range));
/// assert_eq!(Error::Range.to_string(), "the index is out of range");
/// # Ok::<(), Error>(())
/// ```
#[derive(Clone, Copy, Debug, PartialEq, Eq)]
pub enum Error {
    /// The store doesn't hold the version.
    Version,
    /// The index is past the end, one index is past the other, or there is no last value to take off.
    Range,
    /// The list would have 2^32 values or more.
    Long,
    /// Memory ran out.
    Memory,
    /// The text has a line feed, or is longer than 65,536 bytes.
    Text,
}

impl fmt::Display for Error {
    fn fmt(&self, f: &mut fmt::Formatter<'_>) -> fmt::Result {
        f.write_str(match self {
            Error::Version => "the store doesn't hold the version",
            Error::Range => "the index is out of range",
            Error::Long => "the list is too long",
            Error::Memory => "out of memory",
            Error::Text => "the text has a line feed or is too long",
        })
    }
}

impl error::Error for Error {}

/// What the library says by a number.
#[inline]
pub(crate) fn told(code: u32) -> Result<(), Error> {
    if code == 0 { Ok(()) } else { Err(refusal(code)) }
}

#[cold]
fn refusal(code: u32) -> Error {
    match code {
        2 => Error::Version,
        3 => Error::Range,
        4 => Error::Long,
        5 => Error::Memory,
        6 => Error::Text,
        code => unreachable!("the library has no answer {code} for a handle that it filled"),
    }
}
