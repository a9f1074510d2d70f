//! The capsules of one buffer, counted.
//!
//! ```
//! use maruzhenu::{list, End};
//!
//! let listing = list(&[0x17, 0x00, 0x40, 0x40])?;
//! assert_eq!((listing.capsules, listing.headers), (1, 2));
//! assert_eq!(listing.end, End::Truncated);
//! # Ok::<(), maruzhenu::Refusal>(())
//! ```

use crate::{raw, End, Refusal};

/// The longest buffer that is listed, in bytes.
pub const LONGEST: usize = 4_096;

/// What stands in a buffer.
#[derive(Clone, Copy, Debug, PartialEq, Eq, Hash)]
#[must_use]
pub struct Listing {
    /// Complete capsules.
    pub capsules: usize,
    /// Bytes of their types and lengths.
    pub headers: usize,
    /// How the buffer ends.
    pub end: End,
}

/// Counts the complete capsules of a buffer of at most [`LONGEST`] bytes. Calls nest as deep as there are capsules: allow
/// 256 KiB of stack.
///
/// # Errors
/// [`Refusal::BufferTooLong`].
pub fn list(bytes: &[u8]) -> Result<Listing, Refusal> {
    let listing = raw::list(bytes);
    Refusal::check(listing.refusal)?;
    Ok(Listing {
        capsules: listing.capsules as usize,
        headers: listing.headers as usize,
        end: End::from_number(listing.end),
    })
}
