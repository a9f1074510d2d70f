//! Variable-length integers, RFC 9000 section 16.
//!
//! ```
//! use maruzhenu::varint;
//!
//! assert_eq!(varint::read(&[0x7b, 0xbd, 0xff]), Some((15_293, 2)));
//! assert_eq!(varint::read(&[0x7b]), None);
//!
//! let mut out = [0; 4];
//! assert_eq!(varint::write(15_293, &mut out, 1)?, 2);
//! assert_eq!(out, [0, 0x7b, 0xbd, 0]);
//! # Ok::<(), maruzhenu::Refusal>(())
//! ```

use crate::{count, raw, Refusal};

/// The largest number that can be written, 2^62-1.
pub const LARGEST: u64 = (1 << 62) - 1;

/// The number at the front of `bytes` and how many bytes it takes, or `None` if the bytes end first.
#[inline]
#[must_use]
pub fn read(bytes: &[u8]) -> Option<(u64, usize)> {
    let read = raw::read_varint(bytes);
    (read.size != 0).then_some((read.value, read.size as usize))
}

/// Writes a number in its shortest form at a place of `out`. Answers how many bytes were written.
///
/// # Errors
/// [`Refusal::NumberTooLarge`], [`Refusal::OutputTooShort`], in this order.
#[inline]
pub fn write(number: u64, out: &mut [u8], place: usize) -> Result<usize, Refusal> {
    count(raw::write_varint(number, out, place as u64))
}
