//! DATAGRAM capsules written without a table, RFC 9297 section 3.5: for HTTP/2, whose stream IDs are odd, and HTTP/1.1.
//!
//! That the stream is open for sending and that its request has semantics for datagrams is then the host's to know.
//! [`Table::write_capsule`](crate::Table::write_capsule) checks both.
//!
//! ```
//! use maruzhenu::datagram;
//!
//! let mut out = [0; 16];
//! let written = datagram::write(b"hi", &mut out, 0)?;
//! assert_eq!(out[..written], [0x00, 0x02, b'h', b'i']);
//!
//! // The header alone, where the payload is sent from where it stands.
//! let mut header = [0; datagram::LONGEST_HEADER];
//! let written = datagram::write_header(65_535, &mut header, 0)?;
//! assert_eq!(header[..written], [0x00, 0x80, 0x00, 0xff, 0xff]);
//! # Ok::<(), maruzhenu::Refusal>(())
//! ```

use crate::{count, raw, Refusal};

/// The longest payload.
pub const LONGEST_PAYLOAD: usize = 65_535;

/// The longest header: type and length.
pub const LONGEST_HEADER: usize = 5;

/// Writes the payload as a capsule at a place of `out`. Answers how many bytes were written.
///
/// # Errors
/// [`Refusal::NumberTooLarge`] (the payload), [`Refusal::OutputTooShort`], in this order.
pub fn write(payload: &[u8], out: &mut [u8], place: usize) -> Result<usize, Refusal> {
    count(raw::write_datagram(payload, out, place as u64))
}

/// Writes the bytes of such a capsule before a payload of so many bytes, at a place of `out`. Answers how many they are.
///
/// # Errors
/// [`Refusal::NumberTooLarge`] (the length), [`Refusal::OutputTooShort`] (for the header), in this order.
pub fn write_header(payload_length: usize, out: &mut [u8], place: usize) -> Result<usize, Refusal> {
    let length = payload_length as u64;
    count(raw::write_datagram_header(length, out, place as u64))
}
