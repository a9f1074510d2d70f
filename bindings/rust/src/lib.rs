//! HTTP Datagrams and the Capsule Protocol (RFC 9297), with the address capsules of proxied IP (RFC 9484), over the
//! verified library.
//!
//! Every call goes to a function that is proved to end with a listed answer on any input, to read and write what
//! RFC 9297, RFC 9000 section 16 and RFC 9484 section 4.7 say, and to change no byte that it should not. This package
//! gives the calls Rust's types and decides nothing itself. It uses `core` alone and allocates nothing. The archive is
//! found by `build.rs`: in the folder that `MARUZHENU_LIB_DIR` names, or in the repository's `build/lib`, where
//! `make lib` puts it.
//!
//! | Part | What it does |
//! |---|---|
//! | [`reader`] | reads a stream of capsules, cut anywhere, as an endpoint or as an intermediary |
//! | [`table`] | keeps the request streams, judges received QUIC DATAGRAM payloads, writes capsules and frames |
//! | [`datagram`] | writes DATAGRAM capsules without a table |
//! | [`addresses`] | reads and writes the entries of address capsules |
//! | [`listing`] | counts the capsules of a buffer |
//! | [`varint`] | reads and writes variable-length integers |
//! | [`http`] | settings, messages, the Capsule-Protocol field, and what each error becomes |
//! | [`raw`] | the C interface as it is |
//!
//! A call that can be refused answers a `Result` with a [`Refusal`]; a refused call has changed nothing. An
//! [`Error`] is something else: what the peer did wrong.
//!
//! # Example
//!
//! A stream with a datagram and a capsule of unknown type, read by an intermediary in pieces of four bytes.
//!
//! ```
//! use maruzhenu::{Buffers, End, Opening, Reader, Report};
//!
//! let stream = [0x00, 0x03, b'a', b'b', b'c', 0x17, 0x02, 0xff, 0xee];
//! let mut reader = Reader::open(Opening::intermediary(1_200))?;
//! let mut buffers = Buffers {
//!     gathering: &mut [0; 1_200],
//!     output: &mut [0; 4 + Reader::OUTPUT_HEADROOM],
//!     ..Buffers::default()
//! };
//! let (mut datagrams, mut sent_on) = (Vec::new(), Vec::new());
//!
//! for mut piece in stream.chunks(4) {
//!     while !piece.is_empty() {
//!         let fed = reader.feed(piece, &mut buffers)?;
//!         piece = &piece[fed.consumed..];
//!         sent_on.extend_from_slice(&buffers.output[..fed.written]);
//!         if let Some(Report::Delivered { length }) = fed.report {
//!             datagrams.push(buffers.gathering[..length].to_vec());
//!         }
//!     }
//! }
//!
//! assert_eq!(reader.close()?.end, End::Clean);
//! assert_eq!(datagrams, [b"abc"]);
//! assert_eq!(sent_on, [0x17, 0x02, 0xff, 0xee]);
//! # Ok::<(), maruzhenu::Refusal>(())
//! ```

#![no_std]
#![deny(unsafe_code)]
#![warn(missing_docs)]

#[cfg(not(all(target_pointer_width = "64", target_endian = "little")))]
compile_error!("the archive is built for addresses of 64 bits, least significant byte first");

pub mod addresses;
pub mod datagram;
pub mod http;
pub mod listing;
pub mod raw;
pub mod reader;
mod refusal;
pub mod table;
pub mod varint;

pub use http::Error;
pub use listing::{list, Listing};
pub use reader::{Buffers, End, Opening, Reader, Report, Role};
pub use refusal::Refusal;
pub use table::{Stream, StreamId, Table};

/// How many bytes a writer wrote.
#[inline]
fn count(written: raw::Written) -> Result<usize, Refusal> {
    Refusal::check(written.refusal)?;
    Ok(written.written as usize)
}
