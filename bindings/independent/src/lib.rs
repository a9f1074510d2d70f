//! What HTTP Datagrams ask of a relay, written a second time in plain Rust.
//!
//! It was written from RFC 9297, RFC 9000 section 16, RFC 9484 section 4.7, RFC 8941 section 4.2, and the papers with
//! the exact rules of the project alone, and shares no code and no table with the verified one. What the papers leave
//! open is the same on both sides by agreement: the form of the calls, the numbers of the refusals, and the lines of
//! the listing.
//!
//! Beside it stand captures made from a seed, and the means to run a program on a capture.

#![forbid(unsafe_code)]

pub mod addresses;
pub mod captures;
pub mod http;
pub mod judge;
pub mod listing;
pub mod look;
pub mod oneshot;
pub mod program;
pub mod random;
pub mod reader;
mod refusal;
pub mod structured_field;
pub mod table;
pub mod varint;
pub mod writers;

pub use random::Random;
pub use reader::{Closing, Fed, Reader, Report, Role};
pub use refusal::Refusal;
