//! The calls of the verified library, made on it in numbers and with types and on the independent implementation, and
//! compared: every answer, every state word, and every byte that was lent, with some around it.

#![forbid(unsafe_code)]

mod call;
pub mod cases;
mod comparison;
mod expected;
mod from_bytes;
mod lent;
mod typed;
mod verified;

pub use call::{Answer, Call, FUNCTIONS};
pub use comparison::{Comparison, Difference};
pub use from_bytes::compare_bytes;
pub use lent::{Lent, LentReader};
