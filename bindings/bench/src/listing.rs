//! Buffers of capsules, listed at once.

use independent::captures::{push_number, Form};
use independent::Random;

use crate::base::{Archive, BEFORE, NOW_AND_BEFORE};
use crate::calls::row;
use crate::measure::Work;
use crate::Row;

/// The longest buffer that is listed.
const LONGEST: usize = 4_096;

/// As many DATAGRAM capsules with values of this length as fit.
fn buffer(length: usize) -> Vec<u8> {
    let mut random = Random::new(9_297);
    let mut capsule = Vec::new();
    push_number(&mut capsule, &mut random, Form::Shortest, 0);
    push_number(&mut capsule, &mut random, Form::Shortest, length as u64);
    capsule.resize(capsule.len() + length, 0x61);
    capsule.repeat(LONGEST / capsule.len())
}

/// Beside the archive before.
pub fn rows_before() -> Vec<Row> {
    let row = |length| {
        let bytes = &buffer(length)[..];
        let side = |of: Archive| -> Work { Box::new(move || of.list(bytes).headers) };
        let name = format!("listing of {} bytes, values of {length}", bytes.len());
        row(name, BEFORE, None, NOW_AND_BEFORE.map(side))
    };
    [0, 4, 100].into_iter().map(row).collect()
}
