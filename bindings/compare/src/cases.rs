//! Calls on all small inputs, and calls made from a seed, in cases of some dozens to some thousands.

mod addresses;
mod exhaustive;
mod fields;
mod small;
mod streams;
mod tables;
mod words;

use independent::Random;

use crate::{Comparison, Difference, Lent};

pub use exhaustive::exhaustive;

/// What a case is meant to try.
#[derive(Clone, Copy, Debug, PartialEq, Eq)]
pub enum Kind {
    /// A short stream, cut at every place, at every two places, and after every byte.
    Cuts,
    /// A list of calls on one reader, refused ones among them.
    Calls,
    /// A stream with long values, in long pieces.
    LongValues,
    /// The words of a reader, each changed in turn; words of no reader.
    Words,
    /// Streams opened and closed, in good tables and in bad ones.
    Tables,
    /// QUIC DATAGRAM payloads judged.
    Frames,
    /// Capsules and frames written.
    Writers,
    /// Stream IDs and quarters converted.
    Identifiers,
    /// Varints read and written.
    Varints,
    /// Buffers listed.
    Listings,
    /// Settings, messages and errors.
    Http,
    /// Values of the Capsule-Protocol field.
    FieldValues,
    /// Values of address capsules checked and split.
    AddressValues,
    /// A list of calls on a reader that takes address capsules.
    AddressCalls,
    /// Address capsules written.
    AddressWriters,
}

/// One round.
const ROUND: [Kind; 22] = [
    Kind::Cuts,
    Kind::Calls,
    Kind::Words,
    Kind::Tables,
    Kind::Frames,
    Kind::Writers,
    Kind::Varints,
    Kind::Calls,
    Kind::AddressValues,
    Kind::AddressCalls,
    Kind::Listings,
    Kind::Identifiers,
    Kind::Words,
    Kind::Tables,
    Kind::Calls,
    Kind::Frames,
    Kind::Writers,
    Kind::LongValues,
    Kind::AddressWriters,
    Kind::AddressCalls,
    Kind::Http,
    Kind::FieldValues,
];

type Outcome = Result<(), Box<Difference>>;

/// The kind of the case with this number.
pub fn kind(number: u64) -> Kind {
    ROUND[(number % ROUND.len() as u64) as usize]
}

/// Makes the calls of the case with this number in the row of the seed.
pub fn run(seed: u64, number: u64, comparison: &mut Comparison) -> Outcome {
    let mut first = Random::new(seed ^ number.wrapping_mul(0x2545_f491_4f6c_dd1d));
    let random = &mut Random::new(first.number());
    match kind(number) {
        Kind::Cuts => streams::cuts(random, comparison),
        Kind::Calls => streams::calls(random, comparison),
        Kind::LongValues => streams::long_values(random, comparison),
        Kind::Words => words::words(random, comparison),
        Kind::Tables => tables::open_and_close(random, comparison),
        Kind::Frames => tables::frames(random, comparison),
        Kind::Writers => tables::writers(random, comparison),
        Kind::Identifiers => tables::identifiers(random, comparison),
        Kind::Varints => small::varints(random, comparison),
        Kind::Listings => small::listings(random, comparison),
        Kind::Http => small::http(random, comparison),
        Kind::FieldValues => fields::made(random, comparison),
        Kind::AddressValues => addresses::values(random, comparison),
        Kind::AddressCalls => streams::address_calls(random, comparison),
        Kind::AddressWriters => addresses::writers(random, comparison),
    }
}

/// Every row of up to so many of these bytes.
fn rows(symbols: &[u8], longest: u32) -> impl Iterator<Item = Vec<u8>> + '_ {
    let count = symbols.len();
    let row = move |length: u32, number: usize| {
        let digits = (0..length).map(|place| number / count.pow(place) % count);
        digits.map(|digit| symbols[digit]).collect()
    };
    (0..=longest).flat_map(move |length| {
        let numbers = 0..count.pow(length);
        numbers.map(move |number| row(length, number))
    })
}

/// A buffer to lend, full of bytes that tell where something was written.
fn buffer(random: &mut Random, length: usize) -> Lent<u8> {
    let contents = if length <= 512 {
        random.bytes(length)
    } else {
        vec![random.number() as u8; length]
    };
    Lent::new(&contents, random.number() as u8)
}

/// A number that some comparison may go wrong at.
fn border(random: &mut Random) -> u64 {
    let near = random.one_of(&[
        0,
        1,
        4,
        8,
        63,
        64,
        255,
        256,
        1_024,
        1_200,
        16_383,
        16_384,
        65_535,
        65_536,
        1 << 30,
        1 << 32,
        1 << 60,
        1 << 62,
        1 << 63,
        u64::MAX,
    ]);
    match random.between(0, 3) {
        0 => near.wrapping_sub(random.between(1, 4)),
        1 => near.wrapping_add(random.between(1, 4)),
        _ => near,
    }
}

/// Any number: small, near a border, or of any size.
fn any(random: &mut Random) -> u64 {
    match random.between(0, 3) {
        0 => random.between(0, 8),
        1 | 2 => border(random),
        _ => random.number() >> random.between(0, 63),
    }
}
