//! Captures made from a seed: streams of capsules, whole, cut and damaged.

use std::collections::VecDeque;
use std::fmt;

use crate::random::Random;

mod addresses;
mod streams;
#[cfg(test)]
mod tests;

pub use addresses::{
    address_stream, address_value, addresses, push_address, push_range, ranges, spoil_addresses,
    spoil_ranges, spoiled_value,
};
use streams::push_filler;
pub use streams::{capsule_type, long_stream, number_of_any_size, push_number, stream, Form};

/// What a capture is meant to try.
#[derive(Clone, Copy, Debug, PartialEq, Eq, Hash)]
pub enum Kind {
    /// A written-out case.
    Written,
    /// Nothing at all.
    Empty,
    /// Whole capsules, their numbers in shortest form.
    Shortest,
    /// Whole capsules, their numbers in any form.
    AnyForm,
    /// A short stream, cut after each of its bytes in turn.
    Cut,
    /// A stream in which some bytes have been altered, put in or taken out.
    Damaged,
    /// A last capsule with a length that never comes, up to the largest number.
    HugeLength,
    /// Reserved types, DATAGRAM's type of draft 05, and their neighbours.
    Types,
    /// Capsules without a value.
    ZeroLength,
    /// Lengths next to the datagram limit of the listing and next to the bounds of the forms.
    Limit,
    /// Bytes of no meaning.
    Noise,
    /// A capsule of more than 64 KiB.
    Long,
    /// A header across the end of a block of a usual size.
    Straddling,
    /// So many small capsules that their listing fills any pipe.
    Many,
}

impl fmt::Display for Kind {
    fn fmt(&self, formatter: &mut fmt::Formatter) -> fmt::Result {
        formatter.write_str(match self {
            Kind::Written => "written-out case",
            Kind::Empty => "empty",
            Kind::Shortest => "shortest forms",
            Kind::AnyForm => "any forms",
            Kind::Cut => "cut",
            Kind::Damaged => "damaged",
            Kind::HugeLength => "huge length",
            Kind::Types => "types",
            Kind::ZeroLength => "zero length",
            Kind::Limit => "limit",
            Kind::Noise => "noise",
            Kind::Long => "long",
            Kind::Straddling => "straddling",
            Kind::Many => "many",
        })
    }
}

#[derive(Clone, Debug, PartialEq, Eq)]
pub struct Capture {
    pub kind: Kind,
    pub bytes: Vec<u8>,
}

/// The kinds of one round. A cut stream makes as many captures as it can be cut.
const ROUND: [Kind; 24] = [
    Kind::Shortest,
    Kind::AnyForm,
    Kind::Cut,
    Kind::Damaged,
    Kind::HugeLength,
    Kind::Types,
    Kind::ZeroLength,
    Kind::Limit,
    Kind::Noise,
    Kind::Straddling,
    Kind::AnyForm,
    Kind::Damaged,
    Kind::HugeLength,
    Kind::Limit,
    Kind::Many,
    Kind::Types,
    Kind::AnyForm,
    Kind::Damaged,
    Kind::Straddling,
    Kind::Long,
    Kind::Noise,
    Kind::HugeLength,
    Kind::Limit,
    Kind::Empty,
];

/// The endless row of captures that belongs to a seed.
pub struct Captures {
    random: Random,
    turn: usize,
    waiting: VecDeque<Capture>,
}

impl Captures {
    pub fn new(seed: u64) -> Captures {
        Captures {
            random: Random::new(seed),
            turn: 0,
            waiting: VecDeque::new(),
        }
    }
}

impl Iterator for Captures {
    type Item = Capture;

    fn next(&mut self) -> Option<Capture> {
        if self.waiting.is_empty() {
            let kind = ROUND[self.turn % ROUND.len()];
            self.turn += 1;
            let bytes = stream(&mut self.random, kind);
            if kind == Kind::Cut {
                self.waiting.extend(cuts(&bytes, kind));
            } else {
                self.waiting.push_back(Capture { kind, bytes });
            }
        }
        self.waiting.pop_front()
    }
}

/// Cases written out by hand: short ones, each cut after each of its bytes, and a header that lies in every way across
/// the end of a block.
pub fn written() -> Vec<Capture> {
    let cases: [&[u8]; 9] = [
        &[
            0x00, 0x03, 0x61, 0x62, 0x63, 0x17, 0x00, 0x40, 0x40, 0x02, 0xff, 0xee, 0x00, 0x00,
        ],
        // DATAGRAM in each longer form of its type
        &[0x40, 0x00, 0x02, 0x78, 0x79],
        &[0x80, 0x00, 0x00, 0x00, 0x01, 0x78],
        &[0xc0, 0x00, 0x00, 0x00, 0x00, 0x00, 0x00, 0x00, 0x01, 0x78],
        // length 0 in a longer form
        &[0x17, 0x40, 0x00, 0x00, 0x80, 0x00, 0x00, 0x00],
        // the largest length
        &[
            0x17, 0xff, 0xff, 0xff, 0xff, 0xff, 0xff, 0xff, 0xff, 0x00, 0x00,
        ],
        &[
            0x00, 0xff, 0xff, 0xff, 0xff, 0xff, 0xff, 0xff, 0xff, 0x00, 0x00,
        ],
        // DATAGRAM's type of draft 05, in two forms
        &[0x80, 0xff, 0x37, 0xa5, 0x01, 0x7a],
        &[0xc0, 0x00, 0x00, 0x00, 0x00, 0xff, 0x37, 0xa5, 0x01, 0x7a],
    ];
    let short = cases.iter().flat_map(|case| cuts(case, Kind::Written));
    let across = [4_096, 65_536]
        .into_iter()
        .flat_map(|block| (block - 13..=block).map(header_at));
    short.chain(across).collect()
}

/// A capsule whose header, with no byte 0 in it, begins after `start` bytes, and a DATAGRAM behind it.
fn header_at(start: usize) -> Capture {
    let mut bytes = Vec::new();
    push_filler(&mut bytes, 0x17, start);
    bytes.extend([0xc1, 0x02, 0x03, 0x04, 0x05, 0x06, 0x07, 0x08]);
    bytes.extend([0x80, 0x01, 0x02, 0x03]);
    bytes.resize(bytes.len() + 0x010203, 0x00);
    bytes.extend([0x00, 0x01, 0x78]);
    Capture {
        kind: Kind::Written,
        bytes,
    }
}

fn cuts(stream: &[u8], kind: Kind) -> impl Iterator<Item = Capture> + '_ {
    (0..=stream.len()).map(move |cut| Capture {
        kind,
        bytes: stream[..cut].to_vec(),
    })
}
