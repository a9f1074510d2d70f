//! The eight words of a reader, as calls leave them and damaged.

use independent::captures::{capsule_type, number_of_any_size, push_number, Form};
use independent::reader::MARK;
use independent::Random;

use super::{any, border, buffer, Outcome};
use crate::call::Bytes;
use crate::{Call, Comparison, LentReader};

const LARGEST: u64 = (1 << 62) - 1;

/// Words of a reader.
fn of_a_reader(random: &mut Random) -> [u64; 8] {
    let limit = match random.between(0, 9) {
        0 => 65_535,
        1 => 1_200,
        _ => random.between(0, 40),
    };
    let [phase, first, second, third] = match random.between(0, 4) {
        0 => {
            let (have, raw) = partial(random);
            [0, have, raw, 0]
        }
        1 => {
            let (have, raw) = partial(random);
            [1, capsule_type(random), have, raw]
        }
        2 => {
            let length = random.between(1, 60);
            let left = random.between(1, length);
            [2, capsule_type(random), length, left]
        }
        3 => {
            // Within an address value, or what would be one that is too long.
            let length = random.one_of(&[7, 7, 10, 1_023, 1_024, 1_025, 1_026, LARGEST]);
            let left = random.one_of(&[1, 1, 2, 7, length]).min(length);
            [2, random.between(1, 4), length, left]
        }
        _ => {
            let length = match random.between(0, 2) {
                0 => LARGEST - random.between(0, 2),
                _ => number_of_any_size(random).max(1),
            };
            let left = match random.between(0, 2) {
                0 => random.between(1, length.min(9)),
                1 => length - random.between(0, 9).min(length - 1),
                _ => random.between(1, length),
            };
            [2, capsule_type(random), length, left]
        }
    };
    let finished = u64::from(random.one_in(5));
    let (role, settings) = (MARK + random.between(0, 1), random.between(0, 3));
    [role, limit, settings, phase, first, second, third, finished]
}

/// Some bytes of a number that is not whole, and their big-endian number.
fn partial(random: &mut Random) -> (u64, u64) {
    let mut bytes = Vec::new();
    let number = number_of_any_size(random);
    push_number(&mut bytes, random, Form::Any, number);
    let have = random.size(0, bytes.len() - 1);
    let raw = bytes[..have]
        .iter()
        .fold(0, |raw, &byte| raw << 8 | u64::from(byte));
    (have as u64, raw)
}

/// What a word can be changed to.
fn changed(random: &mut Random, word: u64) -> [u64; 14] {
    [
        word.wrapping_add(1),
        word.wrapping_sub(1),
        word ^ 1 << random.between(0, 63),
        word.wrapping_add(256),
        word.wrapping_add(1 << 32),
        0,
        2,
        3,
        4,
        LARGEST,
        LARGEST + 1,
        u64::MAX,
        border(random),
        random.number(),
    ]
}

/// Words of a reader, each changed in turn, and words that are none of a reader's.
pub fn words(random: &mut Random, comparison: &mut Comparison) -> Outcome {
    let good = of_a_reader(random);
    try_words(random, comparison, good)?;
    for place in 0..8 {
        for changed in changed(random, good[place]) {
            let mut words = good;
            words[place] = changed;
            try_words(random, comparison, words)?;
        }
    }
    for _ in 0..20 {
        let other = of_a_reader(random);
        let mut words = of_a_reader(random);
        let place = random.size(0, 7);
        words[place] = other[place];
        try_words(random, comparison, words)?;
        let mut words = [0; 8].map(|_: u64| match random.between(0, 2) {
            0 => random.between(0, 4),
            1 => random.between(0, 300),
            _ => any(random),
        });
        if random.one_in(2) {
            words[0] = MARK + random.between(0, 1);
        }
        try_words(random, comparison, words)?;
    }
    try_words(random, comparison, [0; 8])?;
    let words = [0; 8].map(|_: u64| random.number());
    try_words(random, comparison, words)
}

/// Looks at a reader with these words, feeds and closes it, the buffers sometimes short.
fn try_words(random: &mut Random, comparison: &mut Comparison, words: [u64; 8]) -> Outcome {
    let length = random.size(0, 20);
    let mut piece = random.bytes(length);
    if random.one_in(2) {
        piece.iter_mut().for_each(|byte| *byte &= 0x47);
    }
    let gathering = match usize::try_from(words[1]) {
        Ok(limit @ 0..=65_535) => limit + random.size(0, 2),
        _ => random.size(0, 60),
    };
    let gathering = gathering - usize::from(gathering > 0 && random.one_in(8));
    let output = piece.len() + 8 - usize::from(random.one_in(8));
    // A reader that takes no address capsules does not look at the buffer.
    let addresses = match words[2] {
        2 | 3 => random.one_of(&[1_024, 1_024, 1_024, 1_030, 1_023, 0]),
        _ => random.size(0, 2),
    };
    let call = Call::ReaderFeed {
        reader: LentReader::new(words),
        piece: Bytes(piece),
        gathering: buffer(random, gathering),
        addresses: buffer(random, addresses),
        output: buffer(random, output),
    };
    comparison.make(Call::ReaderLook {
        reader: LentReader::new(words),
    })?;
    comparison.make(call)?;
    comparison.make(Call::ReaderClose {
        reader: LentReader::new(words),
    })?;
    Ok(())
}
