//! The bytes of a capture of each kind.

use super::Kind;
use crate::random::Random;
use crate::varint::LARGEST;

/// A stream of whole capsules of at least `size` bytes, with values of up to 1,300 bytes.
pub fn long_stream(seed: u64, size: usize) -> Vec<u8> {
    let mut random = Random::new(seed);
    let mut stream = Vec::with_capacity(size + 2_000);
    while stream.len() < size {
        let form = if random.one_in(8) {
            Form::Any
        } else {
            Form::Shortest
        };
        let capsule_type = capsule_type(&mut random);
        let length = match random.between(0, 3) {
            0 => random.size(0, 16),
            1 => random.size(0, 200),
            _ => random.size(0, 1_300),
        };
        push_capsule(&mut stream, &mut random, form, capsule_type, length);
    }
    stream
}

/// How a number is written.
#[derive(Clone, Copy)]
pub enum Form {
    Shortest,
    /// Any form that can hold it, each as likely as another.
    Any,
}

/// Writes a number in its shortest form, or in any of the forms that hold it.
pub fn push_number(stream: &mut Vec<u8>, random: &mut Random, form: Form, number: u64) {
    assert!(number <= LARGEST);
    let least: u32 = match number {
        0..=0x3f => 0,
        0x40..=0x3fff => 1,
        0x4000..=0x3fff_ffff => 2,
        _ => 3,
    };
    let exponent = match form {
        Form::Shortest => least,
        Form::Any => random.between(u64::from(least), 3) as u32,
    };
    let bits = 8 << exponent;
    let marked = u64::from(exponent) << (bits - 2) | number;
    stream.extend(&marked.to_be_bytes()[8 - bits / 8..]);
}

fn push_capsule(
    stream: &mut Vec<u8>,
    random: &mut Random,
    form: Form,
    capsule_type: u64,
    length: usize,
) {
    push_number(stream, random, form, capsule_type);
    push_number(stream, random, form, length as u64);
    push_value(stream, random, length);
}

fn push_value(stream: &mut Vec<u8>, random: &mut Random, length: usize) {
    match random.between(0, 3) {
        // looks like headers
        0 => stream.extend((0..length).map(|_| random.one_of(&[0x00, 0x01, 0x02, 0x17, 0x40]))),
        1 => stream.resize(stream.len() + length, random.one_of(&[0x00, 0xff])),
        _ => stream.extend(random.bytes(length)),
    }
}

fn reserved_type(random: &mut Random) -> u64 {
    let largest = (LARGEST - 0x17) / 0x29;
    let number = match random.between(0, 3) {
        0 | 1 => random.between(0, 10),
        2 => largest - random.between(0, 3),
        _ => random.between(0, largest),
    };
    0x29 * number + 0x17
}

/// A number of up to 62 bits, each size as likely as another.
pub fn number_of_any_size(random: &mut Random) -> u64 {
    let bits = random.between(0, 62);
    random.number() & ((1 << bits) - 1)
}

/// A capsule type, in half of all cases DATAGRAM.
pub fn capsule_type(random: &mut Random) -> u64 {
    match random.between(0, 9) {
        0..=4 => 0,
        5 => random.between(1, 70),
        6 | 7 => reserved_type(random),
        8 => 0xff37a5,
        _ => number_of_any_size(random),
    }
}

fn small_capsules(random: &mut Random, form: Form, count: usize) -> Vec<u8> {
    let mut stream = Vec::new();
    for _ in 0..count {
        let capsule_type = capsule_type(random);
        let length = match random.between(0, 9) {
            0..=2 => 0,
            3..=7 => random.size(1, 12),
            8 => random.size(60, 68),
            _ => random.size(0, 300),
        };
        push_capsule(&mut stream, random, form, capsule_type, length);
    }
    stream
}

/// A stream of a kind.
pub fn stream(random: &mut Random, kind: Kind) -> Vec<u8> {
    match kind {
        Kind::Empty | Kind::Written => Vec::new(),
        Kind::Shortest => {
            let count = random.size(1, 12);
            small_capsules(random, Form::Shortest, count)
        }
        Kind::AnyForm => {
            let count = random.size(1, 12);
            small_capsules(random, Form::Any, count)
        }
        Kind::Cut => to_be_cut(random),
        Kind::Damaged => damaged(random),
        Kind::HugeLength => huge_length(random),
        Kind::Types => types(random),
        Kind::ZeroLength => {
            let mut stream = Vec::new();
            for _ in 0..random.size(1, 30) {
                let capsule_type = capsule_type(random);
                push_capsule(&mut stream, random, Form::Any, capsule_type, 0);
            }
            stream
        }
        Kind::Limit => around_bounds(random),
        Kind::Noise => noise(random),
        Kind::Long => long(random),
        Kind::Straddling => straddling(random),
        Kind::Many => {
            let form = random.one_of(&[Form::Shortest, Form::Any]);
            let mut stream = Vec::new();
            for _ in 0..random.size(8_000, 16_000) {
                let capsule_type = random.one_of(&[0, 0, 0x17, 0x40]);
                let length = random.size(0, 3);
                push_capsule(&mut stream, random, form, capsule_type, length);
            }
            stream
        }
    }
}

fn to_be_cut(random: &mut Random) -> Vec<u8> {
    let least = random.size(4, 30);
    let mut stream = Vec::new();
    while stream.len() < least {
        let capsule_type = capsule_type(random);
        let length = random.size(0, 4);
        push_capsule(&mut stream, random, Form::Any, capsule_type, length);
    }
    stream
}

fn damaged(random: &mut Random) -> Vec<u8> {
    let form = random.one_of(&[Form::Shortest, Form::Any]);
    let count = random.size(1, 20);
    let mut stream = small_capsules(random, form, count);
    for _ in 0..random.size(1, 4) {
        if stream.is_empty() {
            break;
        }
        let place = random.size(0, stream.len() - 1);
        match random.between(0, 4) {
            0 => stream[place] = random.number() as u8,
            1 => {
                stream.remove(place);
            }
            2 => stream.insert(place, random.number() as u8),
            _ => stream[place] ^= 1 << random.between(0, 7),
        }
    }
    stream
}

fn huge_length(random: &mut Random) -> Vec<u8> {
    let count = random.size(0, 4);
    let mut stream = small_capsules(random, Form::Any, count);
    let capsule_type = if random.one_in(4) {
        LARGEST - random.between(0, 2)
    } else {
        capsule_type(random)
    };
    push_number(&mut stream, random, Form::Any, capsule_type);
    let bound = random.one_of(&[
        LARGEST,
        LARGEST,
        LARGEST,
        1 << 61,
        1 << 48,
        1 << 32,
        1 << 31,
    ]);
    let length = match random.between(0, 2) {
        0 => bound,
        1 => bound - random.between(0, 16),
        _ => (bound + random.between(0, 16)).min(LARGEST),
    };
    push_number(&mut stream, random, Form::Any, length);
    let come = random.size(0, 40);
    push_value(&mut stream, random, come);
    stream
}

fn types(random: &mut Random) -> Vec<u8> {
    let mut stream = Vec::new();
    for _ in 0..random.size(1, 12) {
        let capsule_type = match random.between(0, 4) {
            0 | 1 => reserved_type(random),
            2 => random.one_of(&[0xff37a4, 0xff37a5, 0xff37a5, 0xff37a6]),
            3 => random.one_of(&[
                1,
                0x3f,
                0x40,
                0x3fff,
                0x4000,
                (1 << 30) - 1,
                1 << 30,
                1 << 32,
                LARGEST,
            ]),
            _ => number_of_any_size(random),
        };
        let length = random.size(0, 8);
        push_capsule(&mut stream, random, Form::Any, capsule_type, length);
    }
    stream
}

fn around_bounds(random: &mut Random) -> Vec<u8> {
    let mut stream = Vec::new();
    for _ in 0..random.size(1, 4) {
        let capsule_type = if random.one_in(4) {
            capsule_type(random)
        } else {
            0
        };
        let bound = random.one_of(&[64, 1_200, 1_200, 1_200, 1_200, 1_200, 16_384]);
        let length = random.size(bound - 1, bound + 1);
        push_capsule(&mut stream, random, Form::Any, capsule_type, length);
    }
    stream
}

fn noise(random: &mut Random) -> Vec<u8> {
    let count = random.size(1, 300);
    let mut bytes = random.bytes(count);
    if random.one_in(2) {
        // small numbers, so that many capsules end
        for byte in &mut bytes {
            *byte &= 0x47;
        }
    }
    bytes
}

fn long(random: &mut Random) -> Vec<u8> {
    let before = random.size(0, 4);
    let mut stream = small_capsules(random, Form::Any, before);
    let capsule_type = capsule_type(random);
    let length = random.size(65_537, 200_000);
    push_capsule(&mut stream, random, Form::Any, capsule_type, length);
    let after = random.size(0, 4);
    stream.extend(small_capsules(random, Form::Any, after));
    if random.one_in(3) {
        stream.truncate(stream.len() - random.size(0, 20));
    }
    stream
}

fn straddling(random: &mut Random) -> Vec<u8> {
    let block = random.one_of(&[4_096, 16_384, 65_536, 65_536]);
    let blocks = random.size(1, 200_000 / block);
    let mut stream = Vec::new();
    for number in 1..=blocks {
        let header = number * block - random.size(0, 16);
        let filler = random.one_of(&[0x00, 0x17]);
        push_filler(&mut stream, filler, header);
        let capsule_type = match random.between(0, 3) {
            0 => capsule_type(random),
            1 => number_of_any_size(random),
            _ => random.between(1 << 61, LARGEST),
        };
        let length = random.size(0, 300);
        push_capsule(&mut stream, random, Form::Any, capsule_type, length);
    }
    stream
}

/// One capsule that ends where the stream is `end` bytes long: a type of one byte and a length of four.
pub(super) fn push_filler(stream: &mut Vec<u8>, capsule_type: u8, end: usize) {
    let length = end - stream.len() - 5;
    stream.push(capsule_type);
    stream.extend((0x8000_0000 | length as u32).to_be_bytes());
    stream.resize(end, 0x00);
}
