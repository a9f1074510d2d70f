//! Varints, read end to end from a buffer.

use independent::captures::{push_number, Form};
use independent::Random;

use crate::base::{Archive, BEFORE, NOW_AND_BEFORE};
use crate::measure::{race, Work};
use crate::Row;

/// So many that a processor cannot learn the order of their sizes.
const COUNT: usize = 1_000_000;

/// The buffers: how they are named, and the bounds of their numbers.
const BUFFERS: [(&str, &[u64]); 4] = [
    ("one byte", &[64]),
    ("two bytes", &[16_384]),
    ("a random mix of one and two bytes", &[64, 16_384]),
    (
        "a random mix of the four sizes",
        &[64, 16_384, 1 << 30, 1 << 62],
    ),
];

/// A buffer of numbers, each below a bound of the list.
fn buffer(bounds: &[u64]) -> Vec<u8> {
    let mut random = Random::new(16);
    let mut bytes = Vec::new();
    for _ in 0..COUNT {
        let bound = random.one_of(bounds);
        let number = match bound {
            64 => random.between(0, 63),
            _ => random.between(bound / 2, bound - 1),
        };
        push_number(&mut bytes, &mut random, Form::Shortest, number);
    }
    bytes
}

/// The sum of all numbers of a buffer, by a function that reads the first one.
#[inline(always)]
fn sum(bytes: &[u8], read: impl Fn(&[u8]) -> Option<(u64, usize)>) -> u64 {
    let (mut sum, mut place) = (0u64, 0);
    while let Some((value, size)) = read(&bytes[place..]) {
        sum = sum.wrapping_add(value);
        place += size;
    }
    sum
}

fn ours(bytes: &[u8]) -> u64 {
    sum(bytes, maruzhenu::varint::read)
}

fn plain(bytes: &[u8]) -> u64 {
    sum(bytes, independent::varint::read)
}

fn archive(bytes: &[u8], archive: Archive) -> u64 {
    sum(bytes, |bytes| {
        let read = archive.read_varint(bytes);
        (read.size != 0).then_some((read.value, read.size as usize))
    })
}

/// The reading before request 3 (crate varint_before).
#[cfg(now)]
fn before(bytes: &[u8]) -> u64 {
    use maruzhenu::raw::Varint;
    extern "C" {
        fn mrz_read_varint_before(bytes: *const u8, length: usize) -> Varint;
    }
    sum(bytes, |bytes| {
        let read = unsafe { mrz_read_varint_before(bytes.as_ptr(), bytes.len()) };
        (read.size != 0).then_some((read.value, read.size as usize))
    })
}

#[cfg(nghttp3)]
fn nghttp3(bytes: &[u8]) -> u64 {
    extern "C" {
        fn nghttp3_peer_sum(bytes: *const u8, length: usize) -> u64;
    }
    unsafe { nghttp3_peer_sum(bytes.as_ptr(), bytes.len()) }
}

#[cfg(quinn)]
fn quinn(bytes: &[u8]) -> u64 {
    extern "C" {
        fn quinn_peer_sum(bytes: *const u8, length: usize) -> u64;
    }
    unsafe { quinn_peer_sum(bytes.as_ptr(), bytes.len()) }
}

/// quinn-proto's reader behind a call for each number, as ours is.
#[cfg(quinn)]
fn quinn_called(bytes: &[u8]) -> u64 {
    #[repr(C)]
    struct Read {
        value: u64,
        size: usize,
    }
    extern "C" {
        fn quinn_peer_read(bytes: *const u8, length: usize) -> Read;
    }
    sum(bytes, |bytes| {
        let read = unsafe { quinn_peer_read(bytes.as_ptr(), bytes.len()) };
        (read.size != 0).then_some((read.value, read.size))
    })
}

/// A reader of all numbers of a buffer, with its name and the ratio aimed at.
type Peer = (&'static str, fn(&[u8]) -> u64, Option<f64>);

fn row(name: &str, peer: &'static str, aim: Option<f64>, mut sides: [Work; 2]) -> Row {
    let times = race(&mut sides);
    Row {
        work: format!("varints of {name}"),
        peer,
        ours: times[0] / COUNT as f64,
        theirs: times[1] / COUNT as f64,
        unit: "varint",
        aim,
    }
}

pub fn rows() -> Vec<Row> {
    let peers: &[Peer] = &[
        ("independent, plain Rust, inlined", plain, None),
        #[cfg(nghttp3)]
        ("nghttp3", nghttp3, Some(0.8)),
        #[cfg(quinn)]
        ("quinn-proto, inlined", quinn, Some(0.8)),
        #[cfg(quinn)]
        ("quinn-proto, a call each", quinn_called, Some(0.8)),
    ];
    let mut rows = Vec::new();
    for (name, bounds) in BUFFERS {
        let bytes = &buffer(bounds)[..];
        for &(peer, theirs, aim) in peers {
            let sides: [Work; 2] = [Box::new(|| ours(bytes)), Box::new(|| theirs(bytes))];
            rows.push(row(name, peer, aim, sides));
        }
        #[cfg(now)]
        {
            let now: Work = Box::new(|| archive(bytes, crate::base::NOW));
            let sides = [now, Box::new(|| before(bytes))];
            // request 3 aims at less time for short forms, and at no more for long ones
            let aim = if bounds.len() < 4 { 0.8 } else { 1.05 };
            rows.push(row(name, "the reading before request 3", Some(aim), sides));
        }
    }
    rows
}

/// Beside the archive before.
pub fn rows_before() -> Vec<Row> {
    let row = |(name, bounds)| {
        let bytes = &buffer(bounds)[..];
        let side = |of| -> Work { Box::new(move || archive(bytes, of)) };
        row(name, BEFORE, None, NOW_AND_BEFORE.map(side))
    };
    BUFFERS.into_iter().map(row).collect()
}
