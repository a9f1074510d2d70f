//! Small inputs, all of them.

use independent::addresses::{Address, Ip, Range};
use independent::captures::{push_address, push_range, Form};
use independent::reader::MARK;
use independent::Random;
use maruzhenu::raw::{FrameTerms, Limits, Opening, Stream};

use super::addresses::{address_entry, range_entry};
use super::{fields, rows, Outcome};
use crate::call::{lent_table, Bytes};
use crate::{Call, Comparison, Lent, LentReader};

/// All small inputs of all calls.
pub fn exhaustive(comparison: &mut Comparison) -> Outcome {
    streams(comparison)?;
    zeros(comparison)?;
    numbers(comparison)?;
    identifiers(comparison)?;
    tables(comparison)?;
    messages(comparison)?;
    fields::all(comparison)?;
    prefixes(comparison)?;
    ranges(comparison)
}

/// Bytes with which fields of every size begin, small types and lengths.
const BYTES: [u8; 8] = [0x00, 0x01, 0x02, 0x17, 0x40, 0x41, 0x80, 0xff];

/// Every stream of up to five of these bytes, in each role with limits 0 and 1, and as an endpoint that takes address
/// capsules, whole and byte by byte. An intermediary that opted in does as others do.
fn streams(comparison: &mut Comparison) -> Outcome {
    for stream in rows(&BYTES, 5) {
        comparison.make(Call::List {
            bytes: Bytes(stream.clone()),
        })?;
        let openings = [[0, 0, 0], [0, 1, 0], [1, 0, 0], [1, 1, 1], [0, 1, 1]];
        for opening in openings {
            read(comparison, opening, &stream, stream.len().max(1))?;
            read(comparison, opening, &stream, 1)?;
        }
    }
    Ok(())
}

fn read(
    comparison: &mut Comparison,
    [role, limit, addresses]: [u64; 3],
    stream: &[u8],
    longest: usize,
) -> Outcome {
    let (_, call) = comparison.make(Call::ReaderOpen {
        reader: LentReader::new([u64::MAX; 8]),
        opening: Opening {
            role,
            datagram_limit: limit,
            draft: 0,
            addresses,
        },
    })?;
    let mut words = call.words().expect("an opening has words");
    let length = match (role, addresses) {
        (0, 1) => 1_024,
        _ => 0,
    };
    let mut second = Lent::new(&vec![0x99; length], 0x88);
    for mut piece in stream.chunks(longest) {
        while !piece.is_empty() {
            let (answer, call) = comparison.make(Call::ReaderFeed {
                reader: LentReader::new(words),
                piece: Bytes(piece.to_vec()),
                gathering: Lent::new(&[0xee, 0xdd], 0xcc),
                addresses: second,
                output: Lent::new(&vec![0xbb; piece.len() + 8], 0xaa),
            })?;
            words = call.words().expect("a feeding has words");
            if longest == 1 {
                look(comparison, words)?;
            }
            let Call::ReaderFeed { addresses, .. } = call else {
                unreachable!("it is the call that was made");
            };
            second = addresses;
            // A malformed capsule has finished the reader.
            if answer[0] != 0 {
                break;
            }
            piece = &piece[answer[1] as usize..];
        }
    }
    comparison.make(Call::ReaderClose {
        reader: LentReader::new(words),
    })?;
    Ok(())
}

fn look(comparison: &mut Comparison, words: [u64; 8]) -> Outcome {
    let reader = LentReader::new(words);
    comparison.make(Call::ReaderLook { reader })?;
    Ok(())
}

/// Words that are all zero, and zero but for the first or one other: every call on them.
fn zeros(comparison: &mut Comparison) -> Outcome {
    let marks = [0, 1, MARK - 1, MARK, MARK + 1, MARK + 2];
    for (mark, place) in marks
        .into_iter()
        .flat_map(|mark| (0..8).map(move |p| (mark, p)))
    {
        let mut words = [0; 8];
        words[place] = 1;
        words[0] = mark;
        look(comparison, words)?;
        for (piece, room) in [(&[][..], 8), (&[0x00, 0x00], 10), (&[0x17], 0)] {
            comparison.make(Call::ReaderFeed {
                reader: LentReader::new(words),
                piece: Bytes(piece.to_vec()),
                gathering: Lent::new(&[0xee; 4], 0xcc),
                addresses: Lent::new(&[], 0x88),
                output: Lent::new(&vec![0xbb; room], 0xaa),
            })?;
        }
        comparison.make(Call::ReaderClose {
            reader: LentReader::new(words),
        })?;
    }
    Ok(())
}

/// Every first byte with up to nine bytes; the numbers around every bound, at every place of a small output.
fn numbers(comparison: &mut Comparison) -> Outcome {
    for first in 0..=u8::MAX {
        for length in 0..=9 {
            let mut bytes = vec![first, 0x12, 0x34, 0x56, 0x78, 0x9a, 0xbc, 0xde, 0xf0];
            bytes.truncate(length);
            comparison.make(Call::ReadVarint {
                bytes: Bytes(bytes),
            })?;
        }
    }
    for bound in [0, 1 << 6, 1 << 14, 1 << 30, 1 << 62, u64::MAX] {
        for number in [bound - u64::from(bound > 0), bound, bound.saturating_add(1)] {
            for length in 0..=10 {
                for place in (0..=11).chain([u64::MAX - 8, u64::MAX - 1, u64::MAX]) {
                    let out = Lent::new(&vec![0xbb; length], 0xaa);
                    comparison.make(Call::WriteVarint { number, out, place })?;
                }
            }
        }
    }
    for bound in [0, 1 << 6, 1 << 14, 65_536, 1 << 32, u64::MAX] {
        for length in [bound - u64::from(bound > 0), bound] {
            for room in 0..=6 {
                for place in (0..=7).chain([u64::MAX - 4, u64::MAX]) {
                    let out = Lent::new(&vec![0xbb; room], 0xaa);
                    comparison.make(Call::WriteDatagramHeader { length, out, place })?;
                }
            }
        }
    }
    for length in (0..=66).chain([16_383, 16_384, 65_535, 65_536]) {
        for less in 0..=2 {
            comparison.make(Call::WriteDatagram {
                payload: Bytes(vec![0x77; length]),
                out: Lent::new(&vec![0xbb; length + 6 - less], 0xaa),
                place: 1,
            })?;
        }
    }
    Ok(())
}

/// Identifiers around every bound, each way.
fn identifiers(comparison: &mut Comparison) -> Outcome {
    for bound in [
        64,
        1 << 8,
        1 << 32,
        1 << 58,
        1 << 60,
        1 << 62,
        1 << 63,
        u64::MAX - 64,
    ] {
        for near in 0..=128 {
            let number = bound - 64 + near;
            comparison.make(Call::QuarterOf { id: number })?;
            comparison.make(Call::StreamIdOf { quarter: number })?;
        }
    }
    Ok(())
}

const QUARTERS: [u64; 4] = [0, 1, (1 << 60) - 1, 1 << 60];

/// Flags with the lowest and with the highest of the bits that mean nothing.
const STRAY_FLAGS: [u64; 8] = [
    1 << 4,
    1 << 4 | 1,
    1 << 4 | 7,
    1 << 4 | 15,
    1 << 63,
    1 << 63 | 3,
    1 << 63 | 5,
    1 << 63 | 15,
];

/// Every table of up to two records with these quarters, and any flags or some with bits that mean nothing; one record with
/// each of these bits; and every call on it.
fn tables(comparison: &mut Comparison) -> Outcome {
    let records = |flags: Vec<u64>| -> Vec<Stream> {
        let with = |quarter| flags.iter().map(move |&flags| Stream { quarter, flags });
        QUARTERS.into_iter().flat_map(with).collect()
    };
    let small = records((0..16).chain(STRAY_FLAGS).collect());
    let strays = records((4..64).flat_map(|bit| [1 << bit, 1 << bit | 15]).collect());
    table(comparison, &[])?;
    for &record in &strays {
        table(comparison, &[record])?;
    }
    for &first in &small {
        table(comparison, &[first])?;
        for &second in &small {
            table(comparison, &[first, second])?;
        }
    }
    Ok(())
}

fn table(comparison: &mut Comparison, records: &[Stream]) -> Outcome {
    let table = lent_table(records);
    for id in [0, 4, 6, (1 << 62) - 4, 1 << 62] {
        for flag in [0, 1] {
            comparison.make(Call::StreamOpen {
                table: table.clone(),
                id,
                semantics: flag,
            })?;
            comparison.make(Call::StreamClose {
                table: table.clone(),
                id,
                side: flag,
            })?;
        }
        comparison.make(Call::StreamFind {
            table: table.clone(),
            id,
        })?;
        comparison.make(Call::WriteCapsule {
            table: table.clone(),
            id,
            payload: Bytes(vec![0x77]),
            out: Lent::new(&[0xbb; 4], 0xaa),
            place: 1,
        })?;
        for [our_setting, peer_setting] in [[1, 1], [1, 0], [0, 1]] {
            let terms = FrameTerms {
                our_setting,
                peer_setting,
                path_size: 9,
            };
            comparison.make(Call::WriteFrame {
                table: table.clone(),
                id,
                terms,
                payload: Bytes(vec![0x77]),
                out: Lent::new(&[0xbb; 10], 0xaa),
                place: 1,
            })?;
            comparison.make(Call::WriteFrameHeader {
                table: table.clone(),
                id,
                terms,
                length: 1,
                out: Lent::new(&[0xbb; 9], 0xaa),
                place: 1,
            })?;
        }
    }
    for frame in [
        &[][..],
        &[0x00],
        &[0x01, 0x77],
        &[0x40, 0x01, 0x77, 0x78],
        &[0xcf, 0xff, 0xff, 0xff, 0xff, 0xff, 0xff, 0xff],
        &[0xd0, 0x00, 0x00, 0x00, 0x00, 0x00, 0x00, 0x00],
    ] {
        for (stream_limit, datagram_limit) in
            [(1 << 60, 1), (1, 1), (0, 65_536), ((1 << 60) + 1, 1)]
        {
            let limits = Limits {
                stream_limit,
                datagram_limit,
            };
            comparison.make(Call::Judge {
                table: table.clone(),
                limits,
                frame: Bytes(frame.to_vec()),
            })?;
        }
    }
    Ok(())
}

/// Every status of three digits and some more with every choice of fields; small settings; errors and versions.
fn messages(comparison: &mut Comparison) -> Outcome {
    for choice in 0..8 {
        let fields = [choice & 1, choice >> 1 & 1, choice >> 2];
        comparison.make(Call::RequestMalformed { fields })?;
        for status in (0..=1_100).chain(65_530..=65_540) {
            comparison.make(Call::ResponseMalformed { status, fields })?;
        }
    }
    for status in (0..=1_100).chain(65_530..=66_000) {
        for response in [0, 1] {
            comparison.make(Call::FieldCounts { response, status })?;
        }
    }
    for first in 0..=9 {
        for second in 0..=9 {
            comparison.make(Call::SettingError {
                received: first,
                stored: second,
            })?;
            comparison.make(Call::Translate {
                error: first,
                version: second,
            })?;
        }
    }
    Ok(())
}

/// An address of either version with each bit alone, with none and with all, under every prefix length around its bits.
fn prefixes(comparison: &mut Comparison) -> Outcome {
    let random = &mut Random::new(0);
    for bits in [32, 128] {
        let all = u128::MAX >> (128 - bits);
        let numbers = (0..bits).flat_map(|bit| [1 << bit, all & !((1 << bit) - 1)]);
        for number in numbers.chain([0]) {
            for prefix_length in (0..=bits as u8 + 2).chain([255]) {
                let address = Address {
                    request_id: u64::from(prefix_length % 3),
                    ip: match bits {
                        32 => Ip::V4(number as u32),
                        _ => Ip::V6(number),
                    },
                    prefix_length,
                };
                let mut value = Vec::new();
                push_address(&mut value, random, Form::Shortest, &address);
                for capsule_type in [1, 2] {
                    comparison.make(Call::AddressValueGood {
                        capsule_type,
                        value: Bytes(value.clone()),
                    })?;
                }
                comparison.make(Call::WriteAddressAssign {
                    addresses: Bytes(address_entry(&address, 0x77)),
                    out: Lent::new(&[0xbb; 24], 0xaa),
                    place: 1,
                })?;
            }
        }
    }
    Ok(())
}

/// Every three ranges with addresses 0 to 2 and protocols 0 to 2 of both versions, checked; every two, written and split.
fn ranges(comparison: &mut Comparison) -> Outcome {
    let mut ranges = Vec::new();
    for number in 0..54 {
        let [start, end] = [number / 2 % 3, number / 6 % 3];
        let ip = |address: u32| match number % 2 {
            0 => Ip::V4(address),
            _ => Ip::V6(address.into()),
        };
        ranges.push(Range {
            start: ip(start),
            end: ip(end),
            ip_protocol: (number / 18) as u8,
        });
    }
    for first in &ranges {
        for second in &ranges {
            let mut value = Vec::new();
            push_range(&mut value, first);
            push_range(&mut value, second);
            check_range(comparison, &value)?;
            for at in 0..=value.len() as u64 + 1 {
                comparison.make(Call::RouteNext {
                    value: Bytes(value.clone()),
                    at,
                })?;
            }
            let entries = [range_entry(first, 0x77), range_entry(second, 0x77)];
            comparison.make(Call::WriteRouteAdvertisement {
                routes: Bytes(entries.concat()),
                out: Lent::new(&[0xbb; 72], 0xaa),
                place: 1,
            })?;
            for third in &ranges {
                let mut value = value.clone();
                push_range(&mut value, third);
                check_range(comparison, &value)?;
            }
        }
    }
    Ok(())
}

fn check_range(comparison: &mut Comparison, value: &[u8]) -> Outcome {
    comparison.make(Call::AddressValueGood {
        capsule_type: 3,
        value: Bytes(value.to_vec()),
    })?;
    Ok(())
}
