//! The reader, fed in pieces of any length, against a plain reading of the whole stream.

use independent::addresses::{self, AddressType};
use independent::captures::{address_stream, written, Captures, Kind};
use independent::{varint, Closing, Random, Reader, Refusal, Report, Role};

const LIMITS: [u64; 4] = [0, 3, 1_200, 65_535];

/// How a reader is opened.
#[derive(Clone, Copy)]
struct Opening {
    role: Role,
    limit: u64,
    draft: bool,
    addresses: bool,
}

impl Opening {
    /// The type of an address capsule that such a reader takes.
    fn address_type(self, capsule_type: u64) -> Option<AddressType> {
        let takes = self.addresses && self.role == Role::Endpoint;
        AddressType::from_number(capsule_type).filter(|_| takes)
    }
}

struct Capsule<'a> {
    capsule_type: u64,
    length: u64,
    bytes: &'a [u8],
    value: &'a [u8],
}

/// The complete capsules of a stream, and the unfinished rest.
fn split(stream: &[u8], opening: Opening) -> (Vec<Capsule<'_>>, &[u8]) {
    let mut capsules = Vec::new();
    let mut rest = stream;
    while let Some(capsule) = first_capsule(rest, opening) {
        rest = &rest[capsule.bytes.len()..];
        capsules.push(capsule);
    }
    (capsules, rest)
}

fn first_capsule(stream: &[u8], opening: Opening) -> Option<Capsule<'_>> {
    let (capsule_type, type_size) = varint::read(stream)?;
    let (length, length_size) = varint::read(&stream[type_size..])?;
    let header = type_size + length_size;
    // An address capsule that is too long is complete with its length.
    let value = match opening.address_type(capsule_type) {
        Some(_) if length > 1_024 => 0,
        _ => usize::try_from(length).ok()?,
    };
    Some(Capsule {
        capsule_type,
        length,
        bytes: stream.get(..header + value)?,
        value: &stream[header..header + value],
    })
}

fn check(stream: &[u8], opening: Opening, random: &mut Random) {
    let Opening {
        role,
        limit,
        draft,
        addresses,
    } = opening;
    let is_datagram = |capsule_type| capsule_type == 0 || (draft && capsule_type == 0xff37a5);
    let (capsules, tail) = split(stream, opening);
    let mut coming = capsules.iter();
    let mut capsule = coming.next();
    let mut start = 0;
    let mut written: Vec<u8> = Vec::new();

    let mut reader = Reader::new(role, limit, draft, addresses).unwrap();
    let mut gather = vec![0xaa; limit as usize + 1];
    let mut second = vec![0xaa; 1_025];
    // The longest piece, in streams of some length and in long ones.
    let longest = match stream.len() {
        0..5_000 => [1, 2, 9, 64, 1_300],
        _ => [500, 1_300, 5_000, 16_384, 70_000],
    };
    let longest = longest[random.between(0, 4) as usize];
    let mut at = 0;
    while at < stream.len() {
        let size = random.between(1, longest) as usize;
        let piece = &stream[at..stream.len().min(at + size)];
        let mut out = vec![0xbb; piece.len() + 8];
        if random.between(1, 8) == 1 {
            check_refusals(&mut reader, opening, piece, &mut gather, &mut out);
        }

        let fed = reader
            .feed(piece, &mut gather, &mut second, &mut out)
            .unwrap();
        written.extend(&out[..fed.written]);
        assert!(out[fed.written..].iter().all(|&byte| byte == 0xbb));
        let end_of_piece = at + piece.len();
        at += fed.consumed;

        let ending = capsule.filter(|capsule| start + capsule.bytes.len() <= end_of_piece);
        let Some(ended) = ending else {
            assert_eq!(fed.report, None);
            assert_eq!(at, end_of_piece);
            // The bytes of a capsule that has not ended are written once its type is whole.
            let begun = &stream[start..at];
            let type_read = varint::read(begun).map(|(capsule_type, _)| capsule_type);
            let passed = type_read.is_some_and(|capsule_type| !is_datagram(capsule_type));
            let passed = passed && role == Role::Intermediary;
            assert!(written == if passed { begun } else { &[] });
            continue;
        };

        assert_eq!(at, start + ended.bytes.len());
        let (capsule_type, length) = (ended.capsule_type, ended.length);
        let mut forwarded: &[u8] = &[];
        let expected = if is_datagram(capsule_type) && length <= limit {
            assert!(gather.starts_with(ended.value));
            Report::Delivered { length }
        } else if is_datagram(capsule_type) {
            Report::Dropped { length }
        } else if let Some(address_type) = opening.address_type(capsule_type) {
            assert!(second.starts_with(ended.value) && second[1_024] == 0xaa);
            if length > 1_024 || addresses::check(address_type, ended.value).is_err() {
                let report = Report::Malformed {
                    capsule_type,
                    length,
                };
                assert_eq!(fed.report, Some(report));
                let refused = reader.feed(piece, &mut gather, &mut second, &mut out);
                assert_eq!(refused, Err(Refusal::Finished));
                assert_eq!(reader.close(), Err(Refusal::Finished));
                return;
            }
            Report::AddressDelivered {
                capsule_type,
                length,
            }
        } else if role == Role::Endpoint {
            Report::Skipped {
                capsule_type,
                length,
            }
        } else {
            forwarded = ended.bytes;
            Report::Passed {
                capsule_type,
                length,
            }
        };
        assert_eq!(fed.report, Some(expected));
        assert!(written == forwarded);
        written.clear();
        start = at;
        capsule = coming.next();
    }

    assert!(capsule.is_none());
    assert_eq!(gather[limit as usize], 0xaa);
    let closing = if tail.is_empty() {
        Closing::Clean
    } else {
        Closing::Truncated
    };
    assert_eq!(reader.close(), Ok(closing));
    assert_eq!(reader.close(), Err(Refusal::Finished));
}

fn check_refusals(
    reader: &mut Reader,
    opening: Opening,
    piece: &[u8],
    gather: &mut [u8],
    out: &mut [u8],
) {
    let before = (reader.clone(), gather.to_vec(), out.to_vec());
    let Opening { role, limit, .. } = opening;
    if limit > 0 {
        let refused = reader.feed(piece, &mut gather[..limit as usize - 1], &mut [], out);
        assert_eq!(refused, Err(Refusal::GatheringBufferTooShort));
    }
    if opening.address_type(1).is_some() {
        let refused = reader.feed(piece, gather, &mut [0; 1_023], out);
        assert_eq!(refused, Err(Refusal::AddressBufferTooShort));
    }
    if role == Role::Intermediary {
        let refused = reader.feed(piece, gather, &mut [], &mut out[1..]);
        assert_eq!(refused, Err(Refusal::OutputTooShort));
    }
    assert!(*reader == before.0 && gather == before.1 && out == before.2);
}

#[test]
fn reader_agrees_with_the_grammar() {
    let mut random = Random::new(0x1234);
    for capture in written().into_iter().chain(Captures::new(0x77).take(1_500)) {
        // Of thousands of small capsules the first ones suffice here.
        let stream = match capture.kind {
            Kind::Many => &capture.bytes[..2_000],
            _ => &capture.bytes[..],
        };
        check_openings(stream, &mut random);
    }
}

fn check_openings(stream: &[u8], random: &mut Random) {
    for role in [Role::Endpoint, Role::Intermediary] {
        let opening = Opening {
            role,
            limit: LIMITS[random.between(0, 3) as usize],
            draft: random.between(0, 1) == 1,
            addresses: random.between(0, 1) == 1,
        };
        check(stream, opening, random);
    }
}

#[test]
fn reader_agrees_with_the_grammar_on_address_capsules() {
    let mut random = Random::new(0x9484);
    for _ in 0..4_000 {
        let stream = address_stream(&mut random);
        check_openings(&stream, &mut random);
    }
}
