use super::Report::*;
use super::*;

const S: [u8; 14] = [
    0x00, 0x03, 0x61, 0x62, 0x63, 0x17, 0x00, 0x40, 0x40, 0x02, 0xff, 0xee, 0x00, 0x00,
];
const LONGEST: u64 = (1 << 62) - 1;

#[derive(Debug, Default, PartialEq)]
struct Seen {
    reports: Vec<Report>,
    payloads: Vec<Vec<u8>>,
    forwarded: Vec<u8>,
    closing: Option<Closing>,
}

/// Feeds the pieces one after the other, each until it is used up, and closes.
fn read(role: Role, limit: u64, draft: bool, pieces: &[&[u8]]) -> Seen {
    let mut reader = Reader::new(role, limit, draft, false).unwrap();
    let mut gather = vec![0xaa; limit as usize];
    let mut seen = Seen::default();
    for piece in pieces {
        let mut piece = *piece;
        while !piece.is_empty() {
            let mut out = vec![0xbb; piece.len() + 8];
            let fed = reader.feed(piece, &mut gather, &mut [], &mut out).unwrap();
            assert!(fed.consumed > 0);
            assert!(fed.report.is_some() || fed.consumed == piece.len());
            assert!(out[fed.written..].iter().all(|&byte| byte == 0xbb));
            seen.forwarded.extend(&out[..fed.written]);
            if let Some(Delivered { length }) = fed.report {
                seen.payloads.push(gather[..length as usize].to_vec());
            }
            seen.reports.extend(fed.report);
            piece = &piece[fed.consumed..];
        }
    }
    seen.closing = Some(reader.close().unwrap());
    seen
}

fn both_cuts(stream: &[u8], check: impl Fn(&[&[u8]])) {
    check(&[stream]);
    for cut in 0..=stream.len() {
        check(&[&stream[..cut], &stream[cut..]]);
    }
    let single: Vec<&[u8]> = stream.chunks(1).collect();
    check(&single);
}

fn skipped(capsule_type: u64, length: u64) -> Report {
    Skipped {
        capsule_type,
        length,
    }
}

fn passed(capsule_type: u64, length: u64) -> Report {
    Passed {
        capsule_type,
        length,
    }
}

#[test]
fn s_at_an_endpoint_cut_at_every_byte() {
    both_cuts(&S, |pieces| {
        let seen = read(Role::Endpoint, 1_200, false, pieces);
        assert_eq!(
            seen,
            Seen {
                reports: vec![
                    Delivered { length: 3 },
                    skipped(23, 0),
                    skipped(64, 2),
                    Delivered { length: 0 },
                ],
                payloads: vec![b"abc".to_vec(), vec![]],
                forwarded: vec![],
                closing: Some(Closing::Clean),
            }
        );
    });
}

#[test]
fn s_at_an_intermediary_cut_at_every_byte() {
    both_cuts(&S, |pieces| {
        let seen = read(Role::Intermediary, 1_200, false, pieces);
        assert_eq!(
            seen,
            Seen {
                reports: vec![
                    Delivered { length: 3 },
                    passed(23, 0),
                    passed(64, 2),
                    Delivered { length: 0 },
                ],
                payloads: vec![b"abc".to_vec(), vec![]],
                forwarded: vec![0x17, 0x00, 0x40, 0x40, 0x02, 0xff, 0xee],
                closing: Some(Closing::Clean),
            }
        );
    });
}

#[test]
fn s_ended_at_every_byte() {
    // Bytes at the front, and what has been reported and forwarded by then.
    let table = [
        (0, 0, 0),
        (1, 0, 0),
        (2, 0, 0),
        (3, 0, 0),
        (4, 0, 0),
        (5, 1, 0),
        (6, 1, 1),
        (7, 2, 2),
        (8, 2, 2),
        (9, 2, 4),
        (10, 2, 5),
        (11, 2, 6),
        (12, 3, 7),
        (13, 3, 7),
        (14, 4, 7),
    ];
    for (front, reports, forwarded) in table {
        both_cuts(&S[..front], |pieces| {
            let seen = read(Role::Intermediary, 1_200, false, pieces);
            assert_eq!(seen.reports.len(), reports);
            assert_eq!(seen.forwarded, &S[5..12][..forwarded]);
            let whole = [0, 5, 7, 12, 14].contains(&front);
            let closing = if whole {
                Closing::Clean
            } else {
                Closing::Truncated
            };
            assert_eq!(seen.closing, Some(closing));
        });
    }
}

#[test]
fn the_limit_is_allowed_itself() {
    let first = |limit, stream: &[u8]| read(Role::Endpoint, limit, false, &[stream]).reports[0];
    assert_eq!(first(2, &S), Dropped { length: 3 });
    assert_eq!(first(3, &S), Delivered { length: 3 });
    assert_eq!(first(0, &[0x00, 0x00]), Delivered { length: 0 });
    assert_eq!(first(0, &[0x00, 0x01, 0x78]), Dropped { length: 1 });
}

#[test]
fn datagram_type_in_a_longer_form() {
    both_cuts(&[0x40, 0x00, 0x02, 0x78, 0x79], |pieces| {
        for role in [Role::Endpoint, Role::Intermediary] {
            let seen = read(role, 1_200, false, pieces);
            assert_eq!(seen.reports, [Delivered { length: 2 }]);
            assert_eq!(seen.payloads, [b"xy"]);
            assert_eq!(seen.forwarded, []);
            assert_eq!(seen.closing, Some(Closing::Clean));
        }
    });
}

#[test]
fn datagram_type_of_the_draft() {
    let forms: [&[u8]; 2] = [
        &[0x80, 0xff, 0x37, 0xa5, 0x01, 0x7a],
        &[0xc0, 0x00, 0x00, 0x00, 0x00, 0xff, 0x37, 0xa5, 0x01, 0x7a],
    ];
    for form in forms {
        both_cuts(form, |pieces| {
            let on = read(Role::Intermediary, 1_200, true, pieces);
            assert_eq!(on.reports, [Delivered { length: 1 }]);
            assert_eq!(on.payloads, [b"z"]);
            assert_eq!(on.forwarded, []);
            let off = read(Role::Intermediary, 1_200, false, pieces);
            assert_eq!(off.reports, [passed(16_725_925, 1)]);
            assert_eq!(off.forwarded, form);
            let off = read(Role::Endpoint, 1_200, false, pieces);
            assert_eq!(off.reports, [skipped(16_725_925, 1)]);
        });
    }
    let next = [0x80, 0xff, 0x37, 0xa4, 0x01, 0x7a];
    let seen = read(Role::Endpoint, 1_200, true, &[&next]);
    assert_eq!(seen.reports, [skipped(16_725_924, 1)]);
}

#[test]
fn a_length_of_zero_in_every_form() {
    let lengths: [&[u8]; 4] = [
        &[0x00],
        &[0x40, 0x00],
        &[0x80, 0, 0, 0],
        &[0xc0, 0, 0, 0, 0, 0, 0, 0],
    ];
    for length in lengths {
        both_cuts(&[&[0x17], length].concat(), |pieces| {
            let seen = read(Role::Endpoint, 0, false, pieces);
            assert_eq!(seen.reports, [skipped(23, 0)]);
            assert_eq!(seen.closing, Some(Closing::Clean));
        });
        both_cuts(&[&[0x00], length].concat(), |pieces| {
            let seen = read(Role::Endpoint, 0, false, pieces);
            assert_eq!(seen.reports, [Delivered { length: 0 }]);
            assert_eq!(seen.closing, Some(Closing::Clean));
        });
    }
}

#[test]
fn lengths_near_two_to_the_sixty_second() {
    for below in 0..4 {
        let length = (LONGEST - below) | 0xc000_0000_0000_0000;
        for first in [0x00, 0x17] {
            let mut stream = vec![first];
            stream.extend(length.to_be_bytes());
            stream.extend([0x00; 40]);
            both_cuts(&stream, |pieces| {
                let seen = read(Role::Intermediary, 1_200, false, pieces);
                assert_eq!(seen.reports, []);
                assert_eq!(seen.closing, Some(Closing::Truncated));
                let forwarded: &[u8] = if first == 0x00 { &[] } else { &stream };
                assert_eq!(seen.forwarded, forwarded);
            });
        }
    }
}

#[test]
fn the_longest_capsule_ends_at_its_last_byte() {
    let mut reader = Reader::new(Role::Endpoint, 0, false, false).unwrap();
    let header = [0x17, 0xff, 0xff, 0xff, 0xff, 0xff, 0xff, 0xff, 0xff];
    let fed = reader.feed(&header, &mut [], &mut [], &mut []).unwrap();
    assert_eq!((fed.consumed, fed.report), (9, None));
    let coming = |left| State::Value {
        capsule_type: 23,
        length: LONGEST,
        left,
    };
    assert_eq!(reader.state, coming(LONGEST));
    reader.state = coming(2);
    let fed = reader.feed(&[0x00], &mut [], &mut [], &mut []).unwrap();
    assert_eq!((fed.consumed, fed.report), (1, None));
    let fed = reader
        .feed(&[0x00, 0x00], &mut [], &mut [], &mut [])
        .unwrap();
    assert_eq!((fed.consumed, fed.report), (1, Some(skipped(23, LONGEST))));
    assert_eq!(reader.close(), Ok(Closing::Clean));
}

#[test]
fn the_largest_type() {
    both_cuts(&[[0xff; 8].as_slice(), &[0x01, 0x02]].concat(), |pieces| {
        let seen = read(Role::Endpoint, 0, false, pieces);
        assert_eq!(seen.reports, [skipped(LONGEST, 1)]);
    });
}

#[test]
fn type_bytes_are_held_until_the_type_is_whole() {
    let mut reader = Reader::new(Role::Intermediary, 0, false, false).unwrap();
    let capsule_type = [0xc0, 0x00, 0x00, 0x00, 0x00, 0x00, 0x00, 0x17];
    for (index, &byte) in capsule_type.iter().enumerate() {
        let mut out = [0xbb; 9];
        let fed = reader.feed(&[byte], &mut [], &mut [], &mut out).unwrap();
        assert_eq!(fed.consumed, 1);
        if index < 7 {
            assert_eq!((fed.written, out), (0, [0xbb; 9]));
        } else {
            assert_eq!((fed.written, &out[..8]), (8, &capsule_type[..]));
        }
    }
}

#[test]
fn no_byte_is_stored_but_of_a_datagram_within_the_limit() {
    let mut reader = Reader::new(Role::Endpoint, 4, false, false).unwrap();
    let mut gather = [0xaa; 6];
    let mut rest: &[u8] = &[
        0x00, 0x05, 1, 2, 3, 4, 5, 0x17, 0x02, 6, 7, 0x00, 0x04, 8, 9,
    ];
    while !rest.is_empty() {
        let before = gather;
        let fed = reader.feed(rest, &mut gather, &mut [], &mut []).unwrap();
        if fed.report.is_some() {
            assert_eq!(gather, before);
        }
        rest = &rest[fed.consumed..];
    }
    assert_eq!(reader.close(), Ok(Closing::Truncated));
    assert_eq!(gather, [8, 9, 0xaa, 0xaa, 0xaa, 0xaa]);
}

#[test]
fn an_empty_piece_changes_nothing() {
    for front in 0..S.len() {
        let mut reader = Reader::new(Role::Intermediary, 3, false, false).unwrap();
        let (mut gather, mut out) = ([0; 3], [0; 30]);
        let mut rest = &S[..front];
        while !rest.is_empty() {
            let fed = reader.feed(rest, &mut gather, &mut [], &mut out).unwrap();
            rest = &rest[fed.consumed..];
        }
        let before = (reader.clone(), gather, out);
        let nothing = Fed {
            consumed: 0,
            written: 0,
            report: None,
        };
        assert_eq!(
            reader.feed(&[], &mut gather, &mut [], &mut out),
            Ok(nothing)
        );
        assert_eq!((reader, gather, out), before);
    }
}

#[test]
fn refusals() {
    assert!(Reader::new(Role::Endpoint, 65_535, false, false).is_ok());
    for limit in [65_536, u64::MAX] {
        let refusal = Reader::new(Role::Endpoint, limit, false, false).unwrap_err();
        assert_eq!(refusal, Refusal::LimitTooLarge);
    }

    // 4 by the length of the gathering buffer alone, in both roles and before 5
    for role in [Role::Endpoint, Role::Intermediary] {
        let mut reader = Reader::new(role, 3, false, false).unwrap();
        let before = reader.clone();
        for piece in [&[][..], &[0x17]] {
            let refused = reader.feed(piece, &mut [0; 2], &mut [], &mut []);
            assert_eq!(refused, Err(Refusal::GatheringBufferTooShort));
        }
        assert_eq!(reader, before);
    }

    // 5 for an intermediary alone, inside a DATAGRAM too
    let mut reader = Reader::new(Role::Intermediary, 3, false, false).unwrap();
    let refused = reader.feed(&[], &mut [0; 3], &mut [], &mut [0; 7]);
    assert_eq!(refused, Err(Refusal::OutputTooShort));
    assert!(reader.feed(&[], &mut [0; 3], &mut [], &mut [0; 8]).is_ok());
    assert!(reader
        .feed(&[0, 3], &mut [0; 3], &mut [], &mut [0; 10])
        .is_ok());
    let before = reader.clone();
    let refused = reader.feed(&[1, 2], &mut [0; 3], &mut [], &mut [0; 9]);
    assert_eq!(refused, Err(Refusal::OutputTooShort));
    assert_eq!(reader, before);
    let mut reader = Reader::new(Role::Endpoint, 0, false, false).unwrap();
    assert!(reader.feed(&[0x17], &mut [], &mut [], &mut []).is_ok());

    // 2 before the others
    assert_eq!(reader.close(), Ok(Closing::Truncated));
    let before = reader.clone();
    assert_eq!(reader.close(), Err(Refusal::Finished));
    let mut reader = Reader { limit: 9, ..reader };
    for piece in [&[][..], &[0x00]] {
        let refused = reader.feed(piece, &mut [], &mut [], &mut []);
        assert_eq!(refused, Err(Refusal::Finished));
    }
    assert_eq!(Reader { limit: 0, ..reader }, before);
}

/// Feeds an opted-in endpoint, limit 2, until a capsule is malformed. Answers the reports, the delivered values, how many
/// bytes were consumed, and the address buffer.
fn read_addresses(pieces: &[&[u8]]) -> (Vec<Report>, Vec<Vec<u8>>, usize, Vec<u8>) {
    let mut reader = Reader::new(Role::Endpoint, 2, false, true).unwrap();
    let (mut gather, mut addresses) = ([0xaa; 2], vec![0xaa; 1_024]);
    let (mut reports, mut values, mut consumed) = (vec![], vec![], 0);
    for piece in pieces {
        let mut piece = *piece;
        while !piece.is_empty() {
            let fed = match reader.feed(piece, &mut gather, &mut addresses, &mut []) {
                Ok(fed) => fed,
                Err(refusal) => {
                    assert_eq!(refusal, Refusal::Finished);
                    assert!(matches!(reports.last(), Some(Malformed { .. })));
                    break;
                }
            };
            if let Some(AddressDelivered { length, .. }) = fed.report {
                values.push(addresses[..length as usize].to_vec());
            }
            reports.extend(fed.report);
            consumed += fed.consumed;
            piece = &piece[fed.consumed..];
        }
    }
    if let Some(Malformed { .. }) = reports.last() {
        assert_eq!(reader.words(), [MARK, 2, 2, 0, 0, 0, 0, 1]);
        assert_eq!(reader.close(), Err(Refusal::Finished));
    }
    (reports, values, consumed, addresses)
}

fn delivered(capsule_type: u64, length: u64) -> Report {
    AddressDelivered {
        capsule_type,
        length,
    }
}

fn malformed(capsule_type: u64, length: u64) -> Report {
    Malformed {
        capsule_type,
        length,
    }
}

#[test]
fn address_capsules_at_an_endpoint_that_takes_them() {
    let stream = [
        0x40, 0x01, 0x07, 0x00, 0x04, 10, 0, 0, 1, 32, 0x00, 0x01, 0x61, 0x03, 0x00, 0x04, 0x00,
        0x01, 0x40, 0x00,
    ];
    both_cuts(&stream, |pieces| {
        let (reports, values, consumed, addresses) = read_addresses(pieces);
        let expected = [
            delivered(1, 7),
            Delivered { length: 1 },
            delivered(3, 0),
            skipped(4, 0),
            delivered(1, 0),
        ];
        assert_eq!(reports, expected);
        assert_eq!(values, [stream[3..10].to_vec(), vec![], vec![]]);
        assert_eq!(consumed, stream.len());
        assert_eq!(addresses[..8], [0x00, 0x04, 10, 0, 0, 1, 32, 0xaa]);
    });
}

#[test]
fn a_malformed_capsule_finishes_the_reader() {
    let longest = [0xff; 8];
    let cases: [(&[u8], Report, usize, &[u8]); 4] = [
        (&[0x02, 0x00, 0x00, 0x00], malformed(2, 0), 2, &[]),
        (&[0x01, 0x44, 0x01, 0x00], malformed(1, 1_025), 3, &[]),
        (
            &[&[0x03][..], &longest, &[0x00]].concat(),
            malformed(3, LONGEST),
            9,
            &[],
        ),
        (
            &[0x01, 0x07, 0, 5, 0, 0, 0, 0, 0, 0x17, 0x00],
            malformed(1, 7),
            9,
            &[0, 5, 0, 0, 0, 0, 0],
        ),
    ];
    for (stream, report, end, stored) in cases {
        both_cuts(stream, |pieces| {
            let (reports, _, consumed, addresses) = read_addresses(pieces);
            assert_eq!((&reports[..], consumed), (&[report][..], end));
            assert_eq!(addresses[..stored.len()], *stored);
            assert!(addresses[stored.len()..].iter().all(|&byte| byte == 0xaa));
        });
    }
}

#[test]
fn address_values_of_1_024_bytes_and_more() {
    let entries = [0x40, 0x07, 0x04, 10, 0, 0, 0, 8].repeat(128);
    let stream = [&[0x01, 0x44, 0x00][..], &entries].concat();
    let (reports, values, ..) = read_addresses(&[&stream]);
    assert_eq!(
        (reports, values),
        (vec![delivered(1, 1_024)], vec![entries])
    );

    // One byte more, by readers that do not take it
    let mut stream = vec![0x01, 0x44, 0x01];
    stream.resize(3 + 1_025, 0x05);
    for (role, addresses, report) in [
        (Role::Endpoint, false, skipped(1, 1_025)),
        (Role::Intermediary, false, passed(1, 1_025)),
        (Role::Intermediary, true, passed(1, 1_025)),
    ] {
        let mut reader = Reader::new(role, 0, false, addresses).unwrap();
        let mut out = vec![0; stream.len() + 8];
        let fed = reader.feed(&stream, &mut [], &mut [], &mut out).unwrap();
        assert_eq!((fed.consumed, fed.report), (stream.len(), Some(report)));
        if role == Role::Intermediary {
            assert_eq!(out[..fed.written], stream);
        }
    }
}

#[test]
fn the_address_buffer_is_judged_as_it_stands() {
    let capsule = [0x01, 0x07, 0x00, 0x05, 10, 0, 0, 1, 32];
    let mut reader = Reader::new(Role::Endpoint, 0, false, true).unwrap();
    let mut addresses = [0; 1_024];
    let fed = reader.feed(&capsule[..8], &mut [], &mut addresses, &mut []);
    assert_eq!(fed.unwrap().report, None);
    addresses[1] = 4;
    let fed = reader.feed(&capsule[8..], &mut [], &mut addresses, &mut []);
    assert_eq!(fed.unwrap().report, Some(delivered(1, 7)));
}

#[test]
fn refusals_for_the_address_buffer() {
    // 18 by its length alone, behind 4 and 2, for an endpoint that takes address capsules
    let mut reader = Reader::new(Role::Endpoint, 3, false, true).unwrap();
    for piece in [&[][..], &[0x17]] {
        let refused = reader.feed(piece, &mut [0; 3], &mut [0; 1_023], &mut []);
        assert_eq!(refused, Err(Refusal::AddressBufferTooShort));
        let refused = reader.feed(piece, &mut [0; 2], &mut [0; 1_023], &mut []);
        assert_eq!(refused, Err(Refusal::GatheringBufferTooShort));
        let fed = reader.feed(piece, &mut [0; 3], &mut [0; 1_024], &mut []);
        assert!(fed.is_ok());
    }
    assert_eq!(reader.close(), Ok(Closing::Truncated));
    let refused = reader.feed(&[], &mut [], &mut [], &mut []);
    assert_eq!(refused, Err(Refusal::Finished));
    let mut reader = Reader::new(Role::Intermediary, 0, false, true).unwrap();
    let refused = reader.feed(&[], &mut [], &mut [], &mut []);
    assert_eq!(refused, Err(Refusal::OutputTooShort));
    assert!(reader.feed(&[], &mut [], &mut [], &mut [0; 8]).is_ok());
}
