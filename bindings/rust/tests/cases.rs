//! Worked cases through the typed calls.

use std::net::Ipv6Addr;

use maruzhenu::addresses::{self, Address, AddressType, Route};
use maruzhenu::http::{self, Action, Error, Fields, Message, Version};
use maruzhenu::reader::{Buffer, Closed, Fed, Look, Position};
use maruzhenu::table::{self, FrameTerms, Judged, Limits, Quarter, Side, SideClosed, Verdict};
use maruzhenu::{datagram, list, listing, raw, varint};
use maruzhenu::{Buffers, End, Opening, Reader, Refusal, Report, Stream, StreamId, Table};

const S: [u8; 14] = [
    0x00, 0x03, 0x61, 0x62, 0x63, 0x17, 0x00, 0x40, 0x40, 0x02, 0xff, 0xee, 0x00, 0x00,
];

#[derive(Debug, Default, PartialEq)]
struct Seen {
    reports: Vec<Report>,
    payloads: Vec<Vec<u8>>,
    forwarded: Vec<u8>,
}

/// Feeds the stream in pieces of this size and closes.
fn read(opening: Opening, stream: &[u8], size: usize) -> (Seen, Closed) {
    let mut reader = Reader::open(opening).unwrap();
    let mut gathering = vec![0xaa; opening.datagram_limit];
    let mut seen = Seen::default();
    for mut piece in stream.chunks(size) {
        while !piece.is_empty() {
            let mut buffers = Buffers {
                gathering: &mut gathering,
                output: &mut vec![0xbb; piece.len() + Reader::OUTPUT_HEADROOM],
                ..Buffers::default()
            };
            let fed = reader.feed(piece, &mut buffers).unwrap();
            assert!(fed.consumed > 0);
            piece = &piece[fed.consumed..];
            seen.forwarded.extend(&buffers.output[..fed.written]);
            if let Some(Report::Delivered { length }) = fed.report {
                seen.payloads.push(buffers.gathering[..length].to_vec());
            }
            seen.reports.extend(fed.report);
        }
    }
    let closed = reader.close().unwrap();
    assert_eq!(reader.close(), Err(Refusal::Finished));
    (seen, closed)
}

#[test]
fn streams() {
    let clean = Closed {
        end: End::Clean,
        error: None,
    };
    for size in 1..=S.len() {
        let (seen, closed) = read(Opening::endpoint(1_200), &S, size);
        let skipped = |capsule_type, length| Report::Skipped {
            capsule_type,
            length,
        };
        let delivered = |length| Report::Delivered { length };
        let expected = [delivered(3), skipped(23, 0), skipped(64, 2), delivered(0)];
        assert_eq!(seen.reports, expected);
        assert_eq!(seen.payloads, [b"abc".to_vec(), vec![]]);
        assert_eq!((seen.forwarded.len(), closed), (0, clean));

        let (seen, _) = read(Opening::endpoint(2), &S, size);
        assert_eq!(seen.reports[0], Report::Dropped { length: 3 });

        let (seen, closed) = read(Opening::intermediary(1_200), &S, size);
        let passed = Report::Passed {
            capsule_type: 64,
            length: 2,
        };
        assert_eq!(seen.reports[2], passed);
        assert_eq!((&seen.forwarded[..], closed), (&S[5..12], clean));

        let (seen, closed) = read(Opening::intermediary(1_200), &S[..9], size);
        assert_eq!(seen.forwarded, S[5..9]);
        let truncated = Closed {
            end: End::Truncated,
            error: Some(Error::Truncated),
        };
        assert_eq!(closed, truncated);

        let stream = [0x80, 0xff, 0x37, 0xa5, 0x01, 0x7a];
        let draft = Opening {
            draft: true,
            ..Opening::endpoint(1_200)
        };
        let (seen, _) = read(draft, &stream, size);
        assert_eq!(seen.reports, [delivered(1)]);
        let (seen, _) = read(Opening::endpoint(1_200), &stream, size);
        assert_eq!(seen.reports, [skipped(16_725_925, 1)]);
    }
}

/// Feeds a reader that takes no address capsules, with buffers of these lengths.
fn feed(
    reader: &mut Reader,
    piece: &[u8],
    gathering: usize,
    output: usize,
) -> Result<Fed, Refusal> {
    let mut buffers = Buffers {
        gathering: &mut vec![0; gathering],
        output: &mut vec![0; output],
        ..Buffers::default()
    };
    reader.feed(piece, &mut buffers)
}

#[test]
fn refused_readings() {
    let largest = Opening::LARGEST_LIMIT;
    assert!(Reader::open(Opening::endpoint(largest)).is_ok());
    let opened = Reader::open(Opening::endpoint(largest + 1));
    assert_eq!(opened, Err(Refusal::LimitTooLarge));

    let mut reader = Reader::open(Opening::intermediary(3)).unwrap();
    let before = reader.clone();
    let refused = feed(&mut reader, &S, 2, 40);
    assert_eq!(refused, Err(Refusal::GatheringTooShort));
    let room = S.len() + Reader::OUTPUT_HEADROOM;
    let refused = feed(&mut reader, &S, 3, room - 1);
    assert_eq!(refused, Err(Refusal::OutputTooShort));
    assert_eq!(reader, before);
    let empty = feed(&mut reader, &[], 3, Reader::OUTPUT_HEADROOM).unwrap();
    assert_eq!((empty.consumed, empty.written, empty.report), (0, 0, None));
    assert_eq!(reader, before);
    assert!(feed(&mut reader, &S, 3, room).is_ok());

    // Words that are all zero are no reader.
    let mut blank = Reader::from_raw(raw::Reader::default());
    let unmakeable = Refusal::UnmakeableState;
    assert_eq!(feed(&mut blank, &[], 0, 8), Err(unmakeable));
    assert_eq!(blank.close(), Err(unmakeable));
    assert_eq!(blank.look(), Err(unmakeable));
    assert_eq!(blank.into_raw(), raw::Reader::default());
    let again = Reader::from_raw(before.clone().into_raw());
    assert_eq!(again, before);
}

#[test]
fn looks() {
    let mut reader = Reader::open(Opening::intermediary(2)).unwrap();
    let value = |capsule_type, length, to_come, gathered, buffer| Position::InValue {
        capsule_type,
        length,
        to_come,
        gathered,
        buffer,
    };
    let unknown = Position::InLength { capsule_type: 0x17 };
    let steps: [(&[u8], Position); 8] = [
        (&[], Position::BetweenCapsules),
        (&[0x40], Position::InType),
        (&[0x17], unknown),
        (&[0x40], unknown),
        (&[0x02, 9], value(0x17, 2, 1, 0, Buffer::Neither)),
        (&[9], Position::BetweenCapsules),
        (&[0x00, 0x02, 9], value(0, 2, 1, 1, Buffer::Gathering)),
        (&[], value(0, 2, 1, 1, Buffer::Gathering)),
    ];
    for (piece, position) in steps {
        assert!(feed(&mut reader, piece, 2, 20).is_ok());
        let before = reader.clone();
        let look = Look {
            finished: false,
            datagram_limit: 2,
            position,
        };
        assert_eq!((reader.look(), &reader), (Ok(look), &before));
    }
    assert_eq!(reader.close().map(|closed| closed.end), Ok(End::Truncated));
    let look = reader.look().unwrap();
    assert!(look.finished);
    assert_eq!(look.position, value(0, 2, 1, 1, Buffer::Gathering));

    // A stream that names the largest length.
    let mut reader = Reader::open(Opening::endpoint(0)).unwrap();
    assert!(feed(&mut reader, &[0x00], 0, 0).is_ok());
    assert!(feed(&mut reader, &[0xff; 9], 0, 0).is_ok());
    let length = varint::LARGEST as usize;
    let position = value(0, length, length - 1, 0, Buffer::Neither);
    assert_eq!(reader.look().unwrap().position, position);

    let mut reader = Reader::open(opted_in(0)).unwrap();
    let mut buffers = Buffers {
        addresses: &mut [0; addresses::LONGEST_VALUE],
        ..Buffers::default()
    };
    assert!(reader.feed(&[0x01, 0x07, 0x00], &mut buffers).is_ok());
    let position = value(1, 7, 6, 1, Buffer::Addresses);
    assert_eq!(reader.look().unwrap().position, position);
}

const ALL: Limits = Limits {
    stream_limit: Limits::UNKNOWN_STREAMS,
    datagram_limit: 3,
};

/// The whole range of a table's calls, whoever has the records.
fn table<S: AsRef<[Stream]> + AsMut<[Stream]>>(mut table: Table<S>) {
    let [one, zero] = [StreamId(4), StreamId(0)];
    let dropped = |verdict| {
        Ok(Judged {
            verdict,
            error: None,
        })
    };
    let error = |verdict, error| {
        Ok(Judged {
            verdict,
            error: Some(error),
        })
    };
    let quarter = Quarter(1);
    assert_eq!(table.streams(), [Stream::BLANK; 2]);
    let no_stream = Verdict::NoStream { quarter };
    assert_eq!(table.judge(ALL, &[0x01]), dropped(no_stream));
    assert_eq!(table.find(one), Err(Refusal::NotInTable));
    assert_eq!((table.get(0), table.iter().count()), (None, 0));
    let odd = StreamId(5);
    assert_eq!(table.open(odd, true), Err(Refusal::NotARequestStream));
    assert_eq!(table.find(odd), Err(Refusal::NotARequestStream));
    assert_eq!(table.open(one, true), Ok(0));
    assert_eq!(table.open(one, true), Err(Refusal::AlreadyInTable));
    assert_eq!(table.open(zero, false), Ok(1));
    assert_eq!(table.open(StreamId(8), true), Err(Refusal::NoFreePlace));
    assert_eq!((table.find(one), table.find(zero)), (Ok(0), Ok(1)));
    for (place, stream) in table.iter() {
        assert_eq!(stream.quarter, [1, 0][place]);
        assert!(stream.is_used() && stream.receive_open() && stream.send_open());
        assert_eq!(stream.has_semantics(), place == 0);
        assert_eq!(table.get(place), Some(stream));
    }
    assert_eq!((table.iter().count(), table.get(2)), (2, None));

    let place = 0;
    let large = Quarter(1 << 60);
    let no_semantics = Verdict::NoSemantics {
        quarter: Quarter(0),
        place: 1,
    };
    let delivered = Verdict::Delivered {
        quarter,
        place,
        payload: &[7, 8, 9],
    };
    let verdicts: [(&[u8], Result<Judged, Refusal>); 7] = [
        (&[], error(Verdict::ShortFrame, Error::ShortFrame)),
        (&[0x40], error(Verdict::ShortFrame, Error::ShortFrame)),
        (
            &[0xd0, 0, 0, 0, 0, 0, 0, 0],
            error(
                Verdict::QuarterTooLarge { quarter: large },
                Error::QuarterTooLarge,
            ),
        ),
        (
            &[0x07],
            dropped(Verdict::NoStream {
                quarter: Quarter(7),
            }),
        ),
        (&[0x00], error(no_semantics, Error::NoSemantics)),
        (
            &[0x01, 1, 2, 3, 4],
            dropped(Verdict::TooLong { quarter, place }),
        ),
        (&[0x40, 0x01, 7, 8, 9], dropped(delivered)),
    ];
    for (frame, judged) in verdicts {
        assert_eq!(table.judge(ALL, frame), judged);
    }
    let none = Limits {
        stream_limit: 0,
        ..ALL
    };
    let beyond = Verdict::BeyondLimit { quarter };
    assert_eq!(
        table.judge(none, &[0x01]),
        error(beyond, Error::BeyondLimit)
    );
    let too_many = Limits {
        stream_limit: Limits::UNKNOWN_STREAMS + 1,
        ..ALL
    };
    assert_eq!(table.judge(too_many, &[]), Err(Refusal::NumberTooLarge));
    let too_long = Limits {
        datagram_limit: datagram::LONGEST_PAYLOAD + 1,
        ..ALL
    };
    assert_eq!(table.judge(too_long, &[]), Err(Refusal::LimitTooLarge));
    writers(&table);

    let mut close = |side| table.close(one, side);
    let closed = |freed| Ok(SideClosed { place: 0, freed });
    assert_eq!(close(Side::Receive), closed(false));
    let receive_closed = Verdict::ReceiveClosed { quarter, place };
    assert_eq!(table.judge(ALL, &[0x01]), dropped(receive_closed));
    let mut close = |side| table.close(one, side);
    assert_eq!(close(Side::Receive), closed(false));
    assert_eq!(close(Side::Send), closed(true));
    assert_eq!(close(Side::Send), Err(Refusal::NotInTable));
    assert_eq!(table.iter().count(), 1);
    assert_eq!(table.close(zero, Side::Send).unwrap().place, 1);
    let mut out = [0; 9];
    let closed = table.write_capsule(zero, &[], &mut out, 0);
    assert_eq!(closed, Err(Refusal::SendSideClosed));
    let records = table.into_inner();
    assert_eq!(records.as_ref()[1].flags & Stream::RECEIVE, Stream::RECEIVE);
}

/// Stream 4 has semantics for datagrams, stream 0 has none.
fn writers<S: AsRef<[Stream]>>(table: &Table<S>) {
    let [one, zero] = [StreamId(4), StreamId(0)];
    let agreed = FrameTerms {
        our_setting: 1,
        peer_setting: 1,
        path_size: 3,
    };
    let mut out = [0xaa; 6];
    let written = table.write_frame(one, agreed, &[7, 8], &mut out, 1);
    assert_eq!((written, out), (Ok(3), [0xaa, 0x01, 7, 8, 0xaa, 0xaa]));
    let written = table.write_frame(one, agreed, &[7, 8, 9], &mut out, 1);
    assert_eq!(written, Err(Refusal::FrameTooLong));
    for (our_setting, peer_setting) in [(0, 1), (1, 0)] {
        let terms = FrameTerms {
            our_setting,
            peer_setting,
            ..agreed
        };
        let written = table.write_frame(one, terms, &[], &mut out, 1);
        assert_eq!(written, Err(Refusal::FramesNotAgreed));
        let written = table.write_frame_header(one, terms, 0, &mut out, 1);
        assert_eq!(written, Err(Refusal::FramesNotAgreed));
    }
    let mut header = [0xaa; 2];
    let written = table.write_frame_header(one, agreed, 2, &mut header, 1);
    assert_eq!((written, header), (Ok(1), [0xaa, 0x01]));
    let written = table.write_frame_header(one, agreed, 3, &mut header, 1);
    assert_eq!(written, Err(Refusal::FrameTooLong));
    let written = table.write_frame_header(one, agreed, 2, &mut header, 2);
    assert_eq!(written, Err(Refusal::OutputTooShort));
    let written = table.write_capsule(zero, &[], &mut out, 0);
    assert_eq!(written, Err(Refusal::NoSemantics));
    let written = table.write_capsule(one, &[9], &mut out, 4);
    assert_eq!(written, Err(Refusal::OutputTooShort));
    let written = table.write_capsule(one, &[9], &mut out, 3);
    assert_eq!((written, out), (Ok(3), [0xaa, 0x01, 7, 0x00, 1, 9]));
}

#[test]
fn tables_owned_and_lent() {
    table(Table::<[Stream; 2]>::blank());
    table(Table::<[Stream; 2]>::default());
    table(Table::new(vec![Stream::BLANK; 2]));
    table(Table::new(&mut [Stream::BLANK; 2][..]));
    static EMPTY: Table<[Stream; 0]> = Table::blank();
    let unknown = EMPTY.judge(ALL, &[0x09]).unwrap().verdict;
    let quarter = Quarter(9);
    assert_eq!(unknown, Verdict::NoStream { quarter });
}

#[test]
fn sides_and_bits_that_mean_nothing() {
    let stray = 1 << 63 | 1 << 4;
    let open = Stream::USED | Stream::RECEIVE | Stream::SEND | Stream::SEMANTICS;
    let record = |flags| Stream { quarter: 7, flags };
    let id = StreamId(28);
    let mut table = Table::new([Stream::BLANK, record(open | stray)]);
    assert_eq!(table.find(id), Ok(1));
    let mut close = |side| {
        let closed = table.close(id, side);
        let closed = closed.map(|closed| (closed.place, closed.freed));
        (closed, table.streams()[1])
    };
    let receive_closed = record((open | stray) & !Stream::RECEIVE);
    assert_eq!(close(Side::Receive), (Ok((1, false)), receive_closed));
    assert_eq!(close(Side::Receive), (Ok((1, false)), receive_closed));
    assert_eq!(close(Side::Send), (Ok((1, true)), Stream::BLANK));
    assert_eq!(close(Side::Send), (Err(Refusal::NotInTable), Stream::BLANK));

    for (side, other, flag) in [
        (Side::Receive, Side::Send, Stream::RECEIVE),
        (Side::Send, Side::Receive, Stream::SEND),
    ] {
        let mut table = Table::new([record(Stream::USED | flag)]);
        let [stream] = table.into_inner();
        let open = (stream.receive_open(), stream.send_open());
        assert_eq!(open, (side == Side::Receive, side == Side::Send));
        let mut close = |side| table.close(id, side);
        assert_eq!(close(other).map(|closed| closed.freed), Ok(false));
        assert_eq!(close(side).map(|closed| closed.freed), Ok(true));
    }

    for bad in [record(0), record(Stream::USED), record(stray)] {
        let mut table = Table::new([bad]);
        let opened = table.open(StreamId(5), true);
        assert_eq!(opened, Err(Refusal::BadTable));
        assert_eq!(table.find(StreamId(5)), Err(Refusal::BadTable));
        assert_eq!(table.into_inner(), [bad]);
    }
    assert!(Table::<[Stream; table::MOST_PLACES]>::blank()
        .open(id, true)
        .is_ok());
    let mut table = Table::<[Stream; table::MOST_PLACES + 1]>::blank();
    assert_eq!(table.open(id, true), Err(Refusal::BadTable));
}

#[test]
fn identifiers() {
    let largest = (1 << 62) - 4;
    for (id, quarter) in [(0, 0), (4, 1), (largest, (1 << 60) - 1)] {
        assert_eq!(StreamId(id).quarter(), Ok(Quarter(quarter)));
        assert_eq!(Quarter(quarter).stream_id(), Some(StreamId(id)));
    }
    for id in [1, 2, 3, largest + 1, largest + 4, u64::MAX] {
        assert_eq!(StreamId(id).quarter(), Err(Refusal::NotARequestStream));
    }
    for quarter in [1 << 60, 1 << 62, u64::MAX] {
        assert_eq!(Quarter(quarter).stream_id(), None);
    }
}

#[test]
fn datagrams_without_a_table() {
    for length in [0, 63, 64, 16_384, datagram::LONGEST_PAYLOAD] {
        let payload = vec![0x55; length];
        let mut whole = vec![0xaa; length + 8];
        let written = datagram::write(&payload, &mut whole, 1).unwrap();
        let mut header = [0xaa; datagram::LONGEST_HEADER];
        let size = datagram::write_header(length, &mut header, 0).unwrap();
        assert_eq!(written, size + length);
        assert_eq!(whole[1..1 + size], header[..size]);
        assert_eq!(whole[1 + size..1 + written], payload);
        assert_eq!((whole[0], whole[1 + written]), (0xaa, 0xaa));
    }
    let long = vec![0; datagram::LONGEST_PAYLOAD + 1];
    let written = datagram::write(&long, &mut [], 0);
    assert_eq!(written, Err(Refusal::NumberTooLarge));
    let written = datagram::write_header(long.len(), &mut [], 0);
    assert_eq!(written, Err(Refusal::NumberTooLarge));
    let written = datagram::write_header(0, &mut [0; 2], 1);
    assert_eq!(written, Err(Refusal::OutputTooShort));
    // The longest headers fill the room that the constants name.
    let size = datagram::write_header(datagram::LONGEST_PAYLOAD, &mut [0; 9], 0);
    assert_eq!(size, Ok(datagram::LONGEST_HEADER));
    let mut table = Table::<[Stream; 1]>::blank();
    let id = StreamId((1 << 62) - 4);
    table.open(id, true).unwrap();
    let terms = FrameTerms {
        our_setting: 1,
        peer_setting: 1,
        path_size: 9,
    };
    let size = table.write_frame_header(id, terms, 1, &mut [0; 9], 0);
    assert_eq!(size, Ok(table::LONGEST_FRAME_HEADER));
}

#[test]
fn numbers_listings_and_http() {
    let mut out = [0xaa; 4];
    assert_eq!(varint::write(16_383, &mut out, 1), Ok(2));
    assert_eq!(out, [0xaa, 0x7f, 0xff, 0xaa]);
    let refused = varint::write(varint::LARGEST + 1, &mut out, 9);
    assert_eq!(refused, Err(Refusal::NumberTooLarge));
    assert_eq!(varint::write(varint::LARGEST, &mut [0; 8], 0), Ok(8));
    assert_eq!(varint::write(0, &mut out, 4), Err(Refusal::OutputTooShort));
    assert_eq!(varint::read(&[0xc2, 0x19, 0x7c]), None);
    let longest = [0; listing::LONGEST + 1];
    assert_eq!(list(&longest), Err(Refusal::BufferTooLong));
    let listing = list(&S).unwrap();
    let counts = (listing.capsules, listing.headers, listing.end);
    assert_eq!(counts, (4, 9, End::Clean));

    let none = Fields::default();
    let request = Message::Request;
    let response = |status| Message::Response { status };
    for fields in [
        Fields {
            content_length: true,
            ..none
        },
        Fields {
            content_type: true,
            ..none
        },
        Fields {
            transfer_encoding: true,
            ..none
        },
    ] {
        assert!(http::malformed(request, fields) && http::malformed(response(200), fields));
    }
    assert!(!http::malformed(request, none) && !http::malformed(response(207), none));
    assert!(http::malformed(response(204), none));
    assert!(http::field_counts(request) && http::field_counts(response(101)));
    assert!(!http::field_counts(response(300)));
    for (value, in_use) in [
        (&b"?1"[..], true),
        (b" ?1;v=1; w=2 ", true),
        (br#"?1;a=?0;b=:Zg:;c="x\"";d=*t;e=-1.5"#, true),
        (b"", false),
        (b"?0", false),
        (b"?1;v=", false),
        (b"?1,?1", false),
        (b"?1;v=(1)", false),
        (b"?1\xff", false),
    ] {
        assert_eq!(http::field_in_use(value), Ok(in_use), "{value:?}");
    }
    let mut value = [b' '; http::LONGEST_FIELD_VALUE + 1];
    value[..2].copy_from_slice(b"?1");
    let refused = http::field_in_use(&value);
    assert_eq!(refused, Err(Refusal::FieldTooLong));
    assert_eq!(http::field_in_use(&value[1..]), Ok(false));
    assert_eq!(http::field_in_use(&value[..1_024]), Ok(true));
    assert_eq!(Error::NoSemantics.on(Version::Http1_1), Action::Close);
    let action = Error::BeyondLimit.on(Version::Http3);
    assert_eq!(action, Action::ConnectionError { code: 0x0108 });
}

/// The numbers and names of the header, line by line.
#[test]
fn refusals_and_errors_are_those_of_the_header() {
    let header = include_str!("../../../include/maruzhenu.h");
    let named = |prefix: &str| -> Vec<(u64, String)> {
        let line = |line: &str| {
            let line = line.trim_start_matches("#define ").trim_start();
            let mut words = line.strip_prefix(prefix)?.split([' ', '=', ',']);
            let name = words.next()?.to_string();
            let number = words.find(|word| !word.is_empty())?.parse().ok()?;
            Some((number, name))
        };
        header.lines().filter_map(line).collect()
    };
    let spoken = |name: &str| name.to_lowercase().replace('_', " ");
    let refusals = named("MRZ_REFUSAL_");
    assert_eq!(refusals.len(), Refusal::ALL.len());
    for ((number, name), refusal) in refusals.into_iter().zip(Refusal::ALL) {
        assert_eq!(
            (refusal.number(), refusal.name()),
            (number, &spoken(&name)[..])
        );
        assert_eq!(Refusal::from_number(number), Some(refusal));
        let error: &dyn std::error::Error = &refusal;
        assert!(!error.to_string().is_empty());
    }
    for number in [0, 20, 25, 27, 257, u64::MAX] {
        assert_eq!(Refusal::from_number(number), None);
    }
    let errors = named("MRZ_ERROR_");
    assert_eq!(errors.len(), Error::ALL.len());
    for ((number, name), error) in errors.into_iter().zip(Error::ALL) {
        assert_eq!(error.number(), number);
        assert_eq!(
            format!("{error:?}").to_lowercase(),
            spoken(&name).replace(' ', "")
        );
        assert_eq!(Error::from_number(number), Some(error));
        let error: &dyn std::error::Error = &error;
        assert!(!error.to_string().is_empty());
    }
    for number in [0, 8, 257, u64::MAX] {
        assert_eq!(Error::from_number(number), None);
    }
}

/// An endpoint that takes address capsules.
fn opted_in(datagram_limit: usize) -> Opening {
    Opening {
        addresses: true,
        ..Opening::endpoint(datagram_limit)
    }
}

/// Feeds an endpoint that takes address capsules in pieces of this size, until a capsule is malformed. Answers the
/// reports, the last value, and how many bytes were consumed.
fn read_addresses(stream: &[u8], size: usize) -> (Vec<Report>, Vec<u8>, usize) {
    let mut reader = Reader::open(opted_in(0)).unwrap();
    let mut buffers = Buffers {
        addresses: &mut [0xaa; addresses::LONGEST_VALUE],
        ..Buffers::default()
    };
    let (mut reports, mut value, mut consumed) = (Vec::new(), Vec::new(), 0);
    for mut piece in stream.chunks(size) {
        while !piece.is_empty() {
            let fed = match reader.feed(piece, &mut buffers) {
                Ok(fed) => fed,
                Err(refusal) => {
                    assert_eq!(refusal, Refusal::Finished);
                    break;
                }
            };
            piece = &piece[fed.consumed..];
            consumed += fed.consumed;
            if let Some(Report::AddressDelivered { length, .. }) = fed.report {
                value = buffers.addresses[..length].to_vec();
            }
            let malformed = matches!(fed.report, Some(Report::Malformed { .. }));
            assert_eq!(fed.error, malformed.then_some(Error::Malformed));
            reports.extend(fed.report);
        }
    }
    (reports, value, consumed)
}

#[test]
fn address_capsules() {
    let wanted = Address::new(64, [10, 0, 0, 0].into(), 8);
    let any = Address::new(1, Ipv6Addr::UNSPECIFIED.into(), 128);
    let mut stream = [0; 64];
    let requested = addresses::write_address_request(&[wanted, any], &mut stream, 0).unwrap();
    assert_eq!(requested, 2 + 8 + 19);
    let stream = &stream[..requested];
    for size in 1..=stream.len() {
        let (reports, value, _) = read_addresses(stream, size);
        let delivered = Report::AddressDelivered {
            capsule_type: AddressType::Request.number(),
            length: 27,
        };
        assert_eq!((reports, &value[..]), (vec![delivered], &stream[2..]));
        assert!(addresses::well_formed(AddressType::Request, &value));
        assert!(!addresses::well_formed(AddressType::Route, &value));
        let mut entries = addresses::addresses(&value);
        assert_eq!(entries.next(), Some(wanted));
        assert_eq!(entries.rest(), &value[8..]);
        let last = entries.next().unwrap();
        assert_eq!(last.ip(), Some(Ipv6Addr::UNSPECIFIED.into()));
        assert_eq!((entries.next(), entries.rest()), (None, &[][..]));
    }
    let cut = &stream[2..20];
    assert_eq!(addresses::addresses(cut).count(), 1);
    let mut entries = addresses::addresses(cut);
    assert!(entries.by_ref().count() == 1 && entries.rest() == &cut[8..]);

    let low = Route::v4([10, 0, 0, 0].into(), [10, 0, 0, 9].into(), 17);
    let high = Route::v6(Ipv6Addr::LOCALHOST, Ipv6Addr::LOCALHOST, 0);
    let mut out = [0; 64];
    let written = addresses::write_route_advertisement(&[low, high], &mut out, 3).unwrap();
    assert_eq!((written, out[3..6].to_vec()), (46, vec![0x03, 44, 4]));
    let (_, value, _) = read_addresses(&out[3..49], 7);
    let routes: Vec<Route> = addresses::routes(&value).collect();
    assert_eq!(routes, [low, high]);
    let local = Ipv6Addr::LOCALHOST.into();
    assert_eq!(routes[1].range(), Some((local, local)));
}

#[test]
fn malformed_address_capsules() {
    // Bits beyond the prefix; a length that is too large; a request without an entry.
    let cases: [(&[u8], (u64, usize), usize); 3] = [
        (&[0x01, 0x07, 0x00, 4, 10, 0, 0, 1, 8, 0x00], (1, 7), 9),
        (&[0x03, 0x44, 0x01, 0x00], (3, 1_025), 3),
        (&[0x02, 0x00, 0x00], (2, 0), 2),
    ];
    for (stream, (capsule_type, length), end) in cases {
        for size in 1..=stream.len() {
            let (reports, _, consumed) = read_addresses(stream, size);
            let malformed = Report::Malformed {
                capsule_type,
                length,
            };
            assert_eq!((&reports[..], consumed), (&[malformed][..], end));
        }
    }
    let reset = Action::StreamError { code: 0x010e };
    assert_eq!(Error::Malformed.on(Version::Http3), reset);
    let mut reader = Reader::open(opted_in(1)).unwrap();
    let mut buffers = Buffers {
        gathering: &mut [0; 1],
        addresses: &mut [0; addresses::LONGEST_VALUE - 1],
        ..Buffers::default()
    };
    let refused = reader.feed(&[], &mut buffers);
    assert_eq!(refused, Err(Refusal::AddressesTooShort));
    let refused = reader.feed(&[], &mut Buffers::default());
    assert_eq!(refused, Err(Refusal::GatheringTooShort));

    use AddressType::{Assign, Request, Route};
    for (number, address_type) in (0..5).zip([None, Some(Assign), Some(Request), Some(Route), None])
    {
        assert_eq!(AddressType::from_number(number), address_type);
        assert_eq!(address_type.map_or(number, AddressType::number), number);
    }

    let mut out = [0xaa; 9];
    let above = Address::new(varint::LARGEST + 1, [0, 0, 0, 0].into(), 0);
    let wrong = Address::new(1, [0, 0, 0, 1].into(), 0);
    let refused = addresses::write_address_assign(&[wrong, above], &mut out, 99);
    assert_eq!(refused, Err(Refusal::NumberTooLarge));
    let refused = addresses::write_address_assign(&[wrong], &mut out, 99);
    assert_eq!(refused, Err(Refusal::MalformedToWrite));
    let refused = addresses::write_address_request(&[], &mut out, 99);
    assert_eq!(refused, Err(Refusal::MalformedToWrite));
    let refused = addresses::write_address_assign(&[], &mut out, 8);
    assert_eq!(refused, Err(Refusal::OutputTooShort));
    assert_eq!(out, [0xaa; 9]);
    assert_eq!(addresses::write_address_assign(&[], &mut out, 7), Ok(2));
    assert_eq!(out[6..], [0xaa, 0x01, 0x00]);
}

/// What the header says of the stack, on the buffer with the most capsules.
#[test]
fn a_listing_needs_at_most_256_kib_of_stack() {
    let thread = std::thread::Builder::new().stack_size(256 * 1024);
    let listed = thread
        .spawn(|| list(&[0; listing::LONGEST]))
        .unwrap()
        .join()
        .unwrap();
    let listing = listed.unwrap();
    assert_eq!((listing.capsules, listing.headers), (2_048, 4_096));
}
