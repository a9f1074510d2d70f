//! Writing capsules and QUIC DATAGRAM payloads, RFC 9297 sections 2.1 and 3.5.

use crate::table::{quarter_of, Record, Table};
use crate::varint::{self, place_for};
use crate::Refusal;

/// The longest payload that is sent.
pub const LONGEST_PAYLOAD: usize = 65_535;

/// Two settings, a stream and a path that a frame is written for.
#[derive(Clone, Copy, Debug, PartialEq, Eq)]
pub struct Sending {
    pub id: u64,
    /// Our SETTINGS_H3_DATAGRAM and the peer's.
    pub ours: u64,
    pub peers: u64,
    /// How long a frame may be.
    pub path: u64,
}

fn record(records: &[Record], id: u64) -> Result<Record, Refusal> {
    let table = Table::new(records)?;
    let quarter = quarter_of(id)?;
    let (_, record) = table.find(quarter).ok_or(Refusal::NotInTable)?;
    Ok(record)
}

fn may_send(record: Record, payload: u64) -> Result<(), Refusal> {
    if !record.send_open() {
        return Err(Refusal::SendSideClosed);
    }
    if !record.semantics() {
        return Err(Refusal::NoSemantics);
    }
    if payload > LONGEST_PAYLOAD as u64 {
        return Err(Refusal::NumberTooLarge);
    }
    Ok(())
}

/// Writes the payload as a DATAGRAM capsule at a place of the output. Answers how many bytes were written.
pub fn write_capsule(
    records: &[Record],
    id: u64,
    payload: &[u8],
    out: &mut [u8],
    place: u64,
) -> Result<usize, Refusal> {
    may_send(record(records, id)?, payload.len() as u64)?;
    let length = payload.len() as u64;
    let header = 1 + varint::size(length);
    let space = place_for(out, place, header + payload.len())?;
    space[0] = 0x00;
    varint::encode(length, &mut space[1..header]);
    space[header..].copy_from_slice(payload);
    Ok(header + payload.len())
}

/// Writes the payload as a QUIC DATAGRAM payload at a place of the output. Answers how many bytes were written.
pub fn write_frame(
    records: &[Record],
    sending: Sending,
    payload: &[u8],
    out: &mut [u8],
    place: u64,
) -> Result<usize, Refusal> {
    let record = record(records, sending.id)?;
    if (sending.ours, sending.peers) != (1, 1) {
        return Err(Refusal::FramesNotAgreed);
    }
    may_send(record, payload.len() as u64)?;
    let header = varint::size(record.quarter);
    let size = header + payload.len();
    if size as u64 > sending.path {
        return Err(Refusal::LongerThanPath);
    }
    let space = place_for(out, place, size)?;
    varint::encode(record.quarter, &mut space[..header]);
    space[header..].copy_from_slice(payload);
    Ok(size)
}

/// Writes what stands before the payload in such a frame, for a payload of this length.
pub fn write_frame_header(
    records: &[Record],
    sending: Sending,
    payload: u64,
    out: &mut [u8],
    place: u64,
) -> Result<usize, Refusal> {
    let record = record(records, sending.id)?;
    if sending.ours != 1 || sending.peers != 1 {
        return Err(Refusal::FramesNotAgreed);
    }
    may_send(record, payload)?;
    let quarter = varint::size(record.quarter);
    if quarter as u64 + payload > sending.path {
        return Err(Refusal::LongerThanPath);
    }
    varint::encode(record.quarter, place_for(out, place, quarter)?);
    Ok(quarter)
}

/// Writes what stands before the payload in a DATAGRAM capsule, for a payload of this length: type 0 and the length.
pub fn write_datagram_header(payload: u64, out: &mut [u8], place: u64) -> Result<usize, Refusal> {
    if payload > LONGEST_PAYLOAD as u64 {
        return Err(Refusal::NumberTooLarge);
    }
    let mut header = vec![0x00; 1 + varint::size(payload)];
    varint::encode(payload, &mut header[1..]);
    place_for(out, place, header.len())?.copy_from_slice(&header);
    Ok(header.len())
}

/// Writes a DATAGRAM capsule, whatever the stream is.
pub fn write_datagram(payload: &[u8], out: &mut [u8], place: u64) -> Result<usize, Refusal> {
    let mut capsule = vec![0; 5];
    let header = write_datagram_header(payload.len() as u64, &mut capsule, 0)?;
    capsule.truncate(header);
    capsule.extend_from_slice(payload);
    place_for(out, place, capsule.len())?.copy_from_slice(&capsule);
    Ok(capsule.len())
}

#[cfg(test)]
mod tests {
    use super::*;

    const ONE: Record = record(1, 15);

    const fn record(quarter: u64, flags: u64) -> Record {
        Record { quarter, flags }
    }

    fn frame(id: u64, settings: (u64, u64), path: u64, payload: &[u8]) -> Result<Vec<u8>, Refusal> {
        let sending = Sending {
            id,
            ours: settings.0,
            peers: settings.1,
            path,
        };
        let mut out = vec![0xaa; 80_000];
        let records = [record(63, 15), record(64, 15 | 1 << 40), record(9, 11)];
        let size = write_frame(&records, sending, payload, &mut out, 3)?;
        assert!(out[..3]
            .iter()
            .chain(&out[3 + size..])
            .all(|&byte| byte == 0xaa));
        Ok(out[3..3 + size].to_vec())
    }

    #[test]
    fn capsule_headers() {
        for (length, header) in [
            (63, &[0x00, 0x3f][..]),
            (64, &[0x00, 0x40, 0x40]),
            (16_383, &[0x00, 0x7f, 0xff]),
            (16_384, &[0x00, 0x80, 0x00, 0x40, 0x00]),
        ] {
            let payload = vec![0x55; length];
            let mut out = vec![0xaa; length + 8];
            let written = write_capsule(&[ONE], 4, &payload, &mut out, 2).unwrap();
            assert_eq!(written, header.len() + length);
            let expected = [&[0xaa, 0xaa], header, &payload].concat();
            assert_eq!(out[..expected.len()], expected);
            assert!(out[expected.len()..].iter().all(|&byte| byte == 0xaa));
        }
    }

    #[test]
    fn frames() {
        assert_eq!(frame(252, (1, 1), 9, b"a"), Ok(vec![0x3f, b'a']));
        assert_eq!(frame(256, (1, 1), 3, b"a"), Ok(vec![0x40, 0x40, b'a']));
        assert_eq!(frame(256, (1, 1), 2, b"a"), Err(Refusal::LongerThanPath));
        assert_eq!(frame(252, (1, 1), 0, b""), Err(Refusal::LongerThanPath));
        for settings in [(0, 1), (1, 0), (2, 1), (1, 2)] {
            assert_eq!(frame(252, settings, 9, b""), Err(Refusal::FramesNotAgreed));
        }
        assert_eq!(frame(36, (1, 0), 9, b""), Err(Refusal::FramesNotAgreed));
        assert_eq!(frame(36, (1, 1), 9, b""), Err(Refusal::SendSideClosed));
        let long = vec![0; 65_536];
        assert_eq!(frame(252, (1, 1), 9, &long), Err(Refusal::NumberTooLarge));
        assert!(frame(252, (1, 1), 65_536, &long[1..]).is_ok());
    }

    #[test]
    fn places() {
        let mut out = [0xaa; 4];
        for (place, written) in [
            (0, Ok(2)),
            (2, Ok(2)),
            (3, Err(Refusal::OutputTooShort)),
            (4, Err(Refusal::OutputTooShort)),
            (5, Err(Refusal::OutputTooShort)),
            (u64::MAX, Err(Refusal::OutputTooShort)),
            (u64::MAX - 1, Err(Refusal::OutputTooShort)),
        ] {
            let came = write_capsule(&[ONE], 4, b"", &mut out, place);
            assert_eq!(came, written);
        }
    }

    #[test]
    fn headers_and_capsules_without_a_table() {
        for length in [0, 1, 63, 64, 16_383, 16_384, 65_535] {
            let payload = vec![0x55; length];
            let (mut whole, mut other, mut header) =
                ([0xaa; 65_560], [0xaa; 65_560], [0xaa; 65_560]);
            let written = write_capsule(&[ONE], 4, &payload, &mut whole, 7).unwrap();
            assert_eq!(write_datagram(&payload, &mut other, 7), Ok(written));
            assert_eq!(whole, other);
            let size = write_datagram_header(length as u64, &mut header, 7).unwrap();
            assert_eq!(
                (written - size, &header[..7 + size]),
                (length, &whole[..7 + size])
            );
            assert!(header[7 + size..].iter().all(|&byte| byte == 0xaa));
        }
        for length in [65_536, u64::MAX] {
            let written = write_datagram_header(length, &mut [], 9);
            assert_eq!(written, Err(Refusal::NumberTooLarge));
        }
        let long = write_datagram(&[0; 65_536], &mut [], 0);
        assert_eq!(long, Err(Refusal::NumberTooLarge));
        for (room, place) in [(2, 0), (3, 1), (3, 4), (3, u64::MAX)] {
            let mut out = [0xaa; 3];
            let written = write_datagram_header(64, &mut out[..room], place);
            assert_eq!((written, out), (Err(Refusal::OutputTooShort), [0xaa; 3]));
            let written = write_datagram(b"a", &mut out[..room], place);
            assert_eq!((written, out), (Err(Refusal::OutputTooShort), [0xaa; 3]));
        }
    }

    #[test]
    fn frame_headers() {
        let records = [record(64, 15), record(9, 11), record(8, 7)];
        let header = |id, settings: (u64, u64), path, payload| {
            let sending = Sending {
                id,
                ours: settings.0,
                peers: settings.1,
                path,
            };
            let mut out = [0xaa; 3];
            let written = write_frame_header(&records, sending, payload, &mut out, 1)?;
            Ok(out[1..1 + written].to_vec())
        };
        assert_eq!(header(256, (1, 1), 3, 1), Ok(vec![0x40, 0x40]));
        assert_eq!(header(256, (1, 1), 65_537, 65_535), Ok(vec![0x40, 0x40]));
        assert_eq!(header(256, (1, 1), 2, 1), Err(Refusal::LongerThanPath));
        for (id, settings, payload, refusal) in [
            (5, (0, 1), 65_536, Refusal::NotARequestStream),
            (4, (0, 1), 65_536, Refusal::NotInTable),
            (36, (0, 1), 65_536, Refusal::FramesNotAgreed),
            (36, (1, 2), 65_536, Refusal::FramesNotAgreed),
            (36, (1, 1), 65_536, Refusal::SendSideClosed),
            (32, (1, 1), 65_536, Refusal::NoSemantics),
            (256, (1, 1), 65_536, Refusal::NumberTooLarge),
            (256, (1, 1), u64::MAX, Refusal::NumberTooLarge),
        ] {
            assert_eq!(header(id, settings, 0, payload), Err(refusal));
        }
        let sending = Sending {
            id: 256,
            ours: 1,
            peers: 1,
            path: 9,
        };
        let written = write_frame_header(&records, sending, 0, &mut [0; 4], 3);
        assert_eq!(written, Err(Refusal::OutputTooShort));
    }
}
