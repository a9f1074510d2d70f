//! The listing of a capture: one line for each capsule, and how the capture ends.

use std::io::{self, ErrorKind, Read, Write};

use crate::{Closing, Reader, Report, Role};

/// The datagram limit of the listing.
pub const LIMIT: usize = 1_200;
/// The size of the blocks in which a capture is read.
pub const BLOCK: usize = 64 * 1024;

/// Lists the capture `input` as an endpoint that takes no address capsules, with the draft setting off.
pub fn list(mut input: impl Read, mut output: impl Write) -> io::Result<()> {
    let mut reader = Reader::new(Role::Endpoint, LIMIT as u64, false, false)
        .expect("the limit of the listing is allowed");
    let mut gather = [0; LIMIT];
    let mut block = vec![0; BLOCK];
    let mut lines = Vec::with_capacity(2 * BLOCK);
    lines.extend(format!("limit {LIMIT}\n").bytes());
    loop {
        let size = match input.read(&mut block) {
            Ok(0) => break,
            Ok(size) => size,
            Err(error) if error.kind() == ErrorKind::Interrupted => continue,
            Err(error) => return Err(error),
        };
        let mut piece = &block[..size];
        while !piece.is_empty() {
            let fed = reader
                .feed(piece, &mut gather, &mut [], &mut [])
                .expect("the buffers suffice and the reader is open");
            piece = &piece[fed.consumed..];
            if let Some(report) = &fed.report {
                push_report(&mut lines, report);
                if lines.len() >= BLOCK {
                    output.write_all(&lines)?;
                    lines.clear();
                }
            }
        }
    }
    lines.extend_from_slice(match reader.close().expect("the reader is open") {
        Closing::Clean => b"end clean\n",
        Closing::Truncated => b"end truncated\n",
    });
    output.write_all(&lines)?;
    output.flush()
}

#[inline(always)]
fn push_report(lines: &mut Vec<u8>, report: &Report) {
    match report {
        Report::Delivered { length } => {
            lines.extend_from_slice(b"datagram ");
            push_number(lines, *length);
        }
        Report::Dropped { length } => {
            lines.extend_from_slice(b"drop ");
            push_number(lines, *length);
        }
        Report::Skipped {
            capsule_type,
            length,
        } => {
            lines.extend_from_slice(b"skip ");
            push_number(lines, *capsule_type);
            lines.push(b' ');
            push_number(lines, *length);
        }
        Report::Passed { .. } | Report::AddressDelivered { .. } | Report::Malformed { .. } => {
            unreachable!("an endpoint passes nothing on, and this one takes no address capsules")
        }
    }
    lines.push(b'\n');
}

#[inline]
fn push_number(lines: &mut Vec<u8>, mut number: u64) {
    if number < 10 {
        lines.push(b'0' + number as u8);
        return;
    }
    let mut digits = [0; 20];
    let mut start = digits.len();
    while number > 0 {
        start -= 1;
        digits[start] = b'0' + (number % 10) as u8;
        number /= 10;
    }
    lines.extend_from_slice(&digits[start..]);
}

#[cfg(test)]
mod tests {
    use super::*;

    fn listed(capture: &[u8]) -> String {
        let mut output = Vec::new();
        list(capture, &mut output).unwrap();
        String::from_utf8(output).unwrap()
    }

    #[test]
    fn decimals() {
        for number in [
            0,
            7,
            10,
            99,
            100,
            1_200,
            16_725_925,
            (1 << 62) - 1,
            u64::MAX,
        ] {
            let mut lines = Vec::new();
            push_number(&mut lines, number);
            assert_eq!(lines, number.to_string().into_bytes());
        }
    }

    #[test]
    fn the_worked_stream() {
        let stream = [
            0x00, 0x03, 0x61, 0x62, 0x63, 0x17, 0x00, 0x40, 0x40, 0x02, 0xff, 0xee, 0x00, 0x00,
        ];
        assert_eq!(
            listed(&stream),
            "limit 1200\ndatagram 3\nskip 23 0\nskip 64 2\ndatagram 0\nend clean\n"
        );
        assert_eq!(
            listed(&stream[..8]),
            "limit 1200\ndatagram 3\nskip 23 0\nend truncated\n"
        );
        assert_eq!(listed(&[]), "limit 1200\nend clean\n");
    }

    #[test]
    fn around_the_limit() {
        for (length, line) in [
            (1_199u16, "datagram 1199"),
            (1_200, "datagram 1200"),
            (1_201, "drop 1201"),
        ] {
            let mut capture = vec![0x00];
            capture.extend((0x4000 | length).to_be_bytes());
            capture.resize(capture.len() + usize::from(length), 0);
            assert_eq!(listed(&capture), format!("limit 1200\n{line}\nend clean\n"));
        }
    }

    #[test]
    fn more_lines_than_the_buffer_holds() {
        let capsules = 3 * BLOCK;
        let capture = [0x00, 0x00].repeat(capsules);
        let expected = format!("limit 1200\n{}end clean\n", "datagram 0\n".repeat(capsules));
        assert!(listed(&capture) == expected);
    }
}
