use super::*;
use crate::Refusal;

use AddressType::{Assign, Request, Route};

/// Bytes from hexadecimal digits.
fn hex(digits: &str) -> Vec<u8> {
    let digits: String = digits.split_whitespace().collect();
    let pairs = (0..digits.len()).step_by(2);
    pairs
        .map(|place| u8::from_str_radix(&digits[place..place + 2], 16).unwrap())
        .collect()
}

fn good(capsule_type: AddressType, digits: &str) {
    assert_eq!(check(capsule_type, &hex(digits)), Ok(()), "{digits}");
}

fn bad(capsule_type: AddressType, digits: &str, why: Malformed) {
    assert_eq!(check(capsule_type, &hex(digits)), Err(why), "{digits}");
}

#[test]
fn assigned_addresses() {
    good(Assign, "");
    good(Assign, "00 04 0a000001 20");
    bad(Assign, "00 04 0a000001 21", Malformed::PrefixLength);
    bad(Assign, "00 04 0a000001 1f", Malformed::BitsBeyondPrefix);
    bad(Assign, "00 04 80000000 00", Malformed::BitsBeyondPrefix);
    good(Assign, "00 04 00000000 00");
    good(Assign, "00 04 ffffff80 19");
    bad(Assign, "00 04 ffffffc0 19", Malformed::BitsBeyondPrefix);
    let zeros = "00".repeat(15);
    good(Assign, &format!("00 06 {zeros} 01 80"));
    bad(
        Assign,
        &format!("00 06 {zeros} 01 7f"),
        Malformed::BitsBeyondPrefix,
    );
    bad(
        Assign,
        &format!("00 06 {zeros} 00 81"),
        Malformed::PrefixLength,
    );
    bad(Assign, "00 04 0a000001 20 00", Malformed::Leftover);
    bad(Assign, "00 04 00000000", Malformed::Leftover);
    bad(Assign, "00 05 0a000001 20", Malformed::IpVersion);
    bad(Assign, "00 05 00", Malformed::IpVersion);
    bad(Assign, "40", Malformed::Leftover);
    // the first entry is good, the second is not
    bad(
        Assign,
        "00 04 0a000001 20 00 04 0a000001 00",
        Malformed::BitsBeyondPrefix,
    );
}

#[test]
fn requested_addresses() {
    bad(Request, "", Malformed::NothingRequested);
    bad(Request, "00 04 0a000001 20", Malformed::RequestIdZero);
    bad(Request, "40 00 04 0a000001 20", Malformed::RequestIdZero);
    bad(
        Request,
        "c0 00000000000000 04 0a000001 20",
        Malformed::RequestIdZero,
    );
    good(Request, "40 01 04 0a000001 20");
    // the same request ID twice is not looked for
    good(Request, "01 04 00000000 20 01 04 00000000 20");
}

#[test]
fn advertised_routes() {
    good(Route, "");
    bad(
        Route,
        "04 0a000000 0a000005 11 04 0a000005 0a000009 11",
        Malformed::AddressOrder,
    );
    good(Route, "04 0a000000 0a000005 11 04 0a000006 0a000009 11");
    good(Route, "04 0a000000 0a000005 06 04 0a000000 0a000005 11");
    bad(
        Route,
        "04 0a000000 0a000005 11 04 0a000000 0a000005 06",
        Malformed::ProtocolOrder,
    );
    bad(
        Route,
        "04 0a000000 0a000009 00 04 0a000009 0a00000a 11",
        Malformed::Overlap,
    );
    good(Route, "04 0a000000 0a000009 00 04 0a00000a 0a00000a 11");
    good(Route, "04 0a000005 0a000009 00 04 0a000000 0a000004 11");
    bad(
        Route,
        "04 0a000005 0a000009 00 04 0a000000 0a000005 11",
        Malformed::Overlap,
    );
    // not the neighbour
    bad(
        Route,
        "04 00000000 00000001 00 04 00000005 00000009 00 04 00000001 00000002 01",
        Malformed::Overlap,
    );
    let (low, high) = ("00".repeat(16), "ff".repeat(16));
    bad(
        Route,
        &format!("06 {low} {high} 00 04 00000000 00000000 00"),
        Malformed::VersionOrder,
    );
    good(
        Route,
        &format!("04 00000000 ffffffff ff 06 {low} {high} 00"),
    );
    bad(Route, "04 0a000001 0a000000 00", Malformed::StartAboveEnd);
    good(Route, "04 0a000001 0a000001 00");
    bad(Route, "04 0a000001 0a000001", Malformed::Leftover);
    bad(Route, "05 0a000001 0a000001 00", Malformed::IpVersion);
}

/// Entries of 7 bytes with ID 0 and of 8 bytes with a longer form of it.
fn entries(short: usize, long: usize) -> Vec<u8> {
    let short = hex("00 04 00000000 00").repeat(short);
    let long = hex("40 00 04 00000000 00").repeat(long);
    [short, long].concat()
}

#[test]
fn lengths() {
    let longest = entries(0, 128);
    assert_eq!(longest.len(), 1_024);
    assert_eq!(check(Assign, &longest), Ok(()));
    let longer = entries(7, 122);
    assert_eq!(longer.len(), 1_025);
    assert_eq!(check(Assign, &longer), Err(Malformed::TooLong));
    assert_eq!(check(Assign, &entries(7, 121)), Ok(()));
}

#[test]
fn entries_one_after_another() {
    let value = hex("4007 04 0a000001 20 00 06 00000000000000000000000000000001 ff 05");
    let first = Address {
        request_id: 7,
        ip: Ip::V4(0x0a00_0001),
        prefix_length: 32,
    };
    // It is not judged: the prefix is too long.
    let second = Address {
        request_id: 0,
        ip: Ip::V6(1),
        prefix_length: 255,
    };
    assert_eq!(entry_at(&value, 0), Found::Entry(first, 8));
    assert_eq!(entry_at(&value, 8), Found::Entry(second, 27));
    assert_eq!(entry_at::<Address>(&value, 27), Found::Malformed);
    for at in [28, 29, u64::MAX] {
        assert_eq!(entry_at::<Address>(&value, at), Found::Nothing);
    }
    for cut in 1..8 {
        assert_eq!(entry_at::<Address>(&value[..cut], 0), Found::Malformed);
    }
    let value = hex("04 0a000001 0a000000 11");
    let range = Range {
        start: Ip::V4(0x0a00_0001),
        end: Ip::V4(0x0a00_0000),
        ip_protocol: 17,
    };
    assert_eq!(entry_at(&value, 0), Found::Entry(range, 10));
    assert_eq!(entry_at::<Range>(&value, 10), Found::Nothing);
    assert_eq!(entry_at::<Range>(&value, 1), Found::Malformed);
}

fn address(request_id: u64, version: u8, ip: [u8; 4], prefix_length: u8) -> Vec<u8> {
    let mut entry = request_id.to_ne_bytes().to_vec();
    entry.extend([version, prefix_length]);
    entry.extend(ip);
    // What an entry of version 4 does not look at.
    entry.resize(32, 0xee);
    entry
}

fn range(version: u8, start: u128, end: u128, protocol: u8) -> Vec<u8> {
    let bytes = |ip: u128| match version {
        4 => (ip << 96 | 0xee).to_be_bytes(),
        _ => ip.to_be_bytes(),
    };
    let mut entry = vec![version, protocol];
    entry.extend(bytes(start));
    entry.extend(bytes(end));
    entry
}

/// What is written from place 2 on, into an output that is long enough.
fn written(write: impl Fn(&mut [u8], u64) -> Result<usize, Refusal>) -> Result<Vec<u8>, Refusal> {
    let mut out = vec![0xaa; 1_100];
    let size = write(&mut out, 2)?;
    let (front, rest) = (&out[..2], &out[2 + size..]);
    assert!(front.iter().chain(rest).all(|&byte| byte == 0xaa));
    // It fits into no less.
    let mut short = vec![0xaa; size + 1];
    assert_eq!(write(&mut short, 2), Err(Refusal::OutputTooShort));
    assert_eq!(write(&mut short, 1), Ok(size));
    Ok(out[2..2 + size].to_vec())
}

#[test]
fn written_addresses() {
    let write = |capsule_type, entries: &[u8]| {
        written(|out, place| write_addresses(capsule_type, entries, out, place))
    };
    let one = address(1, 4, [10, 0, 0, 1], 32);
    assert_eq!(write(Assign, &one), Ok(hex("01 07 01 04 0a000001 20")));
    assert_eq!(write(Request, &one), Ok(hex("02 07 01 04 0a000001 20")));
    assert_eq!(write(Assign, &[]), Ok(hex("01 00")));
    let refused = write_addresses(Request, &[], &mut [], 9);
    assert_eq!(refused, Err(Refusal::MalformedToWrite));
    let largest = address(varint::LARGEST, 4, [0; 4], 0);
    assert_eq!(
        write(Request, &largest),
        Ok(hex("02 0e ffffffffffffffff 04 00000000 00"))
    );
    let above = address(1 << 62, 4, [0; 4], 0);
    let wrong_version = address(1, 5, [0; 4], 0);
    for entries in [
        [&wrong_version[..], &above].concat(),
        [&above[..], &[0]].concat(),
    ] {
        let refused = write_addresses(Assign, &entries, &mut [], 0);
        assert_eq!(refused, Err(Refusal::NumberTooLarge));
    }
    for entries in [
        wrong_version,
        address(1, 4, [10, 0, 0, 1], 31),
        address(1, 4, [0; 4], 33),
        one[..31].to_vec(),
        [&one[..], &[0]].concat(),
    ] {
        assert_eq!(write(Assign, &entries), Err(Refusal::MalformedToWrite));
    }
    let zero = address(0, 4, [10, 0, 0, 1], 32);
    assert_eq!(write(Request, &zero), Err(Refusal::MalformedToWrite));
    assert!(write(Assign, &zero).is_ok());

    let many = |short, long| {
        let short = address(1, 4, [0; 4], 0).repeat(short);
        [short, address(64, 4, [0; 4], 0).repeat(long)].concat()
    };
    assert_eq!(write(Assign, &many(7, 122)), Err(Refusal::MalformedToWrite));
    let capsule = write(Assign, &many(0, 128)).unwrap();
    assert_eq!((capsule.len(), &capsule[..3]), (1_027, &hex("01 4400")[..]));
    assert_eq!(check(Assign, &capsule[3..]), Ok(()));
}

#[test]
fn written_routes() {
    let write = |entries: &[u8]| written(|out, place| write_routes(entries, out, place));
    assert_eq!(write(&[]), Ok(hex("03 00")));
    let one = range(4, 0x0a00_0000, 0x0a00_0005, 17);
    assert_eq!(write(&one), Ok(hex("03 0a 04 0a000000 0a000005 11")));
    assert_eq!(write(&one.repeat(2)), Err(Refusal::MalformedToWrite));
    assert_eq!(write(&one[..33]), Err(Refusal::MalformedToWrite));
    let wrong_version = range(0, 0, 0, 0);
    assert_eq!(write(&wrong_version), Err(Refusal::MalformedToWrite));

    let many = |four: u128, six: u128| {
        let four = (0..four).map(|place| range(4, place, place, 0));
        four.chain((0..six).map(|place| range(6, place, place, 1)))
            .collect::<Vec<_>>()
            .concat()
    };
    let capsule = write(&many(82, 6)).unwrap();
    assert_eq!((capsule.len(), &capsule[..3]), (1_027, &hex("03 4400")[..]));
    assert_eq!(check(Route, &capsule[3..]), Ok(()));
    assert_eq!(write(&many(83, 6)), Err(Refusal::MalformedToWrite));
}
