//! Values of address capsules.

use super::streams::{number_of_any_size, push_number, Form};
use crate::addresses::{Address, AddressType, Ip, Range, LONGEST_VALUE};
use crate::random::Random;
use crate::varint::{self, LARGEST};

/// A well-formed value of a type, its request IDs in any form.
pub fn address_value(random: &mut Random, capsule_type: AddressType) -> Vec<u8> {
    let mut value = Vec::new();
    if capsule_type == AddressType::Route {
        for range in ranges(random) {
            push_range(&mut value, &range);
        }
        return value;
    }
    for address in addresses(random, capsule_type) {
        let before = value.len();
        push_address(&mut value, random, Form::Any, &address);
        if value.len() > LONGEST_VALUE {
            value.truncate(before);
            break;
        }
    }
    value
}

/// A value of a type in which something was altered: an entry, or a byte.
pub fn spoiled_value(random: &mut Random, capsule_type: AddressType) -> Vec<u8> {
    if random.one_in(2) {
        let mut value = address_value(random, capsule_type);
        damage(random, &mut value);
        return value;
    }
    let mut value = Vec::new();
    if capsule_type == AddressType::Route {
        let mut ranges = ranges(random);
        spoil_ranges(random, &mut ranges);
        for range in &ranges {
            push_range(&mut value, range);
        }
        return value;
    }
    let mut addresses = addresses(random, capsule_type);
    spoil_addresses(random, &mut addresses);
    for address in &addresses {
        push_address(&mut value, random, Form::Shortest, address);
    }
    value
}

/// A stream of capsules, most of them address capsules, and most of these well formed.
pub fn address_stream(random: &mut Random) -> Vec<u8> {
    let mut stream = Vec::new();
    for _ in 0..random.size(1, 5) {
        let address_type = random.one_of(&AddressType::ALL);
        let value = match random.one_in(4) {
            true => spoiled_value(random, address_type),
            false => address_value(random, address_type),
        };
        let capsule_type = match random.between(0, 9) {
            0 => random.between(0, 4),
            _ => address_type as u64,
        };
        push_number(&mut stream, random, Form::Any, capsule_type);
        let length = match random.between(0, 30) {
            0 => random.one_of(&[1_025, 1 << 32, LARGEST - 1, LARGEST]),
            _ => value.len() as u64,
        };
        push_number(&mut stream, random, Form::Any, length);
        stream.extend(value);
    }
    if random.one_in(4) {
        stream.truncate(random.size(0, stream.len()));
    }
    stream
}

/// How many entries there are: some, or as many as there is room for.
fn count(random: &mut Random, least: usize, most: usize) -> usize {
    match random.between(0, 15) {
        0 => random.size(most - 2, most),
        1 => random.size(least, most),
        _ => random.size(least, 5),
    }
}

/// Entries of a capsule of a type that fit into one, each good.
pub fn addresses(random: &mut Random, capsule_type: AddressType) -> Vec<Address> {
    let least = usize::from(capsule_type == AddressType::Request);
    let four = random.between(0, 4);
    let mut room = LONGEST_VALUE;
    let mut addresses = Vec::new();
    for _ in 0..count(random, least, LONGEST_VALUE / 7) {
        let address = address(random, capsule_type, four);
        let size = varint::size(address.request_id) + 2 + bytes(address.ip);
        if size > room {
            break;
        }
        room -= size;
        addresses.push(address);
    }
    addresses
}

fn bytes(ip: Ip) -> usize {
    match ip {
        Ip::V4(_) => 4,
        Ip::V6(_) => 16,
    }
}

/// An entry, of version 4 in so many of four cases.
fn address(random: &mut Random, capsule_type: AddressType, four: u64) -> Address {
    let request_id = match random.between(0, 3) {
        0 => number_of_any_size(random),
        _ => random.between(0, 70),
    };
    let request_id = match capsule_type {
        AddressType::Request => request_id.max(1),
        _ => request_id,
    };
    let any = random.one_in(8);
    let (ip, prefix_length) = if random.between(1, 4) <= four {
        let length = random.one_of(&[0, 1, 8, 23, 24, 25, 31, 32, 32]);
        let mask = u32::MAX.checked_shl(32 - length).unwrap_or(0);
        let address = random.number() as u32 & mask;
        (Ip::V4(if any { 0 } else { address }), length)
    } else {
        let length = random.one_of(&[0, 1, 32, 48, 63, 64, 65, 127, 128, 128]);
        let mask = u128::MAX.checked_shl(128 - length).unwrap_or(0);
        let address = wide(random) & mask;
        (Ip::V6(if any { 0 } else { address }), length)
    };
    Address {
        request_id,
        ip,
        prefix_length: prefix_length as u8,
    }
}

fn wide(random: &mut Random) -> u128 {
    u128::from(random.number()) << 64 | u128::from(random.number())
}

/// Alters an entry, or how many there are. What comes of it is malformed in most cases.
pub fn spoil_addresses(random: &mut Random, addresses: &mut Vec<Address>) {
    if addresses.is_empty() || random.one_in(12) {
        addresses.clear();
        return;
    }
    let place = random.size(0, addresses.len() - 1);
    let address = &mut addresses[place];
    let bits = 8 * bytes(address.ip) as u8;
    match random.between(0, 5) {
        0 => address.request_id = 0,
        1 => address.prefix_length = bits + random.one_of(&[1, 1, 2, 96]),
        2 => address.prefix_length = address.prefix_length.saturating_sub(1),
        3 | 4 => {
            let bit = random.between(0, u64::from(bits) - 1) as u32;
            address.ip = match address.ip {
                Ip::V4(number) => Ip::V4(number | 1 << bit),
                Ip::V6(number) => Ip::V6(number | 1 << bit),
            };
        }
        _ => {
            // More than fit, often by one byte.
            let entry = *address;
            addresses.truncate(random.size(0, 7));
            addresses.resize(LONGEST_VALUE / 7, entry);
        }
    }
}

/// Alters a range, or the order of the ranges. What comes of it is malformed in most cases.
pub fn spoil_ranges(random: &mut Random, ranges: &mut Vec<Range>) {
    let Some(last) = ranges.len().checked_sub(1) else {
        return;
    };
    let (place, other) = match random.one_in(3) {
        true => (0, last),
        false => (random.size(0, last), random.size(0, last)),
    };
    let range = ranges[place];
    match random.between(0, 7) {
        0 => ranges.swap(place, other),
        1 => ranges.insert(place, range),
        2 => (ranges[place].start, ranges[place].end) = (range.end, range.start),
        3 => ranges[place].ip_protocol = random.one_of(&[0, 1, 17, 255]),
        4 if place < last && range.start.version() == ranges[place + 1].start.version() => {
            // The one reaches the other.
            ranges[place].end = ranges[place + 1].start;
        }
        5 => {
            // The same range once more, for another protocol, behind all of its version.
            let version = range.start.version();
            let behind = ranges.partition_point(|range| range.start.version() <= version);
            let again = Range {
                ip_protocol: 255,
                ..range
            };
            ranges.insert(behind, again);
        }
        6 => {
            // One address of a range for all protocols, for another one.
            let start = match random.one_in(2) {
                true => range.start,
                false => range.end,
            };
            let one = Range {
                start,
                end: start,
                ip_protocol: 255,
            };
            ranges[place].ip_protocol = 0;
            ranges.push(one);
        }
        _ => ranges.resize(LONGEST_VALUE / 10 + 1, range),
    }
}

/// Ranges that may stand in one capsule, in this order.
pub fn ranges(random: &mut Random) -> Vec<Range> {
    let mut ranges = Vec::new();
    for version in [4, 6] {
        if random.between(0, 3) > 0 {
            ranges.extend(ranges_of(random, version));
        }
    }
    let mut room = LONGEST_VALUE;
    let fitting = ranges.iter().take_while(|range| {
        let size = 2 + 2 * bytes(range.start);
        let fits = size <= room;
        room = room.saturating_sub(size);
        fits
    });
    fitting.copied().collect()
}

/// Parts of the address space, some for all protocols; each other protocol takes some of the rest.
fn ranges_of(random: &mut Random, version: u8) -> Vec<Range> {
    let (most, entry) = match version {
        4 => (u128::from(u32::MAX), 10),
        _ => (u128::MAX, 34),
    };
    let parts = parts(random, version, most, LONGEST_VALUE / entry);
    let all: Vec<bool> = parts.iter().map(|_| random.one_in(3)).collect();
    let mut protocols = vec![0];
    for _ in 0..random.size(0, 3) {
        protocols.push(random.one_of(&[1, 6, 17, 58, 254, 255]));
    }
    protocols.sort();
    protocols.dedup();
    let mut ranges = Vec::new();
    for protocol in protocols {
        for (&(start, end), &all) in parts.iter().zip(&all) {
            if all == (protocol == 0) && random.between(0, 3) > 0 {
                let ip = |number| match version {
                    4 => Ip::V4(number as u32),
                    _ => Ip::V6(number),
                };
                ranges.push(Range {
                    start: ip(start),
                    end: ip(end),
                    ip_protocol: protocol,
                });
            }
        }
    }
    ranges
}

/// Parts of the numbers up to `most`, in order and apart; some touch each other.
fn parts(random: &mut Random, version: u8, most: u128, longest: usize) -> Vec<(u128, u128)> {
    let mut bounds: Vec<u128> = (0..2 * count(random, 0, longest))
        .map(|_| match random.between(0, 9) {
            0 => 0,
            1 => most,
            // Near each other, and across the middle of the number.
            2..=4 => (0x0a00_0000 + u128::from(random.between(0, 40))) << (24 * (version - 4)),
            _ => wide(random) % most,
        })
        .collect();
    bounds.sort();
    bounds.dedup();
    let mut parts = Vec::new();
    let mut free = 0;
    for pair in bounds.chunks_exact(2) {
        let start = match random.one_in(3) {
            true => free,
            false => pair[0],
        };
        parts.push((start, pair[1]));
        if pair[1] == most {
            break;
        }
        free = pair[1] + 1;
    }
    parts
}

/// Adds an entry to a value.
pub fn push_address(value: &mut Vec<u8>, random: &mut Random, form: Form, address: &Address) {
    push_number(value, random, form, address.request_id);
    value.push(address.ip.version());
    push_ip(value, address.ip);
    value.push(address.prefix_length);
}

/// Adds a range to a value.
pub fn push_range(value: &mut Vec<u8>, range: &Range) {
    value.push(range.start.version());
    push_ip(value, range.start);
    push_ip(value, range.end);
    value.push(range.ip_protocol);
}

fn push_ip(value: &mut Vec<u8>, ip: Ip) {
    match ip {
        Ip::V4(address) => value.extend(address.to_be_bytes()),
        Ip::V6(address) => value.extend(address.to_be_bytes()),
    }
}

/// Alters, cuts or lengthens a value a little.
fn damage(random: &mut Random, value: &mut Vec<u8>) {
    if value.is_empty() {
        value.push(random.number() as u8);
        return;
    }
    let place = random.size(0, value.len() - 1);
    match random.between(0, 5) {
        0 => value.truncate(place),
        1 => value.truncate(value.len() - 1),
        2 => value.push(random.one_of(&[0x00, 0x04, 0x40])),
        3 => value[place] = random.one_of(&[0, 4, 5, 6, 32, 33, 128, 129, 255]),
        _ => value[place] ^= 1 << random.between(0, 7),
    }
}
