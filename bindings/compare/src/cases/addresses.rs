//! Values of address capsules, and what is written as such.

use independent::addresses::{Address, AddressType, Ip, Range};
use independent::captures::{
    self, address_value, push_address, push_range, spoil_addresses, spoil_ranges, spoiled_value,
    Form,
};
use independent::Random;

use super::tables::place;
use super::{any, border, buffer, Outcome};
use crate::call::Bytes;
use crate::{Call, Comparison, Difference};

/// The bytes of an address in an entry; `spare` stands behind those of version 4.
fn bytes(ip: Ip, spare: u8) -> [u8; 16] {
    match ip {
        Ip::V4(number) => {
            let mut bytes = [spare; 16];
            bytes[..4].copy_from_slice(&number.to_be_bytes());
            bytes
        }
        Ip::V6(number) => number.to_be_bytes(),
    }
}

/// An entry in the form of the C interface; `spare` stands where nothing is looked at.
pub fn address_entry(address: &Address, spare: u8) -> Vec<u8> {
    let mut entry = address.request_id.to_ne_bytes().to_vec();
    entry.extend([address.ip.version(), address.prefix_length]);
    entry.extend(bytes(address.ip, spare));
    entry.extend([spare; 6]);
    entry
}

/// A range in the form of the C interface, likewise.
pub fn range_entry(range: &Range, spare: u8) -> Vec<u8> {
    let mut entry = vec![range.start.version(), range.ip_protocol];
    entry.extend(bytes(range.start, spare));
    entry.extend(bytes(range.end, spare));
    entry
}

/// Values checked as each type, and split from their fronts and at any place.
pub fn values(random: &mut Random, comparison: &mut Comparison) -> Outcome {
    for _ in 0..24 {
        let address_type = random.one_of(&AddressType::ALL);
        let value = match random.between(0, 9) {
            0 => {
                let length = random.one_of(&[0, 1, 7, 10, 40, 1_023, 1_024, 1_025, 2_000]);
                random.bytes(length)
            }
            1..=3 => address_value(random, address_type),
            _ => spoiled_value(random, address_type),
        };
        let types = [
            address_type as u64,
            random.between(1, 3),
            random.one_of(&[0, 4, 5, 256 + address_type as u64, u64::MAX]),
        ];
        for capsule_type in types {
            comparison.make(Call::AddressValueGood {
                capsule_type,
                value: Bytes(value.clone()),
            })?;
        }
        let routes = match random.one_in(8) {
            true => address_type != AddressType::Route,
            false => address_type == AddressType::Route,
        };
        split(random, comparison, &value, routes)?;
    }
    Ok(())
}

/// Looks for entries one after another, and at some places more.
fn split(random: &mut Random, comparison: &mut Comparison, value: &[u8], routes: bool) -> Outcome {
    let mut look = |at| -> Result<(bool, u64), Box<Difference>> {
        let value = Bytes(value.to_vec());
        let call = match routes {
            true => Call::RouteNext { value, at },
            false => Call::AddressNext { value, at },
        };
        let (answer, _) = comparison.make(call)?;
        Ok((answer[0] == 1, answer[1]))
    };
    let (mut found, mut at) = (true, 0);
    // Of many entries the first ones.
    for _ in 0..6 {
        if found {
            (found, at) = look(at)?;
        }
    }
    for _ in 0..4 {
        let length = value.len() as u64;
        let at = match random.between(0, 4) {
            0 => length,
            1 => length + random.between(1, 3),
            2 => any(random),
            3 => length.saturating_sub(random.between(1, 40)),
            _ => random.between(0, length),
        };
        look(at)?;
    }
    Ok(())
}

/// Address capsules written, good and spoiled.
pub fn writers(random: &mut Random, comparison: &mut Comparison) -> Outcome {
    for _ in 0..24 {
        let address_type = random.one_of(&AddressType::ALL);
        let spoil = random.one_in(3);
        let spare = random.number() as u8;
        let mut value = Vec::new();
        let mut entries: Vec<u8>;
        let size;
        if address_type == AddressType::Route {
            let mut ranges = captures::ranges(random);
            if spoil {
                spoil_ranges(random, &mut ranges);
            }
            ranges
                .iter()
                .for_each(|range| push_range(&mut value, range));
            entries = ranges.iter().flat_map(|r| range_entry(r, spare)).collect();
            size = 34;
        } else {
            let mut addresses = match random.one_in(8) {
                true => near_the_longest(random),
                false => captures::addresses(random, address_type),
            };
            if spoil {
                spoil_addresses(random, &mut addresses);
            }
            for address in &addresses {
                push_address(&mut value, random, Form::Shortest, address);
            }
            entries = addresses
                .iter()
                .flat_map(|a| address_entry(a, spare))
                .collect();
            size = 32;
            if random.one_in(6) && !entries.is_empty() {
                // Another request ID, often one that is too large.
                let start = entries.len() - 32 * random.size(1, entries.len() / 32);
                let near = border(random);
                let id = random.one_of(&[1 << 62, (1 << 62) - 1, u64::MAX, near]);
                entries[start..start + 8].copy_from_slice(&id.to_ne_bytes());
            }
        }
        spoil_bytes(random, &mut entries, size);
        let header = match value.len() {
            0..=63 => 2,
            _ => 3,
        };
        let fits = random.size(0, 24);
        let room = header + value.len() + fits;
        let place = place(random, fits, room);
        let out = buffer(random, room);
        let entries = Bytes(entries);
        comparison.make(match address_type {
            AddressType::Assign => Call::WriteAddressAssign {
                addresses: entries,
                out,
                place,
            },
            AddressType::Request => Call::WriteAddressRequest {
                addresses: entries,
                out,
                place,
            },
            AddressType::Route => Call::WriteRouteAdvertisement {
                routes: entries,
                out,
                place,
            },
        })?;
    }
    Ok(())
}

/// Entries of seven and eight bytes, together about as long as a value may be.
fn near_the_longest(random: &mut Random) -> Vec<Address> {
    let short = random.size(0, 9);
    let long = (1_024 - 7 * short) / 8 + random.size(0, 1);
    let ids = [vec![63; short], vec![64; long]].concat();
    let address = |request_id| Address {
        request_id,
        ip: Ip::V4(0x0a00_0000),
        prefix_length: 8,
    };
    ids.into_iter().map(address).collect()
}

/// Another version, or a part of an entry more or less.
fn spoil_bytes(random: &mut Random, entries: &mut Vec<u8>, size: usize) {
    let Some(last) = entries.len().checked_sub(1) else {
        entries.resize(random.one_of(&[0, 0, 0, 1, size - 1]), 0x04);
        return;
    };
    match random.between(0, 19) {
        0 => entries.truncate(random.size(0, last)),
        1 => entries.push(random.number() as u8),
        2 => {
            let start = random.size(0, last) / size * size;
            let version = if size == 32 { start + 8 } else { start };
            entries[version] = random.one_of(&[0, 4, 5, 6, 7, 255]);
        }
        3 => entries[last - random.size(0, last.min(40))] ^= 1 << random.between(0, 7),
        _ => {}
    }
}
