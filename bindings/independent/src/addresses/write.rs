//! Writing address capsules.
//!
//! Entries come in the form of the C interface, one behind the other. An address: request ID (8 bytes, as the machine
//! has them), IP version, prefix length, address (16 bytes, of which version 4 has the first 4), 6 bytes that say
//! nothing. A range: IP version, IP protocol, start and end (16 bytes each, likewise).

use super::{check_address, check_ranges, Address, AddressType, Ip, Range, LONGEST_VALUE};
use crate::varint::{self, place_for};
use crate::Refusal;

/// The size of an entry of each form.
pub const ADDRESS: usize = 32;
pub const RANGE: usize = 34;

fn request_id(entry: &[u8]) -> u64 {
    u64::from_ne_bytes(*entry.first_chunk().expect("an entry is longer"))
}

/// The entry, unless its version is neither 4 nor 6.
fn address(entry: &[u8]) -> Result<Address, Refusal> {
    let (ip, _) = Ip::read(entry[8], &entry[10..26]).ok_or(Refusal::MalformedToWrite)?;
    Ok(Address {
        request_id: request_id(entry),
        ip,
        prefix_length: entry[9],
    })
}

fn range(entry: &[u8]) -> Result<Range, Refusal> {
    let ip = |bytes| Ip::read(entry[0], bytes).ok_or(Refusal::MalformedToWrite);
    let ((start, _), (end, _)) = (ip(&entry[2..18])?, ip(&entry[18..34])?);
    Ok(Range {
        start,
        end,
        ip_protocol: entry[1],
    })
}

/// Space for a capsule at a place of the output, its header written. Answers the value's part and the capsule's size.
fn space_for(
    capsule_type: AddressType,
    length: usize,
    out: &mut [u8],
    place: u64,
) -> Result<(&mut [u8], usize), Refusal> {
    let header = 1 + varint::size(length as u64);
    let space = place_for(out, place, header + length)?;
    space[0] = capsule_type as u8;
    varint::encode(length as u64, &mut space[1..header]);
    Ok((&mut space[header..], header + length))
}

/// Writes bytes to the front of the space and leaves what is behind them.
fn put<'a>(space: &'a mut [u8], bytes: &[u8]) -> &'a mut [u8] {
    let (front, rest) = space.split_at_mut(bytes.len());
    front.copy_from_slice(bytes);
    rest
}

fn put_ip(space: &mut [u8], ip: Ip) -> &mut [u8] {
    match ip {
        Ip::V4(address) => put(space, &address.to_be_bytes()),
        Ip::V6(address) => put(space, &address.to_be_bytes()),
    }
}

/// Writes an ADDRESS_ASSIGN or ADDRESS_REQUEST capsule. Answers how many bytes were written.
pub fn write_addresses(
    capsule_type: AddressType,
    entries: &[u8],
    out: &mut [u8],
    place: u64,
) -> Result<usize, Refusal> {
    let whole = entries.chunks_exact(ADDRESS);
    if whole
        .clone()
        .any(|entry| request_id(entry) > varint::LARGEST)
    {
        return Err(Refusal::NumberTooLarge);
    }
    if !whole.remainder().is_empty() || (capsule_type == AddressType::Request && entries.is_empty())
    {
        return Err(Refusal::MalformedToWrite);
    }
    let mut length = 0;
    for entry in whole.clone() {
        let address = address(entry)?;
        check_address(capsule_type, &address).or(Err(Refusal::MalformedToWrite))?;
        length += varint::size(address.request_id) + 2 + usize::from(address.ip.bits() / 8);
    }
    if length > LONGEST_VALUE {
        return Err(Refusal::MalformedToWrite);
    }
    let (mut space, written) = space_for(capsule_type, length, out, place)?;
    for entry in whole {
        let address = address(entry)?;
        let (id, rest) = space.split_at_mut(varint::size(address.request_id));
        varint::encode(address.request_id, id);
        let rest = put(rest, &[address.ip.version()]);
        let rest = put_ip(rest, address.ip);
        space = put(rest, &[address.prefix_length]);
    }
    Ok(written)
}

/// Writes a ROUTE_ADVERTISEMENT capsule. Answers how many bytes were written.
pub fn write_routes(entries: &[u8], out: &mut [u8], place: u64) -> Result<usize, Refusal> {
    let whole = entries.chunks_exact(RANGE);
    if !whole.remainder().is_empty() {
        return Err(Refusal::MalformedToWrite);
    }
    let mut length = 0;
    let mut ranges = Vec::with_capacity(LONGEST_VALUE / 10);
    for entry in whole {
        let range = range(entry)?;
        length += 2 + 2 * usize::from(range.start.bits() / 8);
        // No more than can be written are kept.
        if length > LONGEST_VALUE {
            return Err(Refusal::MalformedToWrite);
        }
        ranges.push(range);
    }
    check_ranges(&ranges).or(Err(Refusal::MalformedToWrite))?;
    let (mut space, written) = space_for(AddressType::Route, length, out, place)?;
    for range in ranges {
        let rest = put(space, &[range.start.version()]);
        let rest = put_ip(rest, range.start);
        let rest = put_ip(rest, range.end);
        space = put(rest, &[range.ip_protocol]);
    }
    Ok(written)
}
