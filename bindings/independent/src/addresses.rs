//! The values of address capsules, RFC 9484 section 4.7: which are well formed, and the entries in them.

use crate::varint;

mod write;

pub use write::{write_addresses, write_routes};

/// The longest value of an address capsule.
pub const LONGEST_VALUE: usize = 1_024;

/// The three capsule types.
#[derive(Clone, Copy, Debug, PartialEq, Eq)]
pub enum AddressType {
    Assign = 1,
    Request = 2,
    Route = 3,
}

impl AddressType {
    pub const ALL: [AddressType; 3] = [
        AddressType::Assign,
        AddressType::Request,
        AddressType::Route,
    ];

    pub fn from_number(number: u64) -> Option<AddressType> {
        match number {
            1 => Some(AddressType::Assign),
            2 => Some(AddressType::Request),
            3 => Some(AddressType::Route),
            _ => None,
        }
    }
}

/// An address as a number.
#[derive(Clone, Copy, Debug, PartialEq, Eq)]
pub enum Ip {
    V4(u32),
    V6(u128),
}

impl Ip {
    /// The address of a version at the front of `bytes`, and what stands behind it.
    fn read(version: u8, bytes: &[u8]) -> Option<(Ip, &[u8])> {
        match version {
            4 => {
                let (address, rest) = bytes.split_first_chunk()?;
                Some((Ip::V4(u32::from_be_bytes(*address)), rest))
            }
            6 => {
                let (address, rest) = bytes.split_first_chunk()?;
                Some((Ip::V6(u128::from_be_bytes(*address)), rest))
            }
            _ => None,
        }
    }

    pub fn version(self) -> u8 {
        match self {
            Ip::V4(_) => 4,
            Ip::V6(_) => 6,
        }
    }

    /// How many bits an address has.
    fn bits(self) -> u8 {
        match self {
            Ip::V4(_) => 32,
            Ip::V6(_) => 128,
        }
    }

    pub fn number(self) -> u128 {
        match self {
            Ip::V4(address) => u128::from(address),
            Ip::V6(address) => address,
        }
    }
}

/// An entry of ADDRESS_ASSIGN or ADDRESS_REQUEST.
#[derive(Clone, Copy, Debug, PartialEq, Eq)]
pub struct Address {
    pub request_id: u64,
    pub ip: Ip,
    pub prefix_length: u8,
}

/// A range of ROUTE_ADVERTISEMENT. Both addresses are of one version.
#[derive(Clone, Copy, Debug, PartialEq, Eq)]
pub struct Range {
    pub start: Ip,
    pub end: Ip,
    pub ip_protocol: u8,
}

/// Why a value is malformed.
#[derive(Clone, Copy, Debug, PartialEq, Eq)]
pub enum Malformed {
    /// It is longer than an address value may be.
    TooLong,
    /// A request without an entry.
    NothingRequested,
    /// A request ID 0 in a request.
    RequestIdZero,
    /// An IP version that is neither 4 nor 6.
    IpVersion,
    /// The bytes end within an entry.
    Leftover,
    /// A prefix longer than an address of its version.
    PrefixLength,
    /// A bit of the address beyond the prefix is not 0.
    BitsBeyondPrefix,
    /// A range that starts above its end.
    StartAboveEnd,
    /// A range behind one of a higher version.
    VersionOrder,
    /// A range behind one of its version with a higher protocol.
    ProtocolOrder,
    /// A range of the same version and protocol as one before it that does not start above that one's end.
    AddressOrder,
    /// A range for all protocols that overlaps one for another protocol of its version.
    Overlap,
}

impl Malformed {
    pub const ALL: [Malformed; 12] = [
        Malformed::TooLong,
        Malformed::NothingRequested,
        Malformed::RequestIdZero,
        Malformed::IpVersion,
        Malformed::Leftover,
        Malformed::PrefixLength,
        Malformed::BitsBeyondPrefix,
        Malformed::StartAboveEnd,
        Malformed::VersionOrder,
        Malformed::ProtocolOrder,
        Malformed::AddressOrder,
        Malformed::Overlap,
    ];
}

/// Something that values are made of, one behind the other.
pub trait Entry: Sized {
    /// The entry at the front of `bytes`, and what stands behind it.
    fn read(bytes: &[u8]) -> Result<(Self, &[u8]), Malformed>;
}

/// The IP version at the front of `bytes`, and what stands behind it.
fn read_version(bytes: &[u8]) -> Result<(u8, &[u8]), Malformed> {
    match bytes.split_first() {
        Some((&version @ (4 | 6), rest)) => Ok((version, rest)),
        Some(_) => Err(Malformed::IpVersion),
        None => Err(Malformed::Leftover),
    }
}

impl Entry for Address {
    fn read(bytes: &[u8]) -> Result<(Address, &[u8]), Malformed> {
        let (request_id, size) = varint::read(bytes).ok_or(Malformed::Leftover)?;
        let (version, rest) = read_version(&bytes[size..])?;
        let (ip, rest) = Ip::read(version, rest).ok_or(Malformed::Leftover)?;
        let (&prefix_length, rest) = rest.split_first().ok_or(Malformed::Leftover)?;
        let address = Address {
            request_id,
            ip,
            prefix_length,
        };
        Ok((address, rest))
    }
}

impl Entry for Range {
    fn read(bytes: &[u8]) -> Result<(Range, &[u8]), Malformed> {
        let (version, rest) = read_version(bytes)?;
        let (start, rest) = Ip::read(version, rest).ok_or(Malformed::Leftover)?;
        let (end, rest) = Ip::read(version, rest).ok_or(Malformed::Leftover)?;
        let (&ip_protocol, rest) = rest.split_first().ok_or(Malformed::Leftover)?;
        let range = Range {
            start,
            end,
            ip_protocol,
        };
        Ok((range, rest))
    }
}

/// What stands at a place of a value.
#[derive(Clone, Copy, Debug, PartialEq, Eq)]
pub enum Found<T> {
    /// The value has ended.
    Nothing,
    /// An entry, and the place behind it.
    Entry(T, u64),
    /// No whole entry.
    Malformed,
}

/// The entry at a place of a value.
pub fn entry_at<T: Entry>(value: &[u8], at: u64) -> Found<T> {
    let rest = usize::try_from(at).ok().and_then(|at| value.get(at..));
    match rest {
        None | Some([]) => Found::Nothing,
        Some(rest) => match T::read(rest) {
            Ok((entry, behind)) => Found::Entry(entry, (value.len() - behind.len()) as u64),
            Err(_) => Found::Malformed,
        },
    }
}

/// Whether an entry may stand in a capsule of a type.
pub(crate) fn check_address(capsule_type: AddressType, address: &Address) -> Result<(), Malformed> {
    if capsule_type == AddressType::Request && address.request_id == 0 {
        return Err(Malformed::RequestIdZero);
    }
    if address.prefix_length > address.ip.bits() {
        return Err(Malformed::PrefixLength);
    }
    // A shift by all of the bits leaves none.
    let beyond = match address.ip {
        Ip::V4(ip) => u128::from(ip.checked_shl(address.prefix_length.into()).unwrap_or(0)),
        Ip::V6(ip) => ip.checked_shl(address.prefix_length.into()).unwrap_or(0),
    };
    if beyond != 0 {
        return Err(Malformed::BitsBeyondPrefix);
    }
    Ok(())
}

/// Whether ranges may stand in one capsule, in this order: each by itself, then every two.
pub(crate) fn check_ranges(ranges: &[Range]) -> Result<(), Malformed> {
    for range in ranges {
        if range.start.number() > range.end.number() {
            return Err(Malformed::StartAboveEnd);
        }
    }
    for (place, later) in ranges.iter().enumerate() {
        for earlier in &ranges[..place] {
            check_pair(earlier, later)?;
        }
    }
    Ok(())
}

fn check_pair(earlier: &Range, later: &Range) -> Result<(), Malformed> {
    if earlier.start.version() != later.start.version() {
        return match earlier.start.version() < later.start.version() {
            true => Ok(()),
            false => Err(Malformed::VersionOrder),
        };
    }
    if earlier.ip_protocol > later.ip_protocol {
        return Err(Malformed::ProtocolOrder);
    }
    let before = earlier.end.number() < later.start.number();
    let behind = later.end.number() < earlier.start.number();
    if earlier.ip_protocol == later.ip_protocol && !before {
        return Err(Malformed::AddressOrder);
    }
    if earlier.ip_protocol == 0 && !before && !behind {
        return Err(Malformed::Overlap);
    }
    Ok(())
}

/// Whether a value is one of a capsule of a type, and if not, why.
pub fn check(capsule_type: AddressType, value: &[u8]) -> Result<(), Malformed> {
    if value.len() > LONGEST_VALUE {
        return Err(Malformed::TooLong);
    }
    let mut rest = value;
    if capsule_type == AddressType::Route {
        let mut ranges = Vec::with_capacity(LONGEST_VALUE / 10);
        while !rest.is_empty() {
            let (range, behind) = Range::read(rest)?;
            ranges.push(range);
            rest = behind;
        }
        return check_ranges(&ranges);
    }
    if capsule_type == AddressType::Request && value.is_empty() {
        return Err(Malformed::NothingRequested);
    }
    while !rest.is_empty() {
        let (address, behind) = Address::read(rest)?;
        check_address(capsule_type, &address)?;
        rest = behind;
    }
    Ok(())
}

#[cfg(test)]
mod tests;
