//! The entries of address capsules, RFC 9484 section 4.7: read from a value, and written as a capsule.
//!
//! ```
//! use maruzhenu::addresses::{self, Address, AddressType};
//!
//! let address = Address::new(1, [10, 0, 0, 0].into(), 8);
//! let mut out = [0; 16];
//! let written = addresses::write_address_request(&[address], &mut out, 0)?;
//! assert_eq!(out[..written], [0x02, 0x07, 0x01, 4, 10, 0, 0, 0, 8]);
//!
//! let value = &out[2..written];
//! assert!(addresses::well_formed(AddressType::Request, value));
//! let read: Vec<Address> = addresses::addresses(value).collect();
//! assert_eq!(read, [address]);
//! assert_eq!(read[0].ip(), Some([10, 0, 0, 0].into()));
//! # Ok::<(), maruzhenu::Refusal>(())
//! ```

use core::iter::FusedIterator;
use core::net::{IpAddr, Ipv4Addr, Ipv6Addr};

pub use crate::raw::{Address, Route};
use crate::{count, raw, Refusal};

/// The longest value of an address capsule, in bytes.
pub const LONGEST_VALUE: usize = 1_024;

/// The types of address capsules.
#[derive(Clone, Copy, Debug, PartialEq, Eq, Hash)]
pub enum AddressType {
    /// ADDRESS_ASSIGN
    Assign = 1,
    /// ADDRESS_REQUEST
    Request = 2,
    /// ROUTE_ADVERTISEMENT
    Route = 3,
}

impl AddressType {
    /// The capsule type.
    #[must_use]
    pub const fn number(self) -> u64 {
        self as u64
    }

    /// The type with a number, if it is one of these.
    #[must_use]
    pub const fn from_number(number: u64) -> Option<AddressType> {
        match number {
            1 => Some(AddressType::Assign),
            2 => Some(AddressType::Request),
            3 => Some(AddressType::Route),
            _ => None,
        }
    }
}

/// The version of an address and its bytes, with 0 behind those of version 4.
fn bytes(ip: IpAddr) -> (u8, [u8; 16]) {
    match ip {
        IpAddr::V4(ip) => {
            let mut bytes = [0; 16];
            bytes[..4].copy_from_slice(&ip.octets());
            (4, bytes)
        }
        IpAddr::V6(ip) => (6, ip.octets()),
    }
}

fn ip(version: u8, bytes: [u8; 16]) -> Option<IpAddr> {
    match version {
        4 => {
            let [a, b, c, d, ..] = bytes;
            Some(Ipv4Addr::new(a, b, c, d).into())
        }
        6 => Some(Ipv6Addr::from(bytes).into()),
        _ => None,
    }
}

impl Address {
    /// An entry. Request ID 0 in an ADDRESS_ASSIGN says that nobody asked.
    #[must_use]
    pub fn new(request_id: u64, ip: IpAddr, prefix_length: u8) -> Address {
        let (ip_version, address) = bytes(ip);
        Address {
            request_id,
            ip_version,
            prefix_length,
            address,
            reserved: [0; 6],
        }
    }

    /// The address, or `None` where the version is neither 4 nor 6, which is never so in what was read.
    #[must_use]
    pub fn ip(&self) -> Option<IpAddr> {
        ip(self.ip_version, self.address)
    }
}

impl Route {
    /// A range of addresses of version 4. Protocol 0 stands for all protocols.
    #[must_use]
    pub fn v4(start: Ipv4Addr, end: Ipv4Addr, ip_protocol: u8) -> Route {
        Route::new(start.into(), end.into(), ip_protocol)
    }

    /// A range of addresses of version 6. Protocol 0 stands for all protocols.
    #[must_use]
    pub fn v6(start: Ipv6Addr, end: Ipv6Addr, ip_protocol: u8) -> Route {
        Route::new(start.into(), end.into(), ip_protocol)
    }

    /// Both addresses are of one version.
    fn new(start: IpAddr, end: IpAddr, ip_protocol: u8) -> Route {
        let ((ip_version, start), (_, end)) = (bytes(start), bytes(end));
        Route {
            ip_version,
            ip_protocol,
            start,
            end,
        }
    }

    /// The first and the last address, or `None` where the version is neither 4 nor 6, which is never so in what was
    /// read.
    #[must_use]
    pub fn range(&self) -> Option<(IpAddr, IpAddr)> {
        Some((
            ip(self.ip_version, self.start)?,
            ip(self.ip_version, self.end)?,
        ))
    }
}

/// Whether a value is well formed for an address capsule of a type.
#[must_use]
pub fn well_formed(capsule_type: AddressType, value: &[u8]) -> bool {
    raw::address_value_good(capsule_type.number(), value) == 1
}

/// The entries of a value, one after another. They are not judged: of a value that was delivered all are good.
#[derive(Clone, Debug)]
#[must_use]
pub struct Entries<'a, T> {
    value: &'a [u8],
    next: fn(&[u8], u64) -> (u64, u64, T),
    at: u64,
}

impl<'a, T> Entries<'a, T> {
    /// What has not been handed out. Once there are no more entries it is empty, but for a malformed value that does
    /// not end with a whole entry.
    #[must_use]
    pub fn rest(&self) -> &'a [u8] {
        &self.value[self.at as usize..]
    }
}

impl<T> Iterator for Entries<'_, T> {
    type Item = T;

    fn next(&mut self) -> Option<T> {
        let (found, next, entry) = (self.next)(self.value, self.at);
        self.at = next;
        (found == 1).then_some(entry)
    }
}

impl<T> FusedIterator for Entries<'_, T> {}

/// The entries of a value of an ADDRESS_ASSIGN or ADDRESS_REQUEST capsule.
pub fn addresses(value: &[u8]) -> Entries<'_, Address> {
    Entries {
        value,
        next: |value, at| {
            let found = raw::address_next(value, at);
            (found.found, found.next, found.address)
        },
        at: 0,
    }
}

/// The ranges of a value of a ROUTE_ADVERTISEMENT capsule.
pub fn routes(value: &[u8]) -> Entries<'_, Route> {
    Entries {
        value,
        next: |value, at| {
            let found = raw::route_next(value, at);
            (found.found, found.next, found.route)
        },
        at: 0,
    }
}

/// Writes an ADDRESS_ASSIGN capsule at a place of `out`. Answers how many bytes were written.
///
/// # Errors
/// [`Refusal::NumberTooLarge`] (a request ID), [`Refusal::MalformedToWrite`], [`Refusal::OutputTooShort`], in this
/// order.
pub fn write_address_assign(
    addresses: &[Address],
    out: &mut [u8],
    place: usize,
) -> Result<usize, Refusal> {
    let entries = raw::address_bytes(addresses);
    count(raw::write_address_assign(entries, out, place as u64))
}

/// Writes an ADDRESS_REQUEST capsule at a place of `out`. Answers how many bytes were written.
///
/// # Errors
/// As [`write_address_assign`]. No entry and a request ID 0 are malformed here.
pub fn write_address_request(
    addresses: &[Address],
    out: &mut [u8],
    place: usize,
) -> Result<usize, Refusal> {
    let entries = raw::address_bytes(addresses);
    count(raw::write_address_request(entries, out, place as u64))
}

/// Writes a ROUTE_ADVERTISEMENT capsule at a place of `out`. Answers how many bytes were written.
///
/// # Errors
/// [`Refusal::MalformedToWrite`], [`Refusal::OutputTooShort`], in this order.
pub fn write_route_advertisement(
    routes: &[Route],
    out: &mut [u8],
    place: usize,
) -> Result<usize, Refusal> {
    let entries = raw::route_bytes(routes);
    count(raw::write_route_advertisement(entries, out, place as u64))
}
