//! Values of address capsules checked and split, and the capsules written.

use std::hint::black_box;
use std::net::Ipv4Addr;

use independent::addresses::{self, AddressType, Found};
use maruzhenu::addresses::{Address, Route};
use maruzhenu::raw;

use crate::calls::{row, PLAIN};
use crate::measure::Work;
use crate::Row;

/// So many entries of version 4 with request IDs of two bytes.
fn addresses_of_four(count: u64) -> Vec<Address> {
    let address = |place| Address::new(64 + place, [10, 0, place as u8, 0].into(), 24);
    (0..count).map(address).collect()
}

/// So many entries of version 6 with request IDs of one byte.
fn addresses_of_six(count: u64) -> Vec<Address> {
    let address = |place| {
        let ip = [0x2001, 0xdb8, place as u16, 0, 0, 0, 0, 0];
        Address::new(1 + place, ip.into(), 48)
    };
    (0..count).map(address).collect()
}

/// So many ranges of version 4, each apart from the one before; those of an odd place for another protocol, if any.
fn routes_of_four(count: u32, protocols: [u8; 2]) -> Vec<Route> {
    let route = |place: u32, protocol| {
        let ip = |last| Ipv4Addr::from(0x0a00_0000 + 256 * place + last);
        Route::v4(ip(0), ip(255), protocol)
    };
    let of = |first, protocol| {
        (first..count)
            .step_by(2)
            .map(move |place| route(place, protocol))
    };
    if protocols[0] == protocols[1] {
        return (0..count).map(|place| route(place, protocols[0])).collect();
    }
    of(0, protocols[0]).chain(of(1, protocols[1])).collect()
}

/// So many ranges of version 6 for all protocols.
fn routes_of_six(count: u16) -> Vec<Route> {
    let route = |place| {
        let ip = |last| [0x2001, 0xdb8, place, 0, 0, 0, 0, last].into();
        Route::v6(ip(0), ip(0xffff), 0)
    };
    (0..count).map(route).collect()
}

type Writer = fn(&[u8], &mut [u8], u64) -> raw::Written;

/// The name of a capsule type, and its writer.
fn written(capsule_type: AddressType) -> (&'static str, Writer) {
    match capsule_type {
        AddressType::Assign => ("ADDRESS_ASSIGN", raw::write_address_assign),
        AddressType::Request => ("ADDRESS_REQUEST", raw::write_address_request),
        AddressType::Route => ("ROUTE_ADVERTISEMENT", raw::write_route_advertisement),
    }
}

/// The value that is written from entries.
fn value(writer: Writer, entries: &[u8]) -> Vec<u8> {
    let mut out = vec![0; 1_100];
    let written = writer(entries, &mut out, 0);
    assert_eq!(written.refusal, 0, "the entries are good");
    let header = 1 + independent::varint::read(&out[1..]).map_or(0, |(_, size)| size);
    out[header..written.written as usize].to_vec()
}

pub fn rows() -> Vec<Row> {
    use AddressType::{Assign, Request, Route};
    let assigned = raw::address_bytes(&addresses_of_four(128)).to_vec();
    let six = raw::address_bytes(&addresses_of_six(53)).to_vec();
    let one_protocol = raw::route_bytes(&routes_of_four(102, [17, 17])).to_vec();
    let two_protocols = raw::route_bytes(&routes_of_four(102, [0, 17])).to_vec();
    let routes_of_six = raw::route_bytes(&routes_of_six(30)).to_vec();
    let lists = [
        (Assign, "128 of version 4", &assigned),
        (Assign, "53 of version 6", &six),
        (Request, "128 of version 4", &assigned),
        (Route, "102 of version 4, one protocol", &one_protocol),
        (
            Route,
            "102 of version 4, 51 for all protocols",
            &two_protocols,
        ),
        (Route, "30 of version 6", &routes_of_six),
    ];
    let mut rows = Vec::new();
    for (capsule_type, list, entries) in lists {
        let (name, writer) = written(capsule_type);
        let name = format!("{name}, {list}");
        let value = &value(writer, entries)[..];
        let work = format!("check of {} bytes, {name}", value.len());
        rows.push(check(work, capsule_type, value));
        rows.push(split(format!("entries of {name}"), capsule_type, value));
        rows.push(write(format!("writing {name}"), capsule_type, entries));
    }
    for (capsule_type, _, entries) in lists {
        let (size, version) = match capsule_type {
            Route => (34, entries[0]),
            Assign | Request => (32, entries[8]),
        };
        let name = written(capsule_type).0;
        let work = format!("writing {name}, one of version {version}");
        if rows.iter().all(|row| row.work != work) {
            rows.push(write(work, capsule_type, &entries[..size]));
        }
    }
    rows
}

/// A row beside the independent code, which compares every two ranges.
fn beside(work: String, capsule_type: AddressType, ours: Work, theirs: Work) -> Row {
    let peer = match capsule_type {
        AddressType::Route => "plain Rust, every two ranges compared",
        _ => PLAIN,
    };
    row(work, peer, None, [ours, theirs])
}

fn check(work: String, capsule_type: AddressType, value: &[u8]) -> Row {
    let ours: Work = Box::new(|| raw::address_value_good(capsule_type as u64, black_box(value)));
    let theirs: Work =
        Box::new(|| u64::from(addresses::check(capsule_type, black_box(value)).is_ok()));
    beside(work, capsule_type, ours, theirs)
}

/// All entries of the value, one call each.
fn split(work: String, capsule_type: AddressType, value: &[u8]) -> Row {
    let routes = capsule_type == AddressType::Route;
    let ours: Work = Box::new(|| {
        let (value, mut at, mut count) = (black_box(value), 0, 0);
        loop {
            let (found, next) = match routes {
                true => {
                    let found = raw::route_next(value, at);
                    (found.found, found.next)
                }
                false => {
                    let found = raw::address_next(value, at);
                    (found.found, found.next)
                }
            };
            if found != 1 {
                return count;
            }
            (at, count) = (next, count + 1);
        }
    });
    let theirs: Work = Box::new(|| {
        let (value, mut at, mut count) = (black_box(value), 0, 0);
        loop {
            let next = match routes {
                true => next_place(black_box(addresses::entry_at::<addresses::Range>(
                    value, at,
                ))),
                false => next_place(black_box(addresses::entry_at::<addresses::Address>(
                    value, at,
                ))),
            };
            let Some(next) = next else {
                return count;
            };
            (at, count) = (next, count + 1);
        }
    });
    row(work, PLAIN, None, [ours, theirs])
}

fn next_place<T>(found: Found<T>) -> Option<u64> {
    match found {
        Found::Entry(_, next) => Some(next),
        _ => None,
    }
}

fn write(work: String, capsule_type: AddressType, entries: &[u8]) -> Row {
    let writer = written(capsule_type).1;
    let (mut out, mut other) = (vec![0; 1_100], vec![0; 1_100]);
    let ours: Work = Box::new(|| writer(black_box(entries), &mut out, 3).written);
    let theirs: Work = Box::new(|| {
        let entries = black_box(entries);
        let written = match capsule_type {
            AddressType::Route => addresses::write_routes(entries, &mut other, 3),
            _ => addresses::write_addresses(capsule_type, entries, &mut other, 3),
        };
        written.expect("it is not refused") as u64
    });
    beside(work, capsule_type, ours, theirs)
}
