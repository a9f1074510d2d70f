//! The calls of the C interface, with all that is handed in.

use std::fmt;

use maruzhenu::raw::{Address, FrameTerms, Limits, Opening, Route, Stream};

use crate::lent::{hex, Lent, LentReader};

/// The fields of an answer in the order of the C interface; those that a call does not have are 0. An IP address takes
/// two fields, its bytes as big-endian numbers.
pub type Answer = [u64; 9];

/// An answer with these fields.
pub fn fields<const COUNT: usize>(fields: [u64; COUNT]) -> Answer {
    let mut answer = [0; 9];
    answer[..COUNT].copy_from_slice(&fields);
    answer
}

/// An answer with these fields and then those of an entry.
pub fn with_entry([found, next]: [u64; 2], entry: [u64; 6]) -> Answer {
    let mut answer = fields([found, next]);
    answer[2..8].copy_from_slice(&entry);
    answer
}

/// The fields of an address of the C interface.
pub fn address_numbers(address: Address) -> [u64; 6] {
    let [high, low] = halves(address.address);
    let (version, prefix) = (address.ip_version.into(), address.prefix_length.into());
    let reserved = address.reserved.iter();
    let reserved = reserved.fold(0, |number, &byte| number << 8 | u64::from(byte));
    [address.request_id, version, prefix, high, low, reserved]
}

/// The fields of a range of the C interface.
pub fn route_numbers(route: Route) -> [u64; 6] {
    let ([start, start_low], [end, end_low]) = (halves(route.start), halves(route.end));
    let (version, protocol) = (route.ip_version.into(), route.ip_protocol.into());
    [version, protocol, start, start_low, end, end_low]
}

/// The bytes of an address as two numbers.
fn halves(bytes: [u8; 16]) -> [u64; 2] {
    let number = u128::from_be_bytes(bytes);
    [(number >> 64) as u64, number as u64]
}

/// A stream table, to be lent.
pub fn lent_table(records: &[Stream]) -> Lent<Stream> {
    let around = Stream {
        quarter: 0x5a5a_5a5a_5a5a_5a5a,
        flags: 0xa5a5_a5a5_a5a5_a5a5,
    };
    Lent::new(records, around)
}

/// Bytes that are lent to be read.
#[derive(Clone, PartialEq, Eq)]
pub struct Bytes(pub Vec<u8>);

impl fmt::Debug for Bytes {
    fn fmt(&self, formatter: &mut fmt::Formatter) -> fmt::Result {
        formatter.write_str(&hex(&self.0))
    }
}

/// A call, before it is made or after.
#[derive(Clone, Debug, PartialEq, Eq)]
pub enum Call {
    ReadVarint {
        bytes: Bytes,
    },
    WriteVarint {
        number: u64,
        out: Lent<u8>,
        place: u64,
    },
    ReaderOpen {
        reader: LentReader,
        opening: Opening,
    },
    ReaderFeed {
        reader: LentReader,
        piece: Bytes,
        gathering: Lent<u8>,
        addresses: Lent<u8>,
        output: Lent<u8>,
    },
    ReaderClose {
        reader: LentReader,
    },
    ReaderLook {
        reader: LentReader,
    },
    List {
        bytes: Bytes,
    },
    StreamOpen {
        table: Lent<Stream>,
        id: u64,
        semantics: u64,
    },
    StreamClose {
        table: Lent<Stream>,
        id: u64,
        side: u64,
    },
    StreamFind {
        table: Lent<Stream>,
        id: u64,
    },
    QuarterOf {
        id: u64,
    },
    StreamIdOf {
        quarter: u64,
    },
    Judge {
        table: Lent<Stream>,
        limits: Limits,
        frame: Bytes,
    },
    WriteCapsule {
        table: Lent<Stream>,
        id: u64,
        payload: Bytes,
        out: Lent<u8>,
        place: u64,
    },
    WriteFrame {
        table: Lent<Stream>,
        id: u64,
        terms: FrameTerms,
        payload: Bytes,
        out: Lent<u8>,
        place: u64,
    },
    WriteFrameHeader {
        table: Lent<Stream>,
        id: u64,
        terms: FrameTerms,
        length: u64,
        out: Lent<u8>,
        place: u64,
    },
    WriteDatagram {
        payload: Bytes,
        out: Lent<u8>,
        place: u64,
    },
    WriteDatagramHeader {
        length: u64,
        out: Lent<u8>,
        place: u64,
    },
    AddressValueGood {
        capsule_type: u64,
        value: Bytes,
    },
    AddressNext {
        value: Bytes,
        at: u64,
    },
    RouteNext {
        value: Bytes,
        at: u64,
    },
    WriteAddressAssign {
        addresses: Bytes,
        out: Lent<u8>,
        place: u64,
    },
    WriteAddressRequest {
        addresses: Bytes,
        out: Lent<u8>,
        place: u64,
    },
    WriteRouteAdvertisement {
        routes: Bytes,
        out: Lent<u8>,
        place: u64,
    },
    SettingError {
        received: u64,
        stored: u64,
    },
    RequestMalformed {
        fields: [u64; 3],
    },
    ResponseMalformed {
        status: u64,
        fields: [u64; 3],
    },
    FieldCounts {
        response: u64,
        status: u64,
    },
    FieldInUse {
        value: Bytes,
    },
    Translate {
        error: u64,
        version: u64,
    },
}

/// The functions, the names of their answers' fields, and the refusals that each can give.
pub const FUNCTIONS: [(&str, &[&str], &[u64]); 30] = [
    ("mrz_read_varint", &["value", "size"], &[]),
    ("mrz_write_varint", &["refusal", "written"], &[6, 5]),
    ("mrz_reader_open", &["refusal"], &[3]),
    (
        "mrz_reader_feed",
        &[
            "refusal", "consumed", "written", "report", "type", "length", "error",
        ],
        &[1, 2, 4, 18, 5],
    ),
    ("mrz_reader_close", &["refusal", "end", "error"], &[1, 2]),
    (
        "mrz_reader_look",
        &[
            "refusal",
            "finished",
            "datagram limit",
            "field",
            "type",
            "length",
            "to come",
            "gathered",
            "buffer",
        ],
        &[1],
    ),
    (
        "mrz_list",
        &["refusal", "capsules", "headers", "end"],
        &[16],
    ),
    ("mrz_stream_open", &["refusal", "place"], &[15, 7, 9, 8]),
    (
        "mrz_stream_close",
        &["refusal", "place", "freed"],
        &[15, 7, 10],
    ),
    ("mrz_stream_find", &["refusal", "place"], &[15, 7, 10]),
    ("mrz_quarter_of", &["refusal", "quarter"], &[7]),
    ("mrz_stream_id_of", &["too large", "stream ID"], &[]),
    (
        "mrz_judge",
        &[
            "refusal", "rule", "quarter", "place", "start", "length", "error",
        ],
        &[15, 3, 6],
    ),
    (
        "mrz_write_capsule",
        &["refusal", "written"],
        &[15, 7, 10, 12, 13, 6, 5],
    ),
    (
        "mrz_write_frame",
        &["refusal", "written"],
        &[15, 7, 10, 11, 12, 13, 6, 14, 5],
    ),
    (
        "mrz_write_frame_header",
        &["refusal", "written"],
        &[15, 7, 10, 11, 12, 13, 6, 14, 5],
    ),
    ("mrz_write_datagram", &["refusal", "written"], &[6, 5]),
    (
        "mrz_write_datagram_header",
        &["refusal", "written"],
        &[6, 5],
    ),
    ("mrz_address_value_good", &["good"], &[]),
    (
        "mrz_address_next",
        &[
            "found",
            "next",
            "request ID",
            "version",
            "prefix length",
            "address",
            "address",
            "reserved",
        ],
        &[],
    ),
    (
        "mrz_route_next",
        &[
            "found", "next", "version", "protocol", "start", "start", "end", "end",
        ],
        &[],
    ),
    (
        "mrz_write_address_assign",
        &["refusal", "written"],
        &[6, 26, 5],
    ),
    (
        "mrz_write_address_request",
        &["refusal", "written"],
        &[6, 26, 5],
    ),
    (
        "mrz_write_route_advertisement",
        &["refusal", "written"],
        &[26, 5],
    ),
    ("mrz_setting_error", &["error"], &[]),
    ("mrz_request_malformed", &["malformed"], &[]),
    ("mrz_response_malformed", &["malformed"], &[]),
    ("mrz_field_counts", &["counts"], &[]),
    ("mrz_field_in_use", &["refusal", "in use"], &[19]),
    ("mrz_translate", &["refusal", "action", "code"], &[17]),
];

impl Call {
    /// The number of the function in [`FUNCTIONS`].
    pub fn function(&self) -> usize {
        match self {
            Call::ReadVarint { .. } => 0,
            Call::WriteVarint { .. } => 1,
            Call::ReaderOpen { .. } => 2,
            Call::ReaderFeed { .. } => 3,
            Call::ReaderClose { .. } => 4,
            Call::ReaderLook { .. } => 5,
            Call::List { .. } => 6,
            Call::StreamOpen { .. } => 7,
            Call::StreamClose { .. } => 8,
            Call::StreamFind { .. } => 9,
            Call::QuarterOf { .. } => 10,
            Call::StreamIdOf { .. } => 11,
            Call::Judge { .. } => 12,
            Call::WriteCapsule { .. } => 13,
            Call::WriteFrame { .. } => 14,
            Call::WriteFrameHeader { .. } => 15,
            Call::WriteDatagram { .. } => 16,
            Call::WriteDatagramHeader { .. } => 17,
            Call::AddressValueGood { .. } => 18,
            Call::AddressNext { .. } => 19,
            Call::RouteNext { .. } => 20,
            Call::WriteAddressAssign { .. } => 21,
            Call::WriteAddressRequest { .. } => 22,
            Call::WriteRouteAdvertisement { .. } => 23,
            Call::SettingError { .. } => 24,
            Call::RequestMalformed { .. } => 25,
            Call::ResponseMalformed { .. } => 26,
            Call::FieldCounts { .. } => 27,
            Call::FieldInUse { .. } => 28,
            Call::Translate { .. } => 29,
        }
    }

    /// The reader, where the call has one.
    pub fn reader(&self) -> Option<&LentReader> {
        match self {
            Call::ReaderOpen { reader, .. }
            | Call::ReaderFeed { reader, .. }
            | Call::ReaderClose { reader }
            | Call::ReaderLook { reader } => Some(reader),
            _ => None,
        }
    }

    /// The words of its reader.
    pub fn words(&self) -> Option<[u64; 8]> {
        self.reader().map(LentReader::words)
    }

    /// The buffers of bytes that are lent to be written, with their names.
    pub fn lent(&self) -> Vec<(&'static str, &Lent<u8>)> {
        match self {
            Call::ReaderFeed {
                gathering,
                addresses,
                output,
                ..
            } => vec![
                ("gathering", gathering),
                ("addresses", addresses),
                ("output", output),
            ],
            Call::WriteVarint { out, .. }
            | Call::WriteCapsule { out, .. }
            | Call::WriteFrame { out, .. }
            | Call::WriteFrameHeader { out, .. }
            | Call::WriteDatagram { out, .. }
            | Call::WriteDatagramHeader { out, .. }
            | Call::WriteAddressAssign { out, .. }
            | Call::WriteAddressRequest { out, .. }
            | Call::WriteRouteAdvertisement { out, .. } => vec![("out", out)],
            _ => Vec::new(),
        }
    }

    /// The stream table, where the call has one. Some calls may write to it.
    pub fn table(&self) -> Option<&Lent<Stream>> {
        match self {
            Call::StreamOpen { table, .. }
            | Call::StreamClose { table, .. }
            | Call::StreamFind { table, .. }
            | Call::Judge { table, .. }
            | Call::WriteCapsule { table, .. }
            | Call::WriteFrame { table, .. }
            | Call::WriteFrameHeader { table, .. } => Some(table),
            _ => None,
        }
    }
}
