//! The structs of the C interface, field by field. Each has the C name without `mrz_`, in Rust's spelling.

use core::mem::{align_of, size_of};

/// The answer of [`read_varint`](super::read_varint); `size` 0 says that the bytes end first.
#[repr(C)]
#[derive(Clone, Copy, Debug, Default, PartialEq, Eq)]
pub struct Varint {
    /// The number.
    pub value: u64,
    /// How many bytes it takes, or 0.
    pub size: u64,
}

/// The answer of a writer.
#[repr(C)]
#[derive(Clone, Copy, Debug, Default, PartialEq, Eq)]
pub struct Written {
    /// Why the call was refused, or 0.
    pub refusal: u64,
    /// How many bytes were written.
    pub written: u64,
}

/// A reader. Its words are opaque: [`reader_open`](super::reader_open) makes them. Any words may be handed to the other
/// calls, which refuse those that no opening, feeding and closing could make, all zero among them.
#[repr(C)]
#[derive(Clone, Copy, Debug, Default, PartialEq, Eq, Hash)]
pub struct Reader {
    /// The stored form.
    pub words: [u64; 8],
}

/// How a reader is opened.
#[repr(C)]
#[derive(Clone, Copy, Debug, Default, PartialEq, Eq, Hash)]
pub struct Opening {
    /// 0 endpoint, any other intermediary.
    pub role: u64,
    /// The longest datagram that is delivered.
    pub datagram_limit: u64,
    /// 0 no, any other yes.
    pub draft: u64,
    /// 0 no, any other yes.
    pub addresses: u64,
}

/// The answer of [`reader_feed`](super::reader_feed).
#[repr(C)]
#[derive(Clone, Copy, Debug, Default, PartialEq, Eq)]
pub struct Fed {
    /// Why the call was refused, or 0.
    pub refusal: u64,
    /// How many bytes of the piece were consumed.
    pub consumed: u64,
    /// How many bytes were written to the front of the output.
    pub written: u64,
    /// 0 no capsule ended, 1 delivered, 2 dropped, 3 skipped, 4 passed, 5 address capsule delivered, 6 malformed.
    pub report: u64,
    /// The type of the capsule that ended, 0 for delivered and dropped.
    pub r#type: u64,
    /// The length of the capsule that ended, else 0.
    pub length: u64,
    /// The error's number with report 6, else 0.
    pub error: u64,
}

/// The answer of [`reader_close`](super::reader_close).
#[repr(C)]
#[derive(Clone, Copy, Debug, Default, PartialEq, Eq)]
pub struct Closed {
    /// Why the call was refused, or 0.
    pub refusal: u64,
    /// 1 clean, 2 truncated.
    pub end: u64,
    /// The error's number where truncated, else 0.
    pub error: u64,
}

/// The answer of [`reader_look`](super::reader_look).
#[repr(C)]
#[derive(Clone, Copy, Debug, Default, PartialEq, Eq)]
pub struct Look {
    /// Why the call was refused, or 0.
    pub refusal: u64,
    /// 1 where the reader is finished.
    pub finished: u64,
    /// The datagram limit that it was opened with.
    pub datagram_limit: u64,
    /// 0 between capsules, 1 in a type, 2 in a length, 3 in a value.
    pub field: u64,
    /// The capsule's type, in a length and in a value.
    pub r#type: u64,
    /// The length of its value, in a value.
    pub length: u64,
    /// How many bytes of the value are to come.
    pub to_come: u64,
    /// How many bytes of the value stand in the buffer.
    pub gathered: u64,
    /// 0 neither, 1 the gathering buffer, 2 the address buffer.
    pub buffer: u64,
}

/// The answer of [`list`](super::list).
#[repr(C)]
#[derive(Clone, Copy, Debug, Default, PartialEq, Eq)]
pub struct Listing {
    /// Why the call was refused, or 0.
    pub refusal: u64,
    /// Complete capsules.
    pub capsules: u64,
    /// Bytes of their types and lengths.
    pub headers: u64,
    /// 1 clean, 2 truncated.
    pub end: u64,
}

/// A record of a stream table, free or holding a request stream. The free one is all zero.
///
/// Any flags have a reading, see [`crate::table`].
#[repr(C)]
#[derive(Clone, Copy, Debug, Default, PartialEq, Eq, Hash)]
pub struct Stream {
    /// The quarter stream ID: the stream's ID divided by 4.
    pub quarter: u64,
    /// [`Stream::USED`], [`Stream::RECEIVE`], [`Stream::SEND`] and [`Stream::SEMANTICS`]; the other bits mean nothing.
    pub flags: u64,
}

/// The answer of [`stream_open`](super::stream_open).
#[repr(C)]
#[derive(Clone, Copy, Debug, Default, PartialEq, Eq)]
pub struct Opened {
    /// Why the call was refused, or 0.
    pub refusal: u64,
    /// The place taken.
    pub place: u64,
}

/// The answer of [`stream_close`](super::stream_close).
#[repr(C)]
#[derive(Clone, Copy, Debug, Default, PartialEq, Eq)]
pub struct SideClosed {
    /// Why the call was refused, or 0.
    pub refusal: u64,
    /// The place of the record.
    pub place: u64,
    /// 1 where it became free.
    pub freed: u64,
}

/// The answer of [`stream_find`](super::stream_find).
#[repr(C)]
#[derive(Clone, Copy, Debug, Default, PartialEq, Eq)]
pub struct Found {
    /// Why the call was refused, or 0.
    pub refusal: u64,
    /// The place of the record.
    pub place: u64,
}

/// The answer of [`quarter_of`](super::quarter_of).
#[repr(C)]
#[derive(Clone, Copy, Debug, Default, PartialEq, Eq)]
pub struct Quarter {
    /// Why the call was refused, or 0.
    pub refusal: u64,
    /// The quarter stream ID.
    pub quarter: u64,
}

/// The answer of [`stream_id_of`](super::stream_id_of).
#[repr(C)]
#[derive(Clone, Copy, Debug, Default, PartialEq, Eq)]
pub struct StreamId {
    /// 1 for a number above 2^60-1, which is no quarter.
    pub too_large: u64,
    /// The stream ID.
    pub stream_id: u64,
}

/// What [`judge`](super::judge) goes by.
#[repr(C)]
#[derive(Clone, Copy, Debug, Default, PartialEq, Eq, Hash)]
pub struct Limits {
    /// How many request streams there may be, 2^60 where that is not known.
    pub stream_limit: u64,
    /// The longest datagram that is delivered.
    pub datagram_limit: u64,
}

/// What [`write_frame`](super::write_frame) goes by.
#[repr(C)]
#[derive(Clone, Copy, Debug, Default, PartialEq, Eq, Hash)]
pub struct FrameTerms {
    /// Our SETTINGS_H3_DATAGRAM.
    pub our_setting: u64,
    /// The peer's SETTINGS_H3_DATAGRAM.
    pub peer_setting: u64,
    /// The largest payload of a frame that the path carries.
    pub path_size: u64,
}

/// The answer of [`judge`](super::judge).
#[repr(C)]
#[derive(Clone, Copy, Debug, Default, PartialEq, Eq)]
pub struct Judged {
    /// Why the call was refused, or 0.
    pub refusal: u64,
    /// The rule, 1 to 8.
    pub rule: u64,
    /// With rules 2 to 8, the quarter stream ID.
    pub quarter: u64,
    /// With rules 5 to 8, the place of the record.
    pub place: u64,
    /// With rule 8, where in the frame the payload begins.
    pub start: u64,
    /// With rule 8, the length of the payload.
    pub length: u64,
    /// The error's number with rules 1, 2, 3 and 6, else 0.
    pub error: u64,
}

/// An entry of ADDRESS_ASSIGN or ADDRESS_REQUEST.
#[repr(C)]
#[derive(Clone, Copy, Debug, Default, PartialEq, Eq, Hash)]
pub struct Address {
    /// The request ID.
    pub request_id: u64,
    /// 4 or 6.
    pub ip_version: u8,
    /// How many bits of the address count; those beyond are 0.
    pub prefix_length: u8,
    /// The address. Of version 4 it is the first 4 bytes; the others are 0 in what is read, and not looked at in what
    /// is written.
    pub address: [u8; 16],
    /// 0 in what is read, not looked at in what is written.
    pub reserved: [u8; 6],
}

/// A range of ROUTE_ADVERTISEMENT.
#[repr(C)]
#[derive(Clone, Copy, Debug, Default, PartialEq, Eq, Hash)]
pub struct Route {
    /// 4 or 6.
    pub ip_version: u8,
    /// The IP protocol, 0 for all.
    pub ip_protocol: u8,
    /// The first address; bytes as in [`Address`].
    pub start: [u8; 16],
    /// The last address; bytes as in [`Address`].
    pub end: [u8; 16],
}

// The sizes that the archive was built for. None has a byte between or behind its fields.
const _: () = assert!(size_of::<Address>() == 32 && size_of::<Route>() == 34);
const _: () = assert!(size_of::<Stream>() == 16);
const _: () = assert!(size_of::<Reader>() == 64 && align_of::<Reader>() == 8);

/// The answer of [`address_next`](super::address_next).
#[repr(C)]
#[derive(Clone, Copy, Debug, Default, PartialEq, Eq)]
pub struct AddressFound {
    /// 0 the value's end, 1 found, 2 no whole entry.
    pub found: u64,
    /// The place behind the entry, or the place itself where none was found.
    pub next: u64,
    /// The entry, all 0 where none was found.
    pub address: Address,
}

/// The answer of [`route_next`](super::route_next).
#[repr(C)]
#[derive(Clone, Copy, Debug, Default, PartialEq, Eq)]
pub struct RouteFound {
    /// 0 the value's end, 1 found, 2 no whole entry.
    pub found: u64,
    /// The place behind the entry, or the place itself where none was found.
    pub next: u64,
    /// The entry, all 0 where none was found.
    pub route: Route,
}

/// The answer of [`field_in_use`](super::field_in_use).
#[repr(C)]
#[derive(Clone, Copy, Debug, Default, PartialEq, Eq)]
pub struct Field {
    /// Why the call was refused, or 0.
    pub refusal: u64,
    /// 1 where the value says that the Capsule Protocol is in use.
    pub in_use: u64,
}

/// The answer of [`translate`](super::translate).
#[repr(C)]
#[derive(Clone, Copy, Debug, Default, PartialEq, Eq)]
pub struct Translation {
    /// Why the call was refused, or 0.
    pub refusal: u64,
    /// 0 none, 1 close, 2 stream error, 3 connection error.
    pub action: u64,
    /// The code.
    pub code: u64,
}
