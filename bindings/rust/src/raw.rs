//! The C interface as it is: numbers in, numbers out.
//!
//! Each function here is one call of the archive. None has a precondition on values: every number, every state of a
//! reader and every row of records gets an answer. A `refusal` of 0 means that the call was not refused; otherwise it
//! has the number of a [`crate::Refusal`], every other field is 0, and nothing behind a reference has changed.
//!
//! This is the only module with `unsafe` in it. What it relies on: the archive reads and writes only within the slices
//! that it is lent, which is proved of its functions, and the declarations in it are those of `maruzhenu.h`.
//!
//! ```
//! use maruzhenu::raw;
//!
//! let mut reader = raw::Reader::default();
//! assert_eq!(raw::reader_look(&reader).refusal, 1);
//! let opening = raw::Opening { role: 1, datagram_limit: 1_200, draft: 0, addresses: 0 };
//! assert_eq!(raw::reader_open(&mut reader, opening), 0);
//! assert_eq!(raw::reader_look(&reader).datagram_limit, 1_200);
//! ```

#![allow(unsafe_code)]

mod answers;

use core::mem::size_of_val;
use core::slice;

pub use answers::{
    Address, AddressFound, Closed, Fed, Field, Found, FrameTerms, Judged, Limits, Listing, Look,
    Opened, Opening, Quarter, Reader, Route, RouteFound, SideClosed, Stream, StreamId, Translation,
    Varint, Written,
};

mod archive {
    use super::*;

    extern "C" {
        pub fn mrz_read_varint(bytes: *const u8, bytes_len: usize) -> Varint;
        pub fn mrz_write_varint(number: u64, out: *mut u8, out_len: usize, place: u64) -> Written;
        pub fn mrz_reader_open(reader: *mut Reader, opening: Opening) -> u64;
        pub fn mrz_reader_feed(
            reader: *mut Reader,
            piece: *const u8,
            piece_len: usize,
            gathering: *mut u8,
            gathering_len: usize,
            addresses: *mut u8,
            addresses_len: usize,
            output: *mut u8,
            output_len: usize,
        ) -> Fed;
        pub fn mrz_reader_close(reader: *mut Reader) -> Closed;
        pub fn mrz_reader_look(reader: *const Reader) -> Look;
        pub fn mrz_list(bytes: *const u8, bytes_len: usize) -> Listing;
        pub fn mrz_stream_open(
            streams: *mut Stream,
            streams_len: usize,
            stream_id: u64,
            semantics: u64,
        ) -> Opened;
        pub fn mrz_stream_close(
            streams: *mut Stream,
            streams_len: usize,
            stream_id: u64,
            side: u64,
        ) -> SideClosed;
        pub fn mrz_stream_find(streams: *const Stream, streams_len: usize, stream_id: u64)
            -> Found;
        pub fn mrz_quarter_of(stream_id: u64) -> Quarter;
        pub fn mrz_stream_id_of(quarter: u64) -> StreamId;
        pub fn mrz_judge(
            streams: *const Stream,
            streams_len: usize,
            limits: Limits,
            frame: *const u8,
            frame_len: usize,
        ) -> Judged;
        pub fn mrz_write_capsule(
            streams: *const Stream,
            streams_len: usize,
            stream_id: u64,
            payload: *const u8,
            payload_len: usize,
            out: *mut u8,
            out_len: usize,
            place: u64,
        ) -> Written;
        pub fn mrz_write_frame(
            streams: *const Stream,
            streams_len: usize,
            stream_id: u64,
            terms: FrameTerms,
            payload: *const u8,
            payload_len: usize,
            out: *mut u8,
            out_len: usize,
            place: u64,
        ) -> Written;
        pub fn mrz_write_frame_header(
            streams: *const Stream,
            streams_len: usize,
            stream_id: u64,
            terms: FrameTerms,
            payload_length: u64,
            out: *mut u8,
            out_len: usize,
            place: u64,
        ) -> Written;
        pub fn mrz_write_datagram(
            payload: *const u8,
            payload_len: usize,
            out: *mut u8,
            out_len: usize,
            place: u64,
        ) -> Written;
        pub fn mrz_write_datagram_header(
            payload_length: u64,
            out: *mut u8,
            out_len: usize,
            place: u64,
        ) -> Written;
        pub fn mrz_address_value_good(r#type: u64, value: *const u8, value_len: usize) -> u64;
        pub fn mrz_address_next(value: *const u8, value_len: usize, at: u64) -> AddressFound;
        pub fn mrz_route_next(value: *const u8, value_len: usize, at: u64) -> RouteFound;
        pub fn mrz_write_address_assign(
            addresses: *const Address,
            addresses_size: usize,
            out: *mut u8,
            out_len: usize,
            place: u64,
        ) -> Written;
        pub fn mrz_write_address_request(
            addresses: *const Address,
            addresses_size: usize,
            out: *mut u8,
            out_len: usize,
            place: u64,
        ) -> Written;
        pub fn mrz_write_route_advertisement(
            routes: *const Route,
            routes_size: usize,
            out: *mut u8,
            out_len: usize,
            place: u64,
        ) -> Written;
        pub fn mrz_setting_error(received: u64, stored: u64) -> u64;
        pub fn mrz_request_malformed(
            content_length: u64,
            content_type: u64,
            transfer_encoding: u64,
        ) -> u64;
        pub fn mrz_response_malformed(
            status: u64,
            content_length: u64,
            content_type: u64,
            transfer_encoding: u64,
        ) -> u64;
        pub fn mrz_field_counts(response: u64, status: u64) -> u64;
        pub fn mrz_field_in_use(value: *const u8, value_len: usize) -> Field;
        pub fn mrz_translate(error: u64, version: u64) -> Translation;
    }
}

/// Reads the varint at the front of `bytes`.
#[inline]
#[must_use]
pub fn read_varint(bytes: &[u8]) -> Varint {
    unsafe { archive::mrz_read_varint(bytes.as_ptr(), bytes.len()) }
}

/// Writes a number in its shortest form at a place of `out`.
#[inline]
pub fn write_varint(number: u64, out: &mut [u8], place: u64) -> Written {
    unsafe { archive::mrz_write_varint(number, out.as_mut_ptr(), out.len(), place) }
}

/// Opens a reader, whatever it was. Answers the refusal or 0.
#[inline]
#[must_use]
pub fn reader_open(reader: &mut Reader, opening: Opening) -> u64 {
    unsafe { archive::mrz_reader_open(reader, opening) }
}

/// Feeds a reader.
#[inline]
pub fn reader_feed(
    reader: &mut Reader,
    piece: &[u8],
    gathering: &mut [u8],
    addresses: &mut [u8],
    output: &mut [u8],
) -> Fed {
    unsafe {
        archive::mrz_reader_feed(
            reader,
            piece.as_ptr(),
            piece.len(),
            gathering.as_mut_ptr(),
            gathering.len(),
            addresses.as_mut_ptr(),
            addresses.len(),
            output.as_mut_ptr(),
            output.len(),
        )
    }
}

/// Closes a reader.
#[inline]
pub fn reader_close(reader: &mut Reader) -> Closed {
    unsafe { archive::mrz_reader_close(reader) }
}

/// Looks at a reader.
#[inline]
#[must_use]
pub fn reader_look(reader: &Reader) -> Look {
    unsafe { archive::mrz_reader_look(reader) }
}

/// Counts the complete capsules of a buffer.
#[inline]
#[must_use]
pub fn list(bytes: &[u8]) -> Listing {
    unsafe { archive::mrz_list(bytes.as_ptr(), bytes.len()) }
}

/// Opens a stream in a table; `semantics` 0 no, any other yes.
#[inline]
pub fn stream_open(streams: &mut [Stream], stream_id: u64, semantics: u64) -> Opened {
    let (records, count) = (streams.as_mut_ptr(), streams.len());
    unsafe { archive::mrz_stream_open(records, count, stream_id, semantics) }
}

/// Closes a side of a stream, 0 receive, any other send.
#[inline]
pub fn stream_close(streams: &mut [Stream], stream_id: u64, side: u64) -> SideClosed {
    let (records, count) = (streams.as_mut_ptr(), streams.len());
    unsafe { archive::mrz_stream_close(records, count, stream_id, side) }
}

/// Where a stream stands in a table.
#[inline]
#[must_use]
pub fn stream_find(streams: &[Stream], stream_id: u64) -> Found {
    unsafe { archive::mrz_stream_find(streams.as_ptr(), streams.len(), stream_id) }
}

/// The quarter of a request stream's ID.
#[inline]
#[must_use]
pub fn quarter_of(stream_id: u64) -> Quarter {
    unsafe { archive::mrz_quarter_of(stream_id) }
}

/// The ID of the request stream that a quarter names.
#[inline]
#[must_use]
pub fn stream_id_of(quarter: u64) -> StreamId {
    unsafe { archive::mrz_stream_id_of(quarter) }
}

/// Judges a QUIC DATAGRAM payload.
#[inline]
#[must_use]
pub fn judge(streams: &[Stream], limits: Limits, frame: &[u8]) -> Judged {
    let (records, count) = (streams.as_ptr(), streams.len());
    unsafe { archive::mrz_judge(records, count, limits, frame.as_ptr(), frame.len()) }
}

/// Writes a DATAGRAM capsule at a place of `out`.
#[inline]
pub fn write_capsule(
    streams: &[Stream],
    stream_id: u64,
    payload: &[u8],
    out: &mut [u8],
    place: u64,
) -> Written {
    unsafe {
        archive::mrz_write_capsule(
            streams.as_ptr(),
            streams.len(),
            stream_id,
            payload.as_ptr(),
            payload.len(),
            out.as_mut_ptr(),
            out.len(),
            place,
        )
    }
}

/// Writes a QUIC DATAGRAM payload at a place of `out`.
#[inline]
pub fn write_frame(
    streams: &[Stream],
    stream_id: u64,
    terms: FrameTerms,
    payload: &[u8],
    out: &mut [u8],
    place: u64,
) -> Written {
    unsafe {
        archive::mrz_write_frame(
            streams.as_ptr(),
            streams.len(),
            stream_id,
            terms,
            payload.as_ptr(),
            payload.len(),
            out.as_mut_ptr(),
            out.len(),
            place,
        )
    }
}

/// Writes the bytes of such a frame before a payload of so many bytes.
#[inline]
pub fn write_frame_header(
    streams: &[Stream],
    stream_id: u64,
    terms: FrameTerms,
    payload_length: u64,
    out: &mut [u8],
    place: u64,
) -> Written {
    unsafe {
        archive::mrz_write_frame_header(
            streams.as_ptr(),
            streams.len(),
            stream_id,
            terms,
            payload_length,
            out.as_mut_ptr(),
            out.len(),
            place,
        )
    }
}

/// Writes a DATAGRAM capsule without a table.
#[inline]
pub fn write_datagram(payload: &[u8], out: &mut [u8], place: u64) -> Written {
    let (bytes, length) = (payload.as_ptr(), payload.len());
    unsafe { archive::mrz_write_datagram(bytes, length, out.as_mut_ptr(), out.len(), place) }
}

/// Writes the bytes of such a capsule before a payload of so many bytes.
#[inline]
pub fn write_datagram_header(payload_length: u64, out: &mut [u8], place: u64) -> Written {
    let (bytes, length) = (out.as_mut_ptr(), out.len());
    unsafe { archive::mrz_write_datagram_header(payload_length, bytes, length, place) }
}

/// Whether a value is well formed for an address capsule of a type, 0 or 1.
#[inline]
#[must_use]
pub fn address_value_good(r#type: u64, value: &[u8]) -> u64 {
    unsafe { archive::mrz_address_value_good(r#type, value.as_ptr(), value.len()) }
}

/// The entry at a place of an ADDRESS_ASSIGN or ADDRESS_REQUEST value.
#[inline]
#[must_use]
pub fn address_next(value: &[u8], at: u64) -> AddressFound {
    unsafe { archive::mrz_address_next(value.as_ptr(), value.len(), at) }
}

/// The entry at a place of a ROUTE_ADVERTISEMENT value.
#[inline]
#[must_use]
pub fn route_next(value: &[u8], at: u64) -> RouteFound {
    unsafe { archive::mrz_route_next(value.as_ptr(), value.len(), at) }
}

/// The bytes of entries, as the writers of addresses take them.
#[inline]
#[must_use]
pub fn address_bytes(addresses: &[Address]) -> &[u8] {
    unsafe { slice::from_raw_parts(addresses.as_ptr().cast(), size_of_val(addresses)) }
}

/// The bytes of ranges, as the writer of routes takes them.
#[inline]
#[must_use]
pub fn route_bytes(routes: &[Route]) -> &[u8] {
    unsafe { slice::from_raw_parts(routes.as_ptr().cast(), size_of_val(routes)) }
}

/// Writes an ADDRESS_ASSIGN capsule at a place of `out`. `addresses` are the bytes of entries; any number of bytes gets
/// an answer.
#[inline]
pub fn write_address_assign(addresses: &[u8], out: &mut [u8], place: u64) -> Written {
    let (entries, size) = (addresses.as_ptr().cast(), addresses.len());
    unsafe { archive::mrz_write_address_assign(entries, size, out.as_mut_ptr(), out.len(), place) }
}

/// Writes an ADDRESS_REQUEST capsule at a place of `out`, likewise.
#[inline]
pub fn write_address_request(addresses: &[u8], out: &mut [u8], place: u64) -> Written {
    let (entries, size) = (addresses.as_ptr().cast(), addresses.len());
    unsafe { archive::mrz_write_address_request(entries, size, out.as_mut_ptr(), out.len(), place) }
}

/// Writes a ROUTE_ADVERTISEMENT capsule at a place of `out`, likewise.
#[inline]
pub fn write_route_advertisement(routes: &[u8], out: &mut [u8], place: u64) -> Written {
    let (entries, size) = (routes.as_ptr().cast(), routes.len());
    unsafe {
        archive::mrz_write_route_advertisement(entries, size, out.as_mut_ptr(), out.len(), place)
    }
}

/// The error in a received setting beside the stored one, 6 or 0.
#[inline]
#[must_use]
pub fn setting_error(received: u64, stored: u64) -> u64 {
    unsafe { archive::mrz_setting_error(received, stored) }
}

/// Whether a request with these fields is malformed, 0 or 1.
#[inline]
#[must_use]
pub fn request_malformed(content_length: u64, content_type: u64, transfer_encoding: u64) -> u64 {
    unsafe { archive::mrz_request_malformed(content_length, content_type, transfer_encoding) }
}

/// Whether a response with this status and these fields is malformed, 0 or 1.
#[inline]
#[must_use]
pub fn response_malformed(
    status: u64,
    content_length: u64,
    content_type: u64,
    transfer_encoding: u64,
) -> u64 {
    unsafe {
        archive::mrz_response_malformed(status, content_length, content_type, transfer_encoding)
    }
}

/// Whether the Capsule-Protocol field counts, 0 or 1. `response` 0 is a request, whose status is not looked at.
#[inline]
#[must_use]
pub fn field_counts(response: u64, status: u64) -> u64 {
    unsafe { archive::mrz_field_counts(response, status) }
}

/// Reads the value of the Capsule-Protocol field.
#[inline]
#[must_use]
pub fn field_in_use(value: &[u8]) -> Field {
    unsafe { archive::mrz_field_in_use(value.as_ptr(), value.len()) }
}

/// What an error becomes on a version of HTTP.
#[inline]
#[must_use]
pub fn translate(error: u64, version: u64) -> Translation {
    unsafe { archive::mrz_translate(error, version) }
}
