//! A call made on the verified library, in numbers.

use maruzhenu::raw;

use crate::call::{address_numbers, fields, route_numbers, with_entry, Answer, Call};

/// Makes the call. What is lent to be written is changed in place.
pub fn answer(call: &mut Call) -> Answer {
    match call {
        Call::ReadVarint { bytes } => {
            let read = raw::read_varint(&bytes.0);
            fields([read.value, read.size])
        }
        Call::WriteVarint { number, out, place } => {
            written(raw::write_varint(*number, out.get_mut(), *place))
        }
        Call::ReaderOpen { reader, opening } => one(raw::reader_open(reader.get_mut(), *opening)),
        Call::ReaderFeed {
            reader,
            piece,
            gathering,
            addresses,
            output,
        } => {
            let (gathering, addresses) = (gathering.get_mut(), addresses.get_mut());
            let output = output.get_mut();
            let fed = raw::reader_feed(reader.get_mut(), &piece.0, gathering, addresses, output);
            fields([
                fed.refusal,
                fed.consumed,
                fed.written,
                fed.report,
                fed.r#type,
                fed.length,
                fed.error,
            ])
        }
        Call::ReaderClose { reader } => {
            let closed = raw::reader_close(reader.get_mut());
            fields([closed.refusal, closed.end, closed.error])
        }
        Call::ReaderLook { reader } => {
            let look = raw::reader_look(reader.get());
            fields([
                look.refusal,
                look.finished,
                look.datagram_limit,
                look.field,
                look.r#type,
                look.length,
                look.to_come,
                look.gathered,
                look.buffer,
            ])
        }
        Call::List { bytes } => {
            let list = raw::list(&bytes.0);
            fields([list.refusal, list.capsules, list.headers, list.end])
        }
        Call::StreamOpen {
            table,
            id,
            semantics,
        } => {
            let opened = raw::stream_open(table.get_mut(), *id, *semantics);
            fields([opened.refusal, opened.place])
        }
        Call::StreamClose { table, id, side } => {
            let closed = raw::stream_close(table.get_mut(), *id, *side);
            fields([closed.refusal, closed.place, closed.freed])
        }
        Call::StreamFind { table, id } => {
            let found = raw::stream_find(table.get(), *id);
            fields([found.refusal, found.place])
        }
        Call::QuarterOf { id } => {
            let quarter = raw::quarter_of(*id);
            fields([quarter.refusal, quarter.quarter])
        }
        Call::StreamIdOf { quarter } => {
            let id = raw::stream_id_of(*quarter);
            fields([id.too_large, id.stream_id])
        }
        Call::Judge {
            table,
            limits,
            frame,
        } => {
            let judged = raw::judge(table.get(), *limits, &frame.0);
            fields([
                judged.refusal,
                judged.rule,
                judged.quarter,
                judged.place,
                judged.start,
                judged.length,
                judged.error,
            ])
        }
        Call::WriteCapsule {
            table,
            id,
            payload,
            out,
            place,
        } => written(raw::write_capsule(
            table.get(),
            *id,
            &payload.0,
            out.get_mut(),
            *place,
        )),
        Call::WriteFrame {
            table,
            id,
            terms,
            payload,
            out,
            place,
        } => written(raw::write_frame(
            table.get(),
            *id,
            *terms,
            &payload.0,
            out.get_mut(),
            *place,
        )),
        Call::WriteFrameHeader {
            table,
            id,
            terms,
            length,
            out,
            place,
        } => written(raw::write_frame_header(
            table.get(),
            *id,
            *terms,
            *length,
            out.get_mut(),
            *place,
        )),
        Call::WriteDatagram {
            payload,
            out,
            place,
        } => written(raw::write_datagram(&payload.0, out.get_mut(), *place)),
        Call::WriteDatagramHeader { length, out, place } => {
            written(raw::write_datagram_header(*length, out.get_mut(), *place))
        }
        Call::AddressValueGood {
            capsule_type,
            value,
        } => one(raw::address_value_good(*capsule_type, &value.0)),
        Call::AddressNext { value, at } => {
            let found = raw::address_next(&value.0, *at);
            with_entry([found.found, found.next], address_numbers(found.address))
        }
        Call::RouteNext { value, at } => {
            let found = raw::route_next(&value.0, *at);
            with_entry([found.found, found.next], route_numbers(found.route))
        }
        Call::WriteAddressAssign {
            addresses,
            out,
            place,
        } => written(raw::write_address_assign(
            &addresses.0,
            out.get_mut(),
            *place,
        )),
        Call::WriteAddressRequest {
            addresses,
            out,
            place,
        } => written(raw::write_address_request(
            &addresses.0,
            out.get_mut(),
            *place,
        )),
        Call::WriteRouteAdvertisement { routes, out, place } => written(
            raw::write_route_advertisement(&routes.0, out.get_mut(), *place),
        ),
        Call::SettingError { received, stored } => one(raw::setting_error(*received, *stored)),
        Call::RequestMalformed { fields: [a, b, c] } => one(raw::request_malformed(*a, *b, *c)),
        Call::ResponseMalformed {
            status,
            fields: [a, b, c],
        } => one(raw::response_malformed(*status, *a, *b, *c)),
        Call::FieldCounts { response, status } => one(raw::field_counts(*response, *status)),
        Call::FieldInUse { value } => {
            let field = raw::field_in_use(&value.0);
            fields([field.refusal, field.in_use])
        }
        Call::Translate { error, version } => {
            let translation = raw::translate(*error, *version);
            fields([translation.refusal, translation.action, translation.code])
        }
    }
}

fn one(number: u64) -> Answer {
    fields([number])
}

fn written(written: raw::Written) -> Answer {
    fields([written.refusal, written.written])
}
