//! A call made with the types of the package `maruzhenu`, its answer put back into numbers. Every enum is taken apart here
//! by the numbers of the C interface, so that a constant that is wrong there does not go unnoticed.

use maruzhenu::addresses::{self, Address, AddressType, Entries, Route};
use maruzhenu::http::{self, Action, Error, Fields, Message, Version};
use maruzhenu::raw::{FrameTerms as RawTerms, Stream};
use maruzhenu::reader::{Buffer, Buffers, Closed, End, Fed, Look, Opening, Position, Report, Role};
use maruzhenu::table::Verdict;
use maruzhenu::table::{FrameTerms, Judged, Limits, Quarter, Side, SideClosed, StreamId, Table};
use maruzhenu::{datagram, list, varint, Reader, Refusal};

use crate::call::{address_numbers, fields, route_numbers, with_entry, Answer, Call};
use crate::Lent;

/// Makes the call, where the types can say it. What is lent to be written is changed in place.
pub fn answer(call: &mut Call) -> Option<Answer> {
    Some(match call {
        Call::ReadVarint { bytes } => match varint::read(&bytes.0) {
            Some((value, size)) => fields([value, size as u64]),
            None => fields([]),
        },
        Call::WriteVarint { number, out, place } => {
            count(varint::write(*number, out.get_mut(), *place as usize))
        }
        Call::ReaderOpen { reader, opening } => {
            let opened = Reader::open(Opening {
                role: match opening.role {
                    0 => Role::Endpoint,
                    _ => Role::Intermediary,
                },
                datagram_limit: opening.datagram_limit as usize,
                draft: opening.draft != 0,
                addresses: opening.addresses != 0,
            });
            whole(opened, |opened| {
                *reader.get_mut() = opened.into_raw();
                fields([])
            })
        }
        Call::ReaderFeed {
            reader: lent,
            piece,
            gathering,
            addresses,
            output,
        } => {
            let mut reader = Reader::from_raw(*lent.get());
            let mut buffers = Buffers {
                gathering: gathering.get_mut(),
                addresses: addresses.get_mut(),
                output: output.get_mut(),
            };
            let fed = reader.feed(&piece.0, &mut buffers);
            *lent.get_mut() = reader.into_raw();
            whole(fed, fed_numbers)
        }
        Call::ReaderClose { reader: lent } => {
            let mut reader = Reader::from_raw(*lent.get());
            let closed = reader.close();
            *lent.get_mut() = reader.into_raw();
            whole(closed, |Closed { end, error }| {
                fields([0, end_number(end), error_number(error)])
            })
        }
        Call::ReaderLook { reader } => whole(Reader::from_raw(*reader.get()).look(), look_numbers),
        Call::List { bytes } => whole(list(&bytes.0), |listing| {
            let (capsules, headers) = (listing.capsules as u64, listing.headers as u64);
            fields([0, capsules, headers, end_number(listing.end)])
        }),
        Call::StreamOpen {
            table,
            id,
            semantics,
        } => {
            let (id, semantics) = (StreamId(*id), *semantics != 0);
            count(changed(
                table,
                |table| table.open(id, semantics),
                |table| table.open(id, semantics),
            ))
        }
        Call::StreamClose { table, id, side } => {
            let id = StreamId(*id);
            let side = match *side {
                0 => Side::Receive,
                _ => Side::Send,
            };
            let closed = changed(
                table,
                |table| table.close(id, side),
                |table| table.close(id, side),
            );
            whole(closed, |SideClosed { place, freed }| {
                fields([0, place as u64, u64::from(freed)])
            })
        }
        Call::StreamFind { table, id } => {
            let table = Table::new(table.get());
            let id = StreamId(*id);
            whole(table.find(id), |place| {
                let Quarter(quarter) = id.quarter().expect("its ID is a request stream's");
                let named = table.get(place).is_some_and(|one| one.quarter == quarter);
                let mut same = table.iter().filter(|(_, one)| one.quarter == quarter);
                let listed = same.next().map(|(place, _)| place) == Some(place);
                assert!(named && listed, "what was found can be got and is listed");
                fields([0, place as u64])
            })
        }
        Call::QuarterOf { id } => whole(StreamId(*id).quarter(), |Quarter(quarter)| {
            fields([0, quarter])
        }),
        Call::StreamIdOf { quarter } => match Quarter(*quarter).stream_id() {
            Some(StreamId(id)) => fields([0, id]),
            None => fields([1]),
        },
        Call::Judge {
            table,
            limits,
            frame,
        } => {
            let limits = Limits {
                stream_limit: limits.stream_limit,
                datagram_limit: limits.datagram_limit as usize,
            };
            let judged = Table::new(table.get()).judge(limits, &frame.0);
            whole(judged, |judged| judged_numbers(judged, &frame.0))
        }
        Call::WriteCapsule {
            table,
            id,
            payload,
            out,
            place,
        } => {
            let (table, place) = (Table::new(table.get()), *place as usize);
            count(table.write_capsule(StreamId(*id), &payload.0, out.get_mut(), place))
        }
        Call::WriteFrame {
            table,
            id,
            terms,
            payload,
            out,
            place,
        } => {
            let (table, place) = (Table::new(table.get()), *place as usize);
            let (id, terms) = (StreamId(*id), typed_terms(terms));
            count(table.write_frame(id, terms, &payload.0, out.get_mut(), place))
        }
        Call::WriteFrameHeader {
            table,
            id,
            terms,
            length,
            out,
            place,
        } => {
            let (table, place) = (Table::new(table.get()), *place as usize);
            let (id, terms, length) = (StreamId(*id), typed_terms(terms), *length as usize);
            count(table.write_frame_header(id, terms, length, out.get_mut(), place))
        }
        Call::WriteDatagram {
            payload,
            out,
            place,
        } => count(datagram::write(&payload.0, out.get_mut(), *place as usize)),
        Call::WriteDatagramHeader { length, out, place } => {
            let (length, place) = (*length as usize, *place as usize);
            count(datagram::write_header(length, out.get_mut(), place))
        }
        Call::AddressValueGood {
            capsule_type,
            value,
        } => {
            let address_type = match *capsule_type {
                1 => AddressType::Assign,
                2 => AddressType::Request,
                3 => AddressType::Route,
                _ => return None,
            };
            flag(addresses::well_formed(address_type, &value.0))
        }
        Call::AddressNext { value, at } => {
            let value = value.0.get(usize::try_from(*at).ok()?..)?;
            next(*at, addresses::addresses(value), address_numbers)
        }
        Call::RouteNext { value, at } => {
            let value = value.0.get(usize::try_from(*at).ok()?..)?;
            next(*at, addresses::routes(value), route_numbers)
        }
        Call::WriteAddressAssign {
            addresses,
            out,
            place,
        } => {
            let entries = entries(&addresses.0, 32, address)?;
            let (out, place) = (out.get_mut(), *place as usize);
            count(addresses::write_address_assign(&entries, out, place))
        }
        Call::WriteAddressRequest {
            addresses,
            out,
            place,
        } => {
            let entries = entries(&addresses.0, 32, address)?;
            let (out, place) = (out.get_mut(), *place as usize);
            count(addresses::write_address_request(&entries, out, place))
        }
        Call::WriteRouteAdvertisement { routes, out, place } => {
            let entries = entries(&routes.0, 34, route)?;
            let (out, place) = (out.get_mut(), *place as usize);
            count(addresses::write_route_advertisement(&entries, out, place))
        }
        Call::SettingError { received, stored } => {
            fields([error_number(http::setting_error(*received, *stored))])
        }
        Call::RequestMalformed { fields } => {
            flag(http::malformed(Message::Request, carried(fields)))
        }
        Call::ResponseMalformed { status, fields } => {
            let status = u16::try_from(*status).ok()?;
            flag(http::malformed(
                Message::Response { status },
                carried(fields),
            ))
        }
        Call::FieldCounts { response, status } => flag(http::field_counts(match *response {
            0 => Message::Request,
            _ => Message::Response {
                status: u16::try_from(*status).ok()?,
            },
        })),
        Call::FieldInUse { value } => whole(http::field_in_use(&value.0), |in_use| {
            fields([0, u64::from(in_use)])
        }),
        Call::Translate { error, version } => {
            let error = typed_error(*error)?;
            let version = match *version {
                1 => Version::Http1_1,
                2 => Version::Http2,
                3 => Version::Http3,
                _ => return None,
            };
            match error.on(version) {
                Action::None => fields([]),
                Action::Close => fields([0, 1]),
                Action::StreamError { code } => fields([0, 2, code]),
                Action::ConnectionError { code } => fields([0, 3, code]),
            }
        }
    })
}

fn refusal_number(refusal: Refusal) -> u64 {
    match refusal {
        Refusal::UnmakeableState => 1,
        Refusal::Finished => 2,
        Refusal::LimitTooLarge => 3,
        Refusal::GatheringTooShort => 4,
        Refusal::OutputTooShort => 5,
        Refusal::NumberTooLarge => 6,
        Refusal::NotARequestStream => 7,
        Refusal::NoFreePlace => 8,
        Refusal::AlreadyInTable => 9,
        Refusal::NotInTable => 10,
        Refusal::FramesNotAgreed => 11,
        Refusal::SendSideClosed => 12,
        Refusal::NoSemantics => 13,
        Refusal::FrameTooLong => 14,
        Refusal::BadTable => 15,
        Refusal::BufferTooLong => 16,
        Refusal::UnknownErrorOrVersion => 17,
        Refusal::AddressesTooShort => 18,
        Refusal::FieldTooLong => 19,
        Refusal::MalformedToWrite => 26,
        other => panic!("there is no refusal {other:?}"),
    }
}

/// The fields of an answer, or of its refusal.
fn whole<T>(answer: Result<T, Refusal>, numbers: impl FnOnce(T) -> Answer) -> Answer {
    match answer {
        Ok(answer) => numbers(answer),
        Err(refusal) => fields([refusal_number(refusal)]),
    }
}

fn count(answer: Result<usize, Refusal>) -> Answer {
    whole(answer, |count| fields([0, count as u64]))
}

fn flag(flag: bool) -> Answer {
    fields([u64::from(flag)])
}

fn typed_error(number: u64) -> Option<Error> {
    Some(match number {
        1 => Error::Truncated,
        2 => Error::NoSemantics,
        3 => Error::ShortFrame,
        4 => Error::QuarterTooLarge,
        5 => Error::BeyondLimit,
        6 => Error::BadSetting,
        7 => Error::Malformed,
        _ => return None,
    })
}

fn error_number(error: Option<Error>) -> u64 {
    let mut numbers = 1..=7;
    match error {
        None => 0,
        some => numbers
            .find(|&number| typed_error(number) == some)
            .expect("it is one of these"),
    }
}

fn end_number(end: End) -> u64 {
    match end {
        End::Clean => 1,
        End::Truncated => 2,
    }
}

fn fed_numbers(fed: Fed) -> Answer {
    let [report, capsule_type, length] = match fed.report {
        None => [0, 0, 0],
        Some(Report::Delivered { length }) => [1, 0, length as u64],
        Some(Report::Dropped { length }) => [2, 0, length as u64],
        Some(Report::Skipped {
            capsule_type,
            length,
        }) => [3, capsule_type, length as u64],
        Some(Report::Passed {
            capsule_type,
            length,
        }) => [4, capsule_type, length as u64],
        Some(Report::AddressDelivered {
            capsule_type,
            length,
        }) => [5, capsule_type, length as u64],
        Some(Report::Malformed {
            capsule_type,
            length,
        }) => [6, capsule_type, length as u64],
    };
    let (consumed, written) = (fed.consumed as u64, fed.written as u64);
    let error = error_number(fed.error);
    fields([0, consumed, written, report, capsule_type, length, error])
}

fn look_numbers(look: Look) -> Answer {
    let (finished, limit) = (u64::from(look.finished), look.datagram_limit as u64);
    match look.position {
        Position::BetweenCapsules => fields([0, finished, limit]),
        Position::InType => fields([0, finished, limit, 1]),
        Position::InLength { capsule_type } => fields([0, finished, limit, 2, capsule_type]),
        Position::InValue {
            capsule_type,
            length,
            to_come,
            gathered,
            buffer,
        } => fields([
            0,
            finished,
            limit,
            3,
            capsule_type,
            length as u64,
            to_come as u64,
            gathered as u64,
            match buffer {
                Buffer::Neither => 0,
                Buffer::Gathering => 1,
                Buffer::Addresses => 2,
            },
        ]),
    }
}

fn judged_numbers(judged: Judged, frame: &[u8]) -> Answer {
    let mut part = [0, 0];
    let (rule, Quarter(quarter), place) = match judged.verdict {
        Verdict::ShortFrame => (1, Quarter(0), 0),
        Verdict::QuarterTooLarge { quarter } => (2, quarter, 0),
        Verdict::BeyondLimit { quarter } => (3, quarter, 0),
        Verdict::NoStream { quarter } => (4, quarter, 0),
        Verdict::ReceiveClosed { quarter, place } => (5, quarter, place),
        Verdict::NoSemantics { quarter, place } => (6, quarter, place),
        Verdict::TooLong { quarter, place } => (7, quarter, place),
        Verdict::Delivered {
            quarter,
            place,
            payload,
        } => {
            let start = payload.as_ptr() as u64 - frame.as_ptr() as u64;
            part = [start, payload.len() as u64];
            (8, quarter, place)
        }
    };
    let ([start, length], place) = (part, place as u64);
    let error = error_number(judged.error);
    fields([0, rule, quarter, place, start, length, error])
}

/// Changes a table: one that owns its records where there are 1, 2 or 64, else one that is lent them.
fn changed<T>(
    table: &mut Lent<Stream>,
    lent: impl FnOnce(&mut Table<&mut [Stream]>) -> T,
    owned: impl Fn(&mut dyn Owned) -> T,
) -> T {
    fn with<const PLACES: usize, T>(
        records: &mut [Stream],
        owned: impl Fn(&mut dyn Owned) -> T,
    ) -> T {
        let own: &mut [Stream; PLACES] = records.try_into().expect("there are so many records");
        let mut table = Table::new(*own);
        let answer = owned(&mut table);
        *own = table.into_inner();
        answer
    }
    let records = table.get_mut();
    match records.len() {
        1 => with::<1, T>(records, owned),
        2 => with::<2, T>(records, owned),
        64 => with::<64, T>(records, owned),
        _ => lent(&mut Table::new(records)),
    }
}

/// A table that owns its records, of any number.
trait Owned {
    fn open(&mut self, id: StreamId, semantics: bool) -> Result<usize, Refusal>;
    fn close(&mut self, id: StreamId, side: Side) -> Result<SideClosed, Refusal>;
}

impl<const PLACES: usize> Owned for Table<[Stream; PLACES]> {
    fn open(&mut self, id: StreamId, semantics: bool) -> Result<usize, Refusal> {
        Table::open(self, id, semantics)
    }

    fn close(&mut self, id: StreamId, side: Side) -> Result<SideClosed, Refusal> {
        Table::close(self, id, side)
    }
}

fn typed_terms(terms: &RawTerms) -> FrameTerms {
    FrameTerms {
        our_setting: terms.our_setting,
        peer_setting: terms.peer_setting,
        path_size: terms.path_size as usize,
    }
}

fn carried(fields: &[u64; 3]) -> Fields {
    Fields {
        content_length: fields[0] != 0,
        content_type: fields[1] != 0,
        transfer_encoding: fields[2] != 0,
    }
}

/// The first entry of what stands from a place on.
fn next<T>(at: u64, mut entries: Entries<'_, T>, numbers: impl FnOnce(T) -> [u64; 6]) -> Answer {
    let all = entries.rest().len();
    let entry = entries.next();
    let after = at + (all - entries.rest().len()) as u64;
    match entry {
        Some(entry) => with_entry([1, after], numbers(entry)),
        None if entries.rest().is_empty() => fields([0, after]),
        None => fields([2, after]),
    }
}

/// The part of an entry from a place on.
fn part<const SIZE: usize>(entry: &[u8], place: usize) -> [u8; SIZE] {
    let part = entry[place..place + SIZE].try_into();
    part.expect("it has so many bytes")
}

/// Entries of this size from their bytes, where these are whole entries.
fn entries<T>(bytes: &[u8], size: usize, entry: fn(&[u8]) -> T) -> Option<Vec<T>> {
    let entries = bytes.chunks_exact(size);
    let whole = entries.remainder().is_empty();
    whole.then(|| entries.map(entry).collect())
}

fn address(entry: &[u8]) -> Address {
    Address {
        request_id: u64::from_le_bytes(part(entry, 0)),
        ip_version: entry[8],
        prefix_length: entry[9],
        address: part(entry, 10),
        reserved: part(entry, 26),
    }
}

fn route(entry: &[u8]) -> Route {
    Route {
        ip_version: entry[0],
        ip_protocol: entry[1],
        start: part(entry, 2),
        end: part(entry, 18),
    }
}
