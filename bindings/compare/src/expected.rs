//! A call made on the independent implementation, its answer in the numbers of the C interface.

use independent::addresses::{self, Address, AddressType, Found, Ip, Range};
use independent::http::{self, Action, Fields};
use independent::judge::{judge, Verdict};
use independent::look::{self, Seen, Stored, Where};
use independent::oneshot;
use independent::table::{self, Record, Side};
use independent::writers::{self, Sending};
use independent::{varint, Closing, Reader, Refusal, Report, Role};

use maruzhenu::raw::{FrameTerms, Stream};

use crate::call::{fields, with_entry, Answer, Call};

/// The reader as the calls before have left it, and the bytes that it has seen where its opening was a call too.
#[derive(Default)]
pub struct Kept {
    reader: Option<Reader>,
    seen: Option<Seen>,
}

impl Kept {
    /// The reader that has these words, if any has. Words that are not those of the reader that is kept have been damaged;
    /// what they are the words of is then made from them.
    fn reader_of(&mut self, words: [u64; 8]) -> Option<&mut Reader> {
        if self.reader.as_ref().map(Reader::words) != Some(words) {
            self.reader = Reader::from_words(words);
            self.seen = None;
        }
        self.reader.as_mut()
    }

    /// What the reader with these words has seen.
    fn seen_of(&mut self, words: [u64; 8]) -> Option<&Seen> {
        self.reader_of(words)?;
        if self.seen.is_none() {
            self.seen = Seen::from_words(words);
        }
        self.seen.as_ref()
    }
}

/// Makes the call. What is lent to be written is changed in place.
pub fn answer(call: &mut Call, kept: &mut Kept) -> Answer {
    match call {
        Call::ReadVarint { bytes } => match varint::read(&bytes.0) {
            Some((value, size)) => fields([value, size as u64]),
            None => fields([]),
        },
        Call::WriteVarint { number, out, place } => {
            count(varint::write(*number, out.get_mut(), *place))
        }
        Call::ReaderOpen { reader, opening } => {
            let opening = look::Opening {
                role: match opening.role {
                    0 => Role::Endpoint,
                    _ => Role::Intermediary,
                },
                limit: opening.datagram_limit,
                draft: opening.draft != 0,
                addresses: opening.addresses != 0,
            };
            let (draft, addresses) = (opening.draft, opening.addresses);
            match Reader::new(opening.role, opening.limit, draft, addresses) {
                Ok(opened) => {
                    reader.get_mut().words = opened.words();
                    kept.reader = Some(opened);
                    kept.seen = Some(Seen::new(opening));
                    fields([])
                }
                Err(refusal) => refused(refusal),
            }
        }
        Call::ReaderFeed {
            reader: lent,
            piece,
            gathering,
            addresses,
            output,
        } => {
            let Some(reader) = kept.reader_of(lent.words()) else {
                return refused(Refusal::NotMakeable);
            };
            let (gathering, addresses) = (gathering.get_mut(), addresses.get_mut());
            match reader.feed(&piece.0, gathering, addresses, output.get_mut()) {
                Ok(fed) => {
                    lent.get_mut().words = reader.words();
                    let [report, capsule_type, length, error] = report_numbers(fed.report);
                    if let Some(seen) = &mut kept.seen {
                        seen.consumed(&piece.0[..fed.consumed]);
                        seen.finished = error != 0;
                    }
                    let (consumed, written) = (fed.consumed as u64, fed.written as u64);
                    fields([0, consumed, written, report, capsule_type, length, error])
                }
                Err(refusal) => refused(refusal),
            }
        }
        Call::ReaderClose { reader: lent } => {
            let Some(reader) = kept.reader_of(lent.words()) else {
                return refused(Refusal::NotMakeable);
            };
            match reader.close() {
                Ok(closing) => {
                    lent.get_mut().words = reader.words();
                    if let Some(seen) = &mut kept.seen {
                        seen.finished = true;
                    }
                    match closing {
                        Closing::Clean => fields([0, 1]),
                        Closing::Truncated => fields([0, 2, http::Error::Truncated as u64]),
                    }
                }
                Err(refusal) => refused(refusal),
            }
        }
        Call::ReaderLook { reader } => match kept.seen_of(reader.words()) {
            None => refused(Refusal::NotMakeable),
            Some(seen) => {
                let (finished, limit) = (u64::from(seen.finished), seen.opening.limit);
                match seen.look() {
                    Where::Between => fields([0, finished, limit]),
                    Where::Type => fields([0, finished, limit, 1]),
                    Where::Length { capsule_type } => fields([0, finished, limit, 2, capsule_type]),
                    Where::Value {
                        capsule_type,
                        length,
                        come,
                        stored,
                    } => {
                        let (gathered, buffer) = match stored {
                            Stored::Nowhere => (0, 0),
                            Stored::Gathering => (come, 1),
                            Stored::Addresses => (come, 2),
                        };
                        let to_come = length - come;
                        fields([
                            0,
                            finished,
                            limit,
                            3,
                            capsule_type,
                            length,
                            to_come,
                            gathered,
                            buffer,
                        ])
                    }
                }
            }
        },
        Call::List { bytes } => match oneshot::count(&bytes.0) {
            Ok(counts) => {
                let end = match counts.closing {
                    Closing::Clean => 1,
                    Closing::Truncated => 2,
                };
                fields([0, counts.capsules, counts.headers, end])
            }
            Err(refusal) => refused(refusal),
        },
        Call::StreamOpen {
            table,
            id,
            semantics,
        } => {
            let mut records = records(table.get());
            let opened = table::open(&mut records, *id, *semantics != 0);
            give_back(&records, table.get_mut());
            count(opened)
        }
        Call::StreamClose { table, id, side } => {
            let side = match *side {
                0 => Side::Receive,
                _ => Side::Send,
            };
            let mut records = records(table.get());
            let closed = table::close(&mut records, *id, side);
            give_back(&records, table.get_mut());
            match closed {
                Ok((place, freed)) => fields([0, place as u64, u64::from(freed)]),
                Err(refusal) => refused(refusal),
            }
        }
        Call::StreamFind { table, id } => count(table::find(&records(table.get()), *id)),
        Call::QuarterOf { id } => match table::quarter_of(*id) {
            Ok(quarter) => fields([0, quarter]),
            Err(refusal) => refused(refusal),
        },
        Call::StreamIdOf { quarter } => match table::stream_id_of(*quarter) {
            Some(id) => fields([0, id]),
            None => fields([1]),
        },
        Call::Judge {
            table,
            limits,
            frame,
        } => match judge(
            &records(table.get()),
            limits.stream_limit,
            limits.datagram_limit,
            &frame.0,
        ) {
            Ok(verdict) => {
                let (start, length) = match verdict {
                    Verdict::Delivered { start, .. } => (start, frame.0[start..].len()),
                    _ => (0, 0),
                };
                let (quarter, place) = (verdict.quarter(), verdict.place());
                fields([
                    0,
                    verdict.rule(),
                    quarter.unwrap_or(0),
                    place.map_or(0, |place| place as u64),
                    start as u64,
                    length as u64,
                    verdict.error().map_or(0, |error| error as u64),
                ])
            }
            Err(refusal) => refused(refusal),
        },
        Call::WriteCapsule {
            table,
            id,
            payload,
            out,
            place,
        } => {
            let (records, out) = (records(table.get()), out.get_mut());
            count(writers::write_capsule(
                &records, *id, &payload.0, out, *place,
            ))
        }
        Call::WriteFrame {
            table,
            id,
            terms,
            payload,
            out,
            place,
        } => {
            let (records, out) = (records(table.get()), out.get_mut());
            let sending = sending(*id, terms);
            count(writers::write_frame(
                &records, sending, &payload.0, out, *place,
            ))
        }
        Call::WriteFrameHeader {
            table,
            id,
            terms,
            length,
            out,
            place,
        } => {
            let (records, out) = (records(table.get()), out.get_mut());
            let sending = sending(*id, terms);
            count(writers::write_frame_header(
                &records, sending, *length, out, *place,
            ))
        }
        Call::WriteDatagram {
            payload,
            out,
            place,
        } => count(writers::write_datagram(&payload.0, out.get_mut(), *place)),
        Call::WriteDatagramHeader { length, out, place } => count(writers::write_datagram_header(
            *length,
            out.get_mut(),
            *place,
        )),
        Call::AddressValueGood {
            capsule_type,
            value,
        } => {
            let capsule_type = AddressType::from_number(*capsule_type);
            flag(capsule_type.is_some_and(|t| addresses::check(t, &value.0).is_ok()))
        }
        Call::AddressNext { value, at } => {
            let next = addresses::entry_at(&value.0, *at);
            found(next, *at, |entry: Address| {
                let [high, low] = halves(entry.ip);
                let (version, prefix) = (entry.ip.version().into(), entry.prefix_length.into());
                [entry.request_id, version, prefix, high, low, 0]
            })
        }
        Call::RouteNext { value, at } => {
            let next = addresses::entry_at(&value.0, *at);
            found(next, *at, |entry: Range| {
                let ([start, start_low], [end, end_low]) = (halves(entry.start), halves(entry.end));
                let (version, protocol) = (entry.start.version().into(), entry.ip_protocol.into());
                [version, protocol, start, start_low, end, end_low]
            })
        }
        Call::WriteAddressAssign {
            addresses,
            out,
            place,
        } => count(addresses::write_addresses(
            AddressType::Assign,
            &addresses.0,
            out.get_mut(),
            *place,
        )),
        Call::WriteAddressRequest {
            addresses,
            out,
            place,
        } => count(addresses::write_addresses(
            AddressType::Request,
            &addresses.0,
            out.get_mut(),
            *place,
        )),
        Call::WriteRouteAdvertisement { routes, out, place } => {
            count(addresses::write_routes(&routes.0, out.get_mut(), *place))
        }
        Call::SettingError { received, stored } => {
            let error = http::setting_error(*received, *stored);
            fields([error.map_or(0, |error| error as u64)])
        }
        Call::RequestMalformed { fields } => flag(http::request_malformed(carried(fields))),
        Call::ResponseMalformed { status, fields } => {
            flag(http::response_malformed(known(*status), carried(fields)))
        }
        Call::FieldCounts { response, status } => {
            let status = (*response != 0).then_some(known(*status));
            flag(http::field_counts(status))
        }
        Call::FieldInUse { value } => match http::field_in_use(&value.0) {
            Ok(in_use) => fields([0, u64::from(in_use)]),
            Err(refusal) => refused(refusal),
        },
        Call::Translate { error, version } => match http::translate(*error, *version) {
            Ok(Action::None) => fields([]),
            Ok(Action::Close { code }) => fields([0, 1, code]),
            Ok(Action::StreamError { code }) => fields([0, 2, code]),
            Ok(Action::ConnectionError { code }) => fields([0, 3, code]),
            Err(refusal) => refused(refusal),
        },
    }
}

/// The records of a table for the independent implementation.
pub fn records(streams: &[Stream]) -> Vec<Record> {
    let record = |stream: &Stream| Record {
        quarter: stream.quarter,
        flags: stream.flags,
    };
    streams.iter().map(record).collect()
}

/// What it left in them.
fn give_back(records: &[Record], streams: &mut [Stream]) {
    for (stream, record) in streams.iter_mut().zip(records) {
        *stream = Stream {
            quarter: record.quarter,
            flags: record.flags,
        };
    }
}

fn sending(id: u64, terms: &FrameTerms) -> Sending {
    Sending {
        id,
        ours: terms.our_setting,
        peers: terms.peer_setting,
        path: terms.path_size,
    }
}

/// The report, the type, the length and the error.
fn report_numbers(report: Option<Report>) -> [u64; 4] {
    match report {
        None => [0, 0, 0, 0],
        Some(Report::Delivered { length }) => [1, 0, length, 0],
        Some(Report::Dropped { length }) => [2, 0, length, 0],
        Some(Report::Skipped {
            capsule_type,
            length,
        }) => [3, capsule_type, length, 0],
        Some(Report::Passed {
            capsule_type,
            length,
        }) => [4, capsule_type, length, 0],
        Some(Report::AddressDelivered {
            capsule_type,
            length,
        }) => [5, capsule_type, length, 0],
        Some(Report::Malformed {
            capsule_type,
            length,
        }) => [6, capsule_type, length, http::Error::Malformed as u64],
    }
}

/// The bytes that an address has in an entry, as two numbers.
fn halves(ip: Ip) -> [u64; 2] {
    match ip {
        Ip::V4(number) => [u64::from(number) << 32, 0],
        Ip::V6(number) => [(number >> 64) as u64, number as u64],
    }
}

/// What was found at a place of a value.
fn found<T>(found: Found<T>, at: u64, entry: impl FnOnce(T) -> [u64; 6]) -> Answer {
    match found {
        Found::Nothing => fields([0, at]),
        Found::Malformed => fields([2, at]),
        Found::Entry(found, next) => with_entry([1, next], entry(found)),
    }
}

fn refused(refusal: Refusal) -> Answer {
    fields([refusal.number()])
}

fn count(answer: Result<usize, Refusal>) -> Answer {
    match answer {
        Ok(count) => fields([0, count as u64]),
        Err(refusal) => refused(refusal),
    }
}

fn flag(flag: bool) -> Answer {
    fields([u64::from(flag)])
}

fn carried(fields: &[u64; 3]) -> Fields {
    Fields {
        content_length: fields[0] != 0,
        content_type: fields[1] != 0,
        transfer_encoding: fields[2] != 0,
    }
}

/// A status that needs more than 16 bits is none.
fn known(status: u64) -> u64 {
    if status > 65_535 {
        0
    } else {
        status
    }
}
