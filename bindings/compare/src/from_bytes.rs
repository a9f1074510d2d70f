//! Calls made from bytes that a fuzzer chooses.

use independent::reader::MARK;
use maruzhenu::raw::{FrameTerms, Limits, Opening, Stream};

use crate::call::{lent_table, Bytes};
use crate::{Call, Comparison, Difference, Lent, LentReader};

/// The bytes that are left to choose from. Past their end everything is 0.
struct Choices<'a>(&'a [u8]);

impl Choices<'_> {
    fn byte(&mut self) -> u8 {
        match self.0.split_first() {
            Some((&byte, rest)) => {
                self.0 = rest;
                byte
            }
            None => 0,
        }
    }

    fn bytes(&mut self, count: usize) -> Vec<u8> {
        let (bytes, rest) = self.0.split_at(count.min(self.0.len()));
        self.0 = rest;
        bytes.to_vec()
    }

    /// A number of eight bytes, or of fewer.
    fn number(&mut self) -> u64 {
        let size = usize::from(self.byte() % 9);
        self.bytes(size)
            .iter()
            .fold(0, |number, &byte| number << 8 | u64::from(byte))
    }

    fn buffer(&mut self, length: usize) -> Lent<u8> {
        Lent::new(&vec![self.byte(); length], 0xa5)
    }

    fn table(&mut self) -> Lent<Stream> {
        let (count, used) = (self.byte() % 70, self.byte() % 70);
        let mut records = vec![Stream::BLANK; count.into()];
        for record in records.iter_mut().take(used.into()) {
            record.quarter = self.number();
            let byte = self.byte();
            record.flags = u64::from(byte & 0x0f);
            // Bits that mean nothing are chosen in some records.
            if byte & 0x10 != 0 {
                record.flags |= self.number() << 4;
            }
        }
        lent_table(&records)
    }
}

/// Makes the calls that the bytes say.
pub fn compare_bytes(bytes: &[u8]) -> Result<(), Box<Difference>> {
    let mut choices = Choices(bytes);
    let mut comparison = Comparison::default();
    match choices.byte() % 8 {
        0 => reader(&mut choices, &mut comparison, true),
        1 => reader(&mut choices, &mut comparison, false),
        2 => table(&mut choices, &mut comparison),
        3 => datagrams(&mut choices, &mut comparison),
        4 => address_value(&mut choices, &mut comparison),
        5 => address_writers(&mut choices, &mut comparison),
        6 => field_values(&mut choices, &mut comparison),
        _ => rest(&mut choices, &mut comparison),
    }
}

/// A reader, opened or with words of any kind, and a list of calls.
fn reader(
    choices: &mut Choices,
    comparison: &mut Comparison,
    open: bool,
) -> Result<(), Box<Difference>> {
    let mut words = [0; 8];
    if open {
        let flags = choices.byte();
        let call = Call::ReaderOpen {
            reader: LentReader::new(words),
            opening: Opening {
                role: u64::from(flags & 1),
                datagram_limit: choices.number(),
                draft: u64::from(flags >> 1 & 1),
                addresses: u64::from(flags >> 2 & 1),
            },
        };
        let (_, call) = comparison.make(call)?;
        words = call.words().expect("an opening has words");
    } else {
        words = words.map(|_| choices.number());
        // Without the mark all words are refused alike.
        if words[0] <= 1 {
            words[0] += MARK;
        }
    }
    let limit = usize::try_from(words[1]).map_or(0, |limit| limit.min(65_535));
    let mut gathering = choices.buffer(limit);
    let mut addresses = choices.buffer(1_024);
    while !choices.0.is_empty() {
        let what = choices.byte();
        let call = match what {
            0xff => Call::ReaderClose {
                reader: LentReader::new(words),
            },
            0xfd => Call::ReaderLook {
                reader: LentReader::new(words),
            },
            0xfe => {
                let place = usize::from(choices.byte() % 8);
                words[place] = choices.number();
                Call::ReaderClose {
                    reader: LentReader::new(words),
                }
            }
            _ => {
                let length = usize::from(what & 0x3f);
                let piece = choices.bytes(length);
                let (mut lent, mut room) = (gathering.clone(), piece.len() + 8);
                let mut second = addresses.clone();
                match what >> 6 {
                    1 => room -= 1,
                    2 if limit > 0 => lent = Lent::new(&gathering.get()[1..], 0xa5),
                    3 if what & 1 == 1 => second = Lent::new(&addresses.get()[1..], 0xa5),
                    _ => {}
                }
                Call::ReaderFeed {
                    reader: LentReader::new(words),
                    piece: Bytes(piece),
                    gathering: lent,
                    addresses: second,
                    output: choices.buffer(room),
                }
            }
        };
        let (answer, call) = comparison.make(call)?;
        words = call.words().expect("each of these calls has words");
        if let (
            0,
            Call::ReaderFeed {
                gathering: left,
                addresses: second,
                ..
            },
        ) = (answer[0], call)
        {
            if left.get().len() == limit {
                gathering = left;
            }
            if second.get().len() == 1_024 {
                addresses = second;
            }
        }
    }
    Ok(())
}

/// Opens and closes on one table.
fn table(choices: &mut Choices, comparison: &mut Comparison) -> Result<(), Box<Difference>> {
    let mut table = choices.table();
    while !choices.0.is_empty() {
        let what = choices.byte();
        let id = choices.number();
        comparison.make(Call::StreamFind {
            table: table.clone(),
            id,
        })?;
        let call = match what & 1 {
            0 => Call::StreamOpen {
                table,
                id,
                semantics: u64::from(what >> 1),
            },
            _ => Call::StreamClose {
                table,
                id,
                side: u64::from(what >> 1),
            },
        };
        let (_, call) = comparison.make(call)?;
        let (Call::StreamOpen { table: left, .. } | Call::StreamClose { table: left, .. }) = call
        else {
            unreachable!("it is one of these calls");
        };
        table = left;
    }
    Ok(())
}

/// A frame judged and a payload written.
fn datagrams(choices: &mut Choices, comparison: &mut Comparison) -> Result<(), Box<Difference>> {
    let table = choices.table();
    let id = choices.number();
    let limits = Limits {
        datagram_limit: choices.number(),
        stream_limit: choices.number(),
    };
    let terms = FrameTerms {
        our_setting: choices.byte().into(),
        peer_setting: choices.byte().into(),
        path_size: choices.number(),
    };
    let (room, place) = (usize::from(choices.byte()), choices.number());
    let (out, length) = (choices.buffer(room), choices.number());
    let bytes = Bytes(choices.bytes(usize::MAX));
    comparison.make(Call::Judge {
        table: table.clone(),
        limits,
        frame: bytes.clone(),
    })?;
    comparison.make(Call::WriteCapsule {
        table: table.clone(),
        id,
        payload: bytes.clone(),
        out: out.clone(),
        place,
    })?;
    for length in [bytes.0.len() as u64, length] {
        comparison.make(Call::WriteFrameHeader {
            table: table.clone(),
            id,
            terms,
            length,
            out: out.clone(),
            place,
        })?;
        comparison.make(Call::WriteDatagramHeader {
            length,
            out: out.clone(),
            place,
        })?;
    }
    comparison.make(Call::WriteDatagram {
        payload: bytes.clone(),
        out: out.clone(),
        place,
    })?;
    comparison.make(Call::WriteFrame {
        table,
        id,
        terms,
        payload: bytes,
        out,
        place,
    })?;
    comparison.make(Call::QuarterOf { id })?;
    comparison.make(Call::StreamIdOf { quarter: id })?;
    Ok(())
}

/// A value checked and split.
fn address_value(
    choices: &mut Choices,
    comparison: &mut Comparison,
) -> Result<(), Box<Difference>> {
    let (capsule_type, at) = (choices.number(), choices.number());
    let value = Bytes(choices.bytes(usize::MAX));
    for capsule_type in [1, 2, 3, capsule_type] {
        comparison.make(Call::AddressValueGood {
            capsule_type,
            value: value.clone(),
        })?;
    }
    for start in [0, at] {
        for routes in [false, true] {
            let (mut found, mut at) = (1, start);
            while found == 1 {
                let value = value.clone();
                let (answer, _) = comparison.make(match routes {
                    true => Call::RouteNext { value, at },
                    false => Call::AddressNext { value, at },
                })?;
                [found, at, ..] = answer;
            }
        }
    }
    Ok(())
}

/// Entries written as each type.
fn address_writers(
    choices: &mut Choices,
    comparison: &mut Comparison,
) -> Result<(), Box<Difference>> {
    let (room, place) = (4 * usize::from(choices.byte()), choices.number());
    let out = choices.buffer(room);
    let entries = Bytes(choices.bytes(usize::MAX));
    comparison.make(Call::WriteAddressAssign {
        addresses: entries.clone(),
        out: out.clone(),
        place,
    })?;
    comparison.make(Call::WriteAddressRequest {
        addresses: entries.clone(),
        out: out.clone(),
        place,
    })?;
    comparison.make(Call::WriteRouteAdvertisement {
        routes: entries,
        out,
        place,
    })?;
    Ok(())
}

/// A value of the Capsule-Protocol field, a part of one after a Boolean, and one after the key of a parameter.
fn field_values(choices: &mut Choices, comparison: &mut Comparison) -> Result<(), Box<Difference>> {
    let bytes = choices.bytes(usize::MAX);
    for front in [&b""[..], b"?1", b"?1;a="] {
        let value = Bytes([front, &bytes].concat());
        comparison.make(Call::FieldInUse { value })?;
    }
    Ok(())
}

/// Varints, a listing, settings, messages and errors.
fn rest(choices: &mut Choices, comparison: &mut Comparison) -> Result<(), Box<Difference>> {
    let (number, place) = (choices.number(), choices.number());
    let room = usize::from(choices.byte() % 32);
    let out = choices.buffer(room);
    comparison.make(Call::WriteVarint { number, out, place })?;
    let (first, second) = (choices.number(), choices.number());
    comparison.make(Call::SettingError {
        received: first,
        stored: second,
    })?;
    comparison.make(Call::Translate {
        error: first,
        version: second,
    })?;
    let fields = [choices.byte(), choices.byte(), choices.byte()].map(u64::from);
    comparison.make(Call::RequestMalformed { fields })?;
    comparison.make(Call::ResponseMalformed {
        status: first,
        fields,
    })?;
    comparison.make(Call::FieldCounts {
        response: fields[0],
        status: first,
    })?;
    let bytes = Bytes(choices.bytes(usize::MAX));
    comparison.make(Call::ReadVarint {
        bytes: bytes.clone(),
    })?;
    comparison.make(Call::List { bytes })?;
    Ok(())
}
