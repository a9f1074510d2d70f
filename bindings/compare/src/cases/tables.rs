//! Stream tables, good and bad, and what is judged and written under them.

use independent::captures::{push_number, Form};
use independent::varint::size;
use independent::Random;
use maruzhenu::raw::{FrameTerms, Limits, Stream};

use super::{any, border, buffer, Outcome};
use crate::call::{lent_table, Bytes};
use crate::{Call, Comparison, Lent};

const LARGEST_QUARTER: u64 = (1 << 60) - 1;

/// The bits of flags that mean nothing.
const STRAY: u64 = !15;

/// A table, good or bad.
struct Table(Vec<Stream>);

impl Table {
    fn lent(&self) -> Lent<Stream> {
        lent_table(&self.0)
    }

    /// A quarter, in most cases one that is used in the table.
    fn quarter(&self, random: &mut Random) -> u64 {
        let used = self.0.iter().filter(|stream| stream.is_used());
        let used: Vec<u64> = used.map(|stream| stream.quarter).collect();
        if used.is_empty() || random.one_in(8) {
            quarter(random)
        } else {
            random.one_of(&used)
        }
    }

    /// A stream ID, in most cases one of the table.
    fn id(&self, random: &mut Random) -> u64 {
        match random.between(0, 9) {
            0 => any(random),
            1 => random.one_of(&[3, (1 << 62) - 4, 1 << 62, u64::MAX - 3, u64::MAX, 1, 2, 5]),
            _ => self.quarter(random).wrapping_mul(4),
        }
    }
}

/// Some bits that mean nothing: one, or any number of them.
fn stray(random: &mut Random) -> u64 {
    match random.one_in(2) {
        true => 1 << random.between(4, 63),
        false => random.number() & STRAY,
    }
}

fn quarter(random: &mut Random) -> u64 {
    match random.between(0, 5) {
        0 => LARGEST_QUARTER - random.between(0, 2),
        1 => random.one_of(&[62, 63, 64, 16_383, 16_384, (1 << 30) - 1, 1 << 30]),
        2 => random.number() >> random.between(4, 63),
        _ => random.between(0, 90),
    }
}

/// A good table, in one of three cases with bits that mean nothing in used records.
fn good(random: &mut Random) -> Table {
    let length = match random.between(0, 5) {
        0 => random.one_of(&[0, 1, 63, 64]),
        1 => 64,
        _ => random.size(0, 12),
    };
    let used = random.between(0, 8);
    let strays = random.one_in(3);
    let mut records: Vec<Stream> = Vec::new();
    for _ in 0..length {
        if random.between(1, 8) > used {
            records.push(Stream::BLANK);
            continue;
        }
        let mut new = quarter(random);
        while records
            .iter()
            .any(|one| one.is_used() && one.quarter == new)
        {
            new = if random.one_in(2) {
                (new + 64) % (LARGEST_QUARTER + 1)
            } else {
                quarter(random)
            };
        }
        let sides = random.one_of(&[2, 4, 6, 6, 6]);
        let mut flags = 1 | sides | random.one_of(&[0, 8, 8]);
        if strays && random.one_in(2) {
            flags |= stray(random);
        }
        records.push(Stream {
            quarter: new,
            flags,
        });
    }
    Table(records)
}

/// A table that is bad, in most cases.
fn bad(random: &mut Random) -> Table {
    let Table(mut records) = good(random);
    let last = match records.len() {
        0 => {
            records.push(Stream::BLANK);
            0
        }
        length => length - 1,
    };
    let place = random.size(0, last);
    let record = &mut records[place];
    match random.between(0, 7) {
        0 => {
            let length = random.one_of(&[65, 65, 66, 100, 200]);
            records.resize(length, Stream::BLANK);
        }
        1 => {
            // A free record with bits that mean nothing.
            *record = Stream {
                quarter: 0,
                flags: stray(random),
            };
        }
        2 => {
            let mut twice = *record;
            twice.flags ^= random.one_of(&[0, 0, 2, 4, 6, 8, 16, 1 << 63]);
            let to = random.size(0, last);
            records[to] = twice;
        }
        3 => record.quarter = random.one_of(&[1 << 60, (1 << 60) + 1, 1 << 62, u64::MAX]),
        4 => record.flags &= !6,
        5 => record.flags ^= 1,
        6 => record.flags = random.number() >> random.between(0, 63),
        _ => {
            record.flags = random.between(0, 31);
            record.quarter = any(random);
        }
    }
    Table(records)
}

fn table(random: &mut Random) -> Table {
    if random.one_in(5) {
        bad(random)
    } else {
        good(random)
    }
}

/// Opens and closes on one table, which the calls change.
pub fn open_and_close(random: &mut Random, comparison: &mut Comparison) -> Outcome {
    let mut table = table(random);
    for _ in 0..random.size(4, 60) {
        let id = table.id(random);
        let lent = table.lent();
        if random.one_in(4) {
            comparison.make(Call::StreamFind {
                table: table.lent(),
                id,
            })?;
        }
        let call = if random.one_in(2) {
            let semantics = any(random);
            Call::StreamOpen {
                table: lent,
                id,
                semantics,
            }
        } else {
            let side = random.one_of(&[0, 0, 0, 1, 1, 1, 2, u64::MAX]);
            Call::StreamClose {
                table: lent,
                id,
                side,
            }
        };
        let (_, call) = comparison.make(call)?;
        if let Some(left) = call.table() {
            table = Table(left.get().to_vec());
        }
    }
    // A table that is filled up, and one stream more.
    let length = table.0.len();
    if random.one_in(4) && length <= 64 {
        let mut lent = lent_table(&vec![Stream::BLANK; length]);
        let first = random.between(0, 1 << 20);
        for number in 0..=length as u64 {
            let (_, call) = comparison.make(Call::StreamOpen {
                table: lent,
                id: (first + 64 * number) * 4,
                semantics: number % 2,
            })?;
            let Call::StreamOpen { table, .. } = call else {
                unreachable!("it is the call that was made");
            };
            lent = table;
        }
    }
    Ok(())
}

fn datagram_limit(random: &mut Random) -> u64 {
    match random.between(0, 11) {
        0 => any(random),
        1 => random.one_of(&[65_535, 65_535, 65_536, u64::MAX]),
        _ => random.between(0, 40),
    }
}

fn stream_limit(random: &mut Random, quarter: u64) -> u64 {
    match random.between(0, 9) {
        0 => any(random),
        1 => random.one_of(&[(1 << 60) + 1, u64::MAX, 1 << 60]),
        2 => quarter,
        3 => quarter.wrapping_add(1),
        _ => 1 << 60,
    }
}

/// Frames judged under one table.
pub fn frames(random: &mut Random, comparison: &mut Comparison) -> Outcome {
    let table = table(random);
    for _ in 0..40 {
        let datagram_limit = datagram_limit(random);
        let quarter = table.quarter(random);
        let mut frame = Vec::new();
        match random.between(0, 9) {
            0 => {
                let length = random.size(0, 12);
                frame = random.bytes(length);
            }
            1 => {
                let number = match random.between(0, 2) {
                    0 => random.between(LARGEST_QUARTER, (1 << 62) - 1),
                    _ => LARGEST_QUARTER + random.between(0, 2),
                };
                push_number(&mut frame, random, Form::Any, number);
            }
            _ => {
                let number = quarter & ((1 << 62) - 1);
                push_number(&mut frame, random, Form::Any, number);
            }
        }
        match random.between(0, 5) {
            0 => frame.truncate(random.size(0, frame.len())),
            1 => {}
            _ => {
                let near = (datagram_limit.min(65_600) as usize).saturating_sub(1);
                let length = match random.between(0, 3) {
                    0 => random.size(0, 60),
                    _ => near + random.size(0, 2),
                };
                frame.extend(random.bytes(length));
            }
        }
        let limits = Limits {
            stream_limit: stream_limit(random, quarter),
            datagram_limit,
        };
        comparison.make(Call::Judge {
            table: table.lent(),
            limits,
            frame: Bytes(frame),
        })?;
    }
    Ok(())
}

/// A place in an output: where the bytes fit for the last time, one behind that, at its end, past it, and near 2^64.
pub fn place(random: &mut Random, fits: usize, length: usize) -> u64 {
    match random.between(0, 15) {
        0 => length as u64 + random.between(0, 2),
        1 => u64::MAX - random.between(0, 12),
        2 => any(random),
        3 => fits as u64 + 1,
        4..=9 => fits as u64,
        _ => random.between(0, fits as u64),
    }
}

/// Capsules and frames written under one table, and capsules without one; of some the headers alone.
pub fn writers(random: &mut Random, comparison: &mut Comparison) -> Outcome {
    let table = table(random);
    for _ in 0..30 {
        let length = match random.between(0, 60) {
            0 => random.one_of(&[65_534, 65_535, 65_536, 70_000]),
            1 => random.one_of(&[16_382, 16_383, 16_384]),
            2..=8 => random.size(61, 66),
            9..=12 => random.size(0, 1_300),
            _ => random.size(0, 20),
        };
        let id = table.id(random);
        let capsule = random.one_in(2);
        let header = match capsule {
            true => 1 + size(length as u64),
            false => size(id / 4),
        };
        let alone = random.one_in(3);
        let fits = random.size(0, 24);
        let room = match alone {
            true => header + fits,
            false => header + length + fits,
        };
        let place = place(random, fits, room);
        let out = buffer(random, room);
        let terms = terms(random, length + header);
        let call = if alone {
            // A length needs no payload, so that any is tried.
            let length = match random.one_in(8) {
                true => any(random),
                false => length as u64,
            };
            match capsule {
                true => Call::WriteDatagramHeader { length, out, place },
                false => Call::WriteFrameHeader {
                    table: table.lent(),
                    id,
                    terms,
                    length,
                    out,
                    place,
                },
            }
        } else {
            let payload = Bytes(random.bytes(length));
            match (capsule, random.one_in(3)) {
                (true, true) => Call::WriteDatagram {
                    payload,
                    out,
                    place,
                },
                (true, false) => Call::WriteCapsule {
                    table: table.lent(),
                    id,
                    payload,
                    out,
                    place,
                },
                (false, _) => Call::WriteFrame {
                    table: table.lent(),
                    id,
                    terms,
                    payload,
                    out,
                    place,
                },
            }
        };
        comparison.make(call)?;
    }
    Ok(())
}

/// What a frame of this size is sent by: agreed in most cases, on a path that is sometimes short.
fn terms(random: &mut Random, size: usize) -> FrameTerms {
    let [our_setting, peer_setting] = match random.between(0, 9) {
        0 => [any(random), any(random)],
        1 => random.one_of(&[[0, 1], [1, 0], [2, 1], [1, 2]]),
        _ => [1, 1],
    };
    let path_size = match random.between(0, 7) {
        0 => border(random),
        1 => size as u64 - 1,
        2 | 3 => size as u64,
        _ => 80_000,
    };
    FrameTerms {
        our_setting,
        peer_setting,
        path_size,
    }
}

/// Identifiers converted each way.
pub fn identifiers(random: &mut Random, comparison: &mut Comparison) -> Outcome {
    for _ in 0..40 {
        let id = match random.between(0, 3) {
            0 => any(random),
            1 => quarter(random).wrapping_mul(4) ^ random.between(0, 3),
            _ => quarter(random).wrapping_mul(4),
        };
        comparison.make(Call::QuarterOf { id })?;
        let quarter = match random.one_in(2) {
            true => any(random),
            false => quarter(random),
        };
        comparison.make(Call::StreamIdOf { quarter })?;
    }
    Ok(())
}
