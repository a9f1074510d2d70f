//! Readers fed with streams.

use independent::addresses::AddressType;
use independent::captures::{self, address_stream, capsule_type, push_number, spoiled_value, Form};
use independent::Random;
use maruzhenu::raw;

use super::{any, border, buffer, Outcome};
use crate::call::Bytes;
use crate::{Answer, Call, Comparison, Difference, Lent, LentReader};

/// How a reader is opened; the limit is one that is accepted.
#[derive(Clone, Copy)]
struct Opening {
    role: u64,
    limit: usize,
    draft: u64,
    addresses: u64,
}

impl Opening {
    /// Any role and settings.
    fn any(random: &mut Random, limit: usize) -> Opening {
        Opening {
            role: random.one_of(&[0, 0, 0, 1, 1, 1, 2, u64::MAX]),
            limit,
            draft: random.one_of(&[0, 0, 1, 1, 2, u64::MAX]),
            addresses: random.one_of(&[0, 0, 0, 0, 1, 2, u64::MAX]),
        }
    }

    /// An endpoint that takes address capsules in most cases.
    fn for_addresses(random: &mut Random, limit: usize) -> Opening {
        let any = Opening::any(random, limit);
        match random.one_in(8) {
            true => any,
            false => Opening {
                role: 0,
                addresses: random.one_of(&[1, 1, 1, 2, u64::MAX]),
                ..any
            },
        }
    }

    fn takes_addresses(self) -> bool {
        self.role == 0 && self.addresses != 0
    }

    /// How long the address buffer has to be.
    fn least_addresses(self) -> usize {
        match self.takes_addresses() {
            true => 1_024,
            false => 0,
        }
    }

    /// How long the output has to be.
    fn least_output(self, piece: usize) -> usize {
        match self.role {
            0 => 0,
            _ => piece + 8,
        }
    }
}

/// What is handed on from one feeding to the next.
struct Buffers {
    gathering: Lent<u8>,
    addresses: Lent<u8>,
}

/// A reader that both sides have.
struct Session<'a> {
    comparison: &'a mut Comparison,
    words: [u64; 8],
    opening: Opening,
    /// How many calls were made on it.
    calls: u64,
}

impl<'a> Session<'a> {
    fn open(
        comparison: &'a mut Comparison,
        random: &mut Random,
        opening: Opening,
    ) -> Result<Session<'a>, Box<Difference>> {
        let words = [random.number(), 0, 1, 2, 3, 4, 5, 6];
        let (_, call) = comparison.make(Call::ReaderOpen {
            reader: LentReader::new(words),
            opening: raw::Opening {
                role: opening.role,
                datagram_limit: opening.limit as u64,
                draft: opening.draft,
                addresses: opening.addresses,
            },
        })?;
        let words = call.words().expect("an opening has words");
        Ok(Session {
            comparison,
            words,
            opening,
            calls: 0,
        })
    }

    /// Buffers that suffice, with so many bytes to spare.
    fn buffers(&self, random: &mut Random, spare: usize) -> Buffers {
        Buffers {
            gathering: buffer(random, self.opening.limit + spare),
            addresses: buffer(random, self.opening.least_addresses() + spare),
        }
    }

    /// Feeds once. Answers the answer and the buffers afterwards.
    fn feed(
        &mut self,
        piece: &[u8],
        buffers: Buffers,
        output: Lent<u8>,
    ) -> Result<(Answer, Buffers), Box<Difference>> {
        let call = Call::ReaderFeed {
            reader: LentReader::new(self.words),
            piece: Bytes(piece.to_vec()),
            gathering: buffers.gathering,
            addresses: buffers.addresses,
            output,
        };
        let (answer, call) = self.comparison.make(call)?;
        let Call::ReaderFeed {
            reader,
            gathering,
            addresses,
            ..
        } = call
        else {
            unreachable!("it is the call that was made");
        };
        self.words = reader.words();
        self.look_at_times()?;
        let buffers = Buffers {
            gathering,
            addresses,
        };
        Ok((answer, buffers))
    }

    fn close(&mut self) -> Outcome {
        let call = Call::ReaderClose {
            reader: LentReader::new(self.words),
        };
        let (_, call) = self.comparison.make(call)?;
        self.words = call.words().expect("a close has words");
        self.look_at_times()
    }

    /// Looks at the reader after every third call.
    fn look_at_times(&mut self) -> Outcome {
        self.calls += 1;
        if self.calls % 3 == 1 {
            let reader = LentReader::new(self.words);
            self.comparison.make(Call::ReaderLook { reader })?;
        }
        Ok(())
    }

    /// Feeds a whole piece, in as many calls as it takes, or up to the call that is refused because the reader is
    /// finished.
    fn feed_all(
        &mut self,
        random: &mut Random,
        piece: &[u8],
        mut buffers: Buffers,
    ) -> Result<Buffers, Box<Difference>> {
        let mut rest = piece;
        while !rest.is_empty() {
            let output = buffer(random, self.opening.least_output(rest.len()));
            let (answer, left) = self.feed(rest, buffers, output)?;
            buffers = left;
            if answer[0] != 0 {
                break;
            }
            rest = &rest[answer[1] as usize..];
        }
        Ok(buffers)
    }
}

fn limit(random: &mut Random) -> usize {
    match random.between(0, 40) {
        0 => random.one_of(&[16_384, 65_534, 65_535]),
        1..=4 => random.one_of(&[1_199, 1_200, 300]),
        5..=20 => random.size(0, 4),
        _ => random.size(0, 80),
    }
}

/// A stream of at most some thousand bytes.
fn stream(random: &mut Random) -> Vec<u8> {
    use captures::Kind;
    let kind = random.one_of(&[
        Kind::Shortest,
        Kind::AnyForm,
        Kind::AnyForm,
        Kind::Cut,
        Kind::Damaged,
        Kind::HugeLength,
        Kind::HugeLength,
        Kind::Types,
        Kind::ZeroLength,
        Kind::Noise,
    ]);
    let mut bytes = captures::stream(random, kind);
    bytes.truncate(1_500);
    bytes
}

/// A short stream, cut at every place and at every two places, and fed byte by byte.
pub fn cuts(random: &mut Random, comparison: &mut Comparison) -> Outcome {
    let limit = random.size(0, 40);
    let (mut bytes, opening) = match random.between(0, 4) {
        0 => (stream(random), Opening::any(random, limit)),
        1 => (
            address_stream(random),
            Opening::for_addresses(random, limit),
        ),
        _ => (
            captures::stream(random, captures::Kind::Cut),
            Opening::any(random, limit),
        ),
    };
    bytes.truncate(random.size(1, 26));
    let length = bytes.len();
    let mut pieces: Vec<Vec<&[u8]>> = vec![vec![&bytes], bytes.chunks(1).collect()];
    for first in 0..=length {
        for second in first..=length {
            pieces.push(vec![
                &bytes[..first],
                &bytes[first..second],
                &bytes[second..],
            ]);
        }
    }
    for pieces in pieces {
        let mut session = Session::open(comparison, random, opening)?;
        let mut buffers = session.buffers(random, 1);
        for piece in pieces {
            buffers = session.feed_all(random, piece, buffers)?;
        }
        session.close()?;
    }
    Ok(())
}

/// A list of calls on one reader, refused ones among them, also after its close.
pub fn calls(random: &mut Random, comparison: &mut Comparison) -> Outcome {
    for _ in 0..random.size(1, 3) {
        let words = [random.number(); 8];
        comparison.make(Call::ReaderOpen {
            reader: LentReader::new(words),
            opening: raw::Opening {
                role: any(random),
                datagram_limit: border(random),
                draft: any(random),
                addresses: any(random),
            },
        })?;
    }
    let limit = limit(random);
    let opening = Opening::any(random, limit);
    let bytes = stream(random);
    list_of_calls(random, comparison, opening, &bytes)
}

/// Lists of calls on readers that take address capsules in most cases, and spoiled capsules in one piece.
pub fn address_calls(random: &mut Random, comparison: &mut Comparison) -> Outcome {
    for number in 0..12 {
        let address_type = AddressType::ALL[number % 3];
        let value = spoiled_value(random, address_type);
        let mut capsule = vec![address_type as u8];
        push_number(&mut capsule, random, Form::Any, value.len() as u64);
        capsule.extend(value);
        let opening = Opening {
            role: 0,
            limit: 0,
            draft: 0,
            addresses: 1,
        };
        let mut session = Session::open(comparison, random, opening)?;
        let buffers = session.buffers(random, 0);
        session.feed_all(random, &capsule, buffers)?;
        session.close()?;
    }
    for _ in 0..4 {
        let limit = random.size(0, 1_100);
        let opening = Opening::for_addresses(random, limit);
        let bytes = address_stream(random);
        list_of_calls(random, comparison, opening, &bytes)?;
    }
    Ok(())
}

fn list_of_calls(
    random: &mut Random,
    comparison: &mut Comparison,
    opening: Opening,
    bytes: &[u8],
) -> Outcome {
    let mut session = Session::open(comparison, random, opening)?;
    let spare = random.size(0, 9);
    let mut buffers = session.buffers(random, spare);
    let longest = random.one_of(&[1, 2, 3, 9, 64, 400, 2_000]);
    let mut at = 0;
    while at < bytes.len() {
        let end = (at + random.size(1, longest)).min(bytes.len());
        let piece = &bytes[at..end];
        if random.one_in(4) {
            refused(&mut session, random, piece)?;
        }
        if random.one_in(12) {
            // Another buffer: the calls know nothing of the one before.
            let spare = random.size(0, 9);
            buffers = session.buffers(random, spare);
        }
        let spare = random.one_of(&[0, 0, 0, 1, 30]);
        let output = buffer(random, opening.least_output(piece.len()) + spare);
        let (answer, left) = session.feed(piece, buffers, output)?;
        buffers = left;
        at += answer[1] as usize;
        // A malformed capsule has finished the reader.
        if answer[0] != 0 || random.one_in(40) {
            break;
        }
    }
    refused(&mut session, random, &bytes[..bytes.len().min(9)])?;
    session.close()?;
    for _ in 0..random.size(1, 3) {
        refused(&mut session, random, &bytes[..bytes.len().min(5)])?;
        if random.one_in(2) {
            session.close()?;
        }
    }
    Ok(())
}

/// Calls that are refused for their buffers, and an empty piece. What is refused after the close is refused for that.
fn refused(session: &mut Session, random: &mut Random, piece: &[u8]) -> Outcome {
    let limit = session.opening.limit;
    let needed = piece.len() + 8;
    let mut buffers = session.buffers(random, 0);
    match random.between(0, 5) {
        0 if limit > 0 => {
            let short = random.one_of(&[limit - 1, 0, limit / 2]);
            buffers.gathering = buffer(random, short);
            if random.one_in(2) {
                buffers.addresses = buffer(random, 3);
            }
            let output = buffer(random, sometimes_short(needed, piece.len()));
            session.feed(piece, buffers, output)?;
        }
        1 => {
            let short = random.one_of(&[needed - 1, 0, piece.len(), 7]);
            let output = buffer(random, short.min(needed - 1));
            if session.opening.role != 0 {
                session.feed(piece, buffers, output)?;
            }
        }
        2 => {
            let length = random.one_of(&[0, 7, 8, 9]);
            let output = buffer(random, length);
            session.feed(&[], buffers, output)?;
        }
        3 if limit > 0 => {
            buffers.gathering = buffer(random, limit - 1);
            let output = buffer(random, 0);
            session.feed(&[], buffers, output)?;
        }
        4 if session.opening.takes_addresses() => {
            let short = random.one_of(&[1_023, 1_023, 0, 512]);
            buffers.addresses = buffer(random, short);
            let output = buffer(random, needed);
            let piece = match random.one_in(3) {
                true => &[],
                false => piece,
            };
            session.feed(piece, buffers, output)?;
        }
        _ => {}
    }
    Ok(())
}

/// Enough for the piece, or one byte less.
fn sometimes_short(needed: usize, piece: usize) -> usize {
    needed - piece % 2
}

/// Values of up to 65,536 bytes in pieces of up to 20,000.
pub fn long_values(random: &mut Random, comparison: &mut Comparison) -> Outcome {
    let mut bytes = Vec::new();
    for _ in 0..random.size(1, 3) {
        let form = random.one_of(&[Form::Shortest, Form::Any]);
        let capsule_type = capsule_type(random);
        let length = random.one_of(&[
            1_000, 1_200, 1_201, 4_096, 16_383, 16_384, 20_000, 65_535, 65_536,
        ]);
        push_number(&mut bytes, random, form, capsule_type);
        push_number(&mut bytes, random, form, length as u64);
        bytes.extend(random.bytes(length));
    }
    let limit = random.one_of(&[0, 1_200, 16_384, 65_535, 65_535]);
    let opening = Opening::any(random, limit);
    let mut session = Session::open(comparison, random, opening)?;
    let mut buffers = session.buffers(random, 3);
    let longest = random.one_of(&[1_200, 4_096, 16_384, 16_385, 20_000, 140_000]);
    let mut rest = &bytes[..];
    while !rest.is_empty() {
        let (piece, after) = rest.split_at(random.size(longest / 2, longest).min(rest.len()));
        buffers = session.feed_all(random, piece, buffers)?;
        rest = after;
    }
    session.close()
}
