//! Readers fed with a stream of equal capsules.

use std::cell::RefCell;
use std::hint::black_box;

use independent::varint;
use maruzhenu::{raw, Buffers, Opening};

use crate::base::{Archive, BEFORE, NOW_AND_BEFORE};
use crate::measure::{race, Work};
use crate::Row;

/// The datagram limit of all readers.
const LIMIT: usize = 16_384;
/// A stream has at least so many bytes.
const STREAM: usize = 128 * 1024;
/// A capsule type that is unknown.
const UNKNOWN: u8 = 0x17;
/// An entry of ADDRESS_ASSIGN: request ID 64, 10.0.0.0/8.
const ENTRY: [u8; 8] = [0x40, 0x40, 4, 10, 0, 0, 0, 8];

/// What is done with the stream.
#[derive(Clone, Copy, PartialEq, Eq)]
pub enum Role {
    /// DATAGRAM capsules delivered.
    Endpoint,
    /// Capsules of unknown type passed.
    Intermediary,
    /// DATAGRAM capsules delivered by an endpoint that takes address capsules.
    OptedIn,
    /// ADDRESS_ASSIGN capsules delivered by such an endpoint; lengths are multiples of 8.
    Addresses,
}

impl Role {
    fn name(self) -> &'static str {
        match self {
            Role::Endpoint => "endpoint, DATAGRAM delivered",
            Role::Intermediary => "intermediary, unknown capsule passed",
            Role::OptedIn => "endpoint that takes address capsules, DATAGRAM delivered",
            Role::Addresses => "endpoint, ADDRESS_ASSIGN delivered",
        }
    }
}

/// A stream of values of this length, fed in pieces of this size.
#[derive(Clone, Copy)]
pub struct Cell {
    pub role: Role,
    pub length: usize,
    pub piece: usize,
}

/// The cells of the tables.
fn cells() -> Vec<Cell> {
    let lengths = &[0, 4, 32, 100, 1_000, 1_200, 16_000][..];
    let mut cells = Vec::new();
    for (role, pieces, lengths) in [
        (Role::Endpoint, &[64, 1_200, 16_384][..], lengths),
        (Role::Intermediary, &[64, 1_200, 16_384], lengths),
        (Role::OptedIn, &[1_200], &lengths[..5]),
        (Role::Addresses, &[64, 1_200], &[8, 104, 1_024]),
    ] {
        for &piece in pieces {
            cells.extend(lengths.iter().map(|&length| Cell {
                role,
                length,
                piece,
            }));
        }
    }
    cells
}

/// A stream of capsules with values of this length, and how many they are.
fn stream(role: Role, length: usize) -> (Vec<u8>, usize) {
    let capsule_type = match role {
        Role::Endpoint | Role::OptedIn => 0x00,
        Role::Intermediary => UNKNOWN,
        Role::Addresses => 0x01,
    };
    let mut header = [0; 8];
    let size = varint::write(length as u64, &mut header, 0).expect("the length can be written");
    let mut stream = Vec::new();
    let mut count = 0;
    while stream.len() < STREAM {
        stream.push(capsule_type);
        stream.extend(&header[..size]);
        if role == Role::Addresses {
            stream.extend(ENTRY.repeat(length / ENTRY.len()));
        } else {
            stream.extend((0..length).map(|place| (place * 31 + count) as u8));
        }
        count += 1;
    }
    (stream, count)
}

/// What a feeding came to: bytes consumed, bytes written, and the length of a capsule that was delivered or passed.
type Step = (usize, usize, Option<u64>);

/// A reader of capsules. All readers are fed through this.
trait Reader {
    fn feed(&mut self, piece: &[u8], buffers: &mut Buffers) -> Step;
}

const OPENS: &str = "the limit is allowed";
const FEEDS: &str = "the buffers suffice";

/// The step of an answer of the package or of the independent implementation.
macro_rules! step {
    ($package:ident, $fed:expr) => {{
        use $package::Report::{AddressDelivered, Delivered, Passed};
        let fed = $fed.expect(FEEDS);
        let length = match fed.report {
            Some(
                Delivered { length } | Passed { length, .. } | AddressDelivered { length, .. },
            ) => Some(length as u64),
            _ => None,
        };
        (fed.consumed, fed.written, length)
    }};
}

impl Reader for maruzhenu::Reader {
    #[inline(always)]
    fn feed(&mut self, piece: &[u8], buffers: &mut Buffers) -> Step {
        step!(maruzhenu, maruzhenu::Reader::feed(self, piece, buffers))
    }
}

impl Reader for independent::Reader {
    #[inline(always)]
    fn feed(&mut self, piece: &[u8], buffers: &mut Buffers) -> Step {
        let (addresses, output) = (&mut *buffers.addresses, &mut *buffers.output);
        let fed = independent::Reader::feed(self, piece, buffers.gathering, addresses, output);
        step!(independent, fed)
    }
}

fn open_independent(opening: Opening) -> independent::Reader {
    let role = match opening.role {
        maruzhenu::Role::Endpoint => independent::Role::Endpoint,
        maruzhenu::Role::Intermediary => independent::Role::Intermediary,
    };
    let limit = opening.datagram_limit as u64;
    independent::Reader::new(role, limit, opening.draft, opening.addresses).expect(OPENS)
}

/// The independent reader behind a call, as a library's is.
struct Called(independent::Reader);

#[inline(never)]
fn feed_by_call(
    reader: &mut independent::Reader,
    piece: &[u8],
    gathering: &mut [u8],
    addresses: &mut [u8],
    output: &mut [u8],
) -> Result<independent::Fed, independent::Refusal> {
    reader.feed(piece, gathering, addresses, output)
}

impl Reader for Called {
    #[inline(always)]
    fn feed(&mut self, piece: &[u8], buffers: &mut Buffers) -> Step {
        let (addresses, output) = (&mut *buffers.addresses, &mut *buffers.output);
        let fed = feed_by_call(&mut self.0, piece, buffers.gathering, addresses, output);
        step!(independent, fed)
    }
}

/// The reader of an archive, by its C calls.
struct Raw {
    reader: raw::Reader,
    of: Archive,
}

impl Raw {
    fn open(opening: Opening, of: Archive) -> Raw {
        let mut reader = raw::Reader::default();
        assert_eq!(of.open(&mut reader, opening.into()), 0, "{OPENS}");
        Raw { reader, of }
    }
}

impl Reader for Raw {
    #[inline(always)]
    fn feed(&mut self, piece: &[u8], buffers: &mut Buffers) -> Step {
        let fed = self.of.feed(&mut self.reader, piece, buffers);
        assert_eq!(fed.refusal, 0, "{FEEDS}");
        // delivered, passed, an address capsule delivered
        let length = matches!(fed.report, 1 | 4 | 5).then_some(fed.length);
        (fed.consumed as usize, fed.written as usize, length)
    }
}

/// The stream of a cell, and what its readers write to. The buffers are not cleared between passes.
struct Feeding {
    cell: Cell,
    stream: Vec<u8>,
    count: usize,
    buffers: RefCell<(Vec<u8>, Vec<u8>, Vec<u8>)>,
}

impl Feeding {
    fn new(cell: Cell) -> Feeding {
        let (stream, count) = stream(cell.role, cell.length);
        let buffers = (vec![0; LIMIT], vec![0; 1_024], vec![0; cell.piece + 8]);
        Feeding {
            cell,
            stream,
            count,
            buffers: RefCell::new(buffers),
        }
    }

    /// One pass over the stream with a reader that is opened so.
    fn pass<'a, R: Reader>(&'a self, open: impl Fn(Opening) -> R + 'a) -> Work<'a> {
        Box::new(move || {
            let (gathering, addresses, output) = &mut *self.buffers.borrow_mut();
            let mut buffers = Buffers {
                gathering,
                addresses,
                output,
            };
            // The opening is not known when this is compiled.
            let role = black_box(self.cell.role);
            let mut reader = open(Opening {
                role: match role {
                    Role::Intermediary => maruzhenu::Role::Intermediary,
                    _ => maruzhenu::Role::Endpoint,
                },
                datagram_limit: black_box(LIMIT),
                draft: black_box(false),
                addresses: matches!(role, Role::OptedIn | Role::Addresses),
            });
            let mut sum = 0;
            for mut piece in self.stream.chunks(self.cell.piece) {
                while !piece.is_empty() {
                    let (consumed, written, length) = reader.feed(piece, &mut buffers);
                    piece = &piece[consumed..];
                    sum += written as u64 + length.map_or(0, |length| length + 1);
                }
            }
            sum
        })
    }

    /// A bare copy of the bytes that a reader has to move, in the same parts.
    fn copy(&self) -> Work<'_> {
        let Cell {
            role,
            length,
            piece,
        } = self.cell;
        let moves = moves(role, &self.stream, self.count, length, piece);
        Box::new(move || {
            let (gathering, _, output) = &mut *self.buffers.borrow_mut();
            let delivered = self.count * (length + 1);
            let (to, sum) = match role {
                Role::Intermediary => (output, delivered + self.stream.len()),
                _ => (gathering, delivered),
            };
            for &[from, size, place] in &moves {
                let part = &self.stream[from..from + size];
                black_box(&mut to[place..place + size]).copy_from_slice(part);
            }
            sum as u64
        })
    }

    /// Nanoseconds for a byte of the stream, of each side.
    fn race(&self, mut sides: Vec<Work>) -> Vec<f64> {
        let bytes = self.stream.len() as f64;
        race(&mut sides).iter().map(|time| time / bytes).collect()
    }
}

/// What a reader has to move, call by call: from where in the stream, how many bytes, and to where in the buffer.
fn moves(role: Role, stream: &[u8], count: usize, length: usize, piece: usize) -> Vec<[usize; 3]> {
    let capsule = stream.len() / count;
    let mut moves = Vec::new();
    let mut at = 0;
    while at < stream.len() {
        let capsule_end = at - at % capsule + capsule;
        let end = capsule_end.min(at - at % piece + piece).min(stream.len());
        match role {
            Role::Endpoint | Role::OptedIn | Role::Addresses => {
                let value = capsule_end - length;
                let from = at.max(value);
                if from < end {
                    moves.push([from, end - from, from - value]);
                }
            }
            Role::Intermediary => moves.push([at, end - at, 0]),
        }
        at = end;
    }
    moves
}

/// Nanoseconds for a byte of the stream.
pub struct Times {
    pub ours: f64,
    /// The independent reader, inlined.
    pub inlined: f64,
    /// The independent reader, behind a call.
    called: f64,
    /// A bare copy of the bytes that a reader has to move, in the same parts.
    pub copy: f64,
}

pub fn measure(cell: Cell) -> Times {
    let feeding = Feeding::new(cell);
    let times = feeding.race(vec![
        feeding.pass(|opening| maruzhenu::Reader::open(opening).expect(OPENS)),
        feeding.pass(open_independent),
        feeding.pass(|opening| Called(open_independent(opening))),
        feeding.copy(),
    ]);
    Times {
        ours: times[0],
        inlined: times[1],
        called: times[2],
        copy: times[3],
    }
}

fn row(cell: Cell, peer: &'static str, ours: f64, theirs: f64, aim: Option<f64>) -> Row {
    let (role, length, piece) = (cell.role.name(), cell.length, cell.piece);
    Row {
        work: format!("{role}: values of {length}, pieces of {piece}"),
        peer,
        ours: ours * 1_024.0,
        theirs: theirs * 1_024.0,
        unit: "KiB of stream",
        aim,
    }
}

pub fn rows() -> Vec<Row> {
    let mut rows = Vec::new();
    for cell in cells() {
        let times = measure(cell);
        let mut push = |peer, theirs, aim| rows.push(row(cell, peer, times.ours, theirs, aim));
        // Readers that take address capsules have no aim.
        let aim = matches!(cell.role, Role::Endpoint | Role::Intermediary).then_some(1.0);
        push("independent Rust reader", times.inlined, aim);
        if cell.piece == 16_384 {
            push("the same, not inlined", times.called, None);
        }
        if cell.length == 16_000 {
            push("bare copy of the same bytes", times.copy, Some(1.15));
        }
    }
    rows
}

/// Beside the archive before.
pub fn rows_before() -> Vec<Row> {
    let row = |cell| {
        let feeding = Feeding::new(cell);
        let side = |of| feeding.pass(move |opening| Raw::open(opening, of));
        let times = feeding.race(NOW_AND_BEFORE.map(side).into());
        row(cell, BEFORE, times[0], times[1], None)
    };
    cells().into_iter().map(row).collect()
}
