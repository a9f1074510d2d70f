//! Payloads judged, capsules and frames written.

use std::cell::RefCell;
use std::hint::black_box;

use independent::judge::judge;
use independent::table::Record;
use independent::writers::{self, Sending};
use independent::{varint, Random};
use maruzhenu::raw::{stream_id_of, Limits, Stream};

use crate::base::{Archive, BEFORE, NOW_AND_BEFORE, OURS, PLACE, TERMS};
use crate::measure::{race, Work};
use crate::Row;

pub const PLAIN: &str = "plain Rust, same checks";

const LIMITS: Limits = Limits {
    stream_limit: 1 << 60,
    datagram_limit: 1_200,
};

pub fn row(work: String, peer: &'static str, aim: Option<f64>, mut sides: [Work; 2]) -> Row {
    let times = race(&mut sides);
    Row {
        work,
        peer,
        ours: times[0],
        theirs: times[1],
        unit: "call",
        aim,
    }
}

enum Kind {
    /// The bytes are a frame for the last record that is used, or for no stream.
    Judge,
    /// The bytes are a payload.
    Capsule,
    Frame,
}

/// A call over a table.
struct Call {
    name: String,
    kind: Kind,
    streams: Vec<Stream>,
    stream_id: u64,
    length: usize,
    /// The bytes, and the output of all sides. They are half a page apart, but for whole pages: a copy between places
    /// that are nearly the same in their pages takes many times as long.
    memory: RefCell<Vec<u8>>,
}

impl Call {
    fn new(name: String, kind: Kind, quarters: &[u64], bytes: &[u8]) -> Call {
        let mut memory = vec![0; 2 * Call::output(bytes.len())];
        memory[..bytes.len()].copy_from_slice(bytes);
        Call {
            name,
            kind,
            streams: table(quarters),
            stream_id: stream_id_of(quarters.last().map_or(0, |&last| last)).stream_id,
            length: bytes.len(),
            memory: RefCell::new(memory),
        }
    }

    /// Where the output starts.
    fn output(length: usize) -> usize {
        length.next_multiple_of(4_096) + 2_048
    }

    /// A side, from a function of the bytes and the output.
    fn side<'a>(&'a self, call: impl Fn(&[u8], &mut [u8]) -> u64 + 'a) -> Work<'a> {
        Box::new(move || {
            let memory = &mut *self.memory.borrow_mut();
            let (bytes, out) = memory.split_at_mut(Call::output(self.length));
            call(black_box(&bytes[..self.length]), out)
        })
    }

    fn archive(&self, of: Archive) -> Work<'_> {
        let (streams, id) = (&self.streams[..], self.stream_id);
        let streams = move || black_box(streams);
        match self.kind {
            Kind::Judge => self.side(move |frame, _| of.judge(streams(), LIMITS, frame).rule),
            Kind::Capsule => self.side(move |payload, out| {
                let written = of.write_capsule(streams(), id, payload, out);
                written.written
            }),
            Kind::Frame => self.side(move |payload, out| {
                let written = of.write_frame(streams(), id, payload, out);
                written.written
            }),
        }
    }

    fn plain(&self) -> Work<'_> {
        let record = |stream: &Stream| Record {
            quarter: stream.quarter,
            flags: stream.flags,
        };
        let records: Vec<Record> = self.streams.iter().map(record).collect();
        let id = self.stream_id;
        let sending = Sending {
            id,
            ours: TERMS.our_setting,
            peers: TERMS.peer_setting,
            path: TERMS.path_size,
        };
        let done = "it is not refused";
        match self.kind {
            Kind::Judge => self.side(move |frame, _| {
                let (streams, length) = (LIMITS.stream_limit, LIMITS.datagram_limit);
                let verdict = judge(black_box(&records), streams, length, frame);
                verdict.expect(done).rule()
            }),
            Kind::Capsule => self.side(move |payload, out| {
                let written = writers::write_capsule(black_box(&records), id, payload, out, PLACE);
                written.expect(done) as u64
            }),
            Kind::Frame => self.side(move |payload, out| {
                let written =
                    writers::write_frame(black_box(&records), sending, payload, out, PLACE);
                written.expect(done) as u64
            }),
        }
    }
}

/// 64 places, the first of them used for these quarters, open and with semantics.
fn table(quarters: &[u64]) -> Vec<Stream> {
    let flags = Stream::USED | Stream::RECEIVE | Stream::SEND | Stream::SEMANTICS;
    let mut streams = vec![Stream::BLANK; 64];
    for (stream, &quarter) in streams.iter_mut().zip(quarters) {
        *stream = Stream { quarter, flags };
    }
    streams
}

/// So many quarters, in the order of new streams or at random, and how they are named.
fn quarters(used: usize) -> Vec<(&'static str, Vec<u64>)> {
    let in_order = (3..).take(used).collect();
    if used == 0 {
        return vec![("", in_order)];
    }
    let mut random = Random::new(60);
    let at_random = (0..used).map(|_| random.number() >> 4).collect();
    vec![
        (", quarters in order", in_order),
        (", quarters at random", at_random),
    ]
}

fn calls() -> Vec<Call> {
    let (mut judging, mut writing) = (Vec::new(), Vec::new());
    for used in [0, 8, 64] {
        for (order, quarters) in quarters(used) {
            let call = |work: String, kind, bytes: &[u8]| {
                let name = format!("{work}, {used} of 64 records used{order}");
                Call::new(name, kind, &quarters, bytes)
            };
            let mut frame = vec![0; 108];
            let quarter = quarters.last().map_or(3, |&last| last);
            let size = varint::write(quarter, &mut frame, 0).expect("it fits");
            judging.push(call("judging".into(), Kind::Judge, &frame[..size + 100]));
            if used == 0 {
                continue;
            }
            for length in [0, 100, 1_200, 16_000] {
                let payload = &vec![0x55; length];
                for (work, kind) in [("capsule", Kind::Capsule), ("frame", Kind::Frame)] {
                    writing.push(call(format!("{work} of {length} bytes"), kind, payload));
                }
            }
        }
    }
    judging.into_iter().chain(writing).collect()
}

pub fn rows() -> Vec<Row> {
    let row = |call: Call| {
        let aim = match call.kind {
            Kind::Judge => 1.2,
            Kind::Capsule | Kind::Frame => 1.1,
        };
        let sides = [call.archive(OURS), call.plain()];
        row(call.name.clone(), PLAIN, Some(aim), sides)
    };
    calls().into_iter().map(row).collect()
}

/// Beside the archive before.
pub fn rows_before() -> Vec<Row> {
    let row = |call: Call| {
        let sides = NOW_AND_BEFORE.map(|of| call.archive(of));
        row(call.name.clone(), BEFORE, None, sides)
    };
    calls().into_iter().map(row).collect()
}
