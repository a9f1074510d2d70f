// Judging a QUIC DATAGRAM payload by a lent row of stream records: the verified function beside a plain one that does the same checks.
use std::hint::black_box;
use std::time::Instant;

#[repr(C)]
#[derive(Clone, Copy)]
pub struct Stream {
    quarter: u64,
    flags: u64,
}

const USED: u64 = 1;
const RECEIVE: u64 = 2;
const SEND: u64 = 4;
const SEMANTICS: u64 = 8;

impl Stream {
    fn has(&self, flag: u64) -> bool {
        self.flags & flag != 0
    }
}

const BLANK: Stream = Stream { quarter: 0, flags: 0 };

#[repr(C)]
#[derive(Debug, PartialEq)]
struct Judged {
    refusal: u64,
    rule: u64,
    quarter: u64,
    place: u64,
    start: u64,
    length: u64,
    error: u64,
}

#[repr(C)]
struct Limits {
    stream_limit: u64,
    datagram_limit: u64,
}

extern "C" {
    fn mrz_judge(streams: *const Stream, streams_len: usize, limits: Limits, frame: *const u8, frame_len: usize) -> Judged;
}

fn verified(rows: &[Stream], streams: u64, limit: u64, frame: &[u8]) -> Judged {
    let limits = Limits { stream_limit: streams, datagram_limit: limit };
    unsafe { mrz_judge(rows.as_ptr(), rows.len(), limits, frame.as_ptr(), frame.len()) }
}

const LARGEST_QUARTER: u64 = (1 << 60) - 1;

fn read_varint(bytes: &[u8]) -> Option<(u64, usize)> {
    let first = *bytes.first()?;
    let size = 1usize << (first >> 6);
    let head = bytes.get(..size)?;
    let value = head[1..].iter().fold((first & 63) as u64, |n, b| n << 8 | *b as u64);
    Some((value, size))
}

fn is_bad_record(r: &Stream) -> bool {
    if r.has(USED) {
        r.quarter > LARGEST_QUARTER || !(r.has(RECEIVE) || r.has(SEND))
    } else {
        r.quarter != 0 || r.flags != 0
    }
}

fn is_bad(rows: &[Stream]) -> bool {
    if rows.len() > 64 {
        return true;
    }
    let mut seen = [false; 256];
    for (i, r) in rows.iter().enumerate() {
        if is_bad_record(r) {
            return true;
        }
        if r.has(USED) {
            let bucket = (r.quarter % 256) as usize;
            if seen[bucket] && rows[..i].iter().any(|o| o.has(USED) && o.quarter == r.quarter) {
                return true;
            }
            seen[bucket] = true;
        }
    }
    false
}

// With the plain double loop, as one would write it first.
fn is_bad_pairwise(rows: &[Stream]) -> bool {
    rows.len() > 64 || rows.iter().enumerate().any(|(i, r)| is_bad_record(r) || (r.has(USED) && rows[..i].iter().any(|o| o.has(USED) && o.quarter == r.quarter)))
}

fn refused(refusal: u64) -> Judged {
    Judged { refusal, rule: 0, quarter: 0, place: 0, start: 0, length: 0, error: 0 }
}

fn ruled(rule: u64, quarter: u64, place: usize, error: u64) -> Judged {
    Judged { refusal: 0, rule, quarter, place: place as u64, start: 0, length: 0, error }
}

fn rules(bad: bool, rows: &[Stream], streams: u64, limit: u64, frame: &[u8]) -> Judged {
    if bad {
        return refused(15);
    }
    if limit > 65535 {
        return refused(3);
    }
    if streams > 1 << 60 {
        return refused(6);
    }
    let Some((quarter, size)) = read_varint(frame) else { return ruled(1, 0, 0, 3) };
    if quarter > LARGEST_QUARTER {
        return ruled(2, quarter, 0, 4);
    }
    if quarter >= streams {
        return ruled(3, quarter, 0, 5);
    }
    let Some(place) = rows.iter().position(|r| r.has(USED) && r.quarter == quarter) else { return ruled(4, quarter, 0, 0) };
    let r = &rows[place];
    if !r.has(RECEIVE) {
        ruled(5, quarter, place, 0)
    } else if !r.has(SEMANTICS) {
        ruled(6, quarter, place, 2)
    } else if (frame.len() - size) as u64 > limit {
        ruled(7, quarter, place, 0)
    } else {
        Judged { start: size as u64, length: (frame.len() - size) as u64, ..ruled(8, quarter, place, 0) }
    }
}

#[inline(never)]
fn plain(rows: &[Stream], streams: u64, limit: u64, frame: &[u8]) -> Judged {
    rules(is_bad(rows), rows, streams, limit, frame)
}

#[inline(never)]
fn pairwise(rows: &[Stream], streams: u64, limit: u64, frame: &[u8]) -> Judged {
    rules(is_bad_pairwise(rows), rows, streams, limit, frame)
}

type Judge = fn(&[Stream], u64, u64, &[u8]) -> Judged;

// Each by turns in short batches, so that all meet the same machine; the best batch of each, in nanoseconds a call.
fn time(judges: [Judge; 3], rows: &[Stream], frame: &[u8]) -> [f64; 3] {
    let calls = 1_000;
    let mut best = [f64::MAX; 3];
    for _ in 0..1_000 {
        for (judge, least) in judges.iter().zip(best.iter_mut()) {
            let from = Instant::now();
            for _ in 0..calls {
                black_box(judge(black_box(rows), 1 << 60, 1200, black_box(frame)));
            }
            *least = least.min(from.elapsed().as_nanos() as f64 / calls as f64);
        }
    }
    best
}

fn table(places: usize, used: usize, quarter: impl Fn(u64) -> u64) -> Vec<Stream> {
    let mut rows = vec![BLANK; places];
    for (i, r) in rows.iter_mut().enumerate().take(used) {
        *r = Stream { quarter: quarter(i as u64 + 3) & LARGEST_QUARTER, flags: USED | RECEIVE | SEMANTICS | if i % 3 != 0 { SEND } else { 0 } };
    }
    rows
}

// Numbers that share remainders, as the quarters of long-lived streams do.
fn at_random(i: u64) -> u64 {
    let n = (i.wrapping_mul(0x9e37_79b9_7f4a_7c15) ^ 0x94d0_49bb_1331_11eb).wrapping_mul(0xbf58_476d_1ce4_e5b9);
    (n ^ n >> 31).wrapping_mul(0x94d0_49bb_1331_11eb) >> 20
}

fn frame_for(quarter: u64) -> Vec<u8> {
    let mut frame = vec![0x61; 100];
    frame[..8].copy_from_slice(&(quarter | 3 << 62).to_be_bytes());
    frame
}

// Both answer alike on good and bad tables and on every rule.
fn compare() {
    let mut cases = 0;
    for places in [0, 1, 8, 63, 64, 65, 80] {
        for used in [0, 1, places / 2, places] {
            for step in [1, 256, 0x9e37_79b9_7f4a_7c15] {
                let good = table(places, used.min(places), |i| i.wrapping_mul(step));
                let mut tables = vec![good.clone()];
                for i in 0..places.min(8) {
                    let mut t = good.clone();
                    t[i].flags ^= RECEIVE;
                    tables.push(t.clone());
                    t[i].flags &= !SEND;
                    tables.push(t.clone());
                    t[i] = good[places - 1];
                    tables.push(t.clone());
                    t[i] = good[i];
                    t[i].flags ^= SEMANTICS;
                    tables.push(t.clone());
                    t[i].quarter += 1 << 60;
                    tables.push(t);
                    let mut t = good.clone();
                    t[i].flags |= 1 << 40;
                    tables.push(t);
                }
                for t in &tables {
                    let mut frames: Vec<Vec<u8>> = t.iter().take(9).map(|r| frame_for(r.quarter & LARGEST_QUARTER)).collect();
                    frames.extend([vec![], vec![0x40], vec![0x05], frame_for(77), frame_for(1 << 60)]);
                    for frame in &frames {
                        for (streams, limit) in [(1 << 60, 1200), (1 << 60, 91), (4, 1200), (1 << 61, 1200), (1 << 60, 65536)] {
                            assert_eq!(verified(t, streams, limit, frame), plain(t, streams, limit, frame));
                            assert_eq!(pairwise(t, streams, limit, frame), plain(t, streams, limit, frame));
                            cases += 1;
                        }
                    }
                }
            }
        }
    }
    println!("{cases} cases answered alike");
}

fn main() {
    compare();
    for (places, used) in [(0, 0), (8, 8), (64, 0), (64, 8), (64, 64)] {
        let kinds: [(&str, fn(u64) -> u64); 2] = [("in order", |i| i), ("at random", at_random)];
        for (name, quarter) in kinds {
            let rows = table(places, used, quarter);
            let frame = frame_for(if used > 0 { rows[used * 3 / 4].quarter } else { 5 });
            let [ours, theirs, pairs] = time([verified, plain, pairwise], &rows, &frame);
            println!("{places} places, {used} used, quarters {name}: verified {ours:.0} ns, plain {theirs:.0} ns, pairwise {pairs:.0} ns; ratio to plain {:.2}, to pairwise {:.2}", ours / theirs, ours / pairs);
        }
    }
}
