//! The stream table: a row of records, as the host lends it.

use crate::Refusal;

/// The largest quarter stream ID, RFC 9297 section 2.1.
pub const LARGEST_QUARTER: u64 = (1 << 60) - 1;
/// How many records a table has at most.
pub const MOST_RECORDS: usize = 64;

const USED: u64 = 1;
const RECEIVE_OPEN: u64 = 2;
const SEND_OPEN: u64 = 4;
const SEMANTICS: u64 = 8;

/// A record. The flags have four bits with a meaning; of a used record the others are left alone.
#[derive(Clone, Copy, Debug, PartialEq, Eq)]
pub struct Record {
    pub quarter: u64,
    pub flags: u64,
}

impl Record {
    /// A free record. No other bits make one.
    pub const BLANK: Record = Record {
        quarter: 0,
        flags: 0,
    };

    fn has(self, flag: u64) -> bool {
        self.flags & flag != 0
    }

    pub fn used(self) -> bool {
        self.has(USED)
    }

    pub fn receive_open(self) -> bool {
        self.has(RECEIVE_OPEN)
    }

    pub fn send_open(self) -> bool {
        self.has(SEND_OPEN)
    }

    pub fn semantics(self) -> bool {
        self.has(SEMANTICS)
    }
}

/// A side of a stream.
#[derive(Clone, Copy, Debug, PartialEq, Eq)]
pub enum Side {
    Receive,
    Send,
}

/// A table that has been found good.
#[derive(Clone, Copy, Debug)]
pub struct Table<'a>(&'a [Record]);

impl<'a> Table<'a> {
    /// Looks at every record. A row that is no good table is refused.
    pub fn new(records: &'a [Record]) -> Result<Table<'a>, Refusal> {
        if records.len() > MOST_RECORDS {
            return Err(Refusal::BadTable);
        }
        let mut seen = [0; MOST_RECORDS];
        let mut count = 0;
        // A bit for each remainder that has come: of most quarters it shows that they are new.
        let mut remainders = 0u64;
        for &record in records {
            if !record.used() {
                if record != Record::BLANK {
                    return Err(Refusal::BadTable);
                }
                continue;
            }
            let quarter = record.quarter;
            let bit = 1 << (quarter % 64);
            let twice = remainders & bit != 0 && seen[..count].contains(&quarter);
            let open = record.receive_open() || record.send_open();
            if quarter > LARGEST_QUARTER || !open || twice {
                return Err(Refusal::BadTable);
            }
            remainders |= bit;
            seen[count] = quarter;
            count += 1;
        }
        Ok(Table(records))
    }

    /// The place and the record of a quarter.
    pub fn find(&self, quarter: u64) -> Option<(usize, Record)> {
        let mut records = self.0.iter().copied().enumerate();
        records.find(|(_, record)| record.used() && record.quarter == quarter)
    }

    /// The first free place.
    pub fn first_free(&self) -> Option<usize> {
        self.0.iter().position(|record| !record.used())
    }
}

/// The quarter of a request stream: a quarter of an ID that is divisible by 4 and can be encoded.
pub fn quarter_of(id: u64) -> Result<u64, Refusal> {
    let quarter = id / 4;
    if quarter * 4 == id && quarter <= LARGEST_QUARTER {
        Ok(quarter)
    } else {
        Err(Refusal::NotARequestStream)
    }
}

/// The ID of the request stream that a quarter names, if it is one.
pub fn stream_id_of(quarter: u64) -> Option<u64> {
    match quarter.checked_mul(4) {
        Some(id) if id < 1 << 62 => Some(id),
        _ => None,
    }
}

/// The place of a stream.
pub fn find(records: &[Record], id: u64) -> Result<usize, Refusal> {
    let table = Table::new(records)?;
    let quarter = quarter_of(id)?;
    let (place, _) = table.find(quarter).ok_or(Refusal::NotInTable)?;
    Ok(place)
}

/// Takes the lowest free place for a stream, both sides open. Answers the place.
pub fn open(records: &mut [Record], id: u64, semantics: bool) -> Result<usize, Refusal> {
    let table = Table::new(records)?;
    let quarter = quarter_of(id)?;
    if table.find(quarter).is_some() {
        return Err(Refusal::AlreadyInTable);
    }
    let place = table.first_free().ok_or(Refusal::NoFreePlace)?;
    let mut flags = USED | RECEIVE_OPEN | SEND_OPEN;
    if semantics {
        flags |= SEMANTICS;
    }
    records[place] = Record { quarter, flags };
    Ok(place)
}

/// Closes a side of a stream. Answers its place, and whether that is free now.
pub fn close(records: &mut [Record], id: u64, side: Side) -> Result<(usize, bool), Refusal> {
    let table = Table::new(records)?;
    let quarter = quarter_of(id)?;
    let (place, mut record) = table.find(quarter).ok_or(Refusal::NotInTable)?;
    record.flags &= match side {
        Side::Receive => !RECEIVE_OPEN,
        Side::Send => !SEND_OPEN,
    };
    let freed = !record.receive_open() && !record.send_open();
    records[place] = if freed { Record::BLANK } else { record };
    Ok((place, freed))
}

#[cfg(test)]
mod tests {
    use super::*;

    const BOTH: u64 = USED | RECEIVE_OPEN | SEND_OPEN;
    const STRAY: u64 = 1 << 63 | 1 << 32 | 1 << 4;

    fn row<const COUNT: usize>(records: [(u64, u64); COUNT]) -> [Record; COUNT] {
        records.map(|(quarter, flags)| Record { quarter, flags })
    }

    fn bad<const COUNT: usize>(records: [(u64, u64); COUNT]) -> bool {
        Table::new(&row(records)).is_err()
    }

    #[test]
    fn good_and_bad_tables() {
        assert!(!bad([]));
        assert!(!bad([(0, 0); 64]));
        assert!(bad([(0, 0); 65]));
        // stream 0 beside a blank, but not twice
        assert!(!bad([(0, 0), (0, BOTH)]));
        assert!(bad([(0, BOTH), (0, BOTH)]));
        assert!(bad([
            (7, USED | SEND_OPEN),
            (0, 0),
            (7, USED | RECEIVE_OPEN)
        ]));
        // the same remainder is not the same quarter
        assert!(!bad([(7, BOTH), (71, BOTH), (135, BOTH)]));
        assert!(!bad([(LARGEST_QUARTER, BOTH)]));
        assert!(bad([(LARGEST_QUARTER + 1, BOTH)]));
        assert!(bad([(1, USED | SEMANTICS)]));
        for (quarter, flags) in [(1, 0), (0, RECEIVE_OPEN), (0, SEND_OPEN), (0, SEMANTICS)] {
            assert!(bad([(quarter, flags)]));
        }
        // any other bit of a used record says nothing; a free one has none
        for bit in 4..64 {
            assert!(!bad([(3, BOTH | 1 << bit)]));
            assert!(bad([(3, USED | 1 << bit)]));
            assert!(bad([(0, 1 << bit)]));
        }
    }

    #[test]
    fn opening_and_closing() {
        let mut records = row([(0, 0), (5, BOTH), (0, 0)]);
        let mut open = |id, semantics| super::open(&mut records, id, semantics);
        assert_eq!(open(0, true), Ok(0));
        assert_eq!(open(20, true), Err(Refusal::AlreadyInTable));
        for id in [3, 1 << 62, u64::MAX - 3] {
            assert_eq!(open(id, true), Err(Refusal::NotARequestStream));
        }
        assert_eq!(open((1 << 62) - 4, false), Ok(2));
        assert_eq!(open(8, false), Err(Refusal::NoFreePlace));
        assert_eq!(open(0, false), Err(Refusal::AlreadyInTable));
        let full = [(0, BOTH | SEMANTICS), (5, BOTH), (LARGEST_QUARTER, BOTH)];
        assert_eq!(records, row(full));

        let mut close = |side| super::close(&mut records, 20, side);
        assert_eq!(close(Side::Receive), Ok((1, false)));
        assert_eq!(close(Side::Receive), Ok((1, false)));
        assert_eq!(close(Side::Send), Ok((1, true)));
        assert_eq!(close(Side::Send), Err(Refusal::NotInTable));
        assert_eq!(records[1], Record::BLANK);
        assert_eq!(super::open(&mut records, 8, false), Ok(1));
    }

    #[test]
    fn closing_keeps_the_other_bits() {
        for (side, bit, other) in [
            (Side::Receive, RECEIVE_OPEN, Side::Send),
            (Side::Send, SEND_OPEN, Side::Receive),
        ] {
            let mut records = row([(9, STRAY | BOTH), (5, STRAY | BOTH | SEMANTICS)]);
            let closed = row([(9, STRAY | BOTH), (5, (STRAY | BOTH | SEMANTICS) & !bit)]);
            for _ in 0..2 {
                assert_eq!(close(&mut records, 20, side), Ok((1, false)));
                assert_eq!(records, closed);
            }
            assert_eq!(close(&mut records, 20, other), Ok((1, true)));
            assert_eq!(records[1], Record::BLANK);
        }
    }

    #[test]
    fn finding() {
        let records = row([(0, 0), (5, BOTH), (0, BOTH | STRAY)]);
        assert_eq!(find(&records, 20), Ok(1));
        assert_eq!(find(&records, 0), Ok(2));
        assert_eq!(find(&records, 4), Err(Refusal::NotInTable));
        assert_eq!(find(&records, 21), Err(Refusal::NotARequestStream));
        assert_eq!(find(&row([(1, 0)]), 21), Err(Refusal::BadTable));
        // a quarter that no stream has is not looked for
        assert_eq!(find(&[], 1 << 62), Err(Refusal::NotARequestStream));
    }

    #[test]
    fn identifiers() {
        for (id, quarter) in [(0, 0), (4, 1), ((1 << 62) - 4, LARGEST_QUARTER)] {
            assert_eq!(quarter_of(id), Ok(quarter));
            assert_eq!(stream_id_of(quarter), Some(id));
        }
        for id in [1, 2, 3, (1 << 62) - 1, 1 << 62, u64::MAX - 3] {
            assert_eq!(quarter_of(id), Err(Refusal::NotARequestStream));
        }
        for quarter in [LARGEST_QUARTER + 1, 1 << 62, 1 << 63, u64::MAX] {
            assert_eq!(stream_id_of(quarter), None);
        }
    }

    #[test]
    fn a_bad_table_comes_first() {
        let mut records = row([(1, 0)]);
        assert_eq!(open(&mut records, 5, true), Err(Refusal::BadTable));
        let closed = close(&mut records, 5, Side::Send);
        assert_eq!(closed, Err(Refusal::BadTable));
    }
}
