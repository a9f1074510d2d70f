//! Judging a QUIC DATAGRAM payload, RFC 9297 section 2.1.

use crate::http::Error;
use crate::reader::LARGEST_LIMIT;
use crate::table::{Record, Table, LARGEST_QUARTER};
use crate::{varint, Refusal};

/// What becomes of a received payload. The first that fits, in this order, with the quarter that it names and the place of
/// its record as far as they are known.
#[derive(Clone, Copy, Debug, PartialEq, Eq)]
pub enum Verdict {
    ShortFrame,
    QuarterTooLarge {
        quarter: u64,
    },
    BeyondLimit {
        quarter: u64,
    },
    NoStream {
        quarter: u64,
    },
    Closed {
        quarter: u64,
        place: usize,
    },
    NoSemantics {
        quarter: u64,
        place: usize,
    },
    TooLong {
        quarter: u64,
        place: usize,
    },
    /// The payload begins at `start` of the frame.
    Delivered {
        quarter: u64,
        place: usize,
        start: usize,
    },
}

impl Verdict {
    /// The number of the rule.
    pub fn rule(self) -> u64 {
        match self {
            Verdict::ShortFrame => 1,
            Verdict::QuarterTooLarge { .. } => 2,
            Verdict::BeyondLimit { .. } => 3,
            Verdict::NoStream { .. } => 4,
            Verdict::Closed { .. } => 5,
            Verdict::NoSemantics { .. } => 6,
            Verdict::TooLong { .. } => 7,
            Verdict::Delivered { .. } => 8,
        }
    }

    /// The quarter that the payload names, where it is whole.
    pub fn quarter(self) -> Option<u64> {
        match self {
            Verdict::ShortFrame => None,
            Verdict::QuarterTooLarge { quarter }
            | Verdict::BeyondLimit { quarter }
            | Verdict::NoStream { quarter }
            | Verdict::Closed { quarter, .. }
            | Verdict::NoSemantics { quarter, .. }
            | Verdict::TooLong { quarter, .. }
            | Verdict::Delivered { quarter, .. } => Some(quarter),
        }
    }

    /// The place of the stream's record, where one was found.
    pub fn place(self) -> Option<usize> {
        match self {
            Verdict::Closed { place, .. }
            | Verdict::NoSemantics { place, .. }
            | Verdict::TooLong { place, .. }
            | Verdict::Delivered { place, .. } => Some(place),
            _ => None,
        }
    }

    /// The error that it is, if it is one.
    pub fn error(self) -> Option<Error> {
        match self {
            Verdict::ShortFrame => Some(Error::ShortFrame),
            Verdict::QuarterTooLarge { .. } => Some(Error::QuarterTooLarge),
            Verdict::BeyondLimit { .. } => Some(Error::BeyondLimit),
            Verdict::NoSemantics { .. } => Some(Error::NoSemantics),
            _ => None,
        }
    }
}

/// Judges `frame`. `streams` is the stream limit, counted in quarters, and `limit` the datagram limit.
pub fn judge(
    records: &[Record],
    streams: u64,
    limit: u64,
    frame: &[u8],
) -> Result<Verdict, Refusal> {
    let table = Table::new(records)?;
    if limit > LARGEST_LIMIT {
        return Err(Refusal::LimitTooLarge);
    }
    if streams > LARGEST_QUARTER + 1 {
        return Err(Refusal::NumberTooLarge);
    }
    let Some((quarter, start)) = varint::read(frame) else {
        return Ok(Verdict::ShortFrame);
    };
    if quarter > LARGEST_QUARTER {
        return Ok(Verdict::QuarterTooLarge { quarter });
    }
    if quarter >= streams {
        return Ok(Verdict::BeyondLimit { quarter });
    }
    let Some((place, record)) = table.find(quarter) else {
        return Ok(Verdict::NoStream { quarter });
    };
    Ok(if !record.receive_open() {
        Verdict::Closed { quarter, place }
    } else if !record.semantics() {
        Verdict::NoSemantics { quarter, place }
    } else if (frame.len() - start) as u64 > limit {
        Verdict::TooLong { quarter, place }
    } else {
        Verdict::Delivered {
            quarter,
            place,
            start,
        }
    })
}

#[cfg(test)]
mod tests {
    use super::*;

    const ALL: u64 = 1 << 60;

    fn record(quarter: u64, flags: u64) -> Record {
        Record { quarter, flags }
    }

    /// The rule, the quarter and the place, 0 where there is none.
    fn judged(records: &[Record], streams: u64, limit: u64, frame: &[u8]) -> (u64, u64, usize) {
        let verdict = judge(records, streams, limit, frame).unwrap();
        let (quarter, place) = (verdict.quarter(), verdict.place());
        (
            verdict.rule(),
            quarter.unwrap_or_default(),
            place.unwrap_or_default(),
        )
    }

    #[test]
    fn rules_in_order() {
        assert_eq!(judged(&[], ALL, 0, &[]), (1, 0, 0));
        assert_eq!(judged(&[], ALL, 0, &[0x40]), (1, 0, 0));
        let too_large = [0xd0, 0, 0, 0, 0, 0, 0, 0];
        assert_eq!(judged(&[], 0, 0, &too_large), (2, 1 << 60, 0));
        let mut largest = [0xff; 8];
        largest[0] = 0xcf;
        assert_eq!(judged(&[], ALL, 0, &largest), (4, LARGEST_QUARTER, 0));
        assert_eq!(judged(&[record(0, 15)], 0, 9, &[0]), (3, 0, 0));
        assert_eq!(judged(&[record(4, 15)], 5, 9, &[4]), (8, 4, 0));
        assert_eq!(judged(&[record(5, 15)], 5, 9, &[5]), (3, 5, 0));
        for (flags, rule) in [(5, 5), (13, 5), (3, 6), (7, 6), (11, 7), (15, 7)] {
            for stray in [0, 1 << 4, 1 << 63, !15] {
                let records = [record(9, 15), Record::BLANK, record(1, flags | stray)];
                let judged = judged(&records, ALL, 2, &[1, 9, 9, 9]);
                assert_eq!(judged, (rule, 1, 2));
            }
        }
    }

    #[test]
    fn the_payload_follows_the_quarter_as_encoded() {
        let frame = [0x40, 0x01, 7, 8, 9];
        let delivered = Verdict::Delivered {
            quarter: 1,
            place: 2,
            start: 2,
        };
        let records = [Record::BLANK, record(9, 15), record(1, 15)];
        assert_eq!(judge(&records, ALL, 3, &frame), Ok(delivered));
        assert_eq!(judged(&records, ALL, 2, &frame), (7, 1, 2));
    }

    #[test]
    fn refusals_stand_before_rules() {
        for (records, limit, refusal) in [
            (&[record(1, 0)][..], 65_536, Refusal::BadTable),
            (&[record(0, 16)], 65_536, Refusal::BadTable),
            (&[], 65_536, Refusal::LimitTooLarge),
            (&[], 65_535, Refusal::NumberTooLarge),
        ] {
            assert_eq!(judge(records, ALL + 1, limit, &[]), Err(refusal));
        }
    }
}
