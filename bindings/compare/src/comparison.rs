//! A call made on all sides.

use std::fmt;

use independent::addresses::{self, AddressType, Malformed};
use independent::table::Table;
use maruzhenu::raw::Stream;

use crate::call::{Answer, Call, FUNCTIONS};
use crate::expected::{self, Kept};
use crate::{typed, verified};

/// The numbers of the refusals, 0 for a call that was not refused.
const REFUSALS: usize = 27;

/// Makes calls on all sides and counts them.
#[derive(Default)]
pub struct Comparison {
    kept: Kept,
    /// How often each function was called with types.
    typed: [u64; FUNCTIONS.len()],
    /// How often each function gave each refusal.
    refusals: [[u64; REFUSALS]; FUNCTIONS.len()],
    /// How often each report, each rule, each end of a reader and of a listing, and each action came; how often a
    /// field's value was absent and in use.
    reports: [u64; 7],
    rules: [u64; 9],
    ends: [u64; 3],
    listings: [u64; 3],
    actions: [u64; 4],
    fields: [u64; 2],
    /// How often a look showed each field and buffer, of a reader that is open and that is finished.
    looks: [[[u64; 3]; 4]; 2],
    /// How often it showed a value with each buffer of which nothing had come, and something.
    values: [[u64; 2]; 3],
    /// How often feeding, closing and looking met words that are all zero.
    zeros: [u64; 3],
    /// How often a closing found the side closed already, closed it, freed the place.
    closings: [u64; 3],
    /// How often a table was good with bits that mean nothing, and bad for such bits in free records alone.
    strays: [u64; 2],
    /// How often looking for an address and for a range found nothing, an entry, no whole entry.
    entries: [[u64; 3]; 2],
    /// How often a value that was checked, and a capsule that was read, was malformed for each reason.
    malformed: [[u64; Malformed::ALL.len()]; 2],
}

/// Two answers to one call, or what it left, that are not the same.
#[derive(Debug)]
pub struct Difference {
    /// The call as it was made.
    pub call: Call,
    /// Which calls differ from what was expected of them.
    side: &'static str,
    expected: (Answer, Call),
    came: (Answer, Call),
}

impl Comparison {
    /// Makes the call on all sides. Answers what it came to, and the call with what it left in all that it was lent.
    pub fn make(&mut self, call: Call) -> Result<(Answer, Call), Box<Difference>> {
        let mut theirs = call.clone();
        let expected = expected::answer(&mut theirs, &mut self.kept);
        let mut ours = call.clone();
        let verified = verified::answer(&mut ours);
        if verified != expected || ours != theirs {
            return Err(Box::new(Difference {
                call,
                side: "the library",
                expected: (expected, theirs),
                came: (verified, ours),
            }));
        }
        let mut copy = call.clone();
        if let Some(typed) = typed::answer(&mut copy) {
            if typed != verified || copy != ours {
                return Err(Box::new(Difference {
                    call,
                    side: "the typed call",
                    expected: (verified, ours),
                    came: (typed, copy),
                }));
            }
            self.typed[call.function()] += 1;
        }
        self.count(&ours, verified);
        self.count_reader(&call, verified);
        self.count_table(&call, &ours, verified);
        Ok((verified, ours))
    }

    fn count(&mut self, call: &Call, answer: Answer) {
        let function = call.function();
        let (_, fields, _) = FUNCTIONS[function];
        let refusal = if fields[0] == "refusal" { answer[0] } else { 0 };
        self.refusals[function][refusal as usize] += 1;
        if refusal == 0 {
            match call {
                Call::ReaderFeed { addresses, .. } => {
                    let [_, _, _, report, capsule_type, length, ..] = answer;
                    self.reports[report as usize] += 1;
                    if report == 6 {
                        // Of a value that was not read so much is known.
                        let front = usize::try_from(length).ok();
                        let value = front.and_then(|front| addresses.get().get(..front));
                        self.count_malformed(1, capsule_type, value);
                    }
                }
                Call::AddressValueGood {
                    capsule_type,
                    value,
                } if answer[0] == 0 => self.count_malformed(0, *capsule_type, Some(&value.0)),
                Call::AddressNext { .. } => self.entries[0][answer[0] as usize] += 1,
                Call::RouteNext { .. } => self.entries[1][answer[0] as usize] += 1,
                Call::Judge { .. } => self.rules[answer[1] as usize] += 1,
                Call::ReaderClose { .. } => self.ends[answer[1] as usize] += 1,
                Call::List { .. } => self.listings[answer[3] as usize] += 1,
                Call::FieldInUse { .. } => self.fields[answer[1] as usize] += 1,
                Call::Translate { .. } => self.actions[answer[1] as usize] += 1,
                _ => {}
            }
        }
    }

    /// Counts what a look showed, and words that are all zero, which have to be refused.
    fn count_reader(&mut self, call: &Call, answer: Answer) {
        let which = match call {
            Call::ReaderFeed { .. } => 0,
            Call::ReaderClose { .. } => 1,
            Call::ReaderLook { .. } => 2,
            _ => return,
        };
        if call.words() == Some([0; 8]) {
            assert_eq!(answer[0], 1, "words that are all zero are no reader");
            self.zeros[which] += 1;
        }
        if let (Call::ReaderLook { .. }, 0) = (call, answer[0]) {
            let [_, finished, _, field, _, length, to_come, _, buffer] = answer;
            self.looks[finished as usize][field as usize][buffer as usize] += 1;
            if field == 3 {
                self.values[buffer as usize][usize::from(to_come < length)] += 1;
            }
        }
    }

    /// Counts what a closing did, and tables with bits that mean nothing.
    fn count_table(&mut self, before: &Call, after: &Call, answer: Answer) {
        const MEANING: u64 = Stream::USED | Stream::RECEIVE | Stream::SEND | Stream::SEMANTICS;
        let (Some(table), Some(left)) = (before.table(), after.table()) else {
            return;
        };
        if let (Call::StreamClose { .. }, [0, _, freed, ..]) = (before, answer) {
            let what = match freed {
                0 => usize::from(table != left),
                _ => 2,
            };
            self.closings[what] += 1;
        }
        let stray = |stream: &Stream| stream.flags & !MEANING != 0;
        if !table.get().iter().any(stray) {
            return;
        }
        match answer[0] {
            15 => {
                let mut records = expected::records(table.get());
                for record in records.iter_mut().filter(|record| !record.used()) {
                    record.flags &= MEANING;
                }
                self.strays[1] += u64::from(Table::new(&records).is_ok());
            }
            _ => self.strays[0] += 1,
        }
    }

    /// Counts why a value is malformed; one that is not at hand is too long.
    fn count_malformed(&mut self, way: usize, capsule_type: u64, value: Option<&[u8]>) {
        let Some(capsule_type) = AddressType::from_number(capsule_type) else {
            return;
        };
        let why = match value {
            Some(value) => addresses::check(capsule_type, value).err(),
            None => Some(Malformed::TooLong),
        };
        let place = Malformed::ALL.iter().position(|&one| Some(one) == why);
        self.malformed[way][place.expect("it is malformed")] += 1;
    }

    /// How many calls were made.
    pub fn calls(&self) -> u64 {
        self.refusals.iter().flatten().sum()
    }

    /// How many calls each function had, and how many of them were refused.
    pub fn by_function(&self) -> impl Iterator<Item = (&'static str, u64, u64)> + '_ {
        self.refusals
            .iter()
            .zip(FUNCTIONS)
            .map(|(row, (name, _, _))| {
                let all: u64 = row.iter().sum();
                (name, all, all - row[0])
            })
    }

    /// How many of them were also made with types.
    pub fn typed(&self) -> u64 {
        self.typed.iter().sum()
    }

    /// What should have come and has not: an answer that is not a refusal, each refusal of each function, a typed call
    /// of each, each report, each rule, each end of a reader and of a listing, each action, a field value that is absent
    /// and one that is in use, each field and buffer of a look, each outcome of closing a side and of looking for an
    /// entry, words that are all zero, good and bad tables with bits that mean nothing, each reason for which an address
    /// capsule is malformed.
    pub fn missing(&self) -> Vec<String> {
        let mut missing = Vec::new();
        for (row, (name, _, refusals)) in self.refusals.iter().zip(FUNCTIONS) {
            if row[0] == 0 {
                missing.push(format!("{name} was never accepted"));
            }
            for &refusal in refusals {
                if row[refusal as usize] == 0 {
                    missing.push(format!("{name} never gave refusal {refusal}"));
                }
            }
        }
        for (count, (name, _, _)) in self.typed.iter().zip(FUNCTIONS) {
            if *count == 0 {
                missing.push(format!("{name} was never called with types"));
            }
        }
        for (finished, looks) in ["open", "finished"].into_iter().zip(&self.looks) {
            for (field, buffers) in looks.iter().enumerate() {
                for (buffer, count) in buffers.iter().enumerate() {
                    if *count == 0 && (field == 3 || buffer == 0) {
                        let reader = format!("a look at a reader that is {finished}");
                        missing.push(format!(
                            "{reader} never showed field {field}, buffer {buffer}"
                        ));
                    }
                }
            }
        }
        for (what, first, counts) in [
            ("report", 0, &self.reports[..]),
            ("rule", 1, &self.rules),
            ("end", 1, &self.ends),
            ("end of a listing", 1, &self.listings),
            ("action", 0, &self.actions),
            ("field value: in use", 0, &self.fields),
            ("words of zero: call", 0, &self.zeros),
            ("value that is not stored: outcome", 0, &self.values[0]),
            ("value in the gathering buffer: outcome", 0, &self.values[1]),
            ("value in the address buffer: outcome", 0, &self.values[2]),
            ("closing a side: outcome", 0, &self.closings),
            ("bits that mean nothing: outcome", 0, &self.strays),
            ("looking for an address: outcome", 0, &self.entries[0]),
            ("looking for a range: outcome", 0, &self.entries[1]),
        ] {
            for (number, count) in counts.iter().enumerate().skip(first) {
                if *count == 0 {
                    missing.push(format!("{what} {number} never came"));
                }
            }
        }
        for (what, counts) in ["checked", "read"].into_iter().zip(&self.malformed) {
            for (why, count) in Malformed::ALL.iter().zip(counts) {
                if *count == 0 {
                    missing.push(format!("no value that was {what} was malformed by {why:?}"));
                }
            }
        }
        missing
    }
}

impl fmt::Display for Difference {
    fn fmt(&self, formatter: &mut fmt::Formatter) -> fmt::Result {
        let (name, fields, _) = FUNCTIONS[self.call.function()];
        let side = self.side;
        writeln!(formatter, "a call of {name} differs: {:?}", self.call)?;
        for (place, field) in fields.iter().enumerate() {
            let (expected, came) = (self.expected.0[place], self.came.0[place]);
            if expected != came {
                writeln!(
                    formatter,
                    "  {field}: expected {expected}, {side} answered {came}"
                )?;
            }
        }
        let (theirs, ours) = (&self.expected.1, &self.came.1);
        if let (Some(theirs), Some(ours)) = (theirs.reader(), ours.reader()) {
            if theirs != ours {
                writeln!(formatter, "  expected {theirs:?}, {side} left {ours:?}")?;
            }
        }
        for ((name, theirs), (_, ours)) in theirs.lent().into_iter().zip(ours.lent()) {
            if let Some((place, expected, left)) = theirs.first_difference(ours) {
                writeln!(
                    formatter,
                    "  {name}, first at place {place}: expected {expected:02x}, {side} left {left:02x}"
                )?;
            }
        }
        if let (Some(theirs), Some(ours)) = (theirs.table(), ours.table()) {
            if let Some((place, expected, left)) = theirs.first_difference(ours) {
                writeln!(
                    formatter,
                    "  table, first at place {place}: expected {expected:x?}, {side} left {left:x?}"
                )?;
            }
        }
        Ok(())
    }
}
