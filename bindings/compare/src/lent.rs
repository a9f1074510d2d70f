//! A buffer that is lent to a call, with entries before and behind it that no call may touch.

use std::fmt;

use maruzhenu::raw::{Reader, Stream};

const GUARD: usize = 16;

/// A lent buffer. Two are equal only if what stands around them is equal too.
#[derive(Clone, PartialEq, Eq)]
pub struct Lent<T> {
    all: Vec<T>,
    start: usize,
    length: usize,
}

impl<T: Copy> Lent<T> {
    /// A buffer with these contents. `around` stands before and behind it.
    pub fn new(contents: &[T], around: T) -> Lent<T> {
        // Buffers of different lengths start at different distances from the allocation's start.
        let start = GUARD + contents.len() % 8;
        let mut all = Vec::with_capacity(start + contents.len() + GUARD);
        all.resize(start, around);
        all.extend_from_slice(contents);
        all.resize(start + contents.len() + GUARD, around);
        Lent {
            all,
            start,
            length: contents.len(),
        }
    }

    pub fn get(&self) -> &[T] {
        &self.all[self.start..self.start + self.length]
    }

    pub fn get_mut(&mut self) -> &mut [T] {
        &mut self.all[self.start..self.start + self.length]
    }
}

impl<T: Copy + PartialEq> Lent<T> {
    /// The first place where two buffers of the same length differ, counted from the start of what is lent; below 0 and
    /// from the length on it stands outside.
    pub fn first_difference(&self, other: &Lent<T>) -> Option<(isize, T, T)> {
        let pairs = self.all.iter().zip(&other.all).enumerate();
        pairs
            .filter(|(_, (ours, theirs))| ours != theirs)
            .map(|(place, (&ours, &theirs))| (place as isize - self.start as isize, ours, theirs))
            .next()
    }
}

impl fmt::Debug for Lent<u8> {
    fn fmt(&self, formatter: &mut fmt::Formatter) -> fmt::Result {
        formatter.write_str(&hex(self.get()))
    }
}

impl fmt::Debug for Lent<Stream> {
    fn fmt(&self, formatter: &mut fmt::Formatter) -> fmt::Result {
        let records = self.get().iter();
        let shown = records.map(|record| format!("{} {:x}", record.quarter, record.flags));
        let shown: Vec<String> = shown.collect();
        write!(formatter, "quarters and flags [{}]", shown.join(", "))
    }
}

/// A reader that is lent to a call, between words that no call may touch.
#[derive(Clone, PartialEq, Eq)]
#[repr(C)]
pub struct LentReader {
    before: [u64; 4],
    reader: Reader,
    behind: [u64; 4],
}

impl LentReader {
    pub fn new(words: [u64; 8]) -> LentReader {
        LentReader {
            before: [0x3c3c_3c3c_3c3c_3c3c; 4],
            reader: Reader { words },
            behind: [0xc3c3_c3c3_c3c3_c3c3; 4],
        }
    }

    pub fn get(&self) -> &Reader {
        &self.reader
    }

    pub fn get_mut(&mut self) -> &mut Reader {
        &mut self.reader
    }

    pub fn words(&self) -> [u64; 8] {
        self.reader.words
    }

    /// Whether what stands around it is as it was made.
    pub fn unharmed(&self) -> bool {
        *self == LentReader::new(self.words())
    }
}

impl fmt::Debug for LentReader {
    fn fmt(&self, formatter: &mut fmt::Formatter) -> fmt::Result {
        let harmed = if self.unharmed() {
            ""
        } else {
            ", written outside"
        };
        write!(formatter, "words {:x?}{harmed}", self.words())
    }
}

/// Bytes in hexadecimal digits, long rows cut off.
pub fn hex(bytes: &[u8]) -> String {
    const SHOWN: usize = 160;
    let digits: Vec<String> = bytes
        .iter()
        .take(SHOWN)
        .map(|byte| format!("{byte:02x}"))
        .collect();
    let more = if bytes.len() > SHOWN { " .." } else { "" };
    format!("{} bytes [{}{more}]", bytes.len(), digits.join(" "))
}
