//! A look at a reader: where its stream stands, found from the bytes of the capsule at hand.

use crate::addresses::{AddressType, LONGEST_VALUE};
use crate::reader::{is_datagram, MARK};
use crate::{varint, Reader, Role};

/// How a reader was opened.
#[derive(Clone, Copy, Debug, PartialEq, Eq)]
pub struct Opening {
    pub role: Role,
    pub limit: u64,
    pub draft: bool,
    pub addresses: bool,
}

/// The buffer that a value is stored in.
#[derive(Clone, Copy, Debug, PartialEq, Eq)]
pub enum Stored {
    Nowhere,
    Gathering,
    Addresses,
}

/// Where the end of the stream stands.
#[derive(Clone, Copy, Debug, PartialEq, Eq)]
pub enum Where {
    Between,
    Type,
    Length {
        capsule_type: u64,
    },
    Value {
        capsule_type: u64,
        length: u64,
        come: u64,
        stored: Stored,
    },
}

/// What has come of the capsule at hand: the bytes of its type and length, and how many of its value.
#[derive(Clone, Debug, PartialEq, Eq)]
pub struct Seen {
    pub opening: Opening,
    pub finished: bool,
    header: Vec<u8>,
    value: u64,
}

impl Seen {
    /// Nothing has come.
    pub fn new(opening: Opening) -> Seen {
        Seen {
            opening,
            finished: false,
            header: Vec::new(),
            value: 0,
        }
    }

    /// What a reader with these words may have seen, in shortest forms where they do not say; `None` if there is no such
    /// reader.
    pub fn from_words(words: [u64; 8]) -> Option<Seen> {
        Reader::from_words(words)?;
        let [role, limit, settings, phase, first, second, third, finished] = words;
        let mut seen = Seen::new(Opening {
            role: match role == MARK {
                true => Role::Endpoint,
                false => Role::Intermediary,
            },
            limit,
            draft: settings % 2 == 1,
            addresses: settings / 2 == 1,
        });
        seen.finished = finished == 1;
        match phase {
            0 => seen.push_last(first, second),
            1 => {
                seen.push_number(first);
                seen.push_last(second, third);
            }
            _ => {
                seen.push_number(first);
                seen.push_number(second);
                seen.value = second - third;
            }
        }
        Some(seen)
    }

    fn push_number(&mut self, number: u64) {
        let start = self.header.len();
        self.header.resize(start + varint::size(number), 0);
        varint::encode(number, &mut self.header[start..]);
    }

    /// The last `count` bytes of a number.
    fn push_last(&mut self, count: u64, number: u64) {
        let bytes = number.to_be_bytes();
        self.header.extend(&bytes[8 - count as usize..]);
    }

    /// The type and the length, as far as they are whole.
    fn fields(&self) -> (Option<u64>, Option<u64>) {
        let Some((capsule_type, size)) = varint::read(&self.header) else {
            return (None, None);
        };
        let length = varint::read(&self.header[size..]);
        (Some(capsule_type), length.map(|(length, _)| length))
    }

    /// An address capsule that the reader takes.
    fn takes_address(&self, capsule_type: u64) -> bool {
        let opted_in = self.opening.addresses && self.opening.role == Role::Endpoint;
        opted_in && AddressType::from_number(capsule_type).is_some()
    }

    /// Bytes that a reader has consumed; they end at the end of a capsule or before it.
    pub fn consumed(&mut self, bytes: &[u8]) {
        let mut rest = bytes;
        while let (_, None) = self.fields() {
            let Some((&byte, after)) = rest.split_first() else {
                return;
            };
            self.header.push(byte);
            rest = after;
        }
        self.value += rest.len() as u64;
        if let (Some(capsule_type), Some(length)) = self.fields() {
            // Nothing is consumed of an address value that is too long.
            let ended = self.takes_address(capsule_type) && length > LONGEST_VALUE as u64;
            if ended || self.value == length {
                self.header.clear();
                self.value = 0;
            }
        }
    }

    /// Where the stream stands.
    pub fn look(&self) -> Where {
        match self.fields() {
            (None, _) if self.header.is_empty() => Where::Between,
            (None, _) => Where::Type,
            (Some(capsule_type), None) => Where::Length { capsule_type },
            (Some(capsule_type), Some(length)) => {
                let datagram = is_datagram(capsule_type, self.opening.draft);
                let stored = if datagram && length <= self.opening.limit {
                    Stored::Gathering
                } else if self.takes_address(capsule_type) {
                    Stored::Addresses
                } else {
                    Stored::Nowhere
                };
                Where::Value {
                    capsule_type,
                    length,
                    come: self.value,
                    stored,
                }
            }
        }
    }
}

#[cfg(test)]
mod tests {
    use super::*;

    const ENDPOINT: Opening = Opening {
        role: Role::Endpoint,
        limit: 3,
        draft: false,
        addresses: true,
    };

    fn after(opening: Opening, bytes: &[u8]) -> Where {
        let mut seen = Seen::new(opening);
        seen.consumed(bytes);
        let whole = seen.look();
        let mut seen = Seen::new(opening);
        bytes.chunks(1).for_each(|byte| seen.consumed(byte));
        assert_eq!(seen.look(), whole);
        whole
    }

    fn value(capsule_type: u64, length: u64, come: u64, stored: Stored) -> Where {
        Where::Value {
            capsule_type,
            length,
            come,
            stored,
        }
    }

    #[test]
    fn places() {
        let passing = Opening {
            role: Role::Intermediary,
            draft: true,
            ..ENDPOINT
        };
        for opening in [ENDPOINT, passing] {
            assert_eq!(after(opening, &[]), Where::Between);
            assert_eq!(after(opening, &[0x00, 0x01, 0x77]), Where::Between);
            assert_eq!(after(opening, &[0x40]), Where::Type);
            let length = Where::Length { capsule_type: 0x17 };
            assert_eq!(after(opening, &[0x40, 0x17]), length);
            assert_eq!(after(opening, &[0x17, 0x80, 0, 0]), length);
            let gathered = value(0, 3, 2, Stored::Gathering);
            assert_eq!(after(opening, &[0x00, 0x03, 1, 2]), gathered);
            let dropped = value(0, 4, 0, Stored::Nowhere);
            assert_eq!(after(opening, &[0x00, 0x04]), dropped);
            let other = value(0x17, 2, 1, Stored::Nowhere);
            assert_eq!(after(opening, &[0x17, 0x40, 0x02, 9]), other);
        }
        let kept = value(3, 10, 1, Stored::Addresses);
        assert_eq!(after(ENDPOINT, &[0x03, 0x0a, 4]), kept);
        assert_eq!(after(ENDPOINT, &[0x01, 0x44, 0x01]), Where::Between);
        let passed = value(1, 1_025, 0, Stored::Nowhere);
        assert_eq!(after(passing, &[0x01, 0x44, 0x01]), passed);
        let draft = [0x80, 0xff, 0x37, 0xa5, 0x02];
        let skipped = value(0xff37a5, 2, 0, Stored::Nowhere);
        assert_eq!(after(ENDPOINT, &draft), skipped);
        let gathered = value(0xff37a5, 2, 0, Stored::Gathering);
        assert_eq!(after(passing, &draft), gathered);
    }

    #[test]
    fn from_words() {
        let mut reader = Reader::new(Role::Endpoint, 3, false, true).unwrap();
        let mut seen = Seen::new(ENDPOINT);
        for byte in [0x40, 0x17, 0x80, 0, 0, 2, 9] {
            let fed = reader.feed(&[byte], &mut [0; 3], &mut [0; 1_024], &mut []);
            assert!(fed.is_ok());
            seen.consumed(&[byte]);
            let again = Seen::from_words(reader.words()).unwrap();
            assert_eq!((again.look(), again.opening), (seen.look(), ENDPOINT));
        }
        assert_eq!(Seen::from_words([0; 8]), None);
        let far = [MARK, 0, 0, 2, 9, (1 << 62) - 1, 1, 1];
        let seen = Seen::from_words(far).unwrap();
        assert!(seen.finished);
        let last = value(9, (1 << 62) - 1, (1 << 62) - 2, Stored::Nowhere);
        assert_eq!(seen.look(), last);
    }
}
