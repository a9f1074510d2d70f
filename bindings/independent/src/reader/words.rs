//! A reader as eight words, the form in which the C interface keeps one.
//!
//! Role, datagram limit, settings (1 draft, 2 addresses), phase, three words that go by the phase, finished. The role
//! has a mark above it. In the type: how many bytes have come, their big-endian number, 0. In the length: the type, how
//! many bytes have come, their number. In the value: the type, the length, how many bytes are left.

use super::{Reader, Role, State, LARGEST_LIMIT};
use crate::addresses::LONGEST_VALUE;
use crate::varint::{Arriving, LARGEST};

/// The first word of a reader without the role's number: "mrz" and a byte 0.
pub const MARK: u64 = u32::from_be_bytes(*b"mrz\0") as u64;

impl Reader {
    /// The words of the reader.
    pub fn words(&self) -> [u64; 8] {
        let [phase, first, second, third] = match self.state {
            State::Type => {
                let (come, number) = self.arriving_type.numbers();
                [0, come, number, 0]
            }
            State::Length { capsule_type } => {
                let (come, number) = self.arriving_length.numbers();
                [1, capsule_type, come, number]
            }
            State::Value {
                capsule_type,
                length,
                left,
            } => [2, capsule_type, length, left],
        };
        let role = match self.role {
            Role::Endpoint => MARK,
            Role::Intermediary => MARK + 1,
        };
        let settings = u64::from(self.draft) + 2 * u64::from(self.addresses);
        let finished = u64::from(self.finished);
        [
            role, self.limit, settings, phase, first, second, third, finished,
        ]
    }

    /// The reader with these words, or `None` if no opening, feeding and closing makes one.
    pub fn from_words(words: [u64; 8]) -> Option<Reader> {
        let [role, limit, settings, phase, first, second, third, finished] = words;
        let role = match role.checked_sub(MARK) {
            Some(0) => Role::Endpoint,
            Some(1) => Role::Intermediary,
            _ => return None,
        };
        let (draft, addresses) = match settings {
            0 => (false, false),
            1 => (true, false),
            2 => (false, true),
            3 => (true, true),
            _ => return None,
        };
        if limit > LARGEST_LIMIT || finished > 1 {
            return None;
        }
        let mut arriving_type = Arriving::default();
        let mut arriving_length = Arriving::default();
        let state = match phase {
            0 => {
                arriving_type = Arriving::from_numbers(first, second)?;
                if third != 0 {
                    return None;
                }
                State::Type
            }
            1 if first <= LARGEST => {
                arriving_length = Arriving::from_numbers(second, third)?;
                State::Length {
                    capsule_type: first,
                }
            }
            // A value of which nothing is left has ended.
            2 if first <= LARGEST && second <= LARGEST && (1..=second).contains(&third) => {
                State::Value {
                    capsule_type: first,
                    length: second,
                    left: third,
                }
            }
            _ => return None,
        };
        let reader = Reader {
            role,
            limit,
            draft,
            addresses,
            finished: finished == 1,
            state,
            arriving_type,
            arriving_length,
        };
        // An address value that is too long has ended the reader at its length.
        match state {
            State::Value {
                capsule_type,
                length,
                ..
            } if length > LONGEST_VALUE as u64 && reader.address_type(capsule_type).is_some() => {
                None
            }
            _ => Some(reader),
        }
    }
}

#[cfg(test)]
mod tests {
    use super::*;

    #[test]
    fn words_of_each_phase() {
        let mut reader = Reader::new(Role::Intermediary, 5, true, false).unwrap();
        assert_eq!(reader.words(), [MARK + 1, 5, 1, 0, 0, 0, 0, 0]);
        for (byte, words) in [
            (0x40, [MARK + 1, 5, 1, 0, 1, 0x40, 0, 0]),
            (0x17, [MARK + 1, 5, 1, 1, 0x17, 0, 0, 0]),
            (0x80, [MARK + 1, 5, 1, 1, 0x17, 1, 0x80, 0]),
            (0x00, [MARK + 1, 5, 1, 1, 0x17, 2, 0x8000, 0]),
            (0x00, [MARK + 1, 5, 1, 1, 0x17, 3, 0x80_0000, 0]),
            (0x02, [MARK + 1, 5, 1, 2, 0x17, 2, 2, 0]),
            (0x99, [MARK + 1, 5, 1, 2, 0x17, 2, 1, 0]),
            (0x99, [MARK + 1, 5, 1, 0, 0, 0, 0, 0]),
        ] {
            let fed = reader.feed(&[byte], &mut [0; 5], &mut [], &mut [0; 9]);
            assert!(fed.is_ok());
            assert_eq!(reader.words(), words);
            let again = Reader::from_words(words).unwrap();
            assert_eq!(again.words(), words);
        }
        reader.close().unwrap();
        assert_eq!(reader.words(), [MARK + 1, 5, 1, 0, 0, 0, 0, 1]);
    }

    #[test]
    fn words_of_no_reader() {
        let large = 1 << 62;
        for words in [
            [0; 8],
            [1, 0, 0, 0, 0, 0, 0, 0],
            [MARK - 1, 0, 0, 0, 0, 0, 0, 0],
            [MARK + 2, 0, 0, 0, 0, 0, 0, 0],
            [MARK, 65_536, 0, 0, 0, 0, 0, 0],
            [MARK, 0, 4, 0, 0, 0, 0, 0],
            [MARK, 0, 0, 3, 0, 0, 0, 0],
            [MARK, 0, 0, 0, 0, 0, 0, 2],
            // no bytes, but a number; a number too large for its bytes; a whole number; more bytes than any
            [MARK, 0, 0, 0, 0, 1, 0, 0],
            [MARK, 0, 0, 0, 1, 256, 0, 0],
            [MARK, 0, 0, 0, 1, 0x3f, 0, 0],
            [MARK, 0, 0, 0, 2, 0x4000, 0, 0],
            [MARK, 0, 0, 0, 8, 0xc000_0000_0000_0000, 0, 0],
            [MARK, 0, 0, 0, 256, 0, 0, 0],
            [MARK, 0, 0, 0, 0, 0, 1, 0],
            [MARK, 0, 0, 1, large, 0, 0, 0],
            [MARK, 0, 0, 1, 0, 1, 0, 0],
            [MARK, 0, 0, 2, large, 1, 1, 0],
            [MARK, 0, 0, 2, 0, large, 1, 0],
            [MARK, 0, 0, 2, 0, 1, 0, 0],
            [MARK, 0, 0, 2, 0, 1, 2, 0],
            // within an address value that is too long
            [MARK, 0, 2, 2, 1, 1_025, 1, 0],
            [MARK, 0, 3, 2, 3, large - 1, 1, 0],
            [MARK, 0, 2, 2, 2, 1_025, 1_025, 1],
        ] {
            assert_eq!(Reader::from_words(words), None, "{words:?}");
        }
        for words in [
            [MARK + 1, 65_535, 1, 0, 7, 0xff_ffff_ffff_ffff, 0, 1],
            [MARK, 0, 0, 1, large - 1, 3, 0x80_0000, 0],
            [MARK, 0, 0, 2, large - 1, large - 1, 1, 0],
            [MARK, 0, 2, 2, 1, 1_024, 1_024, 0],
            [MARK, 0, 2, 1, 1, 1, 0x44, 0],
            [MARK, 0, 2, 2, 4, 1_025, 1, 0],
            [MARK, 0, 2, 2, 0, 1_025, 1, 0],
            [MARK, 0, 1, 2, 1, 1_025, 1, 0],
            [MARK + 1, 0, 2, 2, 1, 1_025, 1, 0],
        ] {
            assert!(Reader::from_words(words).is_some(), "{words:?}");
        }
    }
}
