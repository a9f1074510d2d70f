//! Variable-length integers, RFC 9000 section 16.

use crate::Refusal;

/// The largest value that can be encoded.
pub const LARGEST: u64 = (1 << 62) - 1;

/// Reads the integer at the front of `bytes`: its value and its size, or `None` if the bytes end first.
#[inline]
pub fn read(bytes: &[u8]) -> Option<(u64, usize)> {
    let first = *bytes.first()?;
    Some(match first >> 6 {
        0 => (u64::from(first), 1),
        1 => {
            let bytes = *bytes.first_chunk()?;
            (u64::from(u16::from_be_bytes(bytes) & 0x3fff), 2)
        }
        2 => {
            let bytes = *bytes.first_chunk()?;
            (u64::from(u32::from_be_bytes(bytes) & 0x3fff_ffff), 4)
        }
        _ => {
            let bytes = *bytes.first_chunk()?;
            (u64::from_be_bytes(bytes) & LARGEST, 8)
        }
    })
}

/// The least number of bytes that holds `number`.
#[inline]
pub fn size(number: u64) -> usize {
    match number {
        0..=63 => 1,
        64..=16_383 => 2,
        16_384..=1_073_741_823 => 4,
        _ => 8,
    }
}

/// Encodes `number` into all of `out`, which is as long as one of the four sizes and can hold it.
#[inline]
pub fn encode(number: u64, out: &mut [u8]) {
    match out.len() {
        1 => out[0] = number as u8,
        2 => out.copy_from_slice(&(number as u16 | 0x4000).to_be_bytes()),
        4 => out.copy_from_slice(&(number as u32 | 0x8000_0000).to_be_bytes()),
        _ => out.copy_from_slice(&(number | 0xc000_0000_0000_0000).to_be_bytes()),
    }
}

/// Writes `number` in its least size at a place of the output. Answers how many bytes were written.
pub fn write(number: u64, out: &mut [u8], place: u64) -> Result<usize, Refusal> {
    if number > LARGEST {
        return Err(Refusal::NumberTooLarge);
    }
    let space = place_for(out, place, size(number))?;
    encode(number, space);
    Ok(space.len())
}

/// The `size` bytes of `out` from `place` on.
#[inline]
pub(crate) fn place_for(out: &mut [u8], place: u64, size: usize) -> Result<&mut [u8], Refusal> {
    usize::try_from(place)
        .ok()
        .and_then(|place| out.get_mut(place..)?.get_mut(..size))
        .ok_or(Refusal::OutputTooShort)
}

/// An integer that may arrive in several pieces.
#[derive(Clone, Copy, Debug, Default, PartialEq, Eq)]
pub(crate) struct Arriving {
    bytes: [u8; 8],
    come: usize,
}

impl Arriving {
    /// How many bytes have come of an integer that is not whole yet.
    #[inline]
    pub fn come(&self) -> usize {
        self.come
    }

    /// The bytes that had come before the call of `take` that made the integer whole.
    #[inline]
    pub fn earlier(&self, come: usize) -> &[u8] {
        &self.bytes[..come]
    }

    /// How many bytes have come, and their big-endian number.
    pub fn numbers(&self) -> (u64, u64) {
        let number = self.bytes[..self.come]
            .iter()
            .fold(0, |number, &byte| number << 8 | u64::from(byte));
        (self.come as u64, number)
    }

    /// The integer of which so many bytes have come, with that big-endian number. `None` if they are a whole one
    /// already, or the number does not fit into so many bytes.
    pub fn from_numbers(come: u64, number: u64) -> Option<Arriving> {
        let come = usize::try_from(come).ok().filter(|&come| come < 8)?;
        let all = number.to_be_bytes();
        let (zeros, last) = all.split_at(8 - come);
        if zeros.iter().any(|&byte| byte != 0) || read(last).is_some() {
            return None;
        }
        let mut bytes = [0; 8];
        bytes[..come].copy_from_slice(last);
        Some(Arriving { bytes, come })
    }

    /// Takes bytes from the front of `input` until the integer is whole. Answers how many were taken, and the
    /// value if the integer is whole; the next byte then begins another one.
    #[inline]
    pub fn take(&mut self, input: &[u8]) -> (usize, Option<u64>) {
        if self.come == 0 {
            if let Some((value, size)) = read(input) {
                return (size, Some(value));
            }
        }
        self.take_bytewise(input)
    }

    fn take_bytewise(&mut self, input: &[u8]) -> (usize, Option<u64>) {
        for (index, &byte) in input.iter().enumerate() {
            self.bytes[self.come] = byte;
            self.come += 1;
            if let Some((value, _)) = read(&self.bytes[..self.come]) {
                self.come = 0;
                return (index + 1, Some(value));
            }
        }
        (input.len(), None)
    }
}

#[cfg(test)]
mod tests {
    use super::*;

    const SAMPLES: [(&[u8], u64); 5] = [
        (
            &[0xc2, 0x19, 0x7c, 0x5e, 0xff, 0x14, 0xe8, 0x8c],
            151_288_809_941_952_652,
        ),
        (&[0x9d, 0x7f, 0x3e, 0x7d], 494_878_333),
        (&[0x7b, 0xbd], 15_293),
        (&[0x25], 37),
        (&[0x40, 0x25], 37),
    ];

    #[test]
    fn samples_of_rfc_9000_appendix_a_1() {
        for (bytes, value) in SAMPLES {
            assert_eq!(read(bytes), Some((value, bytes.len())));
            let longer = [bytes, &[0xff, 0x00]].concat();
            assert_eq!(read(&longer), Some((value, bytes.len())));
        }
    }

    #[test]
    fn samples_cut_at_every_byte() {
        for (bytes, value) in SAMPLES {
            for cut in 0..bytes.len() {
                assert_eq!(read(&bytes[..cut]), None);
                let mut arriving = Arriving::default();
                assert_eq!(arriving.take(&bytes[..cut]), (cut, None));
                assert_eq!(arriving.come(), cut);
                assert_eq!(arriving.earlier(cut), &bytes[..cut]);
                let rest = [&bytes[cut..], &[0x01]].concat();
                assert_eq!(arriving.take(&rest), (bytes.len() - cut, Some(value)));
                assert_eq!(arriving.come(), 0);
                assert_eq!(arriving.earlier(cut), &bytes[..cut]);
            }
        }
    }

    #[test]
    fn numbers_are_written_in_least_size() {
        for (number, bytes) in [
            (0, &[0x00][..]),
            (63, &[0x3f]),
            (64, &[0x40, 0x40]),
            (16_383, &[0x7f, 0xff]),
            (16_384, &[0x80, 0x00, 0x40, 0x00]),
            ((1 << 30) - 1, &[0xbf, 0xff, 0xff, 0xff]),
            (1 << 30, &[0xc0, 0, 0, 0, 0x40, 0, 0, 0]),
            (LARGEST, &[0xff; 8]),
        ] {
            let mut out = [0xaa; 10];
            assert_eq!(write(number, &mut out, 1), Ok(bytes.len()));
            assert_eq!(out[1..1 + bytes.len()], *bytes);
            assert_eq!(out[0], 0xaa);
            assert!(out[1 + bytes.len()..].iter().all(|&byte| byte == 0xaa));
            assert_eq!(read(bytes), Some((number, bytes.len())));
        }
        let mut out = [0xaa; 4];
        for place in [4, 5, u64::MAX] {
            assert_eq!(write(0, &mut out, place), Err(Refusal::OutputTooShort));
            assert_eq!(
                write(LARGEST + 1, &mut out, place),
                Err(Refusal::NumberTooLarge)
            );
        }
    }

    #[test]
    fn least_and_largest_of_each_form() {
        assert_eq!(read(&[0x00]), Some((0, 1)));
        assert_eq!(read(&[0x3f]), Some((63, 1)));
        assert_eq!(read(&[0x40, 0x00]), Some((0, 2)));
        assert_eq!(read(&[0x7f, 0xff]), Some((16_383, 2)));
        assert_eq!(read(&[0x80, 0, 0, 0]), Some((0, 4)));
        assert_eq!(read(&[0xbf, 0xff, 0xff, 0xff]), Some(((1 << 30) - 1, 4)));
        assert_eq!(read(&[0xc0, 0, 0, 0, 0, 0, 0, 0]), Some((0, 8)));
        assert_eq!(read(&[0xff; 8]), Some((LARGEST, 8)));
    }
}
