//! The listing of one buffer: how many whole capsules stand in it.

use crate::{varint, Closing, Refusal};

/// The longest buffer that is listed.
pub const LONGEST_BUFFER: usize = 4_096;

#[derive(Clone, Copy, Debug, PartialEq, Eq)]
pub struct Counts {
    /// Whole capsules.
    pub capsules: u64,
    /// Bytes of their types and lengths.
    pub headers: u64,
    pub closing: Closing,
}

/// Counts the whole capsules of a buffer and the bytes of their headers.
pub fn count(buffer: &[u8]) -> Result<Counts, Refusal> {
    if buffer.len() > LONGEST_BUFFER {
        return Err(Refusal::BufferTooLong);
    }
    let (mut capsules, mut headers) = (0, 0);
    let mut rest = buffer;
    while let Some((header, after)) = split_capsule(rest) {
        capsules += 1;
        headers += header as u64;
        rest = after;
    }
    let closing = if rest.is_empty() {
        Closing::Clean
    } else {
        Closing::Truncated
    };
    Ok(Counts {
        capsules,
        headers,
        closing,
    })
}

/// The size of the first capsule's header, and what follows that capsule.
fn split_capsule(bytes: &[u8]) -> Option<(usize, &[u8])> {
    let (_, type_size) = varint::read(bytes)?;
    let (length, length_size) = varint::read(&bytes[type_size..])?;
    let header = type_size + length_size;
    let after = bytes[header..].get(usize::try_from(length).ok()?..)?;
    Some((header, after))
}

#[cfg(test)]
mod tests {
    use super::*;

    #[test]
    fn counts() {
        let counts = |buffer: &[u8]| {
            let counts = count(buffer).unwrap();
            (counts.capsules, counts.headers, counts.closing)
        };
        assert_eq!(counts(&[]), (0, 0, Closing::Clean));
        assert_eq!(
            counts(&[0x17, 0x00, 0x40, 0x40]),
            (1, 2, Closing::Truncated)
        );
        assert_eq!(
            counts(&[0x00, 0x01, 0x61, 0x40, 0x17, 0x00]),
            (2, 5, Closing::Clean)
        );
        assert_eq!(counts(&[0xff; 20]), (0, 0, Closing::Truncated));
        assert_eq!(counts(&[0; 4_096]), (2_048, 4_096, Closing::Clean));
        assert_eq!(count(&[0; 4_097]), Err(Refusal::BufferTooLong));
    }
}
