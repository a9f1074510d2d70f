//! The capsule stream reader, RFC 9297 section 3.2.

use crate::addresses::{self, AddressType, LONGEST_VALUE};
use crate::varint::Arriving;
use crate::Refusal;

mod words;

pub use words::MARK;

/// The DATAGRAM capsule type, RFC 9297 section 3.5.
const DATAGRAM: u64 = 0x00;
/// The DATAGRAM capsule type of draft 05.
const DATAGRAM_OF_DRAFT: u64 = 0xff37a5;
/// The largest datagram limit.
pub const LARGEST_LIMIT: u64 = 65_535;
/// Bytes of output that an intermediary needs beyond the length of a piece.
const SPARE_OUTPUT: usize = 8;

#[derive(Clone, Copy, Debug, PartialEq, Eq)]
pub enum Role {
    Endpoint,
    Intermediary,
}

/// What is said of a capsule when it ends.
#[derive(Clone, Copy, Debug, PartialEq, Eq)]
pub enum Report {
    /// A DATAGRAM within the limit; its value stands at the front of the gathering buffer.
    Delivered { length: u64 },
    /// A DATAGRAM longer than the limit.
    Dropped { length: u64 },
    /// A capsule of unknown type, at an endpoint.
    Skipped { capsule_type: u64, length: u64 },
    /// A capsule of unknown type, at an intermediary.
    Passed { capsule_type: u64, length: u64 },
    /// An address capsule, at an endpoint that takes them; its value stands at the front of the address buffer.
    AddressDelivered { capsule_type: u64, length: u64 },
    /// An address capsule that is malformed, at an endpoint that takes them. The reader is finished.
    Malformed { capsule_type: u64, length: u64 },
}

/// The answer to an accepted feeding.
#[derive(Clone, Copy, Debug, PartialEq, Eq)]
pub struct Fed {
    /// Bytes of the piece that were consumed.
    pub consumed: usize,
    /// Bytes that were written to the front of the output.
    pub written: usize,
    /// The capsule that ended, if one did.
    pub report: Option<Report>,
}

/// The answer to a clean close of the stream, RFC 9297 section 3.3.
#[derive(Clone, Copy, Debug, PartialEq, Eq)]
pub enum Closing {
    Clean,
    Truncated,
}

/// Where the next byte of the stream belongs.
#[derive(Clone, Copy, Debug, PartialEq, Eq)]
enum State {
    Type,
    Length {
        capsule_type: u64,
    },
    /// Of the value, `left` bytes are still to come, never none.
    Value {
        capsule_type: u64,
        length: u64,
        left: u64,
    },
}

/// A reader of one stream of capsules.
#[derive(Clone, Debug, PartialEq, Eq)]
pub struct Reader {
    role: Role,
    limit: u64,
    draft: bool,
    addresses: bool,
    finished: bool,
    state: State,
    arriving_type: Arriving,
    arriving_length: Arriving,
}

impl Reader {
    /// Opens a reader. With `draft`, the DATAGRAM capsule type of draft 05 counts as DATAGRAM too. With `addresses`, an
    /// endpoint takes address capsules.
    pub fn new(role: Role, limit: u64, draft: bool, addresses: bool) -> Result<Reader, Refusal> {
        if limit > LARGEST_LIMIT {
            return Err(Refusal::LimitTooLarge);
        }
        Ok(Reader {
            role,
            limit,
            draft,
            addresses,
            finished: false,
            state: State::Type,
            arriving_type: Arriving::default(),
            arriving_length: Arriving::default(),
        })
    }

    /// Consumes `piece` up to the end of the first capsule that ends in it, or all of it if none does.
    ///
    /// The value of a DATAGRAM within the limit is stored at the front of `gather`, and that of an address capsule at the
    /// front of `addresses`; the caller hands both in again until the capsule has ended. An intermediary writes the capsules of unknown type to `out`, byte for
    /// byte as they came, each as soon as its type is known.
    #[inline]
    pub fn feed(
        &mut self,
        piece: &[u8],
        gather: &mut [u8],
        addresses: &mut [u8],
        out: &mut [u8],
    ) -> Result<Fed, Refusal> {
        if self.finished {
            return Err(Refusal::Finished);
        }
        if (gather.len() as u64) < self.limit {
            return Err(Refusal::GatheringBufferTooShort);
        }
        if self.takes_addresses() && addresses.len() < LONGEST_VALUE {
            return Err(Refusal::AddressBufferTooShort);
        }
        if self.role == Role::Intermediary && out.len() < piece.len() + SPARE_OUTPUT {
            return Err(Refusal::OutputTooShort);
        }

        let held = self.arriving_type.come();
        let Advance {
            consumed,
            capsule_type,
            report,
        } = self.advance(piece, gather, addresses);

        // All consumed bytes belong to the one capsule that the call began in.
        let mut written = 0;
        if self.role == Role::Intermediary
            && capsule_type.is_some_and(|capsule_type| !self.is_datagram(capsule_type))
        {
            written = held + consumed;
            out[..held].copy_from_slice(self.arriving_type.earlier(held));
            out[held..written].copy_from_slice(&piece[..consumed]);
        }
        Ok(Fed {
            consumed,
            written,
            report,
        })
    }

    /// Answers a clean close of the stream and finishes the reader.
    pub fn close(&mut self) -> Result<Closing, Refusal> {
        if self.finished {
            return Err(Refusal::Finished);
        }
        self.finished = true;
        if self.state == State::Type && self.arriving_type.come() == 0 {
            Ok(Closing::Clean)
        } else {
            Ok(Closing::Truncated)
        }
    }

    #[inline]
    fn is_datagram(&self, capsule_type: u64) -> bool {
        is_datagram(capsule_type, self.draft)
    }

    /// Whether address capsules are something else than capsules of unknown type.
    #[inline]
    fn takes_addresses(&self) -> bool {
        self.addresses && self.role == Role::Endpoint
    }

    /// The type of an address capsule that this reader takes.
    #[inline]
    fn address_type(&self, capsule_type: u64) -> Option<AddressType> {
        match self.takes_addresses() {
            true => AddressType::from_number(capsule_type),
            false => None,
        }
    }

    /// Reads on to the end of the capsule or of the piece.
    #[inline]
    fn advance(&mut self, piece: &[u8], gather: &mut [u8], addresses: &mut [u8]) -> Advance {
        let mut consumed = 0;
        let (capsule_type, length, left) = match self.state {
            State::Value {
                capsule_type,
                length,
                left,
            } => (capsule_type, length, left),
            State::Type | State::Length { .. } => {
                let capsule_type = match self.state {
                    State::Length { capsule_type } => capsule_type,
                    _ => {
                        let (taken, whole) = self.arriving_type.take(piece);
                        consumed = taken;
                        match whole {
                            Some(capsule_type) => capsule_type,
                            None => return Advance::within(consumed, None),
                        }
                    }
                };
                let (taken, whole) = self.arriving_length.take(&piece[consumed..]);
                consumed += taken;
                match whole {
                    Some(length) => (capsule_type, length, length),
                    None => {
                        self.state = State::Length { capsule_type };
                        return Advance::within(consumed, Some(capsule_type));
                    }
                }
            }
        };

        if let Some(address_type) = self.address_type(capsule_type) {
            let here = &piece[consumed..];
            let (taken, report) =
                self.advance_addresses(address_type, length, left, here, addresses);
            return Advance {
                consumed: consumed + taken,
                capsule_type: Some(capsule_type),
                report,
            };
        }
        let is_datagram = self.is_datagram(capsule_type);
        let rest = &piece[consumed..];
        let here = left.min(rest.len() as u64) as usize;
        if is_datagram && length <= self.limit {
            let place = (length - left) as usize;
            gather[place..place + here].copy_from_slice(&rest[..here]);
        }
        consumed += here;
        let left = left - here as u64;
        if left > 0 {
            self.state = State::Value {
                capsule_type,
                length,
                left,
            };
            return Advance::within(consumed, Some(capsule_type));
        }
        self.state = State::Type;
        let report = match (is_datagram, self.role) {
            (true, _) if length <= self.limit => Report::Delivered { length },
            (true, _) => Report::Dropped { length },
            (false, Role::Endpoint) => Report::Skipped {
                capsule_type,
                length,
            },
            (false, Role::Intermediary) => Report::Passed {
                capsule_type,
                length,
            },
        };
        Advance {
            consumed,
            capsule_type: Some(capsule_type),
            report: Some(report),
        }
    }

    /// Reads on in the value of an address capsule, of which `left` bytes are to come. Answers how many came.
    #[inline(never)]
    fn advance_addresses(
        &mut self,
        address_type: AddressType,
        length: u64,
        left: u64,
        rest: &[u8],
        addresses: &mut [u8],
    ) -> (usize, Option<Report>) {
        let capsule_type = address_type as u64;
        // A value that is too long is not read.
        let too_long = length > LONGEST_VALUE as u64;
        let mut here = 0;
        if !too_long {
            here = left.min(rest.len() as u64) as usize;
            let place = (length - left) as usize;
            addresses[place..place + here].copy_from_slice(&rest[..here]);
            let left = left - here as u64;
            if left > 0 {
                self.state = State::Value {
                    capsule_type,
                    length,
                    left,
                };
                return (here, None);
            }
        }
        self.state = State::Type;
        // What stands in the buffer is judged, whoever has put it there.
        if !too_long && addresses::check(address_type, &addresses[..length as usize]).is_ok() {
            let report = Report::AddressDelivered {
                capsule_type,
                length,
            };
            return (here, Some(report));
        }
        self.finished = true;
        let report = Report::Malformed {
            capsule_type,
            length,
        };
        (here, Some(report))
    }
}

/// Whether a type is DATAGRAM, to a reader with that setting.
#[inline]
pub(crate) fn is_datagram(capsule_type: u64, draft: bool) -> bool {
    capsule_type == DATAGRAM || (draft && capsule_type == DATAGRAM_OF_DRAFT)
}

/// How far one call came.
struct Advance {
    consumed: usize,
    /// The type of the capsule at hand, if all of it has come.
    capsule_type: Option<u64>,
    report: Option<Report>,
}

impl Advance {
    #[inline]
    fn within(consumed: usize, capsule_type: Option<u64>) -> Advance {
        Advance {
            consumed,
            capsule_type,
            report: None,
        }
    }
}

#[cfg(test)]
mod tests;
