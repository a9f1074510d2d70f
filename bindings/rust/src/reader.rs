//! A reader of one stream of capsules, cut anywhere, RFC 9297 section 3.2. It has no buffers of its own.
//!
//! ```
//! use maruzhenu::reader::{Buffer, Buffers, Opening, Position, Reader, Report};
//! use maruzhenu::Error;
//!
//! let mut reader = Reader::open(Opening::endpoint(1_200))?;
//! let mut buffers = Buffers { gathering: &mut [0; 1_200], ..Buffers::default() };
//! let fed = reader.feed(&[0x00, 0x03, b'a', b'b'], &mut buffers)?;
//! assert_eq!((fed.consumed, fed.report), (4, None));
//!
//! // A look changes nothing.
//! let look = reader.look()?;
//! assert!(!look.finished && look.datagram_limit == 1_200);
//! let position = Position::InValue {
//!     capsule_type: 0,
//!     length: 3,
//!     to_come: 1,
//!     gathered: 2,
//!     buffer: Buffer::Gathering,
//! };
//! assert_eq!(look.position, position);
//!
//! // The stream ends here: within a capsule.
//! assert_eq!(reader.clone().close()?.error, Some(Error::Truncated));
//!
//! let fed = reader.feed(&[b'c', 0x17], &mut buffers)?;
//! assert_eq!((fed.consumed, fed.report), (1, Some(Report::Delivered { length: 3 })));
//! assert_eq!(&buffers.gathering[..3], b"abc");
//! # Ok::<(), maruzhenu::Refusal>(())
//! ```

use crate::{raw, Error, Refusal};

/// What a relay is on a stream of capsules.
#[derive(Clone, Copy, Debug, PartialEq, Eq, Hash)]
pub enum Role {
    /// It takes datagrams, and address capsules where it was opened so, and skips capsules of unknown type.
    Endpoint,
    /// It takes datagrams and passes on capsules of unknown type.
    Intermediary,
}

/// How a reader is opened.
#[derive(Clone, Copy, Debug, PartialEq, Eq, Hash)]
pub struct Opening {
    /// What the reader is.
    pub role: Role,
    /// The longest datagram that is delivered, at most [`Opening::LARGEST_LIMIT`].
    pub datagram_limit: usize,
    /// Whether capsule type 0xff37a5, which an early draft used, counts as DATAGRAM too.
    pub draft: bool,
    /// Whether an endpoint takes address capsules, which without it are of unknown type.
    pub addresses: bool,
}

impl Opening {
    /// The largest datagram limit.
    pub const LARGEST_LIMIT: usize = 65_535;

    /// An endpoint, without the draft's type and address capsules.
    #[must_use]
    pub const fn endpoint(datagram_limit: usize) -> Opening {
        Opening {
            role: Role::Endpoint,
            datagram_limit,
            draft: false,
            addresses: false,
        }
    }

    /// An intermediary, without the draft's type.
    #[must_use]
    pub const fn intermediary(datagram_limit: usize) -> Opening {
        Opening {
            role: Role::Intermediary,
            ..Opening::endpoint(datagram_limit)
        }
    }
}

impl From<Opening> for raw::Opening {
    fn from(opening: Opening) -> raw::Opening {
        raw::Opening {
            role: match opening.role {
                Role::Endpoint => 0,
                Role::Intermediary => 1,
            },
            datagram_limit: opening.datagram_limit as u64,
            draft: opening.draft.into(),
            addresses: opening.addresses.into(),
        }
    }
}

/// The buffers that a feeding is lent. Those that a reader does not need may be empty.
#[derive(Debug, Default)]
pub struct Buffers<'a> {
    /// Takes the values of datagrams: at least as long as the datagram limit. Hand in the same contents until the
    /// capsule has ended.
    pub gathering: &'a mut [u8],
    /// Takes the values of address capsules, likewise: at least
    /// [`LONGEST_VALUE`](crate::addresses::LONGEST_VALUE) bytes for an endpoint that takes them; others do not look at it.
    pub addresses: &'a mut [u8],
    /// Takes what an intermediary sends on: at least as long as the piece and [`Reader::OUTPUT_HEADROOM`] more. An
    /// endpoint writes nothing.
    pub output: &'a mut [u8],
}

/// What is said of a capsule when it ends.
#[derive(Clone, Copy, Debug, PartialEq, Eq, Hash)]
pub enum Report {
    /// A datagram within the limit. Its payload is the first `length` bytes of the gathering buffer.
    Delivered {
        /// The length of the payload.
        length: usize,
    },
    /// A datagram longer than the limit.
    Dropped {
        /// The length of its value.
        length: usize,
    },
    /// A capsule of unknown type, at an endpoint.
    Skipped {
        /// Its type.
        capsule_type: u64,
        /// The length of its value.
        length: usize,
    },
    /// A capsule of unknown type, at an intermediary. All of its bytes have been written to outputs.
    Passed {
        /// Its type.
        capsule_type: u64,
        /// The length of its value.
        length: usize,
    },
    /// An address capsule that is well formed. Its value is the first `length` bytes of the address buffer; see
    /// [`crate::addresses`].
    AddressDelivered {
        /// Its type.
        capsule_type: u64,
        /// The length of its value.
        length: usize,
    },
    /// An address capsule that is malformed. The reader is finished.
    Malformed {
        /// Its type.
        capsule_type: u64,
        /// The length of its value, or what should have been its length.
        length: usize,
    },
}

/// The answer to a feeding.
#[derive(Clone, Copy, Debug, PartialEq, Eq, Hash)]
#[must_use = "what is left of the piece has to be fed again"]
pub struct Fed {
    /// How many bytes of the piece were consumed: at least one, unless it was empty. Feed what is left again.
    pub consumed: usize,
    /// How many bytes were written to the front of the output, to be sent on. They may be more than were consumed.
    pub written: usize,
    /// The capsule that ended, if one did.
    pub report: Option<Report>,
    /// The error that the report is, if it is one.
    pub error: Option<Error>,
}

impl TryFrom<raw::Fed> for Fed {
    type Error = Refusal;

    #[inline]
    fn try_from(fed: raw::Fed) -> Result<Fed, Refusal> {
        Refusal::check(fed.refusal)?;
        let (capsule_type, length) = (fed.r#type, fed.length as usize);
        let report = match fed.report {
            0 => None,
            1 => Some(Report::Delivered { length }),
            2 => Some(Report::Dropped { length }),
            3 => Some(Report::Skipped {
                capsule_type,
                length,
            }),
            4 => Some(Report::Passed {
                capsule_type,
                length,
            }),
            5 => Some(Report::AddressDelivered {
                capsule_type,
                length,
            }),
            6 => Some(Report::Malformed {
                capsule_type,
                length,
            }),
            _ => unreachable!("the archive gives no other report"),
        };
        Ok(Fed {
            consumed: fed.consumed as usize,
            written: fed.written as usize,
            report,
            error: Error::answered(fed.error),
        })
    }
}

/// How a stream of capsules ended.
#[derive(Clone, Copy, Debug, PartialEq, Eq, Hash)]
pub enum End {
    /// Between capsules.
    Clean,
    /// Within a capsule.
    Truncated,
}

impl End {
    pub(crate) fn from_number(number: u64) -> End {
        match number {
            1 => End::Clean,
            2 => End::Truncated,
            _ => unreachable!("the archive gives no other end"),
        }
    }
}

/// The answer to a close.
#[derive(Clone, Copy, Debug, PartialEq, Eq, Hash)]
#[must_use = "the stream may have ended within a capsule"]
pub struct Closed {
    /// How the stream ended.
    pub end: End,
    /// The error that it is, if it is one.
    pub error: Option<Error>,
}

/// The buffer that the bytes of a value are stored in.
#[derive(Clone, Copy, Debug, PartialEq, Eq, Hash)]
pub enum Buffer {
    /// None: the value is dropped, skipped or passed on.
    Neither,
    /// [`Buffers::gathering`].
    Gathering,
    /// [`Buffers::addresses`].
    Addresses,
}

/// Where the end of a stream stands.
#[derive(Clone, Copy, Debug, PartialEq, Eq, Hash)]
pub enum Position {
    /// No byte of a capsule has come.
    BetweenCapsules,
    /// Within a type.
    InType,
    /// Behind a type, and before the end of the length.
    InLength {
        /// The capsule's type.
        capsule_type: u64,
    },
    /// Behind a length, and before the end of the value.
    InValue {
        /// The capsule's type.
        capsule_type: u64,
        /// The length of its value.
        length: usize,
        /// How many bytes of it are to come.
        to_come: usize,
        /// How many bytes of it stand in the buffer.
        gathered: usize,
        /// Which buffer that is. Its contents must stay until the capsule has ended.
        buffer: Buffer,
    },
}

/// What a look at a reader shows.
#[derive(Clone, Copy, Debug, PartialEq, Eq, Hash)]
pub struct Look {
    /// Whether the reader is finished.
    pub finished: bool,
    /// The datagram limit that it was opened with.
    pub datagram_limit: usize,
    /// Where the end of the stream stands.
    pub position: Position,
}

/// A reader of one stream of capsules. It may be moved and cloned; the clone has to be lent the same contents of the
/// buffers.
///
/// A stream that was reset is not closed: its reader is dropped.
#[derive(Clone, Debug, PartialEq, Eq, Hash)]
pub struct Reader {
    raw: raw::Reader,
}

impl Reader {
    /// How much longer than the piece an intermediary's output has to be.
    pub const OUTPUT_HEADROOM: usize = 8;

    /// Opens a reader.
    ///
    /// # Errors
    /// [`Refusal::LimitTooLarge`].
    pub fn open(opening: Opening) -> Result<Reader, Refusal> {
        let mut raw = raw::Reader::default();
        Refusal::check(raw::reader_open(&mut raw, opening.into()))?;
        Ok(Reader { raw })
    }

    /// The reader in the words of the C interface. Every call on words that no reader has is
    /// [`Refusal::UnmakeableState`].
    #[must_use]
    pub const fn from_raw(raw: raw::Reader) -> Reader {
        Reader { raw }
    }

    /// The reader's words.
    #[must_use]
    pub const fn into_raw(self) -> raw::Reader {
        self.raw
    }

    /// Feeds bytes of the stream, up to the end of the first capsule that ends in the piece, or all of it.
    ///
    /// # Errors
    /// [`Refusal::UnmakeableState`], [`Refusal::Finished`], [`Refusal::GatheringTooShort`],
    /// [`Refusal::AddressesTooShort`], [`Refusal::OutputTooShort`], in this order; [`Buffers`] says how long they have to
    /// be.
    #[inline]
    pub fn feed(&mut self, piece: &[u8], buffers: &mut Buffers<'_>) -> Result<Fed, Refusal> {
        raw::reader_feed(
            &mut self.raw,
            piece,
            buffers.gathering,
            buffers.addresses,
            buffers.output,
        )
        .try_into()
    }

    /// Says that the stream was closed cleanly. It finishes the reader.
    ///
    /// # Errors
    /// [`Refusal::UnmakeableState`], [`Refusal::Finished`], in this order.
    pub fn close(&mut self) -> Result<Closed, Refusal> {
        let closed = raw::reader_close(&mut self.raw);
        Refusal::check(closed.refusal)?;
        Ok(Closed {
            end: End::from_number(closed.end),
            error: Error::answered(closed.error),
        })
    }

    /// Shows where the stream stands. A finished reader is shown too.
    ///
    /// # Errors
    /// [`Refusal::UnmakeableState`].
    pub fn look(&self) -> Result<Look, Refusal> {
        let look = raw::reader_look(&self.raw);
        Refusal::check(look.refusal)?;
        let capsule_type = look.r#type;
        let position = match look.field {
            0 => Position::BetweenCapsules,
            1 => Position::InType,
            2 => Position::InLength { capsule_type },
            3 => Position::InValue {
                capsule_type,
                length: look.length as usize,
                to_come: look.to_come as usize,
                gathered: look.gathered as usize,
                buffer: match look.buffer {
                    0 => Buffer::Neither,
                    1 => Buffer::Gathering,
                    2 => Buffer::Addresses,
                    _ => unreachable!("the archive gives no other buffer"),
                },
            },
            _ => unreachable!("the archive gives no other field"),
        };
        Ok(Look {
            finished: look.finished != 0,
            datagram_limit: look.datagram_limit as usize,
            position,
        })
    }
}
