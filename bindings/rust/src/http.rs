//! Settings, messages, the Capsule-Protocol field, and what an error becomes on each version of HTTP.
//!
//! ```
//! use maruzhenu::http::{self, Action, Error, Fields, Message, Version};
//!
//! assert_eq!(http::setting_error(1, 0), None);
//! assert_eq!(http::setting_error(0, 1), Some(Error::BadSetting));
//!
//! let fields = Fields { content_length: true, ..Fields::default() };
//! assert!(http::malformed(Message::Request, fields));
//! assert!(http::malformed(Message::Response { status: 204 }, Fields::default()));
//!
//! assert!(http::field_counts(Message::Response { status: 101 }));
//! assert!(http::field_in_use(b"?1;v=2")?);
//!
//! assert_eq!(Error::Truncated.on(Version::Http3), Action::StreamError { code: 0x010e });
//! assert_eq!(Error::ShortFrame.on(Version::Http2), Action::None);
//! # Ok::<(), maruzhenu::Refusal>(())
//! ```

use core::fmt;

use crate::{raw, Refusal};

/// An error that a peer has made, as the archive answers it.
#[derive(Clone, Copy, Debug, PartialEq, Eq, PartialOrd, Ord, Hash)]
#[non_exhaustive]
#[repr(u8)]
pub enum Error {
    /// A stream of capsules ended within one.
    Truncated = 1,
    /// A datagram came for a request that has no semantics for datagrams.
    NoSemantics = 2,
    /// A QUIC DATAGRAM payload ended within its quarter stream ID.
    ShortFrame = 3,
    /// A quarter stream ID above 2^60-1.
    QuarterTooLarge = 4,
    /// A quarter stream ID at or above the stream limit.
    BeyondLimit = 5,
    /// A SETTINGS_H3_DATAGRAM that is not allowed.
    BadSetting = 6,
    /// An address capsule that is malformed.
    Malformed = 7,
}

impl Error {
    /// All errors, by their numbers.
    pub const ALL: [Error; 7] = [
        Error::Truncated,
        Error::NoSemantics,
        Error::ShortFrame,
        Error::QuarterTooLarge,
        Error::BeyondLimit,
        Error::BadSetting,
        Error::Malformed,
    ];

    /// The number of the error, that of `MRZ_ERROR_..` in C.
    #[must_use]
    pub const fn number(self) -> u64 {
        self as u64
    }

    /// The error with a number, or `None` for 0 and for a number that no error has.
    #[inline]
    #[must_use]
    pub fn from_number(number: u64) -> Option<Error> {
        match number {
            1 => Some(Error::Truncated),
            2 => Some(Error::NoSemantics),
            3 => Some(Error::ShortFrame),
            4 => Some(Error::QuarterTooLarge),
            5 => Some(Error::BeyondLimit),
            6 => Some(Error::BadSetting),
            7 => Some(Error::Malformed),
            _ => None,
        }
    }

    /// The error of an answer, where there is one.
    #[inline]
    pub(crate) fn answered(number: u64) -> Option<Error> {
        if number == 0 {
            return None;
        }
        Some(Error::from_number(number).expect("the archive gives no other error"))
    }

    /// What the error becomes on a version of HTTP.
    #[must_use]
    pub fn on(self, version: Version) -> Action {
        let translation = raw::translate(self.number(), version.number());
        let code = translation.code;
        match (translation.refusal, translation.action) {
            (0, 0) => Action::None,
            (0, 1) => Action::Close,
            (0, 2) => Action::StreamError { code },
            (0, 3) => Action::ConnectionError { code },
            _ => unreachable!("the archive knows the error and the version, and no other action"),
        }
    }
}

impl fmt::Display for Error {
    fn fmt(&self, formatter: &mut fmt::Formatter<'_>) -> fmt::Result {
        formatter.write_str(match self {
            Error::Truncated => "the stream ended within a capsule",
            Error::NoSemantics => "a datagram came for a request without semantics for them",
            Error::ShortFrame => "a frame ended within its quarter stream ID",
            Error::QuarterTooLarge => "a quarter stream ID is above 2^60-1",
            Error::BeyondLimit => "a quarter stream ID is at or above the stream limit",
            Error::BadSetting => "the value of SETTINGS_H3_DATAGRAM is not allowed",
            Error::Malformed => "an address capsule is malformed",
        })
    }
}

impl core::error::Error for Error {}

/// A version of HTTP.
#[derive(Clone, Copy, Debug, PartialEq, Eq, PartialOrd, Ord, Hash)]
#[repr(u8)]
pub enum Version {
    /// HTTP/1.1
    Http1_1 = 1,
    /// HTTP/2
    Http2 = 2,
    /// HTTP/3
    Http3 = 3,
}

impl Version {
    /// The number of the version, that of `MRZ_VERSION_..` in C.
    #[must_use]
    pub const fn number(self) -> u64 {
        self as u64
    }
}

/// What an error becomes on a version of HTTP.
#[derive(Clone, Copy, Debug, PartialEq, Eq, Hash)]
pub enum Action {
    /// It does not arise there: nothing is done.
    None,
    /// The connection is closed. There is no code.
    Close,
    /// The stream is reset.
    StreamError {
        /// The error code of that version.
        code: u64,
    },
    /// The connection is closed with an error.
    ConnectionError {
        /// The error code of that version.
        code: u64,
    },
}

/// The error in a received SETTINGS_H3_DATAGRAM, beside the value stored for 0-RTT (0 where none is stored).
#[must_use]
pub fn setting_error(received: u64, stored: u64) -> Option<Error> {
    Error::answered(raw::setting_error(received, stored))
}

/// A message that uses the Capsule Protocol, or that carries its field.
#[derive(Clone, Copy, Debug, PartialEq, Eq, Hash)]
pub enum Message {
    /// A request.
    Request,
    /// A response.
    Response {
        /// Its status.
        status: u16,
    },
}

/// Which of three fields a message carries.
#[derive(Clone, Copy, Debug, Default, PartialEq, Eq, Hash)]
pub struct Fields {
    /// Content-Length
    pub content_length: bool,
    /// Content-Type
    pub content_type: bool,
    /// Transfer-Encoding
    pub transfer_encoding: bool,
}

/// Whether a message that uses the Capsule Protocol is malformed.
#[must_use]
pub fn malformed(message: Message, fields: Fields) -> bool {
    let length = u64::from(fields.content_length);
    let content_type = u64::from(fields.content_type);
    let encoding = u64::from(fields.transfer_encoding);
    let malformed = match message {
        Message::Request => raw::request_malformed(length, content_type, encoding),
        Message::Response { status } => {
            raw::response_malformed(status.into(), length, content_type, encoding)
        }
    };
    malformed != 0
}

/// Whether the Capsule-Protocol field counts on a message.
#[must_use]
pub fn field_counts(message: Message) -> bool {
    let counts = match message {
        Message::Request => raw::field_counts(0, 0),
        Message::Response { status } => raw::field_counts(1, status.into()),
    };
    counts != 0
}

/// The longest value of the Capsule-Protocol field that is read, in bytes.
pub const LONGEST_FIELD_VALUE: usize = 1_024;

/// Whether the value of the Capsule-Protocol field says that the Capsule Protocol is in use.
///
/// The value is read as an Item of Structured Field Values (RFC 8941). It says so exactly if it is the Boolean true,
/// `?1`, with any well-formed parameters, which are read and ignored; spaces may stand at both ends. Everything else
/// means that the field is absent: an empty value, `?0`, an Item of another type, a list, an inner list, any syntax
/// error. In a byte sequence only the alphabet is checked.
///
/// The value is the field's value without its name. Several lines of the field have to be joined first, in order and
/// with `", "` between them.
///
/// ```
/// use maruzhenu::{http, Refusal};
///
/// assert!(http::field_in_use(b" ?1 ")?);
/// assert!(http::field_in_use(b"?1;v=2; from=\"a, b\"")?);
/// assert!(!http::field_in_use(b"?0")?);
/// assert!(!http::field_in_use(b"?1 ;v=2")?);
/// assert!(!http::field_in_use(b"?1, ?1")?);
/// let long = [b' '; http::LONGEST_FIELD_VALUE + 1];
/// assert_eq!(http::field_in_use(&long), Err(Refusal::FieldTooLong));
/// # Ok::<(), Refusal>(())
/// ```
///
/// # Errors
/// [`Refusal::FieldTooLong`], before anything is read.
pub fn field_in_use(value: &[u8]) -> Result<bool, Refusal> {
    let field = raw::field_in_use(value);
    Refusal::check(field.refusal)?;
    Ok(field.in_use != 0)
}
