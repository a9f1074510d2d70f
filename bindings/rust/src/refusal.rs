use core::fmt;

/// Why a call was refused. A refused call has changed nothing, neither a state nor a buffer.
///
/// ```
/// use maruzhenu::{Opening, Reader, Refusal};
///
/// let refusal = Reader::open(Opening::endpoint(65_536)).unwrap_err();
/// assert_eq!(refusal, Refusal::LimitTooLarge);
/// assert_eq!((refusal.number(), refusal.name()), (3, "limit too large"));
/// assert_eq!(refusal.to_string(), "the datagram limit is above 65,535");
/// ```
#[derive(Clone, Copy, Debug, PartialEq, Eq, PartialOrd, Ord, Hash)]
#[non_exhaustive]
#[repr(u8)]
pub enum Refusal {
    /// The words of the reader are none that an opening, feedings and a close could make. It arises only for a reader
    /// [from words](crate::Reader::from_raw).
    UnmakeableState = 1,
    /// The reader is finished.
    Finished = 2,
    /// The datagram limit is above 65,535.
    LimitTooLarge = 3,
    /// The gathering buffer is shorter than the datagram limit.
    GatheringTooShort = 4,
    /// The output is too short.
    OutputTooShort = 5,
    /// A number or a request ID above 2^62-1 to write, a stream limit above 2^60, or a payload above 65,535 bytes to
    /// send.
    NumberTooLarge = 6,
    /// The ID is none of a request stream.
    NotARequestStream = 7,
    /// The table has no free place.
    NoFreePlace = 8,
    /// The stream is in the table already.
    AlreadyInTable = 9,
    /// The stream is not in the table.
    NotInTable = 10,
    /// The settings do not agree on frames.
    FramesNotAgreed = 11,
    /// The stream's send side is closed.
    SendSideClosed = 12,
    /// The stream's request has no semantics for datagrams.
    NoSemantics = 13,
    /// The frame would be longer than the path carries.
    FrameTooLong = 14,
    /// The table is bad: [`crate::table`] says which are.
    BadTable = 15,
    /// The buffer to list is longer than 4,096 bytes.
    BufferTooLong = 16,
    /// The number of the error or of the HTTP version is unknown. It does not arise from [`crate::Error`].
    UnknownErrorOrVersion = 17,
    /// The address buffer of an endpoint that takes address capsules is shorter than 1,024 bytes.
    AddressesTooShort = 18,
    /// The value of the Capsule-Protocol field is longer than 1,024 bytes.
    FieldTooLong = 19,
    /// Entries whose value would be malformed to a reader.
    MalformedToWrite = 26,
}

impl Refusal {
    /// All refusals, by their numbers.
    pub const ALL: [Refusal; 20] = [
        Refusal::UnmakeableState,
        Refusal::Finished,
        Refusal::LimitTooLarge,
        Refusal::GatheringTooShort,
        Refusal::OutputTooShort,
        Refusal::NumberTooLarge,
        Refusal::NotARequestStream,
        Refusal::NoFreePlace,
        Refusal::AlreadyInTable,
        Refusal::NotInTable,
        Refusal::FramesNotAgreed,
        Refusal::SendSideClosed,
        Refusal::NoSemantics,
        Refusal::FrameTooLong,
        Refusal::BadTable,
        Refusal::BufferTooLong,
        Refusal::UnknownErrorOrVersion,
        Refusal::AddressesTooShort,
        Refusal::FieldTooLong,
        Refusal::MalformedToWrite,
    ];

    /// The number of the refusal, that of `MRZ_REFUSAL_..` in C.
    #[must_use]
    pub const fn number(self) -> u64 {
        self as u64
    }

    /// The refusal with a number, or `None` for 0 and for a number that no refusal has.
    #[must_use]
    pub fn from_number(number: u64) -> Option<Refusal> {
        Refusal::ALL
            .into_iter()
            .find(|refusal| refusal.number() == number)
    }

    /// The name of the refusal, that of `MRZ_REFUSAL_..` in small letters.
    #[must_use]
    pub const fn name(self) -> &'static str {
        match self {
            Refusal::UnmakeableState => "unmakeable state",
            Refusal::Finished => "finished",
            Refusal::LimitTooLarge => "limit too large",
            Refusal::GatheringTooShort => "gathering too short",
            Refusal::OutputTooShort => "output too short",
            Refusal::NumberTooLarge => "number too large",
            Refusal::NotARequestStream => "not a request stream",
            Refusal::NoFreePlace => "no free place",
            Refusal::AlreadyInTable => "already in table",
            Refusal::NotInTable => "not in table",
            Refusal::FramesNotAgreed => "frames not agreed",
            Refusal::SendSideClosed => "send side closed",
            Refusal::NoSemantics => "no semantics",
            Refusal::FrameTooLong => "frame too long",
            Refusal::BadTable => "bad table",
            Refusal::BufferTooLong => "buffer too long",
            Refusal::UnknownErrorOrVersion => "unknown error or version",
            Refusal::AddressesTooShort => "addresses too short",
            Refusal::FieldTooLong => "field too long",
            Refusal::MalformedToWrite => "malformed to write",
        }
    }

    /// `Ok` where a call was not refused.
    #[inline]
    pub(crate) fn check(number: u64) -> Result<(), Refusal> {
        if number == 0 {
            return Ok(());
        }
        Err(Refusal::from_number(number).expect("the archive gives no other refusal"))
    }
}

impl fmt::Display for Refusal {
    fn fmt(&self, formatter: &mut fmt::Formatter<'_>) -> fmt::Result {
        formatter.write_str(match self {
            Refusal::UnmakeableState => "no opening, feedings and close make such a reader",
            Refusal::Finished => "the reader is finished",
            Refusal::LimitTooLarge => "the datagram limit is above 65,535",
            Refusal::GatheringTooShort => "the gathering buffer is shorter than the limit",
            Refusal::OutputTooShort => "the output is too short",
            Refusal::NumberTooLarge => "a number, a stream limit or a payload is too large",
            Refusal::NotARequestStream => "the ID is none of a request stream",
            Refusal::NoFreePlace => "the table has no free place",
            Refusal::AlreadyInTable => "the stream is in the table already",
            Refusal::NotInTable => "the stream is not in the table",
            Refusal::FramesNotAgreed => "the settings do not agree on frames",
            Refusal::SendSideClosed => "the send side is closed",
            Refusal::NoSemantics => "the request has no semantics for datagrams",
            Refusal::FrameTooLong => "the frame is longer than the path carries",
            Refusal::BadTable => "the table is bad",
            Refusal::BufferTooLong => "the buffer to list is longer than 4,096 bytes",
            Refusal::UnknownErrorOrVersion => "the error or the HTTP version is unknown",
            Refusal::AddressesTooShort => "the address buffer is shorter than 1,024 bytes",
            Refusal::FieldTooLong => "the field's value is longer than 1,024 bytes",
            Refusal::MalformedToWrite => "the entries make a malformed capsule",
        })
    }
}

impl core::error::Error for Refusal {}
