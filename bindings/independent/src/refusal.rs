//! Why a call was refused, by the numbers of the papers.

/// Why a call was refused. A refused call changes nothing.
#[derive(Clone, Copy, Debug, PartialEq, Eq)]
pub enum Refusal {
    NotMakeable = 1,
    Finished = 2,
    LimitTooLarge = 3,
    GatheringBufferTooShort = 4,
    OutputTooShort = 5,
    NumberTooLarge = 6,
    NotARequestStream = 7,
    NoFreePlace = 8,
    AlreadyInTable = 9,
    NotInTable = 10,
    FramesNotAgreed = 11,
    SendSideClosed = 12,
    NoSemantics = 13,
    LongerThanPath = 14,
    BadTable = 15,
    BufferTooLong = 16,
    UnknownErrorOrVersion = 17,
    AddressBufferTooShort = 18,
    FieldTooLong = 19,
    MalformedToWrite = 26,
}

impl Refusal {
    pub fn number(self) -> u64 {
        self as u64
    }
}
