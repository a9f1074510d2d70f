//! The stream table: a row of records, at most 64. The place of a stream is the index of its record.
//!
//! A [`Table`] is over records that it owns, as `Table<[Stream; 8]>` does, or that are lent to it, as to
//! `Table<&mut [Stream]>`; over `&[Stream]` nothing can be opened or closed.
//!
//! A record that is all zero, [`Stream::BLANK`], is a free place; a used one holds a quarter stream ID and flags. Any bits
//! have a reading: those that mean nothing are not looked at in a used record, and stay until its place is freed.
//!
//! A table is bad, [`Refusal::BadTable`], if it has more than 64 records, a record that is neither used nor all zero, a
//! used one with a quarter above 2^60-1 or with no open side, or two used ones with the same quarter. A table that was
//! blank and has been changed by these calls alone is good.
//!
//! Every call checks all records. A host with more than 64 streams, or one that finds its streams itself, keeps a
//! `Table<[Stream; 1]>` in its own object for each, and judges a datagram for a stream that it does not know by an empty
//! table.
//!
//! ```
//! use maruzhenu::table::{FrameTerms, Limits, Side, Stream, StreamId, Table, Verdict};
//!
//! let mut table = Table::<[Stream; 8]>::blank();
//! let id = StreamId(4);
//! let place = table.open(id, true)?;
//! assert_eq!(table.find(id)?, place);
//! assert!(table.get(place).is_some_and(|stream| stream.receive_open() && stream.send_open()));
//! assert_eq!(table.iter().count(), 1);
//!
//! let limits = Limits { stream_limit: Limits::UNKNOWN_STREAMS, datagram_limit: 1_200 };
//! let judged = table.judge(limits, &[0x01, b'h', b'i'])?;
//! assert_eq!(judged.verdict, Verdict::Delivered { quarter: id.quarter()?, place, payload: b"hi" });
//! assert_eq!(judged.error, None);
//!
//! let terms = FrameTerms { our_setting: 1, peer_setting: 1, path_size: 1_200 };
//! let mut out = [0; 16];
//! let written = table.write_frame(id, terms, b"hi", &mut out, 0)?;
//! assert_eq!(out[..written], [0x01, b'h', b'i']);
//!
//! assert!(!table.close(id, Side::Receive)?.freed);
//! assert!(table.close(id, Side::Send)?.freed);
//! assert_eq!(table.streams(), [Stream::BLANK; 8]);
//!
//! // The same over records that stand elsewhere.
//! let mut records = vec![Stream::BLANK; 64];
//! Table::new(&mut records[..]).open(id, false)?;
//! assert_eq!(Table::new(&records[..]).find(id)?, 0);
//! # Ok::<(), maruzhenu::Refusal>(())
//! ```

pub use crate::raw::Stream;
use crate::{count, raw, Error, Refusal};

impl Stream {
    /// The flag of a record that holds a stream.
    pub const USED: u64 = 1;
    /// The flag of an open receive side.
    pub const RECEIVE: u64 = 2;
    /// The flag of an open send side.
    pub const SEND: u64 = 4;
    /// The flag of a request that has semantics for datagrams.
    pub const SEMANTICS: u64 = 8;
    /// A free place.
    pub const BLANK: Stream = Stream {
        quarter: 0,
        flags: 0,
    };

    /// Whether the record holds a stream.
    #[must_use]
    pub const fn is_used(self) -> bool {
        self.flags & Stream::USED != 0
    }

    /// Whether the receive side is open.
    #[must_use]
    pub const fn receive_open(self) -> bool {
        self.flags & Stream::RECEIVE != 0
    }

    /// Whether the send side is open.
    #[must_use]
    pub const fn send_open(self) -> bool {
        self.flags & Stream::SEND != 0
    }

    /// Whether the request has semantics for datagrams.
    #[must_use]
    pub const fn has_semantics(self) -> bool {
        self.flags & Stream::SEMANTICS != 0
    }
}

/// The ID of a stream. A request stream's is divisible by 4 and below 2^62.
///
/// ```
/// use maruzhenu::table::{Quarter, StreamId};
/// use maruzhenu::Refusal;
///
/// assert_eq!(StreamId(8).quarter(), Ok(Quarter(2)));
/// assert_eq!(StreamId(9).quarter(), Err(Refusal::NotARequestStream));
/// assert_eq!(Quarter(2).stream_id(), Some(StreamId(8)));
/// assert_eq!(Quarter(1 << 60).stream_id(), None);
/// ```
#[derive(Clone, Copy, Debug, PartialEq, Eq, PartialOrd, Ord, Hash)]
pub struct StreamId(pub u64);

impl StreamId {
    /// The quarter of a request stream's ID.
    ///
    /// # Errors
    /// [`Refusal::NotARequestStream`].
    pub fn quarter(self) -> Result<Quarter, Refusal> {
        let quarter = raw::quarter_of(self.0);
        Refusal::check(quarter.refusal)?;
        Ok(Quarter(quarter.quarter))
    }
}

/// A quarter stream ID, a fourth of a request stream's ID: what is on the wire.
#[derive(Clone, Copy, Debug, PartialEq, Eq, PartialOrd, Ord, Hash)]
pub struct Quarter(pub u64);

impl Quarter {
    /// The ID of the request stream, or `None` for a number above 2^60-1.
    #[must_use]
    pub fn stream_id(self) -> Option<StreamId> {
        let id = raw::stream_id_of(self.0);
        (id.too_large == 0).then_some(StreamId(id.stream_id))
    }
}

/// A side of a stream.
#[derive(Clone, Copy, Debug, PartialEq, Eq, Hash)]
pub enum Side {
    /// What the peer sends.
    Receive,
    /// What we send.
    Send,
}

/// What a received QUIC DATAGRAM payload is judged by.
#[derive(Clone, Copy, Debug, PartialEq, Eq, Hash)]
pub struct Limits {
    /// How many request streams the peer may have opened, [`Limits::UNKNOWN_STREAMS`] where that is not known.
    pub stream_limit: u64,
    /// The longest datagram that is delivered, at most 65,535.
    pub datagram_limit: usize,
}

impl Limits {
    /// The stream limit where none is known, 2^60. No quarter reaches it.
    pub const UNKNOWN_STREAMS: u64 = 1 << 60;
}

/// What a frame is sent by.
#[derive(Clone, Copy, Debug, PartialEq, Eq, Hash)]
pub struct FrameTerms {
    /// Our SETTINGS_H3_DATAGRAM.
    pub our_setting: u64,
    /// The peer's SETTINGS_H3_DATAGRAM.
    pub peer_setting: u64,
    /// The largest payload of a frame that the path carries.
    pub path_size: usize,
}

impl From<FrameTerms> for raw::FrameTerms {
    fn from(terms: FrameTerms) -> raw::FrameTerms {
        raw::FrameTerms {
            our_setting: terms.our_setting,
            peer_setting: terms.peer_setting,
            path_size: terms.path_size as u64,
        }
    }
}

/// A side that was closed.
#[derive(Clone, Copy, Debug, PartialEq, Eq, Hash)]
pub struct SideClosed {
    /// The place of the stream in the table.
    pub place: usize,
    /// Whether both sides are closed now and the place is free.
    pub freed: bool,
}

/// What becomes of a received QUIC DATAGRAM payload. `quarter` is what it names, `place` the place of the stream in the
/// table.
#[derive(Clone, Copy, Debug, PartialEq, Eq, Hash)]
#[allow(missing_docs)]
pub enum Verdict<'a> {
    /// 1: the quarter stream ID is not whole. A connection error.
    ShortFrame,
    /// 2: the quarter stream ID is above 2^60-1. A connection error.
    QuarterTooLarge { quarter: Quarter },
    /// 3: the quarter stream ID is at or above the stream limit. A connection error.
    BeyondLimit { quarter: Quarter },
    /// 4: dropped, for the stream is not in the table.
    NoStream { quarter: Quarter },
    /// 5: dropped, for the stream's receive side is closed.
    ReceiveClosed { quarter: Quarter, place: usize },
    /// 6: the request has no semantics for datagrams. The stream is aborted.
    NoSemantics { quarter: Quarter, place: usize },
    /// 7: dropped, for the payload is longer than the datagram limit.
    TooLong { quarter: Quarter, place: usize },
    /// 8: delivered; the payload is a part of the frame.
    Delivered {
        quarter: Quarter,
        place: usize,
        payload: &'a [u8],
    },
}

/// The answer to a judging.
#[derive(Clone, Copy, Debug, PartialEq, Eq, Hash)]
#[must_use = "the verdict may be an error of the peer's"]
pub struct Judged<'a> {
    /// What becomes of the payload.
    pub verdict: Verdict<'a>,
    /// The error that it is, if it is one.
    pub error: Option<Error>,
}

/// How many records a table has at most.
pub const MOST_PLACES: usize = 64;

/// The longest header of a frame: a quarter stream ID.
pub const LONGEST_FRAME_HEADER: usize = 8;

/// A stream table over records that are owned or lent.
#[derive(Clone, Copy, Debug, PartialEq, Eq, Hash)]
pub struct Table<S> {
    streams: S,
}

impl<const PLACES: usize> Table<[Stream; PLACES]> {
    /// A table of its own with free places, at most [`MOST_PLACES`].
    #[must_use]
    pub const fn blank() -> Self {
        Table {
            streams: [Stream::BLANK; PLACES],
        }
    }
}

impl<const PLACES: usize> Default for Table<[Stream; PLACES]> {
    fn default() -> Self {
        Table::blank()
    }
}

impl<S> Table<S> {
    /// A table over these records. Every call says whether it is bad.
    #[must_use]
    pub const fn new(streams: S) -> Table<S> {
        Table { streams }
    }

    /// The records.
    #[must_use]
    pub fn into_inner(self) -> S {
        self.streams
    }
}

impl<S: AsRef<[Stream]>> Table<S> {
    /// All records, free ones too.
    #[inline]
    #[must_use]
    pub fn streams(&self) -> &[Stream] {
        self.streams.as_ref()
    }

    /// The place of a stream.
    ///
    /// # Errors
    /// [`Refusal::BadTable`], [`Refusal::NotARequestStream`], [`Refusal::NotInTable`], in this order.
    pub fn find(&self, id: StreamId) -> Result<usize, Refusal> {
        let found = raw::stream_find(self.streams(), id.0);
        Refusal::check(found.refusal)?;
        Ok(found.place as usize)
    }

    /// The record at a place, or `None` where the place is free or there is none.
    #[must_use]
    pub fn get(&self, place: usize) -> Option<&Stream> {
        let stream = self.streams().get(place)?;
        stream.is_used().then_some(stream)
    }

    /// The used records and their places.
    pub fn iter(&self) -> impl Iterator<Item = (usize, &Stream)> + '_ {
        let streams = self.streams().iter().enumerate();
        streams.filter(|(_, stream)| stream.is_used())
    }

    /// Judges a received QUIC DATAGRAM payload.
    ///
    /// # Errors
    /// [`Refusal::BadTable`], [`Refusal::LimitTooLarge`], [`Refusal::NumberTooLarge`] (the stream limit), in this order.
    pub fn judge<'a>(&self, limits: Limits, frame: &'a [u8]) -> Result<Judged<'a>, Refusal> {
        let limits = raw::Limits {
            stream_limit: limits.stream_limit,
            datagram_limit: limits.datagram_limit as u64,
        };
        let judged = raw::judge(self.streams(), limits, frame);
        Refusal::check(judged.refusal)?;
        let (quarter, place) = (Quarter(judged.quarter), judged.place as usize);
        let verdict = match judged.rule {
            1 => Verdict::ShortFrame,
            2 => Verdict::QuarterTooLarge { quarter },
            3 => Verdict::BeyondLimit { quarter },
            4 => Verdict::NoStream { quarter },
            5 => Verdict::ReceiveClosed { quarter, place },
            6 => Verdict::NoSemantics { quarter, place },
            7 => Verdict::TooLong { quarter, place },
            8 => Verdict::Delivered {
                quarter,
                place,
                payload: &frame[judged.start as usize..][..judged.length as usize],
            },
            _ => unreachable!("the archive gives no other rule"),
        };
        Ok(Judged {
            verdict,
            error: Error::answered(judged.error),
        })
    }

    /// Writes the payload as a DATAGRAM capsule for a stream at a place of `out`. Answers how many bytes were written.
    ///
    /// # Errors
    /// [`Refusal::BadTable`], [`Refusal::NotARequestStream`], [`Refusal::NotInTable`], [`Refusal::SendSideClosed`],
    /// [`Refusal::NoSemantics`], [`Refusal::NumberTooLarge`] (the payload), [`Refusal::OutputTooShort`], in this order.
    pub fn write_capsule(
        &self,
        id: StreamId,
        payload: &[u8],
        out: &mut [u8],
        place: usize,
    ) -> Result<usize, Refusal> {
        let streams = self.streams();
        count(raw::write_capsule(
            streams,
            id.0,
            payload,
            out,
            place as u64,
        ))
    }

    /// Writes the payload as a QUIC DATAGRAM payload for a stream at a place of `out`. Answers how many bytes were
    /// written.
    ///
    /// # Errors
    /// [`Refusal::BadTable`], [`Refusal::NotARequestStream`], [`Refusal::NotInTable`], [`Refusal::FramesNotAgreed`],
    /// [`Refusal::SendSideClosed`], [`Refusal::NoSemantics`], [`Refusal::NumberTooLarge`] (the payload),
    /// [`Refusal::FrameTooLong`], [`Refusal::OutputTooShort`], in this order.
    pub fn write_frame(
        &self,
        id: StreamId,
        terms: FrameTerms,
        payload: &[u8],
        out: &mut [u8],
        place: usize,
    ) -> Result<usize, Refusal> {
        let streams = self.streams();
        count(raw::write_frame(
            streams,
            id.0,
            terms.into(),
            payload,
            out,
            place as u64,
        ))
    }

    /// Writes the bytes of such a frame before a payload of so many bytes, at a place of `out`. Answers how many they
    /// are.
    ///
    /// # Errors
    /// As [`Table::write_frame`], for the frame with that payload; the output is for the header alone.
    pub fn write_frame_header(
        &self,
        id: StreamId,
        terms: FrameTerms,
        payload_length: usize,
        out: &mut [u8],
        place: usize,
    ) -> Result<usize, Refusal> {
        let streams = self.streams();
        count(raw::write_frame_header(
            streams,
            id.0,
            terms.into(),
            payload_length as u64,
            out,
            place as u64,
        ))
    }
}

impl<S: AsMut<[Stream]>> Table<S> {
    /// Takes the lowest free place for a request stream, both sides open. Answers the place. Open a stream once its
    /// request's fields are read: whether it has semantics for datagrams must be known.
    ///
    /// # Errors
    /// [`Refusal::BadTable`], [`Refusal::NotARequestStream`], [`Refusal::AlreadyInTable`], [`Refusal::NoFreePlace`], in
    /// this order.
    pub fn open(&mut self, id: StreamId, semantics: bool) -> Result<usize, Refusal> {
        let opened = raw::stream_open(self.streams.as_mut(), id.0, semantics.into());
        Refusal::check(opened.refusal)?;
        Ok(opened.place as usize)
    }

    /// Closes a side of a stream: clears its flag, and frees the place where both sides are closed then.
    ///
    /// # Errors
    /// [`Refusal::BadTable`], [`Refusal::NotARequestStream`], [`Refusal::NotInTable`], in this order.
    pub fn close(&mut self, id: StreamId, side: Side) -> Result<SideClosed, Refusal> {
        let side = match side {
            Side::Receive => 0,
            Side::Send => 1,
        };
        let closed = raw::stream_close(self.streams.as_mut(), id.0, side);
        Refusal::check(closed.refusal)?;
        Ok(SideClosed {
            place: closed.place as usize,
            freed: closed.freed != 0,
        })
    }
}
