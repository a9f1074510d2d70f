//! The calls that are measured, of an archive: this one's, and that of an earlier revision. Both are called through the
//! same declarations, as include/maruzhenu.h has them now, and by the same machine code.

use maruzhenu::raw::{
    Fed, FrameTerms, Judged, Limits, Listing, Opening, Reader, Stream, Varint, Written,
};
use maruzhenu::Buffers;

/// Hands the declarations to a macro, behind what is given.
macro_rules! declared {
    ($to:ident $($before:tt)*) => {
        $to! {
            $($before)*
            fn mrz_read_varint(bytes: *const u8, bytes_len: usize) -> Varint;
            fn mrz_reader_open(reader: *mut Reader, opening: Opening) -> u64;
            fn mrz_reader_feed(
                reader: *mut Reader, piece: *const u8, piece_len: usize,
                gathering: *mut u8, gathering_len: usize, addresses: *mut u8, addresses_len: usize,
                output: *mut u8, output_len: usize
            ) -> Fed;
            fn mrz_list(bytes: *const u8, bytes_len: usize) -> Listing;
            fn mrz_judge(
                streams: *const Stream, streams_len: usize, limits: Limits,
                frame: *const u8, frame_len: usize
            ) -> Judged;
            fn mrz_write_capsule(
                streams: *const Stream, streams_len: usize, stream_id: u64,
                payload: *const u8, payload_len: usize, out: *mut u8, out_len: usize, place: u64
            ) -> Written;
            fn mrz_write_frame(
                streams: *const Stream, streams_len: usize, stream_id: u64, terms: FrameTerms,
                payload: *const u8, payload_len: usize, out: *mut u8, out_len: usize, place: u64
            ) -> Written;
        }
    };
}

macro_rules! functions {
    ($(fn $name:ident($($parameter:ident: $kind:ty),*) -> $answer:ty;)*) => {
        /// The functions of one archive.
        #[derive(Clone, Copy)]
        pub struct Archive {
            $($name: unsafe extern "C" fn($($kind),*) -> $answer,)*
        }
    };
}
declared!(functions);

/// The archive whose symbols have this before their names.
macro_rules! archive {
    ($prefix:literal $(fn $name:ident($($parameter:ident: $kind:ty),*) -> $answer:ty;)*) => {{
        extern "C" {
            $(
                #[link_name = concat!($prefix, stringify!($name))]
                fn $name($($parameter: $kind),*) -> $answer;
            )*
        }
        Archive { $($name),* }
    }};
}

/// This archive as hosts link it.
pub const OURS: Archive = declared!(archive "");
/// This archive with its functions aligned as those are that it is measured beside.
#[cfg(now)]
pub const NOW: Archive = declared!(archive "now_");
/// This archive and the one before.
#[cfg(base)]
pub const NOW_AND_BEFORE: [Archive; 2] = [NOW, declared!(archive "base_")];
/// None is linked, and nothing is measured beside it.
#[cfg(not(base))]
pub const NOW_AND_BEFORE: [Archive; 2] = [OURS; 2];

/// How the archive of an earlier revision is named.
pub const BEFORE: &str = "the archive before";

/// Where the writers write.
pub const PLACE: u64 = 3;

pub const TERMS: FrameTerms = FrameTerms {
    our_setting: 1,
    peer_setting: 1,
    path_size: 65_535,
};

impl Archive {
    #[inline(always)]
    pub fn read_varint(&self, bytes: &[u8]) -> Varint {
        unsafe { (self.mrz_read_varint)(bytes.as_ptr(), bytes.len()) }
    }

    pub fn open(&self, reader: &mut Reader, opening: Opening) -> u64 {
        unsafe { (self.mrz_reader_open)(reader, opening) }
    }

    #[inline(always)]
    pub fn feed(&self, reader: &mut Reader, piece: &[u8], buffers: &mut Buffers) -> Fed {
        unsafe {
            (self.mrz_reader_feed)(
                reader,
                piece.as_ptr(),
                piece.len(),
                buffers.gathering.as_mut_ptr(),
                buffers.gathering.len(),
                buffers.addresses.as_mut_ptr(),
                buffers.addresses.len(),
                buffers.output.as_mut_ptr(),
                buffers.output.len(),
            )
        }
    }

    #[inline(always)]
    pub fn list(&self, bytes: &[u8]) -> Listing {
        unsafe { (self.mrz_list)(bytes.as_ptr(), bytes.len()) }
    }

    #[inline(always)]
    pub fn judge(&self, streams: &[Stream], limits: Limits, frame: &[u8]) -> Judged {
        let (records, count) = (streams.as_ptr(), streams.len());
        unsafe { (self.mrz_judge)(records, count, limits, frame.as_ptr(), frame.len()) }
    }

    #[inline(always)]
    pub fn write_capsule(
        &self,
        streams: &[Stream],
        id: u64,
        payload: &[u8],
        out: &mut [u8],
    ) -> Written {
        let (records, count) = (streams.as_ptr(), streams.len());
        let (bytes, length) = (payload.as_ptr(), payload.len());
        let (to, room) = (out.as_mut_ptr(), out.len());
        unsafe { (self.mrz_write_capsule)(records, count, id, bytes, length, to, room, PLACE) }
    }

    #[inline(always)]
    pub fn write_frame(
        &self,
        streams: &[Stream],
        id: u64,
        payload: &[u8],
        out: &mut [u8],
    ) -> Written {
        let (records, count) = (streams.as_ptr(), streams.len());
        let (bytes, length) = (payload.as_ptr(), payload.len());
        let (to, room) = (out.as_mut_ptr(), out.len());
        unsafe { (self.mrz_write_frame)(records, count, id, TERMS, bytes, length, to, room, PLACE) }
    }
}
