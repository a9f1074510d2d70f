//! Reads varints end to end with quinn-proto.

use quinn_proto::coding::Codec;
use quinn_proto::VarInt;

/// The sum of all numbers of a buffer.
///
/// # Safety
/// `bytes` has to point to `length` bytes.
#[no_mangle]
pub unsafe extern "C" fn quinn_peer_sum(bytes: *const u8, length: usize) -> u64 {
    let mut rest = unsafe { std::slice::from_raw_parts(bytes, length) };
    let mut sum = 0u64;
    while let Ok(number) = VarInt::decode(&mut rest) {
        sum = sum.wrapping_add(number.into_inner());
    }
    sum
}

/// A number and how many bytes it has; size 0 where none is whole.
#[repr(C)]
pub struct Read {
    value: u64,
    size: usize,
}

/// The number at the front of some bytes, for a caller that cannot inline it.
///
/// # Safety
/// `bytes` has to point to `length` bytes.
#[no_mangle]
pub unsafe extern "C" fn quinn_peer_read(bytes: *const u8, length: usize) -> Read {
    let mut rest = unsafe { std::slice::from_raw_parts(bytes, length) };
    match VarInt::decode(&mut rest) {
        Ok(number) => Read { value: number.into_inner(), size: length - rest.len() },
        Err(_) => Read { value: 0, size: 0 },
    }
}
