//! What libFuzzer calls: the bytes it chose say which calls are made on the verified library and on the independent
//! implementation. A difference is printed, and the program is stopped by a signal.

use compare::compare_bytes;

/// Makes the calls that the bytes say.
///
/// # Safety
/// `data` has to point to `size` bytes, unless `size` is 0.
#[no_mangle]
pub unsafe extern "C" fn LLVMFuzzerTestOneInput(data: *const u8, size: usize) -> i32 {
    let bytes = match size {
        0 => &[],
        _ => unsafe { std::slice::from_raw_parts(data, size) },
    };
    if let Err(difference) = compare_bytes(bytes) {
        eprintln!("{difference}");
        std::process::abort();
    }
    0
}
