//! The fuzzer's calls, from bytes that look random.

use compare::compare_bytes;
use independent::Random;

#[test]
fn calls_from_bytes() {
    let mut random = Random::new(0x9297);
    for _ in 0..20_000 {
        let length = random.size(0, 300);
        let mut bytes = random.bytes(length);
        if random.one_in(2) {
            // Small numbers, so that more calls are accepted.
            bytes.iter_mut().for_each(|byte| *byte &= 0x47);
        }
        if let Err(difference) = compare_bytes(&bytes) {
            panic!("{difference}from the bytes {bytes:?}");
        }
    }
}
