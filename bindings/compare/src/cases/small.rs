//! Varints, listings, settings, messages and errors.

use independent::captures::{self, number_of_any_size, push_number, Form};
use independent::Random;

use super::{any, border, buffer, Outcome};
use crate::call::Bytes;
use crate::{Call, Comparison};

/// Varints read and written.
pub fn varints(random: &mut Random, comparison: &mut Comparison) -> Outcome {
    for _ in 0..60 {
        let mut bytes = Vec::new();
        let number = number_of_any_size(random);
        push_number(&mut bytes, random, Form::Any, number);
        let more = random.size(0, 9);
        bytes.extend(random.bytes(more));
        if random.one_in(3) {
            let length = random.size(0, 9);
            bytes = random.bytes(length);
        }
        bytes.truncate(random.size(0, bytes.len()));
        comparison.make(Call::ReadVarint {
            bytes: Bytes(bytes),
        })?;

        let number = match random.between(0, 2) {
            0 => any(random),
            1 => border(random),
            _ => number_of_any_size(random),
        };
        let length = random.size(0, 20);
        let place = match random.between(0, 5) {
            0 => u64::MAX - random.between(0, 9),
            1 => any(random),
            2 => length as u64 + random.between(0, 2),
            _ => random.between(0, length as u64),
        };
        let out = buffer(random, length);
        comparison.make(Call::WriteVarint { number, out, place })?;
    }
    Ok(())
}

/// Buffers listed.
pub fn listings(random: &mut Random, comparison: &mut Comparison) -> Outcome {
    for _ in 0..20 {
        use captures::Kind;
        let kind = random.one_of(&[
            Kind::Shortest,
            Kind::AnyForm,
            Kind::Cut,
            Kind::Damaged,
            Kind::HugeLength,
            Kind::Types,
            Kind::ZeroLength,
            Kind::Limit,
            Kind::Noise,
        ]);
        let mut bytes = captures::stream(random, kind);
        match random.between(0, 7) {
            0 => {
                let length = random.one_of(&[4_094, 4_095, 4_096, 4_097, 5_000]);
                bytes.resize(length, random.one_of(&[0x00, 0x01, 0x40]));
            }
            1 => bytes.truncate(random.size(0, bytes.len())),
            _ => {}
        }
        comparison.make(Call::List {
            bytes: Bytes(bytes),
        })?;
    }
    Ok(())
}

/// Settings, messages, and every error on every version.
pub fn http(random: &mut Random, comparison: &mut Comparison) -> Outcome {
    for error in 0..=8 {
        for version in 0..=4 {
            comparison.make(Call::Translate { error, version })?;
        }
    }
    for _ in 0..20 {
        let (error, version) = (any(random), any(random));
        comparison.make(Call::Translate { error, version })?;
        let (received, stored) = (any(random), any(random));
        comparison.make(Call::SettingError { received, stored })?;
        let (received, stored) = (random.between(0, 2), random.between(0, 2));
        comparison.make(Call::SettingError { received, stored })?;

        let fields = [0; 3].map(|_: u64| random.one_of(&[0, 0, 0, 0, 1, 2, u64::MAX]));
        comparison.make(Call::RequestMalformed { fields })?;
        for status in [
            random.between(195, 305),
            random.between(99, 103),
            random.between(0, 600),
            65_536 + random.between(190, 310),
            any(random),
        ] {
            comparison.make(Call::ResponseMalformed { status, fields })?;
            let response = random.one_of(&[0, 1, 1, 1, 2, u64::MAX]);
            comparison.make(Call::FieldCounts { response, status })?;
        }
    }
    Ok(())
}
