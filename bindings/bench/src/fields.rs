//! Values of the Capsule-Protocol field read.

use std::hint::black_box;

use independent::http::{self, LONGEST_FIELD_VALUE};
use maruzhenu::raw;

use crate::calls::{row, PLAIN};
use crate::measure::Work;
use crate::Row;

/// A value of the field.
struct Value {
    name: &'static str,
    bytes: Vec<u8>,
    in_use: u64,
}

impl Value {
    fn work(&self) -> String {
        format!("field of {} bytes, {}", self.bytes.len(), self.name)
    }

    /// A side, from a function that answers whether capsules are in use.
    fn side<'a>(&'a self, read: impl Fn(&[u8]) -> u64 + 'a) -> Work<'a> {
        let side = move || read(black_box(&self.bytes));
        assert_eq!(side(), self.in_use, "{}", self.name);
        Box::new(side)
    }
}

/// As many of the repeated bytes as a value has room for between the others.
fn filled(before: &str, repeated: &str, after: &str) -> Vec<u8> {
    let room = LONGEST_FIELD_VALUE - before.len() - after.len();
    let repeated = repeated.repeat(room / repeated.len());
    [before, &repeated, after].concat().into_bytes()
}

fn values() -> Vec<Value> {
    let every_kind = r#";a=?0;b=:Zg:;c="x\"";d=*t;e=-1.5; key"#;
    [
        ("?1", b"?1".to_vec(), 1),
        ("?1;v=2", b"?1;v=2".to_vec(), 1),
        ("parameters ;v=2", filled("?1", ";v=2", ""), 1),
        ("parameters of every kind", filled("?1", every_kind, ""), 1),
        ("one key", filled("?1;", "k", ""), 1),
        ("one string", filled("?1;v=\"", "x", "\""), 1),
        ("one token", filled("?1;v=", "t", ""), 1),
        ("?1 and spaces", filled("?1", " ", ""), 1),
        (
            "parameters ;v=2, last byte wrong",
            filled("?1", ";v=2", ","),
            0,
        ),
    ]
    .map(|(name, bytes, in_use)| Value {
        name,
        bytes,
        in_use,
    })
    .into()
}

pub fn rows() -> Vec<Row> {
    let row = |value: Value| {
        let ours = value.side(|bytes| raw::field_in_use(bytes).in_use);
        let plain = value.side(|bytes| {
            let in_use = http::field_in_use(bytes);
            in_use.expect("it is not refused").into()
        });
        row(value.work(), PLAIN, None, [ours, plain])
    };
    values().into_iter().map(row).collect()
}

/// The function of this archive, aligned as the one that it is measured beside.
#[cfg(base_field)]
fn now(value: &[u8]) -> u64 {
    extern "C" {
        #[link_name = "now_mrz_field_in_use"]
        fn call(value: *const u8, value_len: usize) -> raw::Field;
    }
    unsafe { call(value.as_ptr(), value.len()) }.in_use
}

/// The function of the archive before. This is its declaration before 0.4.0: the answer was a number.
#[cfg(base_field = "number")]
fn before(value: &[u8]) -> u64 {
    extern "C" {
        #[link_name = "base_mrz_field_in_use"]
        fn call(value: *const u8, value_len: usize) -> u64;
    }
    unsafe { call(value.as_ptr(), value.len()) }
}

/// The function of the archive before, declared as since 0.4.0.
#[cfg(base_field = "struct")]
fn before(value: &[u8]) -> u64 {
    extern "C" {
        #[link_name = "base_mrz_field_in_use"]
        fn call(value: *const u8, value_len: usize) -> raw::Field;
    }
    unsafe { call(value.as_ptr(), value.len()) }.in_use
}

/// Beside the archive before. Before 0.4.0 no parameters were read: only the values without them are measured.
#[cfg(base_field)]
pub fn rows_before() -> Vec<Row> {
    let parameters = cfg!(base_field = "struct");
    let measured = |value: &Value| parameters || !value.bytes.contains(&b';');
    let row = |value: Value| {
        let sides = [value.side(now), value.side(before)];
        row(value.work(), crate::base::BEFORE, None, sides)
    };
    values().into_iter().filter(measured).map(row).collect()
}

/// The declaration of its function is not known.
#[cfg(not(base_field))]
pub fn rows_before() -> Vec<Row> {
    Vec::new()
}
