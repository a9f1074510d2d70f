//! Values of the Capsule-Protocol field.

use std::ops::Range;

use independent::Random;

use super::{rows, Outcome};
use crate::call::Bytes;
use crate::{Answer, Call, Comparison, Difference};

/// Values in use, which have each kind of bare item.
const IN_USE: [&str; 15] = [
    "?1",
    "  ?1 ",
    "?1;v=2",
    "?1;   v",
    " ?1;v=1; w=2 ",
    "?1;*a.b-c_d*9",
    r#"?1;a=1;a="x""#,
    "?1;v=-0",
    "?1;v=123456789012345",
    "?1;v=123456789012.999",
    r#"?1;v="\\""#,
    "?1;v=::",
    "?1;v=:=:",
    r#"?1;a=?0;b=:Zg:;c="x\"";d=*t;e=-1.5"#,
    "?1;t=A!#$%&'*+-.^_`|~:/09az;b=:+/=09azAZ:",
];

/// Absent values.
const ABSENT: [&str; 27] = [
    "",
    "?0",
    "?1 ;v",
    "?1;",
    "?1;v =1",
    "?1;v= 1",
    "?1;v=",
    "?1;V=1",
    "?1;v=1234567890123456",
    "?1;v=0000000000000000",
    "?1;v=1234567890123.9",
    "?1;v=1.9999",
    "?1;v=1.",
    r#"?1;v="\a""#,
    r#"?1;v="a"#,
    "?1;v=:Zg",
    "?1;v=:-_:",
    "?1,?1",
    "?1, ?1",
    "?1;v=(1)",
    "(?1)",
    "?10",
    "?1\t",
    "1",
    "?1;v=@1",
    "?1;v=%\"x\"",
    "?1;v=\u{80}",
];

/// Bytes of every class and from both sides of borders between classes.
const SYMBOLS: [u8; 36] = *b"\x1f \t?0129;=azAZ[`{*-._\"\\:/,()'#+~!@\x7f\x80";

/// Fronts of values, each with bytes that can follow there or are close to those that can.
const FRONTS: [(&str, &[u8]); 4] = [
    ("", b" \t?01;a="),
    ("?1", b" ;=a*1?0,\"(\t\x80"),
    ("?1;", b" ;=az*1_-.A?\"\t"),
    ("?1;a=", b" \"\\:=?01-+.aA*;/,\x7f"),
];

/// Long values: the front, what follows it over and over, and the end.
const LONG: [(&str, &str, &str); 13] = [
    ("", " ", "?1"),
    ("?1", " ", ""),
    ("?0", " ", ""),
    ("?1;", " ", "a"),
    ("?1", ";a", ""),
    ("?1;a=1;b=", "?0;b=", "?0"),
    ("?1;a", "a", ""),
    ("?1;a=", "b", ""),
    ("?1;a=\"", "b", "\""),
    ("?1;a=\"", "b", ""),
    ("?1;a=:", "b", ":"),
    ("?1;a=", "1", ""),
    ("", "\u{80}", ""),
];

/// The lengths around that of the longest value that is read.
const LENGTHS: Range<usize> = 1_022..1_027;

fn ask(comparison: &mut Comparison, value: Vec<u8>) -> Result<Answer, Box<Difference>> {
    let value = Bytes(value);
    let (answer, _) = comparison.make(Call::FieldInUse { value })?;
    Ok(answer)
}

/// The value with other bytes in place of some.
fn replaced(value: &[u8], range: Range<usize>, bytes: &[u8]) -> Vec<u8> {
    [&value[..range.start], bytes, &value[range.end..]].concat()
}

/// All that is asked without a seed.
pub fn all(comparison: &mut Comparison) -> Outcome {
    short(comparison)?;
    mutations(comparison)?;
    numbers(comparison)?;
    for length in LENGTHS.chain([2_048, 65_536]) {
        for (front, middle, end) in LONG {
            ask(comparison, long(front, middle, end, length))?;
        }
    }
    Ok(())
}

/// Every value of up to four symbols, and of up to five after each front.
fn short(comparison: &mut Comparison) -> Outcome {
    for value in rows(&SYMBOLS, 4) {
        ask(comparison, value)?;
    }
    for (front, symbols) in FRONTS {
        for tail in rows(symbols, 5) {
            ask(comparison, [front.as_bytes(), &tail].concat())?;
        }
    }
    Ok(())
}

/// Each value above, and what it is with one byte less, and with any one byte changed or added at each place.
fn mutations(comparison: &mut Comparison) -> Outcome {
    let in_use = IN_USE.into_iter().map(|value| (value, true));
    let absent = ABSENT.into_iter().map(|value| (value, false));
    for (value, in_use) in in_use.chain(absent) {
        let value = value.as_bytes();
        let answer = ask(comparison, value.to_vec())?;
        assert_eq!(answer[1], u64::from(in_use), "{value:?}");
        for place in 0..=value.len() {
            for byte in 0..=u8::MAX {
                ask(comparison, replaced(value, place..place, &[byte]))?;
                if place < value.len() {
                    ask(comparison, replaced(value, place..place + 1, &[byte]))?;
                }
            }
            if place < value.len() {
                ask(comparison, replaced(value, place..place + 1, &[]))?;
            }
        }
    }
    Ok(())
}

/// Numbers of up to 17 digits, without a point and with one at each place, as a parameter's value and as the item.
fn numbers(comparison: &mut Comparison) -> Outcome {
    for digit in [b'0', b'9'] {
        for count in 0..=17 {
            let whole = vec![digit; count];
            let points = (0..=count).map(|place| replaced(&whole, place..place, b"."));
            for number in points.chain([whole.clone()]) {
                for front in ["?1;a=", "?1;a=-", "", "-"] {
                    for end in ["", ";b", " "] {
                        let parts = [front.as_bytes(), &number, end.as_bytes()];
                        ask(comparison, parts.concat())?;
                    }
                }
            }
        }
    }
    Ok(())
}

/// A value of this length.
fn long(front: &str, middle: &str, end: &str, length: usize) -> Vec<u8> {
    let room = length - front.len() - end.len();
    let middle = middle.bytes().cycle().take(room);
    front.bytes().chain(middle).chain(end.bytes()).collect()
}

/// Values made from pieces of the grammar, some damaged; ASCII without a form; long values.
pub fn made(random: &mut Random, comparison: &mut Comparison) -> Outcome {
    for _ in 0..200 {
        let mut value = Vec::new();
        match random.between(0, 7) {
            0 => push_some(&mut value, random, &ascii(), 0..40),
            1 => {
                value.extend(b"?1;");
                push_some(&mut value, random, &ascii(), 0..12);
            }
            2 => {
                value.extend(random.one_of(&FRONTS).0.as_bytes());
                push_some(&mut value, random, &SYMBOLS, 0..12);
            }
            _ => push_item(&mut value, random),
        }
        if random.one_in(3) && !value.is_empty() {
            let place = random.size(0, value.len() - 1);
            let byte = match random.between(0, 2) {
                0 => random.number() as u8,
                1 => random.one_of(&SYMBOLS),
                _ => value[place],
            };
            value = match random.between(0, 2) {
                0 => replaced(&value, place..place + 1, &[]),
                1 => replaced(&value, place..place + 1, &[byte]),
                _ => replaced(&value, place..place, &[byte]),
            };
        }
        if random.one_in(10) {
            let length = random.size(LENGTHS.start, LENGTHS.end - 1);
            let filled = random.one_in(2);
            while filled && value.len() + LONGEST_PARAMETER <= length {
                push_parameter(&mut value, random);
            }
            value.resize(length, b' ');
        }
        ask(comparison, value)?;
    }
    Ok(())
}

fn ascii() -> Vec<u8> {
    (0x00..0x80).collect()
}

/// Adds so many of these bytes, any of them.
fn push_some(value: &mut Vec<u8>, random: &mut Random, symbols: &[u8], count: Range<usize>) {
    for _ in 0..random.size(count.start, count.end - 1) {
        value.push(random.one_of(symbols));
    }
}

/// Adds an item, mostly true, with spaces around it.
fn push_item(value: &mut Vec<u8>, random: &mut Random) {
    push_some(value, random, b" ", 0..3);
    match random.one_in(8) {
        true => push_bare_item(value, random),
        false => value.extend(b"?1"),
    }
    for _ in 0..random.between(0, 4) {
        push_parameter(value, random);
    }
    push_some(value, random, b" ", 0..3);
}

/// The most bytes that [`push_parameter`] adds.
const LONGEST_PARAMETER: usize = 29;

fn push_parameter(value: &mut Vec<u8>, random: &mut Random) {
    value.push(b';');
    push_some(value, random, b" ", 0..3);
    push_some(value, random, b"abcxyz*", 1..2);
    push_some(value, random, b"abcxyz019_-.*", 0..6);
    if !random.one_in(4) {
        value.push(b'=');
        push_bare_item(value, random);
    }
}

/// Adds a bare item of any kind. Some numbers have too many digits.
fn push_bare_item(value: &mut Vec<u8>, random: &mut Random) {
    const DIGITS: &[u8] = b"0123456789";
    match random.between(0, 5) {
        0 => {
            push_some(value, random, b"-", 0..2);
            push_some(value, random, DIGITS, 1..17);
        }
        1 => {
            push_some(value, random, b"-", 0..2);
            push_some(value, random, DIGITS, 1..14);
            value.push(b'.');
            push_some(value, random, DIGITS, 1..5);
        }
        2 => {
            value.push(b'"');
            for _ in 0..random.between(0, 6) {
                value.extend(
                    random
                        .one_of(&[r"\\", r#"\""#, " ", "a", "~", ";", "=", ",", ":"])
                        .bytes(),
                );
            }
            value.push(b'"');
        }
        3 => {
            push_some(value, random, b"azAZ*", 1..2);
            push_some(value, random, b"azAZ09!#$%&'*+-.^_`|~:/", 0..8);
        }
        4 => {
            value.push(b':');
            push_some(value, random, b"azAZ09+/=", 0..8);
            value.push(b':');
        }
        _ => value.extend(random.one_of(&["?0", "?1"]).bytes()),
    }
}
