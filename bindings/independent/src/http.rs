//! Settings, messages, the Capsule-Protocol field, and what errors become: RFC 9297 sections 2.1.1, 3.2, 3.4 and 3.3,
//! with the codes of RFC 9113 and RFC 9114. The field's value is parsed in `structured_field.rs`.

use crate::structured_field::{parse_item_field, BareItem};
use crate::Refusal;

/// An error that a peer has made.
#[derive(Clone, Copy, Debug, PartialEq, Eq)]
pub enum Error {
    Truncated = 1,
    NoSemantics = 2,
    ShortFrame = 3,
    QuarterTooLarge = 4,
    BeyondLimit = 5,
    BadSetting = 6,
    Malformed = 7,
}

/// What an error becomes on a version of HTTP.
#[derive(Clone, Copy, Debug, PartialEq, Eq)]
pub enum Action {
    None,
    /// The connection is closed.
    Close {
        code: u64,
    },
    StreamError {
        code: u64,
    },
    ConnectionError {
        code: u64,
    },
}

/// PROTOCOL_ERROR of HTTP/2.
const PROTOCOL_ERROR: u64 = 0x01;
/// H3_MESSAGE_ERROR.
const MESSAGE_ERROR: u64 = 0x010e;
/// H3_DATAGRAM_ERROR, RFC 9297 section 5.2.
const DATAGRAM_ERROR: u64 = 0x33;
/// H3_ID_ERROR.
const ID_ERROR: u64 = 0x0108;
/// H3_SETTINGS_ERROR.
const SETTINGS_ERROR: u64 = 0x0109;

/// What an error, by its number, becomes on version 1, 2 or 3.
pub fn translate(error: u64, version: u64) -> Result<Action, Refusal> {
    let error = match error {
        1 => Error::Truncated,
        2 => Error::NoSemantics,
        3 => Error::ShortFrame,
        4 => Error::QuarterTooLarge,
        5 => Error::BeyondLimit,
        6 => Error::BadSetting,
        7 => Error::Malformed,
        _ => return Err(Refusal::UnknownErrorOrVersion),
    };
    match version {
        1 => Ok(match error {
            Error::Truncated | Error::NoSemantics | Error::Malformed => Action::Close { code: 0 },
            _ => Action::None,
        }),
        2 => Ok(match error {
            Error::Truncated | Error::NoSemantics | Error::Malformed => Action::StreamError {
                code: PROTOCOL_ERROR,
            },
            _ => Action::None,
        }),
        3 => Ok(match error {
            Error::Truncated | Error::Malformed => Action::StreamError {
                code: MESSAGE_ERROR,
            },
            Error::NoSemantics => Action::StreamError {
                code: DATAGRAM_ERROR,
            },
            Error::ShortFrame | Error::QuarterTooLarge => Action::ConnectionError {
                code: DATAGRAM_ERROR,
            },
            Error::BeyondLimit => Action::ConnectionError { code: ID_ERROR },
            Error::BadSetting => Action::ConnectionError {
                code: SETTINGS_ERROR,
            },
        }),
        _ => Err(Refusal::UnknownErrorOrVersion),
    }
}

/// The error in a received SETTINGS_H3_DATAGRAM, beside the value stored for 0-RTT.
pub fn setting_error(received: u64, stored: u64) -> Option<Error> {
    let allowed = received == 0 || received == 1;
    (!allowed || received < stored).then_some(Error::BadSetting)
}

/// Which of the three fields a message carries.
#[derive(Clone, Copy, Debug, PartialEq, Eq)]
pub struct Fields {
    pub content_length: bool,
    pub content_type: bool,
    pub transfer_encoding: bool,
}

impl Fields {
    fn any(self) -> bool {
        self.content_length || self.content_type || self.transfer_encoding
    }
}

/// Whether a request that uses capsules is malformed.
pub fn request_malformed(fields: Fields) -> bool {
    fields.any()
}

/// Whether a response that uses capsules is malformed.
pub fn response_malformed(status: u64, fields: Fields) -> bool {
    (204..=206).contains(&status) || fields.any()
}

/// Whether the Capsule-Protocol field counts on a request (no status) or a response.
pub fn field_counts(status: Option<u64>) -> bool {
    match status {
        None => true,
        Some(status) => status == 101 || (200..=299).contains(&status),
    }
}

/// The longest value of the Capsule-Protocol field that is read.
pub const LONGEST_FIELD_VALUE: usize = 1_024;

/// Whether the value of the Capsule-Protocol field says that capsules are in use: an Item that is the Boolean true.
pub fn field_in_use(value: &[u8]) -> Result<bool, Refusal> {
    if value.len() > LONGEST_FIELD_VALUE {
        return Err(Refusal::FieldTooLong);
    }
    Ok(parse_item_field(value) == Some(BareItem::Boolean(true)))
}

#[cfg(test)]
mod tests {
    use super::*;

    #[test]
    fn every_entry() {
        let close = Action::Close { code: 0 };
        let stream = |code| Action::StreamError { code };
        let connection = |code| Action::ConnectionError { code };
        let table = [
            [close, stream(0x01), stream(0x010e)],
            [close, stream(0x01), stream(0x33)],
            [Action::None, Action::None, connection(0x33)],
            [Action::None, Action::None, connection(0x33)],
            [Action::None, Action::None, connection(0x0108)],
            [Action::None, Action::None, connection(0x0109)],
            [close, stream(0x01), stream(0x010e)],
        ];
        for (error, row) in (1..).zip(table) {
            for (version, action) in (1..).zip(row) {
                assert_eq!(translate(error, version), Ok(action));
            }
        }
        for (error, version) in [(0, 1), (8, 1), (u64::MAX, 3), (1, 0), (7, 4)] {
            let refused = translate(error, version);
            assert_eq!(refused, Err(Refusal::UnknownErrorOrVersion));
        }
    }

    #[test]
    fn settings() {
        for (received, stored) in [(0, 0), (1, 0), (1, 1)] {
            assert_eq!(setting_error(received, stored), None);
        }
        for (received, stored) in [(0, 1), (2, 0), (1, 2), (u64::MAX, 0)] {
            assert_eq!(setting_error(received, stored), Some(Error::BadSetting));
        }
    }

    #[test]
    fn messages() {
        let none = Fields {
            content_length: false,
            content_type: false,
            transfer_encoding: false,
        };
        for status in [0, 101, 200, 203, 207, 299] {
            assert!(!response_malformed(status, none));
        }
        for status in [204, 205, 206] {
            assert!(response_malformed(status, none));
        }
        let typed = Fields {
            content_type: true,
            ..none
        };
        assert!(request_malformed(typed) && response_malformed(200, typed));
        assert!(!request_malformed(none));
        assert!(field_counts(None) && field_counts(Some(101)) && field_counts(Some(299)));
        assert!(!field_counts(Some(100)) && !field_counts(Some(300)) && !field_counts(Some(0)));
    }

    #[test]
    fn field_values() {
        let digits = |count, point: &str| format!("?1;v={}{point}", "1".repeat(count));
        let zeros = |count| format!("?1;v={}", "0".repeat(count));
        for value in [
            "?1",
            " ?1",
            "?1   ",
            "?1;v=2",
            "?1;   v",
            " ?1;v=1; w=2 ",
            "?1;*a.b-c_d*9",
            "?1;a=1;a=\"x\"",
            "?1;v=-0",
            &digits(15, ""),
            &digits(12, ".999"),
            r#"?1;v="\\""#,
            "?1;v=::",
            "?1;v=:=:",
            r#"?1;a=?0;b=:Zg:;c="x\"";d=*t;e=-1.5"#,
        ] {
            assert_eq!(field_in_use(value.as_bytes()), Ok(true), "{value:?}");
        }
        for value in [
            "",
            "  ",
            "?0",
            "?1 ;v",
            "?1;",
            "?1;v =1",
            "?1;v=",
            "?1;V=1",
            &digits(16, ""),
            &zeros(16),
            &digits(13, ".9"),
            "?1;v=1.9999",
            "?1;v=1.",
            r#"?1;v="\a""#,
            "?1;v=:Zg",
            "?1;v=:-_:",
            "?1,?1",
            "?1, ?1",
            "?1;v=(1)",
            "?10",
            "?1\t",
            "\t?1",
            "1",
            "(?1)",
            "?1;v=@1",
            "?1;v=%\"x\"",
            "\u{e9}",
            "?1;v=\"\u{e9}\"",
        ] {
            assert_eq!(field_in_use(value.as_bytes()), Ok(false), "{value:?}");
        }
        for byte in 0x80..=0xff {
            assert_eq!(field_in_use(&[b'?', b'1', byte]), Ok(false));
        }
    }

    #[test]
    fn field_lengths() {
        for (value, spaces, expected) in [
            ("?1", 1_022, Ok(true)),
            ("?1", 1_023, Err(Refusal::FieldTooLong)),
            ("?0", 1_022, Ok(false)),
            ("?0", 1_023, Err(Refusal::FieldTooLong)),
            ("", 1_024, Ok(false)),
            ("", 1_025, Err(Refusal::FieldTooLong)),
        ] {
            let value = format!("{value}{}", " ".repeat(spaces));
            assert_eq!(field_in_use(value.as_bytes()), expected);
        }
        let parameters = format!("?1{}", ";a".repeat(511));
        assert_eq!(field_in_use(parameters.as_bytes()), Ok(true));
        let longer = format!("{parameters}b");
        let refused = Err(Refusal::FieldTooLong);
        assert_eq!(field_in_use(longer.as_bytes()), refused);
        assert_eq!(field_in_use(&[0xff; 1_025]), refused);
    }
}
