//! A field's value parsed as an Item of RFC 8941 (Structured Field Values), step by step as its section 4.2 says.
//!
//! Of the parsed values only Booleans are kept; of the others it matters alone whether parsing fails. In byte sequences
//! only the alphabet is checked.

/// A bare item, by its type.
#[derive(Clone, Copy, Debug, PartialEq, Eq)]
pub enum BareItem {
    Integer,
    Decimal,
    String,
    Token,
    ByteSequence,
    Boolean(bool),
}

/// Section 4.2 with the field type "item". The parameters are parsed and left out. `None`: parsing fails.
pub fn parse_item_field(input_bytes: &[u8]) -> Option<BareItem> {
    if !input_bytes.is_ascii() {
        return None;
    }
    let mut input = Input(input_bytes);
    input.discard_spaces();
    let item = input.parse_item()?;
    input.discard_spaces();
    input.first().is_none().then_some(item)
}

/// What of the input string is not consumed yet. `None` of a parsing function: parsing fails.
struct Input<'a>(&'a [u8]);

impl Input<'_> {
    fn first(&self) -> Option<u8> {
        self.0.first().copied()
    }

    fn consume(&mut self) -> Option<u8> {
        let (&first, rest) = self.0.split_first()?;
        self.0 = rest;
        Some(first)
    }

    fn discard_spaces(&mut self) {
        while self.first() == Some(b' ') {
            self.consume();
        }
    }

    /// Section 4.2.3.
    fn parse_item(&mut self) -> Option<BareItem> {
        let bare_item = self.parse_bare_item()?;
        self.parse_parameters()?;
        Some(bare_item)
    }

    /// Section 4.2.3.1.
    fn parse_bare_item(&mut self) -> Option<BareItem> {
        match self.first()? {
            b'-' | b'0'..=b'9' => self.parse_number(),
            b'"' => self.parse_string(),
            b'A'..=b'Z' | b'a'..=b'z' | b'*' => self.parse_token(),
            b':' => self.parse_byte_sequence(),
            b'?' => self.parse_boolean(),
            _ => None,
        }
    }

    /// Section 4.2.3.2. A key that comes again takes the place of the earlier one, which is no failure.
    fn parse_parameters(&mut self) -> Option<()> {
        while self.first() == Some(b';') {
            self.consume();
            self.discard_spaces();
            self.parse_key()?;
            if self.first() == Some(b'=') {
                self.consume();
                self.parse_bare_item()?;
            }
        }
        Some(())
    }

    /// Section 4.2.3.3.
    fn parse_key(&mut self) -> Option<()> {
        if !matches!(self.first()?, b'a'..=b'z' | b'*') {
            return None;
        }
        while let Some(b'a'..=b'z' | b'0'..=b'9' | b'_' | b'-' | b'.' | b'*') = self.first() {
            self.consume();
        }
        Some(())
    }

    /// Section 4.2.4. Of the input number it keeps how many characters it has, and where the point stands.
    fn parse_number(&mut self) -> Option<BareItem> {
        let mut kind = BareItem::Integer;
        let (mut characters, mut up_to_point) = (0, 0);
        if self.first()? == b'-' {
            self.consume();
        }
        if !self.first()?.is_ascii_digit() {
            return None;
        }
        while let Some(character) = self.first() {
            if character.is_ascii_digit() {
                characters += 1;
            } else if kind == BareItem::Integer && character == b'.' {
                if characters > 12 {
                    return None;
                }
                characters += 1;
                up_to_point = characters;
                kind = BareItem::Decimal;
            } else {
                break;
            }
            self.consume();
            if kind == BareItem::Integer && characters > 15 {
                return None;
            }
            if kind == BareItem::Decimal && characters > 16 {
                return None;
            }
        }
        if kind == BareItem::Decimal {
            let after_point = characters - up_to_point;
            if after_point == 0 || after_point > 3 {
                return None;
            }
        }
        Some(kind)
    }

    /// Section 4.2.5.
    fn parse_string(&mut self) -> Option<BareItem> {
        if self.consume()? != b'"' {
            return None;
        }
        loop {
            match self.consume()? {
                b'\\' => match self.consume()? {
                    b'"' | b'\\' => {}
                    _ => return None,
                },
                b'"' => return Some(BareItem::String),
                0x00..=0x1f | 0x7f..=0xff => return None,
                _ => {}
            }
        }
    }

    /// Section 4.2.6.
    fn parse_token(&mut self) -> Option<BareItem> {
        if !matches!(self.first()?, b'A'..=b'Z' | b'a'..=b'z' | b'*') {
            return None;
        }
        while self
            .first()
            .is_some_and(|character| is_tchar(character) || character == b':' || character == b'/')
        {
            self.consume();
        }
        Some(BareItem::Token)
    }

    /// Section 4.2.7, without the decoding of its step 7.
    fn parse_byte_sequence(&mut self) -> Option<BareItem> {
        if self.consume()? != b':' {
            return None;
        }
        let end = self.0.iter().position(|&character| character == b':')?;
        let (content, rest) = self.0.split_at(end);
        self.0 = rest;
        self.consume();
        let all_known = content.iter().all(|character| {
            character.is_ascii_alphanumeric() || matches!(character, b'+' | b'/' | b'=')
        });
        all_known.then_some(BareItem::ByteSequence)
    }

    /// Section 4.2.8.
    fn parse_boolean(&mut self) -> Option<BareItem> {
        if self.consume()? != b'?' {
            return None;
        }
        match self.consume()? {
            b'1' => Some(BareItem::Boolean(true)),
            b'0' => Some(BareItem::Boolean(false)),
            _ => None,
        }
    }
}

/// RFC 7230, section 3.2.6.
fn is_tchar(character: u8) -> bool {
    character.is_ascii_alphanumeric() || b"!#$%&'*+-.^_`|~".contains(&character)
}

#[cfg(test)]
mod tests {
    use super::*;

    /// The bare item that this text is, alone.
    fn parsed(text: &str) -> Option<BareItem> {
        parse_item_field(text.as_bytes())
    }

    /// Each of these alone and as the value of a parameter.
    fn all_are(kind: Option<BareItem>, texts: &[&str]) {
        for text in texts {
            assert_eq!(parsed(text), kind, "{text:?}");
            let parameter = format!("?1;v={text}");
            let expected = kind.map(|_| BareItem::Boolean(true));
            assert_eq!(parsed(&parameter), expected, "{parameter:?}");
        }
    }

    #[test]
    fn integers() {
        let digits = "9".repeat(15);
        let zeros = "0".repeat(15);
        let integer = Some(BareItem::Integer);
        all_are(integer, &["0", "-0", "-1", "00", "12", &digits, &zeros]);
        all_are(integer, &[&format!("-{digits}"), &format!("-{zeros}")]);
        all_are(None, &["-", "--1", "+1", "-a", "1-", "1a", "1_", "0x1"]);
        for digit in ["0", "9"] {
            let digits = digit.repeat(16);
            all_are(None, &[&digits, &format!("-{digits}")]);
        }
    }

    #[test]
    fn decimals() {
        let decimal = Some(BareItem::Decimal);
        all_are(decimal, &["1.5", "-1.5", "0.0", "-0.000", "1.999", "00.10"]);
        all_are(
            None,
            &["1.", "-1.", ".5", "-.5", "1.9999", "1.0000", "1..5"],
        );
        all_are(None, &["1.5.", "1.5.5", "1.-5", "1. 5", "-.", "."]);
        for digit in ["0", "9"] {
            for sign in ["", "-"] {
                let before = format!("{sign}{}", digit.repeat(12));
                all_are(decimal, &[&format!("{before}.1"), &format!("{before}.999")]);
                all_are(None, &[&format!("{before}."), &format!("{before}.1234")]);
                all_are(None, &[&format!("{before}0.1"), &format!("{before}0.")]);
            }
        }
    }

    #[test]
    fn strings() {
        let string = Some(BareItem::String);
        all_are(string, &[r#""""#, r#""a""#, r#"" ~!#[]""#, r#""\\""#]);
        all_are(string, &[r#""\"""#, r#""\\\"""#, r#"";=,?()""#]);
        all_are(None, &[r#"""#, r#""a"#, r#""\"#, r#""\""#, r#""\a""#]);
        all_are(None, &[r#""\ ""#, r#""\\\""#, r#""""""#, r#""a"b"#, "'a'"]);
        for byte in 0..=u8::MAX {
            let text = [b'"', byte, b'"'];
            let plain = matches!(byte, 0x20..=0x7e) && byte != b'"' && byte != b'\\';
            assert_eq!(parse_item_field(&text), string.filter(|_| plain));
        }
    }

    #[test]
    fn tokens() {
        let token = Some(BareItem::Token);
        all_are(token, &["a", "Z", "*", "a9", "*:/", "text/html", "a:b"]);
        all_are(token, &["A!#$%&'*+-.^_`|~:/09azAZ"]);
        all_are(
            None,
            &["_a", "/a", "!", "a\"", "a(", "a,", "a@", "a\\", "a\t"],
        );
        for byte in 0..=u8::MAX {
            // A space ends the item, and a ";" would have to start a parameter.
            let special = b"!#$%&'*+-.^_`|~:/ ".contains(&byte);
            let inside = byte.is_ascii_alphanumeric() || special;
            assert_eq!(parse_item_field(&[b'a', byte]), token.filter(|_| inside));
        }
    }

    #[test]
    fn byte_sequences() {
        let sequence = Some(BareItem::ByteSequence);
        all_are(sequence, &["::", ":Zg:", ":Zg==:", ":=:", ":+/=09azAZ:"]);
        all_are(None, &[":", ":Zg", ":-_:", ":a b:", ":a;:", "Zg:=", ":a:b"]);
        all_are(None, &[":::", "::::", ":\":"]);
    }

    #[test]
    fn booleans() {
        all_are(Some(BareItem::Boolean(true)), &["?1"]);
        for text in ["?0", "?0;a", " ?0 "] {
            assert_eq!(parsed(text), Some(BareItem::Boolean(false)));
        }
        all_are(None, &["?", "?2", "? 1", "??1", "?10", "?01", "?T", "?-1"]);
    }

    #[test]
    fn no_bare_items() {
        all_are(None, &["", "@1", "%\"x\"", "(1)", "()", "=1", "1,2", "a=1"]);
        all_are(None, &["{}", "#", "\u{e9}", "\t1", "1\t", "\n"]);
    }

    #[test]
    fn keys() {
        for key in ["a", "z", "*", "**", "a_-.*9", "*9", "a1z"] {
            assert!(parsed(&format!("1;{key}")).is_some(), "{key:?}");
        }
        for key in [
            "", "A", "1", "_", "-", ".", "aB", "a ", "a!", "a/", "\u{e9}",
        ] {
            let text = format!("1;{key}=1");
            assert!(parsed(&text).is_none(), "{text:?}");
        }
    }

    #[test]
    fn spaces() {
        for text in ["   1", "1  ", " 1 ", "1;a ", "1;  a", "1; a; b=2 "] {
            assert_eq!(parsed(text), Some(BareItem::Integer), "{text:?}");
        }
        for text in [
            " ", "1 ;a", "1;a =1", "1;a= 1", "1;\ta", "1;", "1; ", "1;;a", "1 1",
        ] {
            assert_eq!(parsed(text), None, "{text:?}");
        }
    }
}
