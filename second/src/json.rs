//! A reader of JSON texts (RFC 8259): at most 32 objects and arrays deep, strict UTF-8,
//! no lone surrogates. It builds a tree whose strings remember where they stood.

use std::ops::Range;

const DEEPEST: usize = 32;

/// A string: where it stood in the text (between its quotes) and its decoded bytes.
#[derive(Clone, Debug, PartialEq, Eq)]
pub struct Text {
    pub raw: Range<usize>,
    pub decoded: Vec<u8>,
}

pub type Member<'a> = (Text, Value<'a>);

#[derive(Clone, Debug, PartialEq, Eq)]
pub enum Value<'a> {
    Null,
    Boolean,
    Number(&'a [u8]),
    String(Text),
    Array(Vec<Value<'a>>),
    Object(Vec<Member<'a>>),
}

impl<'a> Value<'a> {
    pub fn is_null(&self) -> bool {
        matches!(self, Value::Null)
    }

    pub fn as_text(&self) -> Option<&Text> {
        match self {
            Value::String(text) => Some(text),
            _ => None,
        }
    }

    pub fn as_array(&self) -> Option<&[Value<'a>]> {
        match self {
            Value::Array(items) => Some(items),
            _ => None,
        }
    }

    pub fn as_object(&self) -> Option<&[Member<'a>]> {
        match self {
            Value::Object(members) => Some(members),
            _ => None,
        }
    }

    /// A whole number: digits alone, 0 to 2^63-1.
    pub fn as_whole_number(&self) -> Option<u64> {
        let digits = match self {
            Value::Number(digits) => digits,
            _ => return None,
        };
        if !digits.iter().all(u8::is_ascii_digit) {
            return None;
        }
        let number: u64 = std::str::from_utf8(digits).ok()?.parse().ok()?;
        (number <= i64::MAX as u64).then_some(number)
    }
}

/// Reads a whole JSON text, blanks around it allowed; `None` if it is malformed.
pub fn read(text: &[u8]) -> Option<Value<'_>> {
    let mut reader = Reader { text, at: 0 };
    reader.skip_blanks();
    let value = reader.value(DEEPEST)?;
    reader.skip_blanks();
    (reader.at == text.len()).then_some(value)
}

struct Reader<'a> {
    text: &'a [u8],
    at: usize,
}

impl<'a> Reader<'a> {
    fn peek(&self) -> Option<u8> {
        self.text.get(self.at).copied()
    }

    fn take(&mut self, byte: u8) -> Option<()> {
        (self.peek()? == byte).then(|| self.at += 1)
    }

    fn skip_blanks(&mut self) {
        while matches!(self.peek(), Some(b' ' | b'\t' | b'\n' | b'\r')) {
            self.at += 1;
        }
    }

    /// One value; `depth` is how many more objects and arrays may be opened.
    fn value(&mut self, depth: usize) -> Option<Value<'a>> {
        match self.peek()? {
            b'{' => self.object(depth.checked_sub(1)?),
            b'[' => self.array(depth.checked_sub(1)?),
            b'"' => self.string().map(Value::String),
            b't' => self.word(b"true", Value::Boolean),
            b'f' => self.word(b"false", Value::Boolean),
            b'n' => self.word(b"null", Value::Null),
            _ => self.number(),
        }
    }

    fn word(&mut self, word: &[u8], value: Value<'a>) -> Option<Value<'a>> {
        if !self.text[self.at..].starts_with(word) {
            return None;
        }
        self.at += word.len();
        Some(value)
    }

    fn object(&mut self, depth: usize) -> Option<Value<'a>> {
        self.take(b'{')?;
        let mut members = Vec::new();
        self.skip_blanks();
        if self.take(b'}').is_some() {
            return Some(Value::Object(members));
        }
        loop {
            self.skip_blanks();
            let key = self.string()?;
            self.skip_blanks();
            self.take(b':')?;
            self.skip_blanks();
            let value = self.value(depth)?;
            members.push((key, value));
            self.skip_blanks();
            if self.take(b'}').is_some() {
                return Some(Value::Object(members));
            }
            self.take(b',')?;
        }
    }

    fn array(&mut self, depth: usize) -> Option<Value<'a>> {
        self.take(b'[')?;
        let mut items = Vec::new();
        self.skip_blanks();
        if self.take(b']').is_some() {
            return Some(Value::Array(items));
        }
        loop {
            self.skip_blanks();
            items.push(self.value(depth)?);
            self.skip_blanks();
            if self.take(b']').is_some() {
                return Some(Value::Array(items));
            }
            self.take(b',')?;
        }
    }

    fn digits(&mut self) -> usize {
        let from = self.at;
        while matches!(self.peek(), Some(b'0'..=b'9')) {
            self.at += 1;
        }
        self.at - from
    }

    fn number(&mut self) -> Option<Value<'a>> {
        let from = self.at;
        let _sign = self.take(b'-');
        let zero_first = self.peek() == Some(b'0');
        let whole_digits = self.digits();
        if whole_digits == 0 || (zero_first && whole_digits > 1) {
            return None;
        }
        if self.take(b'.').is_some() && self.digits() == 0 {
            return None;
        }
        if matches!(self.peek(), Some(b'e' | b'E')) {
            self.at += 1;
            if matches!(self.peek(), Some(b'+' | b'-')) {
                self.at += 1;
            }
            if self.digits() == 0 {
                return None;
            }
        }
        Some(Value::Number(&self.text[from..self.at]))
    }

    fn string(&mut self) -> Option<Text> {
        self.take(b'"')?;
        let from = self.at;
        let mut decoded = Vec::new();
        loop {
            match self.peek()? {
                b'"' => break,
                b'\\' => self.escape(&mut decoded)?,
                0..=0x1F => return None,
                byte => {
                    decoded.push(byte);
                    self.at += 1;
                }
            }
        }
        let raw = from..self.at;
        std::str::from_utf8(&self.text[raw.clone()]).ok()?;
        self.take(b'"')?;
        Some(Text { raw, decoded })
    }

    fn escape(&mut self, decoded: &mut Vec<u8>) -> Option<()> {
        self.take(b'\\')?;
        let letter = self.peek()?;
        self.at += 1;
        let byte = match letter {
            b'"' | b'\\' | b'/' => letter,
            b'b' => 0x08,
            b'f' => 0x0C,
            b'n' => 0x0A,
            b'r' => 0x0D,
            b't' => 0x09,
            b'u' => {
                let character = self.escaped_character()?;
                decoded.extend_from_slice(character.encode_utf8(&mut [0; 4]).as_bytes());
                return Some(());
            }
            _ => return None,
        };
        decoded.push(byte);
        Some(())
    }

    /// The character of `\uXXXX`, or of a surrogate pair of two such escapes.
    fn escaped_character(&mut self) -> Option<char> {
        let first = self.four_hex_digits()?;
        if !(0xD800..0xDC00).contains(&first) {
            return char::from_u32(first);
        }
        self.take(b'\\')?;
        self.take(b'u')?;
        let second = self.four_hex_digits()?;
        if !(0xDC00..0xE000).contains(&second) {
            return None;
        }
        char::from_u32(0x10000 + (first - 0xD800) * 0x400 + (second - 0xDC00))
    }

    fn four_hex_digits(&mut self) -> Option<u32> {
        let mut number = 0;
        for _ in 0..4 {
            number = number * 16 + (self.peek()? as char).to_digit(16)?;
            self.at += 1;
        }
        Some(number)
    }
}
