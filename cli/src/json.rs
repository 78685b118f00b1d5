//! JSON as this front writes it, and a small reader of the two places where it shows what a text says: manifests' paths. It reads only what the
//! proved library has found well formed.

/// A JSON string for these bytes; what is not UTF-8 is replaced.
pub fn quoted(bytes: &[u8]) -> String {
    let mut quoted = String::from("\"");
    for c in String::from_utf8_lossy(bytes).chars() {
        match c {
            '"' => quoted.push_str("\\\""),
            '\\' => quoted.push_str("\\\\"),
            c if c < ' ' || ('\u{7f}'..='\u{9f}').contains(&c) => quoted.push_str(&format!("\\u{:04x}", c as u32)),
            c => quoted.push(c),
        }
    }
    quoted.push('"');
    quoted
}

/// An object of one line: members with their values as JSON texts.
pub fn object(members: &[(&str, String)]) -> String {
    let members: Vec<String> = members.iter().map(|(name, value)| format!("\"{name}\":{value}")).collect();
    format!("{{{}}}", members.join(","))
}

/// null where there is nothing.
pub fn or_null<T: ToString>(value: Option<T>) -> String {
    value.map_or_else(|| "null".to_string(), |value| value.to_string())
}

/// The raw text between the quotes of a string, and what it stands for.
#[derive(Clone, Debug, PartialEq, Eq)]
pub struct Text {
    pub raw: Vec<u8>,
    pub decoded: Vec<u8>,
}

/// The `path` of each manifest of a state manifest, if the text is one.
pub fn manifest_paths(state: &[u8]) -> Option<Vec<Text>> {
    let mut at = Reader { text: state, at: 0 };
    let mut paths = Vec::new();
    at.members(|name, at| match name {
        b"manifests" => at.elements(|at| {
            let mut path = None;
            at.members(|name, at| match name {
                b"path" => at.string().map(|text| path = Some(text)),
                _ => at.skip(),
            })?;
            paths.push(path?);
            Some(())
        }),
        _ => at.skip(),
    })?;
    Some(paths)
}

struct Reader<'a> {
    text: &'a [u8],
    at: usize,
}

impl Reader<'_> {
    /// The next byte behind white space, not taken.
    fn next(&mut self) -> Option<u8> {
        while matches!(self.text.get(self.at), Some(b' ' | b'\t' | b'\n' | b'\r')) {
            self.at += 1;
        }
        self.text.get(self.at).copied()
    }

    fn take(&mut self, byte: u8) -> Option<()> {
        (self.next()? == byte).then(|| self.at += 1)
    }

    /// An object; `each` reads a member's value.
    fn members(&mut self, mut each: impl FnMut(&[u8], &mut Self) -> Option<()>) -> Option<()> {
        self.take(b'{')?;
        if self.take(b'}').is_some() {
            return Some(());
        }
        loop {
            let name = self.string()?;
            self.take(b':')?;
            each(&name.decoded, self)?;
            if self.take(b',').is_none() {
                return self.take(b'}');
            }
        }
    }

    fn elements(&mut self, mut each: impl FnMut(&mut Self) -> Option<()>) -> Option<()> {
        self.take(b'[')?;
        if self.take(b']').is_some() {
            return Some(());
        }
        loop {
            each(self)?;
            if self.take(b',').is_none() {
                return self.take(b']');
            }
        }
    }

    /// Any value. The library has found the text at most 32 deep.
    fn skip(&mut self) -> Option<()> {
        match self.next()? {
            b'{' => self.members(|_, at| at.skip()),
            b'[' => self.elements(|at| at.skip()),
            b'"' => self.string().map(|_| ()),
            _ => {
                let begun = self.at;
                while matches!(self.text.get(self.at), Some(b'0'..=b'9' | b'a'..=b'z' | b'E' | b'+' | b'-' | b'.')) {
                    self.at += 1;
                }
                (self.at > begun).then_some(())
            }
        }
    }

    fn string(&mut self) -> Option<Text> {
        self.take(b'"')?;
        let begun = self.at;
        let mut decoded = Vec::new();
        loop {
            let byte = *self.text.get(self.at)?;
            self.at += 1;
            match byte {
                b'"' => return Some(Text { raw: self.text[begun..self.at - 1].to_vec(), decoded }),
                b'\\' => {
                    let c = self.escaped()?;
                    decoded.extend(c.encode_utf8(&mut [0; 4]).bytes());
                }
                byte => decoded.push(byte),
            }
        }
    }

    fn escaped(&mut self) -> Option<char> {
        let letter = *self.text.get(self.at)?;
        self.at += 1;
        match letter {
            b'"' | b'\\' | b'/' => Some(letter as char),
            b'b' => Some('\u{8}'),
            b'f' => Some('\u{c}'),
            b'n' => Some('\n'),
            b'r' => Some('\r'),
            b't' => Some('\t'),
            b'u' => {
                let unit = self.unit()?;
                if !(0xD800..0xDC00).contains(&unit) {
                    return char::from_u32(unit);
                }
                if self.text.get(self.at..self.at + 2)? != b"\\u" {
                    return None;
                }
                self.at += 2;
                let low = self.unit()?.checked_sub(0xDC00)?;
                char::from_u32(0x10000 + ((unit - 0xD800) << 10) + low)
            }
            _ => None,
        }
    }

    fn unit(&mut self) -> Option<u32> {
        let digits = std::str::from_utf8(self.text.get(self.at..self.at + 4)?).ok()?;
        self.at += 4;
        digits.bytes().all(|byte| byte.is_ascii_hexdigit()).then(|| u32::from_str_radix(digits, 16).ok())?
    }
}

#[cfg(test)]
mod tests {
    use super::*;

    #[test]
    fn strings_are_quoted() {
        assert_eq!(quoted(b"a\"b\\c\n\x7f\xff"), r#""a\"b\\c\u000a\u007f"#.to_string() + "\u{FFFD}\"");
        assert_eq!(quoted("é\u{85}".as_bytes()), "\"é\\u0085\"");
    }

    #[test]
    fn paths_of_manifests() {
        let state = br#" {"formatVersion":1,"x":[1.5e+3,{"path":"no"},true,null],
            "manifests" : [ {"path":"manifests\/a\u00e9\ud83d\ude00"} , {"n":{},"\u0070ath":"b","m":[]}],"y":-1} "#;
        let paths = manifest_paths(state).unwrap();
        assert_eq!(paths[0].raw, br"manifests\/a\u00e9\ud83d\ude00");
        assert_eq!(paths[0].decoded, "manifests/aé😀".as_bytes());
        assert_eq!(paths[1].decoded, b"b");
        assert_eq!(paths.len(), 2);
        for wrong in [
            &b""[..],
            b"{",
            b"[]",
            br#"{"manifests":[{}]}"#,
            br#"{"manifests":[{"path":"\ud800"}]}"#,
            br#"{"manifests":[{"path":"a}]}"#,
        ] {
            assert_eq!(manifest_paths(wrong), None);
        }
    }
}
