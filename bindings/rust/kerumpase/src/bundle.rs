//! Bundles: a log as one byte string, contents first, then bodies. This module writes them and shows what is in them; whether bytes are a
//! bundle is judged by the library (refusal 2).

use std::fmt;

/// The most bytes and files of a bundle, and the most bytes of a file's name.
pub use kerumpase_sys::{BUNDLE_MOST as MOST_BYTES, ENTRIES_MOST as MOST_FILES, NAME_MOST as MOST_NAME};

const COUNT: usize = 4;
const ENTRY: usize = 112;

/// A file of a bundle: its name, the time of its last change in milliseconds, its bytes.
#[derive(Clone, Copy, Debug, PartialEq, Eq)]
pub struct File<'a> {
    pub name: &'a [u8],
    pub time: u64,
    pub body: &'a [u8],
}

/// What the name of a file says.
#[derive(Clone, Copy, Debug, PartialEq, Eq, PartialOrd, Ord)]
pub enum Name {
    Version(u64),
    Checkpoint(u64),
    /// Shaped as a version file or a checkpoint, with a number above 2^63-1: refusal 3.
    TooLarge,
    Marker,
    /// Ignored by every entry.
    Other,
}

/// The largest version.
const MOST_VERSION: u64 = i64::MAX as u64;
const DIGITS: usize = 20;

impl Name {
    /// Twenty decimal digits, whatever they begin with, then `.json` or `.checkpoint.json`; or `_last_checkpoint`.
    pub fn of(name: &[u8]) -> Name {
        if name == b"_last_checkpoint" {
            return Name::Marker;
        }
        if name.len() < DIGITS || !name[..DIGITS].iter().all(u8::is_ascii_digit) {
            return Name::Other;
        }
        let number = name[..DIGITS].iter().fold(0u128, |sum, digit| sum * 10 + u128::from(digit - b'0'));
        let version = u64::try_from(number).ok().filter(|&version| version <= MOST_VERSION);
        match (&name[DIGITS..], version) {
            (b".json", Some(version)) => Name::Version(version),
            (b".checkpoint.json", Some(version)) => Name::Checkpoint(version),
            (b".json", None) | (b".checkpoint.json", None) => Name::TooLarge,
            _ => Name::Other,
        }
    }
}

/// Why files do not make a bundle.
#[derive(Clone, Debug, PartialEq, Eq)]
pub enum DoesNotFit {
    Name(Vec<u8>),
    Twice(Vec<u8>),
    Files(usize),
    Bytes(usize),
}

impl fmt::Display for DoesNotFit {
    fn fmt(&self, f: &mut fmt::Formatter) -> fmt::Result {
        let shown = |name: &[u8]| String::from_utf8_lossy(name).escape_debug().to_string();
        match self {
            DoesNotFit::Name(name) => write!(
                f,
                "the name \"{}\" does not fit: a name has 1 to {MOST_NAME} bytes, each in 0x21 to 0x7E",
                shown(name)
            ),
            DoesNotFit::Twice(name) => write!(f, "the name \"{}\" stands twice", shown(name)),
            DoesNotFit::Files(files) => write!(f, "there are {files} files: a bundle has at most {MOST_FILES}"),
            DoesNotFit::Bytes(bytes) => write!(f, "it has {bytes} bytes: a bundle has at most {MOST_BYTES}"),
        }
    }
}

impl std::error::Error for DoesNotFit {}

/// The bundle of these files, which may be in any order.
pub fn write(files: &[File]) -> Result<Vec<u8>, DoesNotFit> {
    let mut files = files.to_vec();
    files.sort_by(|one, two| one.name.cmp(two.name));
    let fits =
        |name: &[u8]| (1..=MOST_NAME).contains(&name.len()) && name.iter().all(|byte| (0x21..=0x7E).contains(byte));
    if let Some(file) = files.iter().find(|file| !fits(file.name)) {
        return Err(DoesNotFit::Name(file.name.to_vec()));
    }
    if let Some(pair) = files.windows(2).find(|pair| pair[0].name == pair[1].name) {
        return Err(DoesNotFit::Twice(pair[0].name.to_vec()));
    }
    if files.len() > MOST_FILES {
        return Err(DoesNotFit::Files(files.len()));
    }
    let mut at = COUNT + ENTRY * files.len();
    let bytes = at + files.iter().map(|file| file.body.len()).sum::<usize>();
    if bytes > MOST_BYTES {
        return Err(DoesNotFit::Bytes(bytes));
    }
    let mut written = Vec::with_capacity(bytes);
    written.extend((files.len() as u32).to_le_bytes());
    for file in &files {
        written.extend(file.name);
        written.resize(written.len() + MOST_NAME - file.name.len(), 0);
        written.extend((at as u32).to_le_bytes());
        written.extend((file.body.len() as u32).to_le_bytes());
        written.extend(file.time.to_le_bytes());
        at += file.body.len();
    }
    for file in &files {
        written.extend(file.body);
    }
    Ok(written)
}

/// The file with this number, from 0, as the contents of the bytes say; nothing where they hold no such entry.
pub fn file(bundle: &[u8], entry: usize) -> Option<File<'_>> {
    let number = |at: usize| Some(u32::from_le_bytes(bundle.get(at..at.checked_add(4)?)?.try_into().ok()?) as usize);
    if entry >= number(0)? {
        return None;
    }
    let at = COUNT + ENTRY * entry;
    let name = bundle.get(at..at + MOST_NAME)?;
    let name = &name[..name.iter().position(|&byte| byte == 0).unwrap_or(MOST_NAME)];
    let (start, length) = (number(at + 96)?, number(at + 100)?);
    let time = u64::from_le_bytes(bundle.get(at + 104..at + ENTRY)?.try_into().ok()?);
    Some(File { name, time, body: bundle.get(start..start.checked_add(length)?)? })
}

/// The files of a bundle, in the order of their entries.
pub fn files(bundle: &[u8]) -> impl Iterator<Item = File<'_>> {
    (0..).map_while(move |entry| file(bundle, entry))
}

/// A line of a body, from 1, without its line feed.
pub fn line(body: &[u8], number: usize) -> Option<&[u8]> {
    body.split(|&byte| byte == b'\n').nth(number.checked_sub(1)?)
}

#[cfg(test)]
mod tests {
    use super::*;

    #[test]
    fn names_are_decimal_whatever_they_begin_with() {
        assert_eq!(Name::of(b"00000000000000000010.json"), Name::Version(10));
        assert_eq!(Name::of(b"00000000000000000008.checkpoint.json"), Name::Checkpoint(8));
        assert_eq!(Name::of(b"09223372036854775807.json"), Name::Version(MOST_VERSION));
        assert_eq!(Name::of(b"09223372036854775808.json"), Name::TooLarge);
        assert_eq!(Name::of(b"99999999999999999999.checkpoint.json"), Name::TooLarge);
        assert_eq!(Name::of(b"_last_checkpoint"), Name::Marker);
        for other in [
            "",
            "0.json",
            "00000000000000000010.JSON",
            "00000000000000000010.json2",
            "0000000000000000001a.json",
            "_last_checkpoint2",
        ] {
            assert_eq!(Name::of(other.as_bytes()), Name::Other, "{other}");
        }
    }

    #[test]
    fn what_is_written_is_shown() {
        let given = [File { name: b"b", time: u64::MAX, body: b"two" }, File { name: b"a", time: 1, body: b"" }];
        let bundle = write(&given).unwrap();
        assert_eq!(bundle.len(), 4 + 2 * 112 + 3);
        assert_eq!(files(&bundle).collect::<Vec<_>>(), [given[1], given[0]]);
        assert_eq!(write(&[]).unwrap(), [0; 4]);
        assert_eq!(file(b"\xff\xff\xff\xff", 0), None);
        assert_eq!(file(&bundle[..100], 0), None);
        assert_eq!((line(b"a\n\nb", 3), line(b"a", 0), line(b"a", 2)), (Some(&b"b"[..]), None, None));
    }

    #[test]
    fn what_does_not_fit_is_said() {
        let long = [b'n'; 97];
        for name in [&b""[..], b"a b", b"\x7f", &long] {
            assert_eq!(write(&[File { name, time: 0, body: b"" }]), Err(DoesNotFit::Name(name.to_vec())));
        }
        let one = File { name: b"a", time: 0, body: b"" };
        assert_eq!(write(&[one, one]), Err(DoesNotFit::Twice(b"a".to_vec())));
        let names: Vec<String> = (0..1_025).map(|number| format!("{number:04}")).collect();
        let many: Vec<File> = names.iter().map(|name| File { name: name.as_bytes(), time: 0, body: b"" }).collect();
        assert!(write(&many[..1_024]).is_ok());
        assert_eq!(write(&many), Err(DoesNotFit::Files(1_025)));
        let body = vec![0; MOST_BYTES];
        assert_eq!(write(&[File { body: &body[116..], ..one }]).unwrap().len(), MOST_BYTES);
        assert_eq!(write(&[File { body: &body[115..], ..one }]), Err(DoesNotFit::Bytes(MOST_BYTES + 1)));
    }
}
