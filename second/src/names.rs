//! What a file's name says: version file, checkpoint, marker, or nothing to us.

const DIGITS: usize = 20;
const LARGEST: u128 = i64::MAX as u128;

#[derive(Clone, Copy, Debug, PartialEq, Eq)]
pub enum Name {
    Version(u64),
    Checkpoint(u64),
    Marker,
    /// A version file or checkpoint whose digits exceed 2^63-1.
    TooLarge,
    Other,
}

pub fn read(name: &[u8]) -> Name {
    if name == b"_last_checkpoint" {
        return Name::Marker;
    }
    if name.len() < DIGITS || !name[..DIGITS].iter().all(u8::is_ascii_digit) {
        return Name::Other;
    }
    let (digits, ending) = name.split_at(DIGITS);
    let number = digits.iter().fold(0u128, |number, digit| number * 10 + u128::from(digit - b'0'));
    match ending {
        b".json" | b".checkpoint.json" if number > LARGEST => Name::TooLarge,
        b".json" => Name::Version(number as u64),
        b".checkpoint.json" => Name::Checkpoint(number as u64),
        _ => Name::Other,
    }
}
