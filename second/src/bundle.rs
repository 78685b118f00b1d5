//! The bundle: a count, contents entries of 112 bytes, then the bodies end to end.

const MOST_BYTES: usize = 1_048_576;
const MOST_ENTRIES: usize = 1_024;
const NAME_BYTES: usize = 96;
const ENTRY_BYTES: usize = 112;

/// One file of the bundle; `start` is its body's position in the bundle.
#[derive(Clone, Copy, Debug)]
pub struct Entry<'a> {
    pub name: &'a [u8],
    pub modified: u64,
    pub start: usize,
    pub body: &'a [u8],
}

/// Reads a bundle; `None` if any clause of the format is broken.
pub fn read(bundle: &[u8]) -> Option<Vec<Entry<'_>>> {
    if bundle.len() > MOST_BYTES {
        return None;
    }
    let count = little_endian(bundle.get(..4)?) as usize;
    if count > MOST_ENTRIES {
        return None;
    }
    let mut entries: Vec<Entry> = Vec::new();
    let mut last_name: &[u8] = &[];
    let mut body_start = 4 + ENTRY_BYTES * count;
    for number in 0..count {
        let entry = bundle.get(4 + ENTRY_BYTES * number..4 + ENTRY_BYTES * (number + 1))?;
        let padded_name = &entry[..NAME_BYTES];
        let name = name_of(padded_name)?;
        if padded_name <= last_name {
            return None;
        }
        last_name = padded_name;
        let start = little_endian(&entry[96..100]) as usize;
        let length = little_endian(&entry[100..104]) as usize;
        let modified = little_endian(&entry[104..112]);
        if start != body_start {
            return None;
        }
        let body = bundle.get(start..start.checked_add(length)?)?;
        body_start += length;
        entries.push(Entry { name, modified, start, body });
    }
    (body_start == bundle.len()).then_some(entries)
}

/// The name in its 96 bytes: 1 to 96 bytes in 0x21..0x7E, then zeros.
fn name_of(padded: &[u8]) -> Option<&[u8]> {
    let length = padded.iter().position(|&byte| byte == 0).unwrap_or(NAME_BYTES);
    let (name, padding) = padded.split_at(length);
    let well_formed = !name.is_empty()
        && name.iter().all(|byte| (0x21..=0x7E).contains(byte))
        && padding.iter().all(|&byte| byte == 0);
    well_formed.then_some(name)
}

fn little_endian(bytes: &[u8]) -> u64 {
    bytes.iter().rev().fold(0, |number, &byte| number << 8 | u64::from(byte))
}

/// A file to be put into a bundle.
#[derive(Clone, Debug, PartialEq, Eq)]
pub struct File {
    pub name: Vec<u8>,
    pub modified: u64,
    pub body: Vec<u8>,
}

/// Writes the bundle of these files in the order given; names over 96 bytes are cut.
pub fn write(files: &[File]) -> Vec<u8> {
    let mut bundle = (files.len() as u32).to_le_bytes().to_vec();
    let mut start = 4 + ENTRY_BYTES * files.len();
    for file in files {
        let mut name = file.name.clone();
        name.resize(NAME_BYTES, 0);
        bundle.extend(name);
        bundle.extend((start as u32).to_le_bytes());
        bundle.extend((file.body.len() as u32).to_le_bytes());
        bundle.extend(file.modified.to_le_bytes());
        start += file.body.len();
    }
    for file in files {
        bundle.extend(&file.body);
    }
    bundle
}
