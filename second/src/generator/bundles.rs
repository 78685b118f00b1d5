//! Bundles against the format: each clause broken, and the largest ones that keep it.

use super::dice::Dice;
use super::foreign;
use super::lines;
use super::logs::{checkpoint_name, version_name, Log};
use crate::bundle::{self, File};

const MOST_BYTES: usize = 1_048_576;

/// Breaks (or just keeps) one clause of the bundle format.
pub fn damaged(dice: &mut Dice, log: &Log) -> Vec<u8> {
    let mut bundle = log.bundle();
    let count = u32::from_le_bytes([bundle[0], bundle[1], bundle[2], bundle[3]]) as usize;
    let entry = 4 + 112 * dice.below(count.max(1));
    match dice.below(17) {
        0 => return dice.pick(&[&b""[..], b"\0", b"\0\0\0", b"\0\0\0\0", b"\0\0\0\0\0", b"\x01\0\0\0"]).to_vec(),
        1 => bundle.truncate(dice.below(bundle.len() + 1)),
        2 => bundle.push(b'\n'),
        3 => bundle[0] = bundle[0].wrapping_add(dice.pick_number(&[1, 255]) as u8),
        4 => bundle[dice.below(3) + 1] = 1 + dice.below(255) as u8,
        5 => bundle[entry] = dice.pick_number(&[0, 0x20, 0x21, 0x7E, 0x7F, 0x80, 0xFF]) as u8,
        6 => bundle[entry + 1 + dice.below(95)] = dice.pick_number(&[0, 0x20, b'a'.into(), 0x7F]) as u8,
        7 => bundle[entry + 95] = b'z',
        8 => {
            let field = entry + 96 + 4 * dice.below(2);
            bundle[field] = bundle[field].wrapping_add(dice.pick_number(&[1, 255]) as u8);
        }
        9 => bundle[entry + 96 + dice.below(8)] = 0xFF,
        10 if count >= 2 => {
            let (one, two) = (4, 4 + 112 * (1 + dice.below(count - 1)));
            for byte in 0..112 {
                bundle.swap(one + byte, two + byte);
            }
        }
        11 if count >= 2 => bundle.copy_within(4..100, 116),
        12 => return shifted_bodies(log),
        13 => return unordered(dice, log),
        14 => bundle[entry..entry + 96].fill(dice.pick_number(&[0, b'n'.into()]) as u8),
        15 => bundle[entry + 104 + dice.below(8)] = 0xFF,
        _ => {
            let at = dice.below(bundle.len());
            bundle[at] ^= 1 << dice.below(8);
        }
    }
    bundle
}

/// Bodies that begin one byte late, behind a byte that belongs to none of them.
fn shifted_bodies(log: &Log) -> Vec<u8> {
    let mut bundle = log.bundle();
    let count = log.files.len();
    for number in 0..count {
        let field = 4 + 112 * number + 96;
        let start = u32::from_le_bytes([bundle[field], bundle[field + 1], bundle[field + 2], bundle[field + 3]]) + 1;
        bundle[field..field + 4].copy_from_slice(&start.to_le_bytes());
    }
    bundle.insert(4 + 112 * count, b'\n');
    bundle
}

/// Files in a chance order: names may not ascend.
fn unordered(dice: &mut Dice, log: &Log) -> Vec<u8> {
    let mut files = log.files.clone();
    dice.shuffle(&mut files);
    bundle::write(&files)
}

/// A log beside so many other files that the bundle has `count` entries.
pub fn with_entries(log: &Log, count: usize) -> Vec<u8> {
    let mut files = log.files.clone();
    for number in files.len()..count {
        files.push(File { name: format!("other{number:04}").into_bytes(), modified: 0, body: Vec::new() });
    }
    files.sort_by(|one, two| one.name.cmp(&two.name));
    bundle::write(&files)
}

/// A log beside one large file, in a bundle of 1,048,576 bytes and `beyond` more.
pub fn largest(log: &Log, beyond: usize) -> Vec<u8> {
    let mut files = log.files.clone();
    files.retain(|file| file.name < b"large".to_vec());
    files.sort_by(|one, two| one.name.cmp(&two.name));
    let used: usize = 4 + files.iter().map(|file| 112 + file.body.len()).sum::<usize>();
    files.push(File { name: b"large".to_vec(), modified: 0, body: vec![b' '; MOST_BYTES + beyond - used - 112] });
    bundle::write(&files)
}

/// What stands behind 1,024 live files.
pub enum Behind {
    /// Another add of one of them, a new one for one that goes, and mergeskips of the last and of none.
    NoMore,
    /// So many new ones.
    More(usize),
    /// A foreign add: new or another of one of them, before or behind a new one, or malformed too.
    Foreign,
}

/// A log in which 1,024 files come to live, then what is behind them; `in_checkpoint` puts all of it
/// into a checkpoint as well.
pub fn full_of_files(dice: &mut Dice, behind: Behind, in_checkpoint: bool) -> Log {
    let mut log = Log::grow(dice, 0);
    let columns = log.states[0].columns();
    let values = |keys: &[String]| {
        let members: Vec<String> = keys.iter().map(|key| format!("{}:null", escaped(key))).collect();
        format!("{{{}}}", members.join(","))
    };
    let foreign = values(&foreign::keys(dice, &columns, &[]));
    let good = values(&columns);
    let add_with = |number: usize, values: &str| {
        let fields = format!("\"modificationTime\":1,\"dataChange\":true,\"partitionValues\":{values}");
        format!("{{\"add\":{{\"path\":\"{number:x}\",\"size\":{number},{fields}}}}}\n")
    };
    let add = |number: usize| add_with(number, &good);
    let all: String = (0..1_024).map(add).collect();
    let more: String = match behind {
        Behind::NoMore => {
            let [last, none] = ["3ff", "none"].map(|path| lines::merge_skip(dice, path, 3, 100));
            format!("{}{{\"remove\":{{\"path\":\"5\"}}}}\n{}{last}\n{none}\n", add(7), add(5_000))
        }
        Behind::More(count) => (0..count).map(|number| add(2_000 + number)).collect(),
        Behind::Foreign => match dice.below(5) {
            0 => add_with(2_000, &foreign),
            1 => add_with(7, &foreign),
            2 => add(2_000) + &add_with(2_001, &foreign),
            3 => add_with(2_000, &foreign) + &add(2_001),
            _ => add_with(2_000, &foreign).replace("true", "1"),
        },
    };
    log.put(dice, version_name(1), all.clone().into_bytes());
    log.put(dice, version_name(2), more.clone().into_bytes());
    let state = log.states[0].clone();
    log.states.extend([state.clone(), state.clone()]);
    if in_checkpoint {
        let mut body = state.checkpoint_lines(dice).join("\n").into_bytes();
        body.push(b'\n');
        body.extend(all.bytes().chain(more.bytes()));
        log.put(dice, checkpoint_name(2), body);
        log.put_marker(2);
    }
    log
}

/// A name in quotes, with no more escapes than it needs.
fn escaped(name: &str) -> String {
    format!("\"{}\"", name.replace('\\', "\\\\").replace('"', "\\\""))
}
