//! Requests to show a directory (`d`), a raw path (`p`) or the number of records (`n`).

use super::dice::Dice;
use super::lines;
use super::odd_lines::{odd_add, odd_line};
use crate::request::Request;

pub fn directory(dice: &mut Dice) -> Request {
    let heads: [&[u8]; 14] = [
        b"",
        b"/",
        b"manifests",
        b"manifests/",
        b"manifests//",
        b"Manifests/",
        b"/manifests/",
        b"manifest/",
        b"state-v",
        b"state-v/",
        b"state-v00000000000000000042/",
        b"state-",
        b"state-w1/",
        b"m\xC3\xA9/\0",
    ];
    let tails: [&[u8]; 8] = [b"", b"a", b"/", b"a/b", b"a/", b"//", b"manifest-1.avro", b"\xFF/\\"];
    let directories: [&[u8]; 6] = [b"", b"/", b"state-v42", b"state-v42/", b"a/b/c", b"\xFF\0"];
    let path = [dice.pick(&heads), dice.pick(&tails), dice.pick(&tails)].concat();
    Request::new('d', &[], &[&path, dice.pick(&directories)])
}

fn some_line(dice: &mut Dice) -> Vec<u8> {
    let columns = lines::columns(dice);
    let path = dice.pick(&lines::PATHS);
    let mut line = match dice.below(10) {
        0..=2 => {
            let facts = lines::facts(dice, path, &columns);
            lines::add(dice, &facts).into_bytes()
        }
        3..=6 => odd_add(dice, &columns),
        7 => lines::remove(dice, path).into_bytes(),
        _ => odd_line(dice, &columns),
    };
    if dice.one_in(10) {
        let at = dice.pick_number(&[0, 1, line.len() as u64]).min(line.len() as u64);
        line.insert(at as usize, dice.pick_number(&[b'\n'.into(), b'\r'.into(), b' '.into()]) as u8);
    }
    line
}

pub fn path(dice: &mut Dice) -> Request {
    let line = some_line(dice);
    Request::new('p', &[], &[&line])
}

pub fn records(dice: &mut Dice) -> Request {
    let line = some_line(dice);
    Request::new('n', &[], &[&line])
}
