//! Requests to keep manifests (`m`): bounds of every kind, states malformed in every clause.

use super::dice::Dice;
use super::lines;
use super::odd_texts::odd_string_bytes;
use super::queries;
use super::readings::{enough_room, odd_room};
use super::writing::{any_value, array, member, nested, object, quoted, shuffled_object, Members};
use crate::request::Request;

const ROOM: u64 = 256;
const MOST_ROOM: u64 = 1_100;

fn bound(dice: &mut Dice, members: &mut Members, name: &str) {
    match dice.below(12) {
        0 => (),
        1 => members.push(member(name, "null")),
        _ => {
            let value = if dice.one_in(4) { lines::edge_value(dice) } else { lines::value(dice) };
            members.push((name.to_string(), quoted(dice, &value)));
        }
    }
}

fn bounds(dice: &mut Dice) -> String {
    let mut members = Members::new();
    bound(dice, &mut members, "min");
    bound(dice, &mut members, "max");
    if dice.one_in(10) {
        members.push(member("count", "1"));
    }
    shuffled_object(dice, members)
}

fn manifest_fields(dice: &mut Dice, columns: &[String]) -> Members {
    let path = dice.pick(&["manifests/manifest-a.avro", "m.avro", "state-v1/m", "\u{E9}"]);
    let mut fields = vec![("path".to_string(), quoted(dice, path))];
    match dice.below(8) {
        0 => (),
        1 => fields.push(member("partitionBounds", "null")),
        _ => {
            let mut by_column = Members::new();
            for column in columns {
                if !dice.one_in(8) {
                    by_column.push((column.clone(), bounds(dice)));
                }
            }
            fields.push(("partitionBounds".to_string(), object(dice, &by_column)));
        }
    }
    if dice.one_in(4) {
        fields.extend([member("numEntries", 1), member("numEntries", "null")]);
    }
    fields
}

/// A state of these manifests; now and then with other fields around them.
fn state(dice: &mut Dice, manifests: &[String]) -> String {
    let mut fields = vec![("manifests".to_string(), array(manifests))];
    if dice.one_in(3) {
        let value = any_value(dice);
        fields.extend([member("tombstones", value), member("tombstones", "[]")]);
    }
    shuffled_object(dice, fields)
}

fn some_manifests(dice: &mut Dice, columns: &[String]) -> Vec<String> {
    let mut manifests = Vec::new();
    for _ in 0..dice.below(6) {
        let fields = manifest_fields(dice, columns);
        manifests.push(shuffled_object(dice, fields));
    }
    manifests
}

fn request(dice: &mut Dice, query: &[u8], state: &[u8]) -> Request {
    let room = enough_room(dice, ROOM, MOST_ROOM);
    Request::new('m', &[room], &[query, state])
}

pub fn bounded(dice: &mut Dice) -> Request {
    let columns = lines::columns(dice);
    let manifests = some_manifests(dice, &columns);
    let state = state(dice, &manifests);
    let query = if dice.one_in(8) { queries::odd(dice, &columns) } else { queries::on_columns(dice, &columns) };
    request(dice, &query, state.as_bytes())
}

/// 255 to 257 manifests, of which the last may be malformed.
pub fn many(dice: &mut Dice) -> Request {
    let mut manifests = vec!["{\"path\":\"p\"}".to_string(); 255 + dice.below(3)];
    if dice.one_in(4) {
        manifests.pop();
        manifests.push("{\"path\":\"\"}".to_string());
    }
    let state = state(dice, &manifests);
    request(dice, b"[]", state.as_bytes())
}

/// Rooms around the least one.
pub fn odd_rooms(dice: &mut Dice) -> Request {
    let mut request = match dice.below(3) {
        0 => many(dice),
        1 => odd(dice),
        _ => bounded(dice),
    };
    request.numbers[0] = odd_room(dice, ROOM, MOST_ROOM);
    request
}

/// A state at the edge of a clause, on either side of it.
pub fn odd(dice: &mut Dice) -> Request {
    let columns = vec!["year".to_string()];
    let mut manifests = some_manifests(dice, &columns);
    let one = odd_manifest(dice);
    manifests.insert(dice.below(manifests.len() + 1), one);
    let mut written = state(dice, &manifests).into_bytes();
    match dice.below(6) {
        0 => {
            written = dice
                .pick(&[
                    "",
                    "{}",
                    "[]",
                    "null",
                    "{\"manifests\":null}",
                    "{\"manifests\":{}}",
                    "{\"manifests\":[]}",
                    "{\"manifests\":[null]}",
                    "{\"manifests\":[[]]}",
                    "{\"manifests\":[],\"manifests\":[]}",
                    "{\"manifest\\u0073\":[]}",
                    " {\"manifests\" : [ ] }\r\n",
                    "{\"manifests\":[]}x",
                    "{\"manifests\":[],}",
                    "[{\"manifests\":[]}]",
                    "{\"manifests\":[{\"path\":\"a\"},]}",
                    "{\"Manifests\":[]}",
                ])
                .as_bytes()
                .to_vec()
        }
        1 => {
            let at = dice.below(written.len());
            written[at] ^= 1 << dice.below(8);
        }
        2 => {
            let bytes = odd_string_bytes(dice);
            written = [b"{\"manifests\":[{\"path\":\"", &bytes[..], b"\"}]}"].concat();
        }
        _ => (),
    }
    let query = queries::on_columns(dice, &columns);
    request(dice, &query, &written)
}

fn odd_manifest(dice: &mut Dice) -> String {
    let written = dice.pick(&[
        "{\"path\":\"\"}",
        "{}",
        "{\"path\":null}",
        "{\"path\":1}",
        "{\"path\":\"a\",\"path\":\"a\"}",
        "{\"p\\u0061th\":\"a\"}",
        "{\"path\":\"a\",\"partitionBounds\":[]}",
        "{\"path\":\"a\",\"partitionBounds\":\"\"}",
        "{\"path\":\"a\",\"partitionBounds\":{\"year\":#,\"y\\u0065ar\":#}}",
        "{\"path\":\"a\",\"partitionBounds\":{\"x\":{},\"x\":{}}}",
        "{\"path\":\"a\",\"partitionBounds\":null,\"partitionBounds\":{}}",
        "{\"path\":\"a\",\"partitionBounds\":{\"year\":null}}",
        "{\"path\":\"a\",\"partitionBounds\":{\"year\":[]}}",
        "{\"path\":\"a\",\"partitionBounds\":{\"year\":{}}}",
        "{\"path\":\"a\",\"partitionBounds\":{\"x\":{\"min\":1}}}",
        "{\"path\":\"a\",\"partitionBounds\":{\"x\":{\"max\":false}}}",
        "{\"path\":\"a\",\"partitionBounds\":{\"x\":{\"min\":\"1\",\"min\":\"1\"}}}",
        "{\"path\":\"a\",\"partitionBounds\":{\"x\":{\"max\":null,\"m\\u0061x\":null}}}",
        "{\"path\":\"a\",\"partitionBounds\":{\"x\":{\"avg\":1,\"avg\":2}}}",
        "{\"path\":\"a\",\"partitionBounds\":{\"year\":#}}",
        "{\"path\":\"a\",\"deep\":@}",
    ]);
    let depth = 28 + dice.below(3);
    let bounds = bounds(dice);
    written.replace('#', &bounds).replace('@', &nested(dice, depth))
}
