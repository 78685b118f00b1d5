//! Finding the listed fields of an object: unknown fields are passed over, a listed field
//! must not occur twice.

use crate::json::{Member, Value};

/// The member called `name`, if there; refused (`Err`) when it occurs twice.
pub fn find<'v, 'a>(members: &'v [Member<'a>], name: &str) -> Result<Option<&'v Value<'a>>, Twice> {
    let mut found = members.iter().filter(|(key, _)| key.decoded == name.as_bytes());
    match (found.next(), found.next()) {
        (first, None) => Ok(first.map(|(_, value)| value)),
        (_, Some(_)) => Err(Twice),
    }
}

/// A listed field occurs twice.
#[derive(Debug)]
pub struct Twice;

/// The member called `name`, which must be there once.
pub fn need<'v, 'a>(members: &'v [Member<'a>], name: &str) -> Option<&'v Value<'a>> {
    find(members, name).ok()?
}

/// The member called `name` for which missing and null mean the same; `None` if it occurs twice.
pub fn missing_or_null<'v, 'a>(members: &'v [Member<'a>], name: &str) -> Option<Option<&'v Value<'a>>> {
    let value = find(members, name).ok()?;
    Some(value.filter(|value| !value.is_null()))
}

/// True when the keys of an object all differ, by their decoded bytes.
pub fn keys_differ(members: &[Member]) -> bool {
    let mut keys: Vec<&[u8]> = members.iter().map(|(key, _)| &key.decoded[..]).collect();
    keys.sort();
    keys.windows(2).all(|pair| pair[0] != pair[1])
}
