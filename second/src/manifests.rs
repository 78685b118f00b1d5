//! Manifests: which of a state's manifests a query keeps, and in which directory one lies.

use crate::fields::{find, keys_differ, missing_or_null, need};
use crate::json::{self, Member, Value};
use crate::query::{self, Condition};
use crate::refusal::{Refusal, QUERY_MALFORMED, ROOM_TOO_SHORT, STATE_MALFORMED, TOO_MANY_MANIFESTS};

/// The most manifests of a state, and the least room for their numbers.
pub const MOST: usize = 256;

/// The bounds of one column, where both are there.
struct Bounds {
    column: Vec<u8>,
    min: Vec<u8>,
    max: Vec<u8>,
}

type Manifest = Vec<Bounds>;

/// Puts the numbers of the manifests kept into the room, ascending, and gives their count.
pub fn keep(query: &[u8], state: &[u8], room: &mut [u32]) -> Result<u64, Refusal> {
    if room.len() < MOST {
        return Err(ROOM_TOO_SHORT);
    }
    room[..MOST].fill(0);
    let conditions = query::read(query).ok_or(QUERY_MALFORMED)?;
    let manifests = read_state(state).ok_or(STATE_MALFORMED)?;
    if manifests.len() > MOST {
        return Err(TOO_MANY_MANIFESTS);
    }
    let mut count = 0;
    for (number, manifest) in manifests.iter().enumerate() {
        if !is_dropped(manifest, &conditions) {
            room[count] = number as u32;
            count += 1;
        }
    }
    Ok(count as u64)
}

fn is_dropped(manifest: &Manifest, conditions: &[Condition]) -> bool {
    conditions.iter().any(|condition| {
        manifest
            .iter()
            .any(|bounds| bounds.column == condition.column && condition.is_ruled_out_by(&bounds.min, &bounds.max))
    })
}

fn read_state(state: &[u8]) -> Option<Vec<Manifest>> {
    let state = json::read(state)?;
    need(state.as_object()?, "manifests")?.as_array()?.iter().map(read_manifest).collect()
}

fn read_manifest(manifest: &Value) -> Option<Manifest> {
    let members = manifest.as_object()?;
    if need(members, "path")?.as_text()?.decoded.is_empty() {
        return None;
    }
    let columns = match missing_or_null(members, "partitionBounds")? {
        Some(columns) => columns,
        None => return Some(Manifest::new()),
    };
    let columns = columns.as_object()?;
    if !keys_differ(columns) {
        return None;
    }
    let mut manifest = Manifest::new();
    for (column, bounds) in columns {
        let bounds = bounds.as_object()?;
        if let (Some(min), Some(max)) = (bound(bounds, "min")?, bound(bounds, "max")?) {
            manifest.push(Bounds { column: column.decoded.clone(), min, max });
        }
    }
    Some(manifest)
}

/// A bound is a string, null or missing; `None` if it is anything else or there twice.
fn bound(bounds: &[Member], name: &str) -> Option<Option<Vec<u8>>> {
    match find(bounds, name).ok()? {
        None | Some(Value::Null) => Some(None),
        Some(value) => Some(Some(value.as_text()?.decoded.clone())),
    }
}

/// The directory in which a manifest lies, a part of one of the two lent names.
#[derive(Clone, Copy, Debug, PartialEq, Eq)]
pub enum Directory<'a> {
    /// The path stands as it is: the part of it up to its last slash.
    PartOfPath(&'a [u8]),
    /// The manifest lies in the state's directory: that name as lent.
    StateDirectory(&'a [u8]),
}

pub fn directory<'a>(path: &'a [u8], state_directory: &'a [u8]) -> Directory<'a> {
    let stands = path.starts_with(b"manifests/") || path.starts_with(b"state-v");
    match path.iter().rposition(|&byte| byte == b'/') {
        Some(last_slash) if stands => Directory::PartOfPath(&path[..last_slash]),
        _ => Directory::StateDirectory(state_directory),
    }
}
