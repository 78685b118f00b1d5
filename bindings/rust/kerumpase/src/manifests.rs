//! State manifests.

use kerumpase_sys::kerumpase_directory;

use crate::lent::{self, KEPT_ROOM};
use crate::Refusal;

/// The numbers, from 0 and ascending, of the manifests of a state manifest (JSON) that a query (JSON) keeps.
pub fn keep(state: &[u8], query: &[u8]) -> Result<Vec<usize>, Refusal> {
    let mut kept = [0; KEPT_ROOM];
    let count = lent::keep(state, query, &mut kept)?;
    Ok(kept[..count].iter().map(|&number| number as usize).collect())
}

/// The directory in which the manifest with this path (decoded) lies, without its closing slash: a part of the path, or the state's directory.
pub fn directory<'a>(path: &'a [u8], state_directory: &'a [u8]) -> &'a [u8] {
    // Each slice's pointer and length are its own.
    let shown =
        unsafe { kerumpase_directory(path.as_ptr(), path.len(), state_directory.as_ptr(), state_directory.len()) };
    let of = if shown.of_path { path } else { state_directory };
    &of[..shown.length]
}
