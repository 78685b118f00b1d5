//! The proved reader, over the crate kerumpase.

use crate::Listing;

pub fn read_latest(bundle: &[u8], query: &[u8], rows: &mut [u64]) -> Result<Listing, String> {
    let told = kerumpase::lent::read_latest(bundle, query, rows).map_err(|refusal| refusal.to_string())?;
    Ok(Listing { version: told.version, rows: told.rows, reader: told.reader, writer: told.writer, writable: told.writable })
}
