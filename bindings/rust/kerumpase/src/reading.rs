//! Listings of a bundle, and what a cleaner may take from it.

use crate::lent::{self, Told, NAMES_ROOM, ROW, ROWS_ROOM};
use crate::{path_of, records_of, Records, Refusal};

/// A row of a listing: where the line that adds the file stands in the bundle, and what it states; then how often merging has skipped the file, and
/// from when on it may be tried again, both 0 where no line says so.
#[derive(Clone, Copy, Debug, PartialEq, Eq)]
pub struct Row {
    pub place: usize,
    pub length: usize,
    pub size: u64,
    pub modification_time: u64,
    pub skip_count: u64,
    pub retry_after: u64,
}

/// The files of a table at a version.
#[derive(Clone, Debug)]
pub struct Listing<'a> {
    pub version: u64,
    pub reader: u64,
    pub writer: u64,
    pub writable: bool,
    pub rows: Vec<Row>,
    bundle: &'a [u8],
}

/// A file of a listing. `path` is raw: as the line writes it between its quotes.
#[derive(Clone, Copy, Debug, PartialEq, Eq)]
pub struct File<'a> {
    pub path: &'a [u8],
    pub size: u64,
    pub modification_time: u64,
    pub num_records: Option<u64>,
    pub skip_count: u64,
    pub retry_after: u64,
}

impl<'a> Listing<'a> {
    /// The files, in the byte order of their decoded paths.
    pub fn files<'b>(&'b self) -> impl ExactSizeIterator<Item = File<'a>> + 'b {
        self.rows.iter().map(move |row| self.file(row))
    }

    fn file(&self, row: &Row) -> File<'a> {
        let line = &self.bundle[row.place..row.place + row.length];
        let num_records = match records_of(line) {
            Records::Number(number) => Some(number),
            Records::Missing | Records::NoAdd => None,
        };
        let &Row { size, modification_time, skip_count, retry_after, .. } = row;
        File { path: path_of(line), size, modification_time, num_records, skip_count, retry_after }
    }
}

fn listing<'a>(bundle: &'a [u8], told: Told, room: &[u64]) -> Listing<'a> {
    let Told { version, rows, reader, writer, writable } = told;
    let row = |n: &[u64]| Row {
        place: n[0] as usize,
        length: n[1] as usize,
        size: n[2],
        modification_time: n[3],
        skip_count: n[4],
        retry_after: n[5],
    };
    Listing { version, reader, writer, writable, rows: room.chunks_exact(ROW).take(rows).map(row).collect(), bundle }
}

/// The files that a query (JSON; `[]` picks all) picks at a version, by the partition columns in force there. Where a condition asks for numbers and a
/// value of any live file is one out of range, it is refused (`ValueOutOfRange`).
pub fn read_at<'a>(bundle: &'a [u8], query: &[u8], version: u64) -> Result<Listing<'a>, Refusal> {
    let mut room = [0; ROWS_ROOM];
    lent::read_at(bundle, query, version, &mut room).map(|told| listing(bundle, told, &room))
}

/// The files that a query picks at the latest version.
pub fn read_latest<'a>(bundle: &'a [u8], query: &[u8]) -> Result<Listing<'a>, Refusal> {
    let mut room = [0; ROWS_ROOM];
    lent::read_latest(bundle, query, &mut room).map(|told| listing(bundle, told, &room))
}

/// The files of the latest version that are due for a second merge at a time (milliseconds): skipped at least once, and not to be tried later.
pub fn read_due(bundle: &[u8], time: u64) -> Result<Listing<'_>, Refusal> {
    let mut room = [0; ROWS_ROOM];
    lent::read_due(bundle, time, &mut room).map(|told| listing(bundle, told, &room))
}

/// The entries of the version files that may go, ascending: those below the marker's checkpoint that were modified more than `retention` before
/// `today`, both in milliseconds, if another start reaches the checkpoint and says the same: files and their skips, protocol, id and partition
/// columns.
pub fn clean(bundle: &[u8], today: u64, retention: u64) -> Result<Vec<usize>, Refusal> {
    let mut names = [0; NAMES_ROOM];
    let (mut one, mut two) = ([0; ROWS_ROOM], [0; ROWS_ROOM]);
    let count = lent::clean(bundle, today, retention, &mut names, &mut one, &mut two)?;
    Ok(names[..count].iter().map(|&entry| entry as usize).collect())
}
