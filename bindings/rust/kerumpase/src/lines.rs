//! What is shown of one line of a log.

use kerumpase_sys::{kerumpase_path_of, kerumpase_records_of, MISSING, STATED};

/// The number of records that an add states.
#[derive(Clone, Copy, Debug, PartialEq, Eq)]
pub enum Records {
    /// The line is no well-formed add.
    NoAdd,
    /// numRecords is missing or null.
    Missing,
    Number(u64),
}

/// The raw path of an add, between its quotes; empty if the line is no well-formed add.
pub fn path_of(line: &[u8]) -> &[u8] {
    // The slice's pointer and length are its own.
    let place = unsafe { kerumpase_path_of(line.as_ptr(), line.len()) };
    &line[place.start..place.start + place.length]
}

/// The number of records that an add states.
pub fn records_of(line: &[u8]) -> Records {
    // As above.
    let records = unsafe { kerumpase_records_of(line.as_ptr(), line.len()) };
    match records.stated {
        STATED => Records::Number(records.number),
        MISSING => Records::Missing,
        _ => Records::NoAdd,
    }
}
