//! The protocol gate: which protocols this reader may read and write.

use std::collections::BTreeSet;

use crate::actions::Protocol;
use crate::refusal::{Refusal, READER_FEATURE, READER_VERSION};

const HIGHEST: u64 = 3;
const READER_FEATURES: [&str; 4] = ["skippedFiles", "extendedMetadata", "footerOffsets", "schemaDeduplication"];
const WRITER_ONLY_FEATURES: [&str; 2] = ["checkpoint", "optimizeWrite"];

fn is_among(feature: &[u8], known: &[&str]) -> bool {
    known.iter().any(|name| name.as_bytes() == feature)
}

pub fn readable(protocol: &Protocol) -> Result<(), Refusal> {
    if protocol.reader > HIGHEST {
        return Err(READER_VERSION);
    }
    if !protocol.reader_features.iter().all(|feature| is_among(feature, &READER_FEATURES)) {
        return Err(READER_FEATURE);
    }
    Ok(())
}

pub fn writable(protocol: &Protocol) -> bool {
    let known = |features: &BTreeSet<Vec<u8>>| {
        features.iter().all(|feature| is_among(feature, &READER_FEATURES) || is_among(feature, &WRITER_ONLY_FEATURES))
    };
    protocol.writer <= HIGHEST && known(&protocol.writer_features)
}
