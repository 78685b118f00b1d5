//! The lines of a file: each ended by 0x0A, the last may lack it; empty ones are numbered
//! but skipped.

/// A line that is not empty: its number, its position in the body and its bytes without 0x0A.
pub struct Line<'a> {
    pub number: u64,
    pub position: usize,
    pub bytes: &'a [u8],
}

pub fn of(body: &[u8]) -> Vec<Line<'_>> {
    let mut lines = Vec::new();
    let mut position = 0;
    for (index, bytes) in body.split(|&byte| byte == 0x0A).enumerate() {
        if !bytes.is_empty() {
            lines.push(Line { number: index as u64 + 1, position, bytes });
        }
        position += bytes.len() + 1;
    }
    lines
}
