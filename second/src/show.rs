//! Requests in a form that a person can read.

use std::fmt::Write;

use crate::bundle;
use crate::request::Request;

/// The request: its numbers, and its strings line by line; a bundle file by file.
pub fn show(request: &Request) -> String {
    let shape = request.shape();
    let mut shown = request.letter.to_string();
    for ((name, _), number) in shape.numbers.iter().zip(&request.numbers) {
        write!(shown, "  {name} {number}").expect("writing to a string");
    }
    shown.push('\n');
    for ((name, _), string) in shape.strings.iter().zip(&request.strings) {
        writeln!(shown, "  {name}, {} bytes", string.len()).expect("writing to a string");
        match bundle::read(string) {
            Some(entries) if *name == "bundle" => {
                for (number, entry) in entries.iter().enumerate() {
                    let file_name = String::from_utf8_lossy(entry.name);
                    writeln!(shown, "    entry {number}: {file_name}  at {}  modified {}", entry.start, entry.modified)
                        .expect("writing to a string");
                    show_lines(&mut shown, entry.body);
                }
            }
            _ => show_lines(&mut shown, string),
        }
    }
    shown
}

fn show_lines(shown: &mut String, bytes: &[u8]) {
    for (index, line) in bytes.split_inclusive(|&byte| byte == 0x0A).enumerate() {
        writeln!(shown, "      {}: {}", index + 1, printable(line)).expect("writing to a string");
    }
}

/// Printable ASCII as it is, every other byte as <hex>.
fn printable(bytes: &[u8]) -> String {
    let mut text = String::new();
    for &byte in bytes {
        match byte {
            0x20..=0x7E => text.push(byte as char),
            _ => write!(text, "<{byte:02x}>").expect("writing to a string"),
        }
    }
    text
}
