//! How far long work is: one line on standard error, written over and over, on a terminal or where --progress asks for it.

use std::io::{self, Write};
use std::time::{Duration, Instant};

const EVERY: Duration = Duration::from_millis(200);

pub struct Progress {
    /// Lines of their own instead of one that is written over.
    lines: bool,
    active: bool,
    last: Instant,
    shown: bool,
}

/// Whether a descriptor of this process, 1 for standard output or 2 for standard error, is a terminal.
pub fn is_terminal(descriptor: u8) -> bool {
    let path = std::fs::read_link(format!("/proc/self/fd/{descriptor}"));
    path.map_or(false, |path| {
        ["/dev/pts", "/dev/console"].iter().any(|folder| path.starts_with(folder))
            || path.to_string_lossy().starts_with("/dev/tty")
    })
}

impl Progress {
    pub fn new(asked: bool) -> Progress {
        let terminal = is_terminal(2);
        Progress { lines: !terminal, active: asked || terminal, last: Instant::now(), shown: false }
    }

    /// Says that `done` of `all` are done, at most five times a second.
    pub fn step(&mut self, done: usize, all: usize, what: &str) {
        if !self.active || (self.last.elapsed() < EVERY && !(self.lines && done == all)) {
            return;
        }
        self.last = Instant::now();
        self.shown = true;
        let said = if self.lines {
            writeln!(io::stderr(), "{done} of {all} {what}")
        } else {
            write!(io::stderr(), "\r{done} of {all} {what} ")
        };
        let _ = said.and_then(|()| io::stderr().flush());
    }

    /// Makes way for a line of standard output, if both go to a terminal.
    pub fn give_way(&mut self) {
        if self.shown && is_terminal(1) {
            self.end();
        }
    }

    /// Takes the line away.
    pub fn end(&mut self) {
        if self.shown && !self.lines {
            let _ = write!(io::stderr(), "\r\x1b[K");
        }
        self.shown = false;
    }
}

impl Drop for Progress {
    fn drop(&mut self) {
        self.end();
    }
}
