//! The benchmark: the proved reader and its peer, which reads the same logs over serde_json, on the same bundles in one run.

mod peer;
mod proved;

use std::hint::black_box;
use std::process::ExitCode;
use std::time::Duration;

const ROOM: usize = 6_144;
const QUERY: &[u8] = b"[]";

/// What a reader answers, beside the rows in the room.
#[derive(Clone, Copy, Debug, PartialEq, Eq)]
pub struct Listing {
    pub version: u64,
    pub rows: usize,
    pub reader: u64,
    pub writer: u64,
    pub writable: bool,
}

type Reader = fn(&[u8], &[u8], &mut [u64]) -> Result<Listing, String>;

// Not inlined and with plain names, so that callgrind can be told to count in these alone.
#[no_mangle]
#[inline(never)]
fn bench_proved(bundle: &[u8], query: &[u8], rows: &mut [u64]) -> Result<Listing, String> {
    proved::read_latest(bundle, query, rows)
}

#[no_mangle]
#[inline(never)]
fn bench_peer(bundle: &[u8], query: &[u8], rows: &mut [u64]) -> Result<Listing, String> {
    peer::read_latest(bundle, query, rows)
}

const USAGE: &str = "usage:
  bench answer READER BUNDLE...            print each answer as the program probe does
  bench once READER BUNDLE                 one reading, for callgrind
  bench time READERS ROUNDS MS BUNDLE...   ns of a reading, the least of ROUNDS runs of MS milliseconds each
READER is proved or peer, READERS one of them or both with a comma";

fn reader(name: &str) -> Result<Reader, String> {
    match name {
        "proved" => Ok(bench_proved),
        "peer" => Ok(bench_peer),
        _ => Err(format!("no reader {name}\n{USAGE}")),
    }
}

fn load(path: &str) -> Result<Vec<u8>, String> {
    std::fs::read(path).map_err(|error| format!("{path}: {error}"))
}

fn name(path: &str) -> &str {
    let file = path.rsplit('/').next().unwrap_or(path);
    file.strip_suffix(".bundle").unwrap_or(file)
}

/// The probe's sum of a room: from 7, for each byte b, h = (h * 257 + b) % 4294967291.
fn sum(room: &[u64]) -> u64 {
    room.iter().flat_map(|n| n.to_le_bytes()).fold(7, |h, b| (h * 257 + u64::from(b)) % 4_294_967_291)
}

fn answer(read: Reader, path: &str) -> Result<(), String> {
    let mut room = vec![0xA5A5_A5A5_A5A5_A5A5; ROOM];
    let l = read(&load(path)?, QUERY, &mut room).map_err(|error| format!("{path}: {error}"))?;
    let writable = if l.writable { "yes" } else { "no" };
    println!("{} 0 0 0 {} {} {} {} {writable} {}", name(path), l.version, l.rows, l.reader, l.writer, sum(&room));
    Ok(())
}

#[repr(C)]
struct Timespec {
    seconds: i64,
    nanoseconds: i64,
}

extern "C" {
    fn clock_gettime(clock: i32, time: *mut Timespec) -> i32;
}

/// The time that this thread has had of a processor: other programs on the machine do not count.
fn now() -> Duration {
    const THREAD_CPUTIME: i32 = 3;
    let mut time = Timespec { seconds: 0, nanoseconds: 0 };
    // The clock is there on Linux, and the struct is its own.
    let status = unsafe { clock_gettime(THREAD_CPUTIME, &mut time) };
    assert_eq!(status, 0);
    Duration::new(time.seconds as u64, time.nanoseconds as u32)
}

/// ns of a reading over one run of about `span`.
fn run(read: Reader, bundle: &[u8], room: &mut [u64], span: Duration) -> f64 {
    let begun = now();
    let mut readings = 0u32;
    loop {
        black_box(read(black_box(bundle), QUERY, black_box(room))).expect("answered before");
        readings += 1;
        let elapsed = now() - begun;
        if elapsed >= span {
            return elapsed.as_nanos() as f64 / f64::from(readings);
        }
    }
}

/// The readers take turns, so that what disturbs the machine disturbs both.
fn time(readers: &[Reader], rounds: u32, span: Duration, path: &str) -> Result<(), String> {
    let bundle = load(path)?;
    let mut room = vec![0; ROOM];
    let mut least = vec![f64::INFINITY; readers.len()];
    for _ in 0..rounds {
        for (read, least) in readers.iter().zip(&mut least) {
            *least = least.min(run(*read, &bundle, &mut room, span));
        }
    }
    print!("{} {}", name(path), bundle.len());
    for ns in least {
        print!(" {ns:.0}");
    }
    println!();
    Ok(())
}

fn number(word: &str) -> Result<u32, String> {
    word.parse().map_err(|_| format!("not a number: {word}"))
}

fn command(words: &[&str]) -> Result<(), String> {
    match words {
        ["answer", name, paths @ ..] => {
            let read = reader(name)?;
            paths.iter().try_for_each(|path| answer(read, path))
        }
        ["once", name, path] => {
            let mut room = vec![0; ROOM];
            reader(name)?(&load(path)?, QUERY, &mut room).map(|_| ())
        }
        ["time", names, rounds, ms, paths @ ..] => {
            let readers = names.split(',').map(reader).collect::<Result<Vec<_>, _>>()?;
            let span = Duration::from_millis(number(ms)?.into());
            paths.iter().try_for_each(|path| time(&readers, number(rounds)?, span, path))
        }
        _ => Err(USAGE.to_string()),
    }
}

fn main() -> ExitCode {
    let words: Vec<String> = std::env::args().skip(1).collect();
    let words: Vec<&str> = words.iter().map(String::as_str).collect();
    match command(&words) {
        Ok(()) => ExitCode::SUCCESS,
        Err(error) => {
            eprintln!("bench: {error}");
            ExitCode::FAILURE
        }
    }
}
