//! clean --apply on real folders, stopped after every removal and at chance moments: each version from the checkpoint up, and the latest, answers as
//! before. A second run brings it to its end if another start still reaches the checkpoint, else names nothing until there is a newer one.

mod common;

use std::path::Path;
use std::process::{Command, Stdio};
use std::time::Duration;

use common::{kerumpase, member, tables, Folder, Said, KERUMPASE};

const CLEAN: [&str; 4] = ["--older-than", "3d", "--now", "2024-05-01"];

fn clean(table: &str, more: &[&str]) -> Said {
    kerumpase(&[&["clean", table], &CLEAN[..], more].concat())
}

/// The answers of the versions from the checkpoint up, and of the latest: paths, sizes, times, records.
fn answers(table: &str) -> Vec<String> {
    let info = kerumpase(&["info", table, "--json"]);
    let (checkpoint, latest): (u64, u64) = (
        member(&info.out, "marker").parse().expect("it is marked"),
        member(&info.out, "version").parse().expect("a number"),
    );
    let mut answers = vec![kerumpase(&["files", table, "--json"]).out];
    for version in checkpoint..=latest {
        let said = kerumpase(&["files", table, "--json", "--at", &version.to_string()]);
        assert_eq!(said.status, Some(0), "version {version} of {table}: {said:?}");
        answers.push(said.out);
    }
    answers
}

/// The files that the dry run names.
fn named(table: &str) -> Vec<String> {
    let said = clean(table, &["--json"]);
    assert_eq!(said.status, Some(0), "{said:?}");
    said.out.lines().filter(|line| line.contains("\"file\"")).map(|line| member(line, "file").to_string()).collect()
}

fn copy(table: &str, folder: &Folder) -> String {
    let copied = folder.path("copy");
    let _ = std::fs::remove_dir_all(&copied);
    assert!(Command::new("cp").args(["-a", table, &copied]).status().expect("cp can be run").success());
    copied
}

fn is_there(table: &str, name: &str) -> bool {
    Path::new(table).join("_transaction_log").join(name).exists()
}

#[test]
fn stopped_after_every_removal() {
    let (_generated, tables) = tables(8, 11, false);
    let folder = Folder::new("killed");
    let (mut stops, mut ends) = (0, 0);
    for table in &tables {
        let (before, names) = (answers(table), named(table));
        for removed in 0..=names.len() {
            let table = copy(table, &folder);
            let mut command = Command::new(KERUMPASE);
            command.args(["clean", &table]).args(CLEAN).arg("--apply").env("KERUMPASE_STOP_AFTER", removed.to_string());
            let said = Said::of(command.output().expect("it can be run"));
            if names.is_empty() {
                assert_eq!(said.status, Some(0), "{said:?}");
                continue;
            }
            assert_eq!(said.status, None, "it was stopped by a signal: {said:?}");
            stops += 1;
            for (place, name) in names.iter().enumerate() {
                assert_eq!(is_there(&table, name), place >= removed, "{name} after {removed} removals");
            }
            assert_eq!(answers(&table), before, "after {removed} removals");
            let said = clean(&table, &["--apply"]);
            assert_eq!(said.status, Some(0), "{said:?}");
            let left = names.iter().filter(|name| is_there(&table, name)).count();
            assert!(
                left == 0 || left == names.len() - removed && said.out.contains("after the next checkpoint"),
                "{left} left: {said:?}"
            );
            assert_eq!(answers(&table), before, "after a second run");
            ends += usize::from(checkpoint_at_the_end(&table));
            let said = clean(&table, &["--apply"]);
            assert_eq!(said.status, Some(0), "{said:?}");
            assert_eq!(answers(&table)[0], before[0], "after a newer checkpoint");
            assert!(
                names.iter().all(|name| !is_there(&table, name)) || member(&before[0], "version") == marked(&table),
                "{said:?}"
            );
        }
    }
    assert!(stops > 30 && ends > 10, "only {stops} stops, {ends} newer checkpoints");
}

fn marked(table: &str) -> String {
    member(&kerumpase(&["info", table, "--json"]).out, "marker").to_string()
}

/// Writes a true checkpoint at the latest version, if the marker names an earlier one, and a marker that names it.
fn checkpoint_at_the_end(table: &str) -> bool {
    let packed = Command::new(KERUMPASE).args(["pack", table]).output().expect("it can be run").stdout;
    let listing = kerumpase::read_latest(&packed, b"[]").expect("it can be read");
    if marked(table) == listing.version.to_string() {
        return false;
    }
    // The last lines of their kind: files stand in the order of their versions, and a true checkpoint says what the history says.
    let lines: Vec<&[u8]> =
        kerumpase::bundle::files(&packed).flat_map(|file| file.body.split(|&byte| byte == b'\n')).collect();
    let last = |key: &[u8]| *lines.iter().rev().find(|line| line.starts_with(key)).expect("version 0 has one");
    let (protocol, meta_data) = (last(b"{\"protocol\":"), last(b"{\"metaData\":"));
    let rows = listing.rows.iter().map(|row| &packed[row.place..row.place + row.length]);
    // Behind its add, what is noted of a skipped file.
    let skips: Vec<Vec<u8>> = listing
        .files()
        .filter(|file| (file.skip_count, file.retry_after) != (0, 0))
        .map(|file| {
            let numbers = format!("\",\"skipCount\":{},\"retryAfter\":{}}}}}", file.skip_count, file.retry_after);
            [b"{\"mergeskip\":{\"path\":\"", file.path, numbers.as_bytes()].concat()
        })
        .collect();
    let skips = skips.iter().map(Vec::as_slice);
    let text = [protocol, meta_data].into_iter().chain(rows).chain(skips).collect::<Vec<_>>().join(&b'\n');
    let log = Path::new(table).join("_transaction_log");
    std::fs::write(log.join(format!("{:020}.checkpoint.json", listing.version)), text).expect("it can be written");
    std::fs::write(log.join("_last_checkpoint"), format!("{{\"version\":{}}}", listing.version))
        .expect("it can be written");
    true
}

#[test]
fn any_of_the_named_files_may_be_gone() {
    let (_generated, tables) = tables(12, 12, false);
    let folder = Folder::new("some-gone");
    let mut chance = 7u64;
    for table in &tables {
        let (before, names) = (answers(table), named(table));
        for _ in 0..3 {
            let table = copy(table, &folder);
            for name in &names {
                chance = chance.wrapping_mul(6_364_136_223_846_793_005).wrapping_add(1_442_695_040_888_963_407);
                if chance >> 63 == 1 {
                    std::fs::remove_file(Path::new(&table).join("_transaction_log").join(name))
                        .expect("it can be removed");
                }
            }
            assert_eq!(answers(&table), before);
        }
    }
}

#[test]
fn killed_at_chance_moments() {
    let (_generated, tables) = tables(10, 13, false);
    let folder = Folder::new("chance");
    for (number, table) in tables.iter().enumerate() {
        let before = answers(table);
        for turn in 0..4 {
            let table = copy(table, &folder);
            let mut command = Command::new(KERUMPASE);
            command.args(["clean", &table]).args(CLEAN).arg("--apply").stdout(Stdio::null());
            let mut running = command.spawn().expect("it can be run");
            std::thread::sleep(Duration::from_micros(300 * (number + 10 * turn) as u64));
            let _ = running.kill();
            running.wait().expect("it ends");
            assert_eq!(answers(&table), before);
        }
    }
}

#[test]
fn only_what_is_still_as_it_was_packed_is_removed() {
    let (_generated, tables) = tables(1, 14, false);
    let table = &tables[0];
    let names = named(table);
    assert!(!names.is_empty());
    let before = answers(table);
    // Younger now: it is not named, and the others go.
    let young = Path::new(table).join("_transaction_log").join(&names[0]);
    assert!(Command::new("touch").args(["-d", "2024-04-30"]).arg(&young).status().expect("touch can be run").success());
    assert_eq!(named(table), names[1..]);
    let said = clean(table, &["--apply"]);
    assert_eq!(said.status, Some(0), "{said:?}");
    assert!(young.exists());
    assert!(names[1..].iter().all(|name| !is_there(table, name)));
    assert_eq!(answers(table), before);
    assert!(said.out.ends_with("answers as before\n"), "{said:?}");
}

#[test]
fn nothing_is_removed_without_apply_nor_where_the_times_are_not_the_files_own() {
    let (_generated, tables) = tables(1, 15, false);
    let table = &tables[0];
    let names = named(table);
    assert!(!names.is_empty() && names.iter().all(|name| is_there(table, name)));
    let time = format!("{}=2020-01-01", names[0]);
    let said = clean(table, &["--apply", "--time", &time]);
    assert_eq!((said.status, said.err.contains("own times")), (Some(2), true), "{said:?}");
    std::fs::write(Path::new(table).join("times"), format!("{} 2020-01-01\n", names[0])).expect("it can be written");
    let said = clean(table, &["--apply"]);
    assert_eq!((said.status, said.err.contains("own times")), (Some(2), true));
    assert!(names.iter().all(|name| is_there(table, name)));
    let folder = Folder::new("bundle");
    let bundle = folder.path("bundle");
    assert_eq!(common::shell(&format!("kerumpase pack {table} >{bundle}")).status, Some(0));
    let said = clean(&bundle, &["--apply"]);
    assert_eq!((said.status, said.err.contains("a bundle has none")), (Some(2), true), "{said:?}");
    let said = clean(&bundle, &[]);
    assert_eq!(said.status, Some(0));
}

#[test]
fn a_checkpoint_that_is_not_true_stops_the_cleaner() {
    let (_generated, tables) = tables(1, 16, false);
    let table = &tables[0];
    let log = Path::new(table).join("_transaction_log");
    let info = kerumpase(&["info", table, "--json"]);
    let checkpoint: u64 = member(&info.out, "marker").parse().expect("it is marked");
    let path = log.join(format!("{checkpoint:020}.checkpoint.json"));
    let mut text = std::fs::read_to_string(&path).expect("it can be read");
    text +=
        "{\"add\":{\"path\":\"new\",\"size\":1,\"modificationTime\":1,\"dataChange\":true,\"partitionValues\":{}}}\n";
    std::fs::write(&path, text).expect("it can be written");
    let count = || std::fs::read_dir(&log).expect("it can be listed").count();
    let files = count();
    let said = clean(table, &["--apply"]);
    assert_eq!((said.status, said.out.as_str()), (Some(1), "refused 13 entry 0 line 0\n"), "{said:?}");
    assert!(said.err.contains("Do not clean."));
    assert_eq!(count(), files);
}

#[test]
fn a_writer_may_be_at_work() {
    let (_generated, tables) = tables(6, 17, false);
    for table in &tables {
        let before = answers(table);
        let latest: u64 = member(&before[0], "version").parse().expect("a number");
        let stop = std::sync::atomic::AtomicBool::new(false);
        let said = std::thread::scope(|scope| {
            scope.spawn(|| {
                let log = Path::new(table).join("_transaction_log");
                for version in latest + 1..latest + 200 {
                    if stop.load(std::sync::atomic::Ordering::Relaxed) {
                        break;
                    }
                    let new = log.join("new");
                    std::fs::write(&new, "{\"mergeskip\":{\"path\":\"none\"}}\n").expect("it can be written");
                    std::fs::rename(&new, log.join(format!("{version:020}.json"))).expect("it can be renamed");
                    std::thread::sleep(Duration::from_millis(2));
                }
            });
            let said = clean(table, &["--apply"]);
            stop.store(true, std::sync::atomic::Ordering::Relaxed);
            said
        });
        // It removes what it named, or says that the log changed too often to be packed; never something else.
        assert!(said.status == Some(0) || said.err.contains("try again later"), "{said:?}");
        assert_eq!(&answers(table)[1..before.len()], &before[1..]);
    }
}
