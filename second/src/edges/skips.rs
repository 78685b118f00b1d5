//! C-15: mergeskip lines, the six numbers of a row, and what is due at a time.

use super::*;
use crate::actions::{self, Action, Skip};
use crate::cleaner::{self, Rooms, MOST_NAMED};

fn skip(path: &str, more: &str) -> String {
    format!("{{\"mergeskip\":{{\"path\":\"{path}\"{more}}}}}\n")
}

/// Skip count and retry time that a mergeskip with these fields beside its path gives.
fn said(more: &str) -> Option<(u64, u64)> {
    match actions::read(skip("a", more).trim_end().as_bytes()) {
        Some(Action::MergeSkip(path, Skip { count, retry_after })) if path == b"a" => Some((count, retry_after)),
        _ => None,
    }
}

/// The rows of the latest version: size, skip count and retry time of each.
fn rows(files: &[(String, String)]) -> Vec<[u64; 3]> {
    let mut room = vec![9; TABLE];
    let count = reading::read(Ask::Latest, b"[]", &bundle_of(files), &mut room).unwrap().rows as usize;
    room.chunks_exact(ROW).take(count).map(|row| [row[2], row[4], row[5]]).collect()
}

/// The sizes of the files that are due, or the refusal number.
fn due(time: u64, files: &[(String, String)]) -> Result<Vec<u64>, u64> {
    let mut room = vec![9; TABLE + 1];
    let answer = reading::read_due(time, &bundle_of(files), &mut room);
    let count = answer.map_or(0, |reading| reading.rows as usize);
    assert!(room[ROW * count..TABLE].iter().all(|&number| number == 0) && room[TABLE] == 9);
    answer.map_err(|refusal| refusal.number)?;
    Ok(room.chunks_exact(ROW).take(count).map(|row| row[2]).collect())
}

#[test]
fn numbers_of_a_line() {
    assert_eq!(said(""), Some((1, 0)));
    assert_eq!(said(",\"skipCount\":0,\"retryAfter\":null"), Some((0, 0)));
    assert_eq!(
        said(",\"retryAfter\":9223372036854775807,\"skipCount\":2147483647"),
        Some((2_147_483_647, i64::MAX as u64))
    );
    assert_eq!(said(",\"reason\":1,\"reason\":[],\"size\":-1,\"skipcount\":null"), Some((1, 0)));
    for count in ["2147483648", "-1", "1.0", "\"1\"", "null", "1,\"skipCount\":1"] {
        assert_eq!(said(&format!(",\"skipCount\":{count}")), None, "{count}");
    }
    for time in ["9223372036854775808", "-1", "true", "\"1\"", "null,\"retryAfter\":5"] {
        assert_eq!(said(&format!(",\"retryAfter\":{time}")), None, "{time}");
    }
    for value in ["null", "[]", "1", "{}", "{\"path\":null}", "{\"path\":\"\"}", "{\"path\":\"a\",\"path\":\"a\"}"] {
        assert_eq!(actions::read(format!("{{\"mergeskip\":{value}}}").as_bytes()), None, "{value}");
    }
}

#[test]
fn only_live_files_and_the_last_line() {
    let five = skip("a", ",\"skipCount\":3,\"retryAfter\":5");
    let with = |lines: &[&str]| rows(&log_of(&[lines.concat()]));
    let (a, gone) = (&add("a", 1)[..], &remove("a")[..]);
    assert_eq!(with(&[a, &five]), [[1, 3, 5]]);
    assert_eq!(with(&[a, &five, &skip("a", "")]), [[1, 1, 0]]);
    assert_eq!(with(&[a, "{\"skip\":{\"path\":\"a\"}}\n"]), [[1, 0, 0]]);
    for lines in [&[&five, a][..], &[a, &five, a], &[a, &five, gone, a], &[a, gone, &five, a]] {
        assert_eq!(with(lines), [[1, 0, 0]]);
    }
    assert_eq!(with(&[&add("b", 2), a, &skip("b", "")]), [[1, 0, 0], [2, 1, 0]]);
    assert_eq!(with(&[&add("a/b", 2), &skip("a\\u002fb", "")]), [[2, 1, 0]]);
}

#[test]
fn a_malformed_one_is_refused_and_makes_no_start() {
    let mut files = log_of(&[add("a", 1), "\n".to_string() + &skip("a", ",\"skipCount\":null")]);
    assert_eq!(place(read(Ask::Latest, "[]", &bundle_of(&files))), (6, 2, 2));
    files[2].1 = skip("a", "");
    files.push((checkpoint(2), META.to_string() + &add("c", 7) + &skip("c", ",\"retryAfter\":4")));
    assert_eq!(rows(&files), [[7, 1, 4]]);
    files[3].1 += &skip("c", ",\"retryAfter\":-4");
    assert_eq!(rows(&files), [[1, 1, 0]]);
}

#[test]
fn due_is_skipped_and_not_later() {
    let line = |path: &str, count: u64, time: u64| skip(path, &format!(",\"skipCount\":{count},\"retryAfter\":{time}"));
    let adds = add("c", 3) + &add("b", 2) + &add("a", 1) + &add("d", 4);
    let files = log_of(&[adds, line("c", 1, 100) + &line("b", 0, 0) + &line("a", 2, 101)]);
    assert_eq!(due(99, &files), Ok(vec![]));
    assert_eq!(due(100, &files), Ok(vec![3]));
    assert_eq!(due(101, &files), Ok(vec![1, 3]));
    assert_eq!(due(u64::MAX, &files), Ok(vec![1, 3]));
}

#[test]
fn due_refuses_as_reading_the_latest_does() {
    assert_eq!(due(0, &[]), Err(4));
    assert_eq!(due(0, &[(version(0), "x".to_string())]), Err(6));
    assert_eq!(due(0, &[(version(0), META.to_string() + &protocol(4, 1))]), Err(8));
    assert_eq!(due(0, &log_of(&[add_with_year("a", "null")])), Err(21));
    let mut short = vec![9; TABLE - 1];
    assert_eq!(reading::read_due(0, b"", &mut short).unwrap_err().number, 1);
    assert!(short.iter().all(|&number| number == 9));
}

#[test]
fn a_true_checkpoint_carries_both() {
    let with = |history: &str, lines: &str| {
        let mut files = log_of(&[add("a", 1), history.to_string()]);
        files.push((checkpoint(2), META.to_string() + lines));
        files.push(marker(2));
        let (mut names, mut one, mut two) = (vec![9; MOST_NAMED], vec![9; TABLE], vec![9; TABLE]);
        let rooms = Rooms { names: &mut names, tables: [&mut one, &mut two] };
        cleaner::clean(1, 0, &bundle_of(&files), rooms).map_err(|refusal| refusal.number)
    };
    let line = skip("a", ",\"retryAfter\":5");
    assert_eq!(with(&line, &(add("a", 1) + &line)), Ok(1));
    assert_eq!(with(&line, &(add("a", 1) + &skip("a", "") + &line)), Ok(1));
    assert_eq!(with(&line, &add("a", 1)), Err(13));
    assert_eq!(with(&line, &(line.clone() + &add("a", 1))), Err(13));
    assert_eq!(with(&line, &(add("a", 1) + &skip("a", ""))), Err(13));
    assert_eq!(with(&protocol(1, 1), &(add("a", 1) + &skip("a", ",\"skipCount\":0"))), Ok(1));
    assert_eq!(with(&protocol(1, 1), &(add("a", 1) + &skip("a", ",\"skipCount\":0,\"retryAfter\":5"))), Err(13));
}
