//! The cleaner's rules, and demand 3 on a small log.

use super::*;
use crate::cleaner::{self, Rooms, MOST_NAMED};
use crate::refusal;

fn clean(now: u64, retention: u64, files: &[(String, String)]) -> Result<Vec<u32>, u64> {
    let mut names = vec![9; MOST_NAMED];
    let (mut one, mut two) = (vec![9; TABLE], vec![9; TABLE + 1]);
    let rooms = Rooms { names: &mut names, tables: [&mut one, &mut two] };
    let result = cleaner::clean(now, retention, &bundle_of(files), rooms);
    assert!(one.iter().chain(&two[..TABLE]).all(|&number| number == 0) && two[TABLE] == 9);
    let count = result.map_err(|refusal| refusal.number)? as usize;
    assert!(names[count..].iter().all(|&number| number == 0));
    Ok(names[..count].to_vec())
}

/// Versions 0 to 3, a true checkpoint at 3, the marker on it.
fn marked_log() -> Vec<(String, String)> {
    let mut files = log_of(&[add("a", 1), add("b", 2), remove("a") + &protocol(2, 2)]);
    files.push((checkpoint(3), protocol(2, 2) + &add("b", 2) + META));
    files.push(marker(3));
    files
}

#[test]
fn age_equal_to_retention_is_not_named() {
    let files = marked_log();
    assert_eq!(clean(1_000, 1_000, &files), Ok(vec![]));
    assert_eq!(clean(1_001, 1_000, &files), Ok(vec![1, 2]));
    assert_eq!(clean(u64::MAX, u64::MAX - 1, &files), Ok(vec![1, 2]));
}

#[test]
fn one_different_fact_is_a_disagreement() {
    let with = |lines: String| {
        let mut files = marked_log();
        files[4].1 = META.to_string() + &lines;
        clean(1, 0, &files)
    };
    assert_eq!(with(add("b", 2) + &protocol(2, 2)), Ok(vec![1, 2]));
    assert_eq!(with(add("b", 2)), Err(13));
    assert_eq!(with(add("b", 3) + &protocol(2, 2)), Err(13));
    assert_eq!(with(add("b", 2) + &add("a", 1) + &protocol(2, 2)), Err(13));
    assert_eq!(with(protocol(2, 2)), Err(13));
    assert_eq!(with(add("b", 2) + &protocol(4, 4)), Err(8));
    assert_eq!(with(add("b", 2) + &protocol(3, 4)), Err(12));
    assert_eq!(with(add("b", 2).replace("}}}", "},\"numRecords\":null}}") + &protocol(2, 2)), Ok(vec![1, 2]));
    assert_eq!(with(add_with_year("b", "null").replace(":1,", ":2,") + &protocol(2, 2)), Err(13));
}

#[test]
fn the_metadata_in_force_is_among_the_facts() {
    let with = |history: &str, lines: String| {
        let mut files = marked_log();
        files[2].1 += &meta_data("t", &["a", "b"]);
        files[3].1 += history;
        files[4].1 = protocol(2, 2) + &add("b", 2) + &lines;
        clean(1, 0, &files)
    };
    let good = meta_data("t", &["a", "b"]);
    assert_eq!(with("", good.clone()), Ok(vec![1, 2]));
    assert_eq!(with("", meta_data("u", &[]) + &good), Ok(vec![1, 2]));
    assert_eq!(with("", good.replace("\"t\"", "\"\\u0074\",\"name\":1")), Ok(vec![1, 2]));
    for other in [&["b", "a"][..], &["a"], &["a", "b", "c"], &["a", "B"], &[]] {
        assert_eq!(with("", meta_data("t", other)), Err(13));
        assert_eq!(with("", good.clone() + &meta_data("t", other)), Err(13));
        assert_eq!(with(&meta_data("t", other), good.clone()), Err(13));
        assert_eq!(with(&meta_data("t", other), meta_data("t", other)), Ok(vec![1, 2]));
    }
    assert_eq!(with("", meta_data("u", &["a", "b"])), Err(13));
    assert_eq!(with("", meta_data("u", &[]) + &protocol(9, 9)), Err(8));
    assert_eq!(with("", meta_data("u", &[]) + &protocol(3, 4)), Err(12));
}

#[test]
fn a_checkpoint_without_metadata_is_no_start_for_the_cleaner() {
    let mut files = marked_log();
    files.push((checkpoint(1), add("c", 9)));
    assert_eq!(clean(1, 0, &files), Ok(vec![2, 3]));
    files[6].1 += META;
    assert_eq!(clean(1, 0, &files), Err(13));
    files[0].1 = "malformed".to_string();
    files[4].1 = protocol(9, 9);
    assert_eq!(clean(1, 0, &files), Ok(vec![]));
    files[4].1 += META;
    assert_eq!(clean(1, 0, &files), Err(6));
}

#[test]
fn a_foreign_add_on_the_way_stops_the_cleaner() {
    let foreign = add_with_year("a", "\"1\"");
    let with = |index: usize, lines: String| {
        let mut files = marked_log();
        files[index].1 = lines;
        clean(1, 0, &files)
    };
    assert_eq!(with(1, foreign.clone()), Err(21));
    assert_eq!(with(1, foreign.clone() + "malformed"), Err(21));
    assert_eq!(with(1, "malformed\n".to_string() + &foreign), Err(6));
    assert_eq!(with(4, foreign.clone() + META), Err(13));
    let mut files = marked_log();
    files[1].1 = foreign.clone();
    files[4].1 = protocol(9, 9) + META;
    assert_eq!(clean(1, 0, &files), Err(21));
    files[4].1 = protocol(2, 2) + &add("b", 2) + META;
    files.push((checkpoint(1), foreign + META));
    assert_eq!(clean(1, 0, &files), Ok(vec![2, 3]));
}

#[test]
fn nothing_is_named_without_marker_or_other_start() {
    let mut files = marked_log();
    files[0].1 = "malformed".to_string();
    assert_eq!(clean(1, 0, &files), Err(6));
    let without = |name: String| {
        let files: Vec<_> = files.iter().filter(|(other, _)| *other != name).cloned().collect();
        clean(1, 0, &files)
    };
    assert_eq!(without("_last_checkpoint".to_string()), Ok(vec![]));
    assert_eq!(without(checkpoint(3)), Ok(vec![]));
    assert_eq!(without(version(3)), Ok(vec![]));
    assert_eq!(without(version(1)), Ok(vec![]));
}

#[test]
fn any_files_removed_give_the_same_answer_or_not_kept() {
    let renamed = meta_data("t", &["month"]);
    let [a, b] = ["a", "b"].map(|path| add_with_year(path, "\"1\""));
    let c = add_with_values("c", 3, "{\"month\":null}");
    let mut files = log_of(&[a.clone(), b.clone() + &renamed, remove("a"), c + YEAR]);
    files[0].1 = YEAR.to_string();
    files.push((checkpoint(2), a + &b + &renamed));
    files.push((checkpoint(3), renamed + &b));
    let queries = ["[]".to_string(), on("year"), on("month")];
    for (asked, query) in (0..=4).flat_map(|asked| queries.iter().map(move |query| (asked, query))) {
        let full = read(Ask::Version(asked), query, &bundle_of(&files));
        assert!(full.map_or_else(|refusal| refusal == refusal::NO_PARTITION_COLUMN, |_| true));
        for removed in 0u32..64 {
            let kept: Vec<_> = files
                .iter()
                .enumerate()
                .filter(|(index, _)| *index == 0 || removed >> (index - 1) & 1 == 0)
                .map(|(_, file)| file.clone())
                .collect();
            let answer = read(Ask::Version(asked), query, &bundle_of(&kept));
            assert!(answer == full || answer == Err(refusal::NOT_KEPT));
        }
    }
}
