//! The stored cases of second/cases through the safe functions, every letter, rooms compared by their sums. The expected answers were worked out
//! from the paper by hand.

use std::path::Path;

#[path = "../examples/probe.rs"]
mod probe;

const CASES: &str = concat!(env!("CARGO_MANIFEST_DIR"), "/../../../second/cases");

#[test]
fn stored_cases_are_answered_as_expected() {
    let (mut all, mut letters) = (0, Vec::new());
    for file in std::fs::read_dir(CASES).expect("second/cases is there") {
        let path = file.expect("can be listed").path();
        if path.extension().map_or(false, |ending| ending == "request") {
            let request = std::fs::read(&path).expect("can be read");
            let expected = std::fs::read_to_string(path.with_extension("expected")).expect("can be read");
            assert_eq!(probe::answers(&request), expected, "{}", path.display());
            letters.extend(request.first());
            all += 1;
        }
    }
    letters.sort_unstable();
    letters.dedup();
    assert!(all >= 145, "only {all} cases");
    assert!(b"cdlmnpqr".iter().all(|letter| letters.contains(letter)), "a letter has no case");
}

#[test]
fn the_paper_s_example_by_the_safe_functions() {
    let bundle = std::fs::read(Path::new(CASES).join("program-example.request")).expect("can be read").split_off(27);
    let listing = kerumpase::read_latest(&bundle, b"[]").expect("answered");
    assert_eq!((listing.version, listing.reader, listing.writer, listing.writable), (3, 1, 2, true));
    let files: Vec<_> = listing.files().collect();
    assert_eq!(files.len(), 1);
    assert_eq!(
        (files[0].path, files[0].size, files[0].modification_time, files[0].num_records),
        (&b"b.split"[..], 60, 7, None)
    );
    assert_eq!(kerumpase::read_at(&bundle, b"[]", 2).expect("answered").files().count(), 2);
    let refusal = kerumpase::read_at(&bundle, b"[]", 4).expect_err("not kept");
    assert_eq!(
        (refusal.reason, refusal.to_string()),
        (kerumpase::Reason::NotKept, "refused 5 entry 0 line 0".to_string())
    );
    assert_eq!(kerumpase::read_due(&bundle, u64::MAX).expect("answered").files().count(), 0);
    assert_eq!(kerumpase::clean(&bundle, u64::MAX, 0), Ok(vec![]));
    assert_eq!(kerumpase::read_at(b"", b"[]", 0).expect_err("no bundle").reason, kerumpase::Reason::BundleMalformed);
    assert_eq!(kerumpase::read_due(b"", 0).expect_err("no bundle").reason, kerumpase::Reason::BundleMalformed);
    assert_eq!(kerumpase::keep(br#"{"manifests":[{"path":"a"},{"path":"b"}]}"#, b"[]"), Ok(vec![0, 1]));
}

#[test]
fn a_skipped_file_is_due_from_its_time_on() {
    use kerumpase::bundle::{self, File};
    let one = br#"{"add":{"path":"a","size":3,"modificationTime":7,"dataChange":true,"partitionValues":{}}}
{"add":{"path":"b","size":4,"modificationTime":8,"dataChange":true,"partitionValues":{}}}
{"mergeskip":{"path":"b","skipCount":2,"retryAfter":100}}
"#;
    let zero = br#"{"metaData":{"id":"t","partitionColumns":[]}}"#;
    let files = [("00000000000000000000.json", &zero[..]), ("00000000000000000001.json", &one[..])];
    let bundle =
        bundle::write(&files.map(|(name, body)| File { name: name.as_bytes(), time: 0, body })).expect("it fits");
    let noted = |rows: &[kerumpase::Row]| rows.iter().map(|row| (row.skip_count, row.retry_after)).collect::<Vec<_>>();
    assert_eq!(noted(&kerumpase::read_latest(&bundle, b"[]").expect("answered").rows), [(0, 0), (2, 100)]);
    assert_eq!(noted(&kerumpase::read_due(&bundle, 99).expect("answered").rows), []);
    let due = kerumpase::read_due(&bundle, 100).expect("answered");
    assert_eq!((due.version, noted(&due.rows)), (1, vec![(2, 100)]));
    let file = due.files().next().expect("one is due");
    assert_eq!((file.path, file.size, file.skip_count, file.retry_after), (&b"b"[..], 4, 2, 100));
}
