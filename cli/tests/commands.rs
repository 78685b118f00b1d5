//! The command as a user meets it: exit codes, one clear line for what is wrong, numbers in base ten, nothing that panics.

mod common;

use std::io::Write;
use std::process::{Command, Stdio};

use common::{kerumpase, shell, tables, Folder, Said, KERUMPASE, TOP};

/// Exit status 2, nothing on standard output, and one line that says this.
fn fails(said: Said, line: &str) {
    assert_eq!((said.status, said.out.as_str()), (Some(2), ""), "{said:?}");
    assert_eq!(said.err.lines().count(), 1, "{said:?}");
    assert!(said.err.starts_with("kerumpase: ") && said.err.contains(line), "{said:?} does not say: {line}");
}

#[test]
fn wrong_words_are_said() {
    for (words, line) in [
        (&[][..], "a command is missing; see kerumpase --help"),
        (&["nothing"], "there is no command nothing; see kerumpase --help"),
        (&["--nothing"], "there is no option --nothing"),
        (&["help", "nothing"], "there is no command nothing"),
        (&["files"], "TABLE is missing; see kerumpase files --help"),
        (&["files", "a", "b"], "b is one word too many"),
        (&["files", "examples/school", "--at"], "--at wants a value"),
        (&["files", "examples/school", "--at", "x"], "\"x\" is not"),
        (&["files", "examples/school", "--at", "0x10"], "a whole number in decimal digits, and \"0x10\" is not"),
        (&["files", "examples/school", "--at", "0o10"], "\"0o10\" is not"),
        (&["files", "examples/school", "--at", "99999999999999999999"], "99999999999999999999 is more"),
        (&["files", "examples/school", "--json", "--json"], "--json is given twice"),
        (&["files", "examples/school", "--text", "year"], "a condition is a column"),
        (&["files", "examples/school", "--query", "[]", "--text", "year=1"], "--query stands alone"),
        (&["due"], "TABLE is missing; see kerumpase due --help"),
        (&["due", "a", "b"], "b is one word too many"),
        (&["due", "examples/school", "--at"], "--at wants a value"),
        (&["due", "examples/school", "--at", "1", "--at", "2"], "--at is given twice"),
        (&["due", "examples/school", "--at", "tomorrow"], "the time of --at is 2024-03-01"),
        (&["due", "examples/school", "--at", "0x10"], "\"0x10\" is not"),
        (&["due", "examples/school", "--at", "-1"], "\"-1\" is not"),
        (&["due", "examples/school", "--at", "2024-02-30"], "\"2024-02-30\" is not"),
        (&["due", "examples/school", "--at", "18446744073709551616"], "18446744073709551616 is more"),
        (&["due", "examples/school", "--text", "year=1"], "there is no option --text; see kerumpase due --help"),
        (&["check"], "TABLE is missing"),
        (&["check", "examples/school", "--jobs", "0"], "--jobs is 1 to 256"),
        (&["check", "examples/school", "--jobs", "257"], "--jobs is 1 to 256"),
        (&["help", "files", "info"], "info is one word too many"),
        (&["check", "-", "-"], "standard input can be read only once"),
        (&["clean", "examples/school"], "--older-than is missing"),
        (&["clean", "examples/school", "--older-than", "30"], "a number with its unit"),
        (&["clean", "examples/school", "--older-than", "30d", "--now", "yesterday"], "\"yesterday\" is not"),
        (&["clean", "examples/school", "--older-than", "30d", "--time", "x"], "is not"),
        (
            &["clean", "examples/school", "--older-than", "30d", "--time", "x=1"],
            "--time names x, which is not in the log",
        ),
        (&["contents", "host/example.bundle", "--time", "x=1"], "--time is for folders"),
        (&["contents", "-", "--time", "x=1"], "--time is for folders"),
        (
            &["contents", "examples/school", "--time", "_last_checkpoint=1", "--time", "_last_checkpoint=2"],
            "two times for _last_checkpoint",
        ),
        (&["manifests"], "STATE is missing"),
        (&["unpack", "a"], "unpack takes a bundle and a folder"),
        (&["explain", "99"], "there is no refusal with this number"),
        (&["explain", "six"], "\"six\" is not"),
    ] {
        fails(kerumpase(words), line);
    }
}

#[test]
fn what_cannot_be_read_is_said() {
    let folder = Folder::new("unread");
    let empty = folder.path("empty");
    std::fs::create_dir(&empty).unwrap();
    folder.write("holds-a-file/_transaction_log", b"");
    folder.write("directory-as-file/_transaction_log/00000000000000000000.json/x", b"");
    folder.write("bad-times/_transaction_log/00000000000000000000.json", b"");
    folder.write("bad-times/times", b"# fine\n00000000000000000000.json 2024-02-30\n");
    let link = folder.path("linked/_transaction_log");
    std::fs::create_dir_all(&link).unwrap();
    std::os::unix::fs::symlink("/nowhere", format!("{link}/00000000000000000000.json")).unwrap();
    for (table, line) in [
        (folder.path("nothing"), "there is no "),
        (empty, "holds no log: there is no folder _transaction_log in it"),
        (folder.path("holds-a-file"), "holds no log"),
        ("/proc/self/mem".to_string(), "/proc/self/mem cannot be read: "),
        ("examples/school/_transaction_log".to_string(), "is the log itself; name the folder that holds it"),
        (folder.path("directory-as-file"), "is not a file, though it is named like one of the log"),
        (folder.path("bad-times"), "times, line 2: a time is 2024-03-01"),
        (folder.path("linked"), "00000000000000000000.json cannot be read: "),
        ("examples/school/listing/x".to_string(), "cannot be read: "),
    ] {
        for command in ["files", "due", "info", "versions", "contents", "report", "pack"] {
            fails(kerumpase(&[command, &table]), line);
        }
        fails(kerumpase(&["clean", &table, "--older-than", "30d"]), line);
        let said = kerumpase(&["check", &table]);
        assert_eq!((said.status, said.out.contains(line)), (Some(2), true), "{said:?}");
    }
    fails(kerumpase(&["manifests", &folder.path("nothing")]), "there is no ");
    fails(kerumpase(&["manifests", "examples"]), "examples cannot be read: ");
}

#[test]
fn what_is_too_long_is_said() {
    let folder = Folder::new("long");
    let bundle = folder.write("bundle", &vec![0; 1_048_577]);
    fails(kerumpase(&["files", &bundle]), "bundle is too long: a bundle has at most 1048576 bytes");
    fails(shell(&format!("kerumpase files - <{bundle}")), "standard input is too long");
    folder.write("big/_transaction_log/00000000000000000000.json", &vec![b' '; 1_048_577]);
    fails(
        kerumpase(&["files", &folder.path("big")]),
        "does not fit: its files have 1048577 bytes, and a bundle has at most 1048576",
    );
    folder.write("edge/_transaction_log/00000000000000000000.json", &vec![b' '; 1_048_576 - 115]);
    fails(kerumpase(&["files", &folder.path("edge")]), "does not fit: it has 1048577 bytes");
    folder.write("edge/_transaction_log/00000000000000000000.json", &vec![b' '; 1_048_576 - 116]);
    assert_eq!(kerumpase(&["files", &folder.path("edge")]).out, "refused 6 entry 0 line 1\n");
    for number in 0..1_025 {
        folder.write(&format!("many/_transaction_log/{number:020}.json"), b"");
    }
    fails(kerumpase(&["files", &folder.path("many")]), "does not fit: there are 1025 files: a bundle has at most 1024");
}

#[test]
fn other_names_are_ignored_and_packed_only_if_asked_for() {
    let folder = Folder::new("names");
    for name in [
        "00000000000000000000.json",
        ".00000000000000000000.json.crc",
        "a name",
        "state-v1/_manifest.avro",
        "00000000000000000001.json.tmp",
    ] {
        folder
            .write(&format!("table/_transaction_log/{name}"), b"{\"metaData\":{\"id\":\"t\",\"partitionColumns\":[]}}");
    }
    let table = folder.path("table");
    assert_eq!(kerumpase(&["files", &table]).out, "version 0 files 0 reader 1 writer 1 writable yes\n");
    fails(kerumpase(&["pack", "--all", &table]), "the name \"a name\" does not fit");
    std::fs::remove_file(folder.path("table/_transaction_log/a name")).unwrap();
    std::os::unix::fs::symlink("..", folder.path("table/_transaction_log/loop")).unwrap();
    let said = shell(&format!("kerumpase pack --all {table} | kerumpase contents - | cut -d' ' -f1-3"));
    let expected = "0 .00000000000000000000.json.crc ignored\n1 00000000000000000000.json version\n2 00000000000000000001.json.tmp ignored\n\
                    3 state-v1/_manifest.avro ignored\n";
    assert_eq!(said.out, expected);
}

#[test]
fn outputs_that_cannot_be_written_are_said() {
    for command in [
        "files examples/school",
        "due examples/skipped",
        "info examples/school",
        "versions examples/school",
        "check examples/school",
        "report examples/school",
    ] {
        for line in
            [format!("kerumpase {command} >/dev/full"), format!("kerumpase {command} 2>&1 >/dev/full | cat; exit 2")]
        {
            let said = shell(&line);
            assert_eq!(said.status, Some(2), "{line}: {said:?}");
            assert!(
                (said.err + &said.out).contains("standard output cannot be written: No space left on device"),
                "{line}"
            );
        }
        // Where even the complaint cannot be written, the status says it.
        assert_eq!(shell(&format!("kerumpase {command} >/dev/full 2>/dev/full")).status, Some(2));
    }
    for words in [
        "pack examples/school",
        "--help",
        "--version",
        "explain",
        "contents examples/school",
        "manifests examples/state/state.json",
    ] {
        let said = shell(&format!("kerumpase {words} >/dev/full"));
        assert_eq!((said.status, said.err.contains("No space left")), (Some(2), true), "{words}: {said:?}");
    }
}

#[test]
fn a_reader_that_goes_away_ends_it_quietly() {
    let (_generated, tables) = tables(60, 3, false);
    let mut command = Command::new(KERUMPASE);
    command.arg("check").args(&tables).args(["--jobs", "2"]).stdout(Stdio::piped()).stderr(Stdio::piped());
    let mut running = command.spawn().unwrap();
    drop(running.stdout.take());
    let said = Said::of(running.wait_with_output().unwrap());
    assert_eq!(said.status, Some(2), "{said:?}");
    assert_eq!(said.err, "kerumpase: standard output was closed before everything was written\n");
}

#[test]
fn numbers_are_decimal_with_zeros_in_front() {
    let plain = kerumpase(&["files", "examples/school", "--at", "2"]);
    assert_eq!(plain.status, Some(0));
    for at in ["02", "00000000000000000002", "000000000000000000000000000002"] {
        assert_eq!(kerumpase(&["files", "examples/school", "--at", at]), plain, "{at}");
    }
    assert_eq!(kerumpase(&["files", "examples/school", "--at", "010"]).out, "refused 5 entry 0 line 0\n");
    let year = |condition: &str| kerumpase(&["files", "examples/school", "--number", condition]).out;
    assert_eq!(year("year = 02024"), year("year = 2024"));
    assert_eq!(kerumpase(&["explain", "05"]), kerumpase(&["explain", "5"]));
}

#[test]
fn a_bundle_a_folder_and_standard_input_answer_alike() {
    let folder = Folder::new("alike");
    let bundle = folder.path("bundle");
    assert_eq!(shell(&format!("kerumpase pack examples/cleaner >{bundle}")).status, Some(0));
    for words in [
        "files",
        "due --at 2024-06-01",
        "versions",
        "contents",
        "clean --older-than 30d --now 2024-06-01",
        "check --json",
    ] {
        let of_folder = shell(&format!("kerumpase {words} examples/cleaner"));
        let named = of_folder.out.replace("examples/cleaner", &bundle);
        assert_eq!(shell(&format!("kerumpase {words} {bundle}")).out, named, "{words}");
        assert_eq!(
            shell(&format!("kerumpase {words} - <{bundle}")).out,
            of_folder.out.replace("examples/cleaner", "-"),
            "{words}"
        );
    }
    // tools/bundle knows no file of times, so it is asked for a table that has none.
    let packed = folder.path("packed");
    let line = "tools/bundle examples/school >P && kerumpase pack examples/school | cmp - P && kerumpase pack --all examples/school | cmp - P";
    let said = shell(&line.replace(" P", &format!(" {packed}")).replace(">P", &format!(">{packed}")));
    assert_eq!((said.status, said.out.as_str()), (Some(0), ""), "{said:?}");
    // Unpacked and packed again it is the same bundle, times and all.
    let again = folder.path("again");
    let said = kerumpase(&["unpack", &bundle, &again]);
    assert_eq!((said.status, said.out), (Some(0), format!("8 files unpacked to {again}\n")));
    assert_eq!(
        shell(&format!("kerumpase pack {again} | cmp - {bundle}")),
        Said { status: Some(0), out: String::new(), err: String::new() }
    );
    fails(kerumpase(&["unpack", &bundle, &again]), "is there already");
}

#[test]
fn a_bundle_cannot_write_outside_its_folder() {
    let folder = Folder::new("outside");
    for name in ["../x", "/tmp/x", "a/../../x", ".."] {
        let file = kerumpase::bundle::File { name: name.as_bytes(), time: 0, body: b"" };
        let bundle = folder.write("bundle", &kerumpase::bundle::write(&[file]).unwrap());
        fails(kerumpase(&["unpack", &bundle, &folder.path("into")]), "leads out of the folder");
        assert!(!std::path::Path::new(&folder.path("into")).exists());
    }
}

#[test]
fn what_cannot_be_unpacked_whole_leaves_nothing() {
    let folder = Folder::new("partly");
    let there = || {
        let names =
            std::fs::read_dir(&folder.0).unwrap().map(|entry| entry.unwrap().file_name().into_string().unwrap());
        let mut names: Vec<String> = names.collect();
        names.sort();
        names
    };
    let bundle_of = |name: &str, files: &[(&str, &[u8])]| {
        let files: Vec<_> =
            files.iter().map(|(name, body)| kerumpase::bundle::File { name: name.as_bytes(), time: 0, body }).collect();
        folder.write(name, &kerumpase::bundle::write(&files).unwrap())
    };
    let into = folder.path("into");
    let (zero, one) = ("00000000000000000000.json", "00000000000000000001.json");
    // A limit of the size of files stands for a full disk: the first file is written, the second is not.
    let full = bundle_of("full", &[(zero, b"{}\n"), (one, &[b' '; 5000])]);
    let said = shell(&format!("trap '' XFSZ; ulimit -f 1; kerumpase unpack {full} {into}"));
    fails(said, &format!("{into}/_transaction_log/{one} cannot be written"));
    assert_eq!(there(), ["full"]);
    // A file and a folder of one name, and a folder that cannot be made.
    let both = bundle_of("both", &[(zero, b"{}\n"), (one, b""), ("00000000000000000001.json/more", b"")]);
    fails(kerumpase(&["unpack", &both, &into]), "nothing was unpacked");
    fails(kerumpase(&["unpack", &full, &folder.path("missing/into")]), "nothing was unpacked");
    assert_eq!(there(), ["both", "full"]);
    // What was there before stays, an empty folder too; and what can be unpacked is.
    std::fs::create_dir(&into).unwrap();
    fails(kerumpase(&["unpack", &full, &into]), "is there already");
    std::fs::remove_dir(&into).unwrap();
    assert_eq!(kerumpase(&["unpack", &full, &format!("{into}/")]).status, Some(0));
    assert_eq!(there(), ["both", "full", "into"]);
}

#[test]
fn refusals_say_what_they_mean_and_what_to_do() {
    let said = kerumpase(&["files", "examples/refused"]);
    assert_eq!((said.status, said.out.as_str()), (Some(1), "refused 6 entry 1 line 3\n"));
    for line in [
        "refusal 6: a line or file read is malformed, in 00000000000000000001.json, line 3",
        "the line begins: {\"add\":{",
        "Restore that file",
    ] {
        assert!(said.err.contains(line), "{said:?}");
    }
    let said = kerumpase(&["files", "examples/refused", "--json"]);
    assert_eq!((said.status, said.err.as_str()), (Some(1), ""));
    assert!(said.out.starts_with("{\"refused\":6,\"entry\":1,\"line\":3,\"file\":\"00000000000000000001.json\",\"why\":\"a line or file read is malformed\","));
    let folder = Folder::new("gzip");
    folder.write("t/_transaction_log/00000000000000000000.json", b"\x1f\x8b\x08compressed");
    assert!(kerumpase(&["files", &folder.path("t")]).err.contains("compressed by gzip"));
    for (words, number) in [
        ("files examples/school --text 'no = 1'", 11),
        ("files examples/renamed --text 'subject = art'", 11),
        ("files examples/renamed --at 1 --text 'course = art'", 11),
        ("files examples/school --number 'year = x'", 10),
        ("files examples/pupils --number 'pupil = 98765432109876543210'", 10),
        ("files examples/pupils --number 'pupil = 1'", 18),
        ("files examples/pupils --at 1 --number 'pupil = 1'", 18),
        ("files examples/pupils --text 'no = 1' --number 'pupil = 1'", 11),
        ("files examples/school --query '{}'", 10),
        ("files examples/school --at 9", 5),
        ("files examples/README.md", 2),
        ("manifests examples/school/listing", 14),
        ("due examples/README.md", 2),
        ("clean examples/README.md --older-than 1d", 2),
        ("contents examples/README.md", 2),
        ("info examples/README.md", 2),
        ("versions examples/README.md", 2),
        ("report examples/README.md | tail -0; exit 1", 0),
    ] {
        let said = shell(&format!("kerumpase {words}"));
        assert_eq!(said.status, Some(1), "{words}: {said:?}");
        assert!(number == 0 || said.out == format!("refused {number} entry 0 line 0\n"), "{words}: {said:?}");
    }
}

/// The example's file `due` was worked out by hand: the times, and what is due at each.
#[test]
fn what_is_due_is_told_in_the_order_of_the_paths() {
    let worked_out = std::fs::read_to_string(format!("{TOP}/examples/skipped/due")).unwrap();
    let mut times = 0;
    for part in worked_out.split("at ").skip(1) {
        let (head, files) = part.split_once('\n').unwrap();
        let head: Vec<&str> = head.split(' ').collect();
        let (at, version, count) = (head[0], head[2], head[4]);
        let said = kerumpase(&["due", "examples/skipped", "--at", at, "--json"]);
        assert_eq!((said.status, said.err.as_str()), (Some(0), ""), "{at}");
        let mut lines = said.out.lines();
        assert_eq!(lines.next(), Some(format!("{{\"version\":{version},\"due\":{count},\"at\":{at}}}").as_str()));
        let told: String = lines
            .map(|line| {
                let number = |name| common::member(line, name).to_string();
                format!("\"{}\" {} {}\n", number("path"), number("skipCount"), number("retryAfter"))
            })
            .collect();
        assert_eq!(told, files, "at {at}");
        times += 1;
    }
    assert_eq!(times, 2);
    // A date is the first millisecond of its day, and zeros in front change nothing.
    let said = kerumpase(&["due", "examples/skipped", "--at", "2024-04-03"]);
    assert_eq!(said, kerumpase(&["due", "examples/skipped", "--at", "01712102400000"]));
    assert_eq!(
        said.out,
        "version 3 due 2 at 2024-04-03T00:00:00Z\n\"year=2024/art-1.split\" 81920 skipped 1 due at once\n\
         \"year=2024/music-1.split\" 20480 skipped 2 due since 2024-04-03T00:00:00Z\n"
    );
    assert_eq!(kerumpase(&["due", "examples/skipped", "--at", "0"]).out.lines().count(), 2);
    let most = kerumpase(&["due", "examples/skipped", "--at", "18446744073709551615"]);
    assert!(most.out.starts_with("version 3 due 2 at 18446744073709551615ms\n"), "{most:?}");
    // Without a time it is the machine's clock, which is beyond the example's.
    let now = kerumpase(&["due", "examples/skipped"]);
    assert_eq!(now.out.split_once('\n').unwrap().1, said.out.split_once('\n').unwrap().1);
}

#[test]
fn what_is_due_is_refused_as_a_reading_is() {
    for table in ["examples/refused", "examples/foreign"] {
        let (due, files) = (kerumpase(&["due", table]), kerumpase(&["files", table]));
        assert_eq!((due.status, &due.out, &due.err), (Some(1), &files.out, &files.err), "{table}");
        assert_eq!(kerumpase(&["due", table, "--json"]), kerumpase(&["files", table, "--json"]), "{table}");
    }
    // A table that may not be written is listed.
    assert!(kerumpase(&["due", "examples/gap", "--at", "0"])
        .out
        .starts_with("version 1 due 0 at 1970-01-01T00:00:00Z\n"));
    // A malformed mergeskip is a malformed line.
    let folder = Folder::new("mergeskip");
    folder.write("_transaction_log/00000000000000000000.json", br#"{"metaData":{"id":"t","partitionColumns":[]}}"#);
    for lines in ["{\"mergeskip\":{}}", "{\"mergeskip\":{\"path\":\"a\",\"skipCount\":null}}", "{\"mergeskip\":null}"] {
        folder.write("_transaction_log/00000000000000000001.json", lines.as_bytes());
        let said = kerumpase(&["due", folder.0.to_str().unwrap()]);
        assert_eq!((said.status, said.out.as_str()), (Some(1), "refused 6 entry 1 line 1\n"), "{lines}");
    }
}

#[test]
fn many_tables_are_told_in_order() {
    let (_generated, tables) = tables(200, 5, true);
    let tables: Vec<&str> = tables.iter().map(String::as_str).collect();
    let one = kerumpase(&[&["check"], &tables[..]].concat());
    let more = kerumpase(&[&["check", "--jobs", "4"], &tables[..]].concat());
    assert_eq!(one, more);
    assert_eq!(one.status, Some(1));
    assert!(one.out.ends_with("200 tables: 198 good, 2 with faults, 0 not read\n"), "{}", one.out);
    let json = kerumpase(&[&["check", "--jobs", "3", "--json"], &tables[..]].concat());
    assert_eq!(json.out.lines().count(), 200);
    for (line, table) in json.out.lines().zip(&tables) {
        assert_eq!(common::member(line, "table"), *table);
    }
}

#[test]
fn progress_is_said_where_it_is_asked_for() {
    let quiet = kerumpase(&["versions", "examples/school"]);
    assert_eq!(quiet.err, "");
    let said = kerumpase(&["versions", "examples/school", "--progress"]);
    assert_eq!((said.err.as_str(), said.out), ("5 of 5 versions read\n", quiet.out));
    assert_eq!(kerumpase(&["check", "examples/school", "--progress"]).err, "1 of 1 tables checked\n");
}

#[test]
fn names_that_are_not_utf_8_or_odd_do_no_harm() {
    use std::os::unix::ffi::OsStrExt;
    let folder = Folder::new("odd");
    let odd = folder.0.join(std::ffi::OsStr::from_bytes(b"a\xff\x1b[2J"));
    assert!(Command::new("cp").args(["-r", "examples/school"]).arg(&odd).current_dir(TOP).status().unwrap().success());
    let said = Said::of(Command::new(KERUMPASE).arg("info").arg(&odd).output().unwrap());
    assert_eq!((said.status, said.out.contains('\x1b')), (Some(0), false), "{said:?}");
    let said = Said::of(Command::new(KERUMPASE).args(["files", "--at"]).arg(&odd).output().unwrap());
    assert_eq!((said.status, said.err.contains("not UTF-8")), (Some(2), true), "{said:?}");
}

#[test]
fn standard_input_may_be_anything() {
    let mut running = Command::new(KERUMPASE)
        .args(["files", "-"])
        .stdin(Stdio::piped())
        .stdout(Stdio::piped())
        .stderr(Stdio::piped())
        .spawn()
        .unwrap();
    running.stdin.take().unwrap().write_all(b"\xff\xff\xff\xff no bundle").unwrap();
    let said = Said::of(running.wait_with_output().unwrap());
    assert_eq!((said.status, said.out.as_str()), (Some(1), "refused 2 entry 0 line 0\n"));
}

/// Runs the command as a user who may not do everything; nothing where that cannot be had here.
fn as_nobody(words: &[&str]) -> Option<Said> {
    let user = Command::new("id").arg("-u").output().ok()?.stdout;
    let mut command = if user == b"0\n" {
        let mut command = Command::new("setpriv");
        command.args(["--reuid=65534", "--regid=65534", "--clear-groups", KERUMPASE]);
        command
    } else {
        Command::new(KERUMPASE)
    };
    command.args(words).current_dir("/").output().ok().map(Said::of)
}

#[test]
fn what_may_not_be_read_or_removed_is_said() {
    use std::os::unix::fs::PermissionsExt;
    match as_nobody(&["--version"]) {
        Some(Said { status: Some(0), .. }) => (),
        other => {
            eprintln!("not tried: the command cannot be run as another user here ({other:?})");
            return;
        }
    }
    let (generated, tables) = tables(3, 31, false);
    let mode = |path: &str, mode| std::fs::set_permissions(path, std::fs::Permissions::from_mode(mode)).unwrap();
    mode(generated.0.to_str().unwrap(), 0o755);
    let nobody = |words: &[&str]| as_nobody(words).unwrap();
    let log = |table: &str| format!("{table}/_transaction_log");
    mode(&format!("{}/00000000000000000000.json", log(&tables[0])), 0o000);
    fails(nobody(&["files", &tables[0]]), "00000000000000000000.json cannot be read: Permission denied");
    mode(&log(&tables[1]), 0o000);
    fails(nobody(&["files", &tables[1]]), "_transaction_log cannot be listed: Permission denied");
    mode(&tables[1], 0o000);
    fails(nobody(&["files", &tables[1]]), "_transaction_log cannot be read: Permission denied");
    mode(&tables[1], 0o755);
    mode(&log(&tables[1]), 0o755);
    // The log can be read and not written.
    let clean = ["clean", &tables[2], "--older-than", "3d", "--now", "2024-05-01", "--apply"];
    let before = kerumpase(&["contents", &tables[2]]);
    let said = nobody(&clean);
    assert_eq!(said.status, Some(2), "{said:?}");
    assert!(
        said.err.contains("00000000000000000001.json cannot be removed: Permission denied")
            && said.err.contains("; 0 of "),
        "{said:?}"
    );
    assert_eq!(kerumpase(&["contents", &tables[2]]), before);
}
