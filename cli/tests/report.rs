//! The parts of a report: what it says is what the other commands say, every text from outside is escaped, its tags are closed, and nothing is fetched.

mod common;

use common::{kerumpase, tables, Folder};

fn report(table: &str) -> String {
    let said = kerumpase(&["report", table, "--now", "2024-05-20", "--older-than", "3d"]);
    assert!(said.status == Some(0) || said.status == Some(1), "{said:?}");
    said.out
}

/// Every tag is closed by its own, but for those that have no end; gives the names of all.
fn tags(page: &str) -> Vec<String> {
    let (mut open, mut all) = (Vec::new(), Vec::new());
    // What is in a style is no HTML.
    let style = page.find("<style>").unwrap() + 7..page.find("</style>").unwrap();
    let page = format!("{}{}", &page[..style.start], &page[style.end..]);
    for part in page.split('<').skip(1) {
        let tag = part.split('>').next().unwrap();
        assert!(part.contains('>'), "<{part} is not closed");
        let name =
            tag.trim_start_matches('/').split(|c: char| c.is_whitespace() || c == '/').next().unwrap().to_string();
        if tag.starts_with('/') {
            assert_eq!(open.pop(), Some(name), "</{tag}");
        } else {
            all.push(name.clone());
            if !tag.ends_with('/') && !matches!(name.as_str(), "!DOCTYPE" | "meta") {
                open.push(name);
            }
        }
    }
    assert_eq!(open, Vec::<String>::new());
    all
}

#[test]
fn every_section_is_there_and_every_table_has_heads() {
    let page = report("examples/cleaner");
    for (id, title) in [
        ("summary", "Summary"),
        ("wrong", "What is wrong"),
        ("picture", "Files and bytes over the versions"),
        ("versions", "Versions"),
        ("gaps", "Gaps"),
        ("checkpoints", "Checkpoints and marker"),
        ("cleaning", "Cleaning"),
        ("waiting", "Files waiting for a second merge"),
        ("files", "Files of the latest version"),
        ("meaning", "What the words mean"),
    ] {
        assert!(page.contains(&format!("<h2 id=\"{id}\">{title}</h2>")), "{id}");
        assert!(page.contains(&format!("<a href=\"#{id}\">{title}</a>")), "{id}");
    }
    assert!(page.starts_with("<!DOCTYPE html>\n<html lang=\"en\">"));
    assert!(page.contains("prefers-color-scheme: dark"));
    assert_eq!(page.matches("<h1>").count(), 1);
    let tags = tags(&page);
    let count = |name: &str| tags.iter().filter(|tag| *tag == name).count();
    assert_eq!(count("table"), count("caption"));
    assert_eq!(count("table"), 4);
    assert_eq!(
        page.matches("<th scope=\"row\"").count(),
        6 + 1 + 3 + 4,
        "versions, checkpoints, cleanable files, live files"
    );
    assert!(
        page.contains("<svg viewBox=") && page.contains("role=\"img\" aria-labelledby=\"picture-title picture-words\"")
    );
}

#[test]
fn nothing_is_fetched_and_no_script_runs() {
    for table in ["examples/cleaner", "examples/gap", "examples/refused", "examples/school", "examples/skipped"] {
        let page = report(table);
        let tags = tags(&page);
        for name in ["script", "link", "img", "iframe", "object", "embed", "form", "base"] {
            assert!(!tags.iter().any(|tag| tag.eq_ignore_ascii_case(name)), "{table}: <{name}>");
        }
        let small = page.to_lowercase();
        for word in ["http:", "https:", "src=", "@import", "javascript:", " onclick", " onload"] {
            assert!(!small.contains(word), "{table}: {word}");
        }
        assert!(page.contains("default-src 'none'"));
    }
}

#[test]
fn texts_from_outside_are_escaped() {
    let folder = Folder::new("<script>alert(1)&'\"");
    let meta = r#"{"metaData":{"id":"t","partitionColumns":[]}}"#;
    let add = r#"{"add":{"path":"<b onclick=x>&amp;\u0022</b></table>","size":3,"modificationTime":7,"dataChange":true,"partitionValues":{}}}"#;
    folder.write("_transaction_log/00000000000000000000.json", meta.as_bytes());
    folder.write("_transaction_log/00000000000000000001.json", add.as_bytes());
    folder.write("_transaction_log/00000000000000000002.json", b"<img src=x onerror=alert(1)>\x1b[2J");
    folder.write("_transaction_log/00000000000000000001.checkpoint.json", b"<script>");
    folder.write("_transaction_log/_last_checkpoint", b"</code><script>alert(2)</script>");
    let page = report(folder.0.to_str().unwrap());
    let tags = tags(&page);
    for name in ["script", "img", "b"] {
        assert!(!tags.iter().any(|tag| tag == name), "<{name}");
    }
    for part in [
        "&lt;script&gt;alert(1)&amp;&#39;&quot;",
        "&lt;img src=x onerror=alert(1)&gt;\\u{1b}[2J",
        "&lt;/code&gt;&lt;script&gt;alert(2)",
    ] {
        assert!(page.contains(part), "{part}");
    }
    std::fs::remove_file(folder.0.join("_transaction_log/00000000000000000002.json")).unwrap();
    let page = report(folder.0.to_str().unwrap());
    assert!(page.contains(r"&lt;b onclick=x&gt;&amp;amp;\u0022&lt;/b&gt;&lt;/table&gt;"));
    assert!(!self::tags(&page).iter().any(|tag| tag == "b"));
}

#[test]
fn it_says_what_the_other_commands_say() {
    let (_generated, tables) = tables(25, 21, false);
    for (number, table) in tables.iter().enumerate() {
        let log = std::path::Path::new(table).join("_transaction_log");
        if number % 3 == 1 {
            std::fs::remove_file(log.join("00000000000000000002.json")).unwrap();
        }
        if number % 5 == 1 {
            std::fs::write(log.join("00000000000000000003.json"), "{\"add\":1}").unwrap();
        }
        let page = report(table);
        tags(&page);
        let versions = kerumpase(&["versions", table, "--json"]).out;
        for line in versions.lines().filter(|line| line.contains("\"version\":")) {
            let (version, refused) = (common::member(line, "version"), common::member(line, "refused"));
            let said = match refused {
                "0" => {
                    format!("<th scope=\"row\" class=\"number\">{version}</th><td><span class=\"tag good\">read</span>")
                }
                _ => format!("<th scope=\"row\" class=\"number\">{version}</th><td><span class=\"tag "),
            };
            assert!(page.contains(&said), "{table}: {line}");
        }
        let info = kerumpase(&["info", table, "--json"]);
        if info.status == Some(0) {
            assert!(page.contains(&format!("<dt>Live files</dt><dd>{}</dd>", common::member(&info.out, "files"))));
        } else {
            assert!(page.contains("class=\"verdict bad\""));
        }
        let due = kerumpase(&["due", table, "--at", "2024-05-20", "--json"]);
        if due.status == Some(0) {
            let count = common::member(&due.out, "due").parse().unwrap();
            assert_eq!(page.matches("<span class=\"tag note\">due</span>").count(), count, "{table}");
            assert!(page.contains("are due</strong>") || count < 2, "{table}");
        }
        let named = kerumpase(&["clean", table, "--older-than", "3d", "--now", "2024-05-20", "--json"]);
        if named.status == Some(0) {
            assert_eq!(page.matches("may go now").count(), named.out.matches("\"file\"").count(), "{table}");
        }
    }
}

#[test]
fn long_tables_are_folded() {
    let folder = Folder::new("many-versions");
    folder.write("_transaction_log/00000000000000000000.json", br#"{"metaData":{"id":"t","partitionColumns":[]}}"#);
    for version in 1..=300 {
        let add = format!(
            r#"{{"add":{{"path":"f{version}","size":{version},"modificationTime":7,"dataChange":true,"partitionValues":{{}}}}}}"#
        );
        folder.write(&format!("_transaction_log/{version:020}.json"), add.as_bytes());
    }
    let page = report(folder.0.to_str().unwrap());
    tags(&page);
    assert!(page.contains("<details><summary>Show all 301 versions</summary>"));
    assert!(page.contains("<details><summary>Show all 300 files</summary>"));
    assert!(page.contains("version 300: 300 live files"));
}

#[test]
fn files_that_wait_for_a_second_merge() {
    let said = kerumpase(&["report", "examples/skipped", "--now", "1712102399999"]);
    assert_eq!(said.status, Some(0), "{said:?}");
    tags(&said.out);
    let section = said.out.split("<h2 id=\"waiting\">").nth(1).unwrap().split("</section>").next().unwrap();
    assert!(
        section.contains("Merging skipped 2 files that are still in the table; on 2024-04-02T23:59:59.999Z"),
        "{section}"
    );
    assert!(section.contains("<strong>1 is due</strong>"), "{section}");
    let number = |number: &str| format!("<td class=\"number\">{number}</td>");
    let row = |path: &str, size: &str, skips: &str, from: &str, (class, now): (&str, &str)| {
        let cells = number(size) + &number(skips);
        format!("<code><bdi>{path}</bdi></code></th>{cells}<td>{from}</td><td><span class=\"tag {class}\">{now}</span></td></tr>")
    };
    for row in [
        row("year=2024/art-1.split", "81,920", "1", "at once", ("note", "due")),
        row("year=2024/music-1.split", "20,480", "2", "<time>2024-04-03T00:00:00Z</time>", ("good", "waits")),
    ] {
        assert!(section.contains(&row), "{row}: {section}");
    }
    assert!(report("examples/cleaner").contains("<p>None: merging skipped no file of the latest version.</p>"));
    let refused = kerumpase(&["report", "examples/refused"]).out;
    assert!(refused.contains("Files waiting for a second merge</h2>\n<p>The latest version cannot be read.</p>"));
}
