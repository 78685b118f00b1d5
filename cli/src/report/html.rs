//! Pieces of HTML. Everything from outside goes through `text`.

use crate::clock::time_shown;
use crate::text::shown;

/// A text from outside, as HTML that shows it and nothing else.
pub fn text(text: &str) -> String {
    let mut escaped = String::new();
    for c in shown(text).chars() {
        match c {
            '&' => escaped.push_str("&amp;"),
            '<' => escaped.push_str("&lt;"),
            '>' => escaped.push_str("&gt;"),
            '"' => escaped.push_str("&quot;"),
            '\'' => escaped.push_str("&#39;"),
            c => escaped.push(c),
        }
    }
    escaped
}

/// The same for a text of several lines.
pub fn text_lines(lines: &str) -> String {
    lines.lines().map(|line| text(line) + "\n").collect()
}

/// A sentence of ours, in which what stands between backquotes is code.
pub fn prose(sentence: &str) -> String {
    let parts = sentence.split('`').enumerate();
    parts
        .map(|(place, part)| if place % 2 == 0 { text(part) } else { format!("<code>{}</code>", text(part)) })
        .collect()
}

/// A time.
pub fn time(milliseconds: u64) -> String {
    format!("<time>{}</time>", time_shown(milliseconds))
}

/// A name or a line from outside: in its own direction, whatever letters it has.
pub fn code(name: &str) -> String {
    format!("<code><bdi>{}</bdi></code>", text(name))
}

/// A word in a coloured frame.
pub fn tag(class: &str, words: &str) -> String {
    format!("<span class=\"tag {class}\">{words}</span>")
}

/// A table: its caption, its columns (a name, and whether it holds numbers), its rows of HTML. The first cell of a row heads it.
pub fn table(caption: &str, columns: &[(&str, bool)], rows: &[Vec<String>]) -> String {
    let class = |numbers: bool| if numbers { " class=\"number\"" } else { "" };
    let mut said = format!("<div class=\"wide\" tabindex=\"0\" role=\"region\" aria-label=\"{caption}\"><table>\n<caption>{caption}</caption>\n<thead><tr>");
    for (name, numbers) in columns {
        said += &format!("<th scope=\"col\"{}>{name}</th>", class(*numbers));
    }
    said += "</tr></thead>\n<tbody>\n";
    for row in rows {
        said += "<tr>";
        for (place, (cell, (_, numbers))) in row.iter().zip(columns).enumerate() {
            match place {
                0 => said += &format!("<th scope=\"row\"{}>{cell}</th>", class(*numbers)),
                _ => said += &format!("<td{}>{cell}</td>", class(*numbers)),
            }
        }
        said += "</tr>\n";
    }
    said + "</tbody></table></div>\n"
}

/// What is long is folded, and opens by a click or a key.
pub fn folded(rows: usize, what: &str, inner: &str) -> String {
    const MOST: usize = 40;
    if rows <= MOST {
        return inner.to_string();
    }
    format!("<details><summary>{what}</summary>\n{inner}</details>\n")
}

#[cfg(test)]
mod tests {
    use super::*;

    #[test]
    fn texts_are_escaped() {
        assert_eq!(
            text("<script>alert('a' & \"b\")</script>\u{7}"),
            "&lt;script&gt;alert(&#39;a&#39; &amp; &quot;b&quot;)&lt;/script&gt;\\u{7}"
        );
        assert_eq!(code("<b>"), "<code><bdi>&lt;b&gt;</bdi></code>");
        assert_eq!(prose("a `b <c>` d"), "a <code>b &lt;c&gt;</code> d");
    }
}
