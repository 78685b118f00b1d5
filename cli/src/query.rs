//! Queries from conditions as people write them. This only quotes; the proved reader judges (refusals 10 and 11).

use crate::ending::{usage, Fail};
use crate::json::quoted;
use crate::text::shown;
use crate::words::Words;

/// What a condition's sign is in a query, the longer signs first.
const SIGNS: [(&str, &str); 5] = [("<=", "le"), (">=", "ge"), ("=", "eq"), ("<", "lt"), (">", "gt")];

/// The query that the options --query, --text and --number give; `[]` where there are none.
pub fn of(words: &Words) -> Result<Vec<u8>, Fail> {
    let (texts, numbers) = (words.values("--text")?, words.values("--number")?);
    if let Some(query) = words.value("--query")? {
        if !texts.is_empty() || !numbers.is_empty() {
            return usage("--query stands alone, without --text and --number");
        }
        return Ok(query.as_bytes().to_vec());
    }
    let mut conditions = Vec::new();
    for (option, kind, written) in [("--text", "text", texts), ("--number", "number", numbers)] {
        for condition in written {
            conditions.push(json_of(condition, option, kind)?);
        }
    }
    Ok(format!("[{}]", conditions.join(",")).into_bytes())
}

/// One condition: a column, a sign, a value, with spaces around each left out.
fn json_of(condition: &str, option: &str, kind: &str) -> Result<String, Fail> {
    let place = condition.find(['<', '>', '=']);
    let sign = place.and_then(|place| SIGNS.iter().find(|(sign, _)| condition[place..].starts_with(sign)));
    match (place, sign) {
        (Some(place), Some((sign, op))) => {
            let (column, value) = (condition[..place].trim(), condition[place + sign.len()..].trim());
            let (column, value) = (quoted(column.as_bytes()), quoted(value.as_bytes()));
            Ok(format!("{{\"column\":{column},\"as\":\"{kind}\",\"op\":\"{op}\",\"value\":{value}}}"))
        }
        _ => usage(format!(
            "a condition is a column, one of = < <= > >=, and a value, as in {option} 'year = 2024'; \"{}\" is not",
            shown(condition)
        )),
    }
}

#[cfg(test)]
mod tests {
    use super::*;

    fn condition(text: &str) -> String {
        json_of(text, "--text", "text").unwrap()
    }

    #[test]
    fn conditions_are_quoted() {
        let expected = |column: &str, op: &str, value: &str| {
            format!(r#"{{"column":"{column}","as":"text","op":"{op}","value":"{value}"}}"#)
        };
        assert_eq!(condition("year = 2024"), expected("year", "eq", "2024"));
        assert_eq!(condition("year<=2024"), expected("year", "le", "2024"));
        assert_eq!(condition("year >= 2024"), expected("year", "ge", "2024"));
        assert_eq!(condition(" a b < c d "), expected("a b", "lt", "c d"));
        assert_eq!(condition("x>"), expected("x", "gt", ""));
        assert_eq!(condition("x = a=b"), expected("x", "eq", "a=b"));
        assert_eq!(condition("x = \"é\\\n"), expected("x", "eq", "\\\"é\\\\"));
        assert!(json_of("year", "--text", "text").is_err());
        assert!(json_of("", "--text", "text").is_err());
    }
}
