//! The words of a command line: options by their names, and operands.

use std::ffi::{OsStr, OsString};

use crate::ending::{usage, Fail};
use crate::text::shown;

/// An option of a command.
#[derive(Clone, Copy, Debug)]
pub enum Opt {
    /// Given or not: `--json`.
    Flag(&'static str),
    /// With a value, at most once: `--at 3` or `--at=3`.
    Value(&'static str),
    /// With a value, any number of times.
    Values(&'static str),
}

impl Opt {
    fn name(&self) -> &'static str {
        match self {
            Opt::Flag(name) | Opt::Value(name) | Opt::Values(name) => name,
        }
    }
}

#[derive(Debug, Default)]
pub struct Words {
    given: Vec<(&'static str, Option<OsString>)>,
    pub operands: Vec<OsString>,
}

impl Words {
    /// Options may stand anywhere; behind `--` everything is an operand, and `-` alone always is.
    pub fn read(options: &[Opt], words: &[OsString]) -> Result<Words, String> {
        let mut read = Words::default();
        let mut words = words.iter();
        while let Some(word) = words.next() {
            let spelled = word.to_string_lossy();
            if spelled == "--" {
                read.operands.extend(words.cloned());
                break;
            }
            if spelled == "-" || !spelled.starts_with('-') {
                read.operands.push(word.clone());
                continue;
            }
            let (name, attached) = match spelled.split_once('=') {
                Some((name, value)) => (name, Some(value)),
                None => (&*spelled, None),
            };
            let option = options.iter().find(|option| option.name() == name);
            let option = option.ok_or_else(|| format!("there is no option {}", shown(name)))?;
            let value = match (option, attached) {
                (Opt::Flag(_), None) => None,
                (Opt::Flag(_), Some(_)) => return Err(format!("{name} takes no value")),
                (_, Some(value)) if !value.contains('\u{FFFD}') => Some(OsString::from(value)),
                (_, Some(_)) => return Err(format!("the value of {name} is not UTF-8")),
                (_, None) => Some(words.next().ok_or_else(|| format!("{name} wants a value"))?.clone()),
            };
            let again = read.given.iter().any(|(given, _)| *given == name);
            if again && !matches!(option, Opt::Values(_)) {
                return Err(format!("{name} is given twice"));
            }
            read.given.push((option.name(), value));
        }
        Ok(read)
    }

    pub fn flag(&self, name: &str) -> bool {
        self.given.iter().any(|(given, _)| *given == name)
    }

    /// The values of an option, as text.
    pub fn values(&self, name: &str) -> Result<Vec<&str>, Fail> {
        let of_name = self.given.iter().filter(|(given, _)| *given == name).filter_map(|(_, value)| value.as_deref());
        of_name
            .map(|value| value.to_str().ok_or_else(|| Fail::Usage(None, format!("the value of {name} is not UTF-8"))))
            .collect()
    }

    pub fn value(&self, name: &str) -> Result<Option<&str>, Fail> {
        Ok(self.values(name)?.into_iter().next())
    }

    /// The one operand of a command that takes one.
    pub fn operand(&self, what: &str) -> Result<&OsStr, Fail> {
        match &self.operands[..] {
            [one] => Ok(one),
            [] => usage(format!("{what} is missing")),
            [_, more, ..] => usage(format!("{} is one word too many", shown(&more.to_string_lossy()))),
        }
    }
}

#[cfg(test)]
mod tests {
    use super::*;

    const OPTIONS: [Opt; 3] = [Opt::Flag("--json"), Opt::Value("--at"), Opt::Values("--text")];

    fn read(words: &[&str]) -> Result<Words, String> {
        Words::read(&OPTIONS, &words.iter().map(OsString::from).collect::<Vec<_>>())
    }

    #[test]
    fn options_stand_anywhere() {
        let words =
            read(&["a", "--at", "-3", "--text=year = 2024", "-", "--text", "b = c", "--json", "--", "--at"]).unwrap();
        assert_eq!(words.operands, ["a", "-", "--at"]);
        assert_eq!(words.value("--at").unwrap(), Some("-3"));
        assert_eq!(words.values("--text").unwrap(), ["year = 2024", "b = c"]);
        assert!(words.flag("--json"));
        assert!(words.operand("TABLE").is_err());
    }

    #[test]
    fn wrong_options_are_said() {
        assert_eq!(read(&["--no"]).unwrap_err(), "there is no option --no");
        assert_eq!(read(&["--at"]).unwrap_err(), "--at wants a value");
        assert_eq!(read(&["--at", "1", "--at=2"]).unwrap_err(), "--at is given twice");
        assert_eq!(read(&["--json=yes"]).unwrap_err(), "--json takes no value");
        assert_eq!(read(&["-j"]).unwrap_err(), "there is no option -j");
    }
}
