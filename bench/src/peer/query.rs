//! Queries: conditions on partition values.

use std::borrow::Cow;
use std::cmp::Ordering;

use serde::Deserialize;

use super::actions::Pairs;
use super::Answer;

#[derive(Clone, Copy, Deserialize)]
#[serde(rename_all = "lowercase")]
enum Kind {
    Text,
    Number,
}

#[derive(Clone, Copy, Deserialize)]
#[serde(rename_all = "lowercase")]
enum Op {
    Eq,
    Lt,
    Le,
    Gt,
    Ge,
}

#[derive(Deserialize)]
#[serde(deny_unknown_fields)]
pub struct Condition<'a> {
    #[serde(borrow)]
    pub column: Cow<'a, str>,
    r#as: Kind,
    op: Op,
    #[serde(borrow)]
    value: Cow<'a, str>,
}

pub fn read(query: &[u8]) -> Answer<Vec<Condition<'_>>> {
    serde_json::from_slice(query).map_err(|error| error.to_string())
}

impl Condition<'_> {
    pub fn is_met(&self, values: &Pairs) -> bool {
        let Some((_, Some(value))) = values.0.iter().find(|(name, _)| *name == self.column) else { return false };
        let order = match self.r#as {
            Kind::Text => value.as_bytes().cmp(self.value.as_bytes()),
            Kind::Number => match (value.parse::<i64>(), self.value.parse::<i64>()) {
                (Ok(value), Ok(bound)) => value.cmp(&bound),
                _ => return false,
            },
        };
        match self.op {
            Op::Eq => order == Ordering::Equal,
            Op::Lt => order == Ordering::Less,
            Op::Le => order != Ordering::Greater,
            Op::Gt => order == Ordering::Greater,
            Op::Ge => order != Ordering::Less,
        }
    }
}
