//! A query: a JSON array of at most 8 conditions on partition columns.

use crate::json::{self, Value};

const MOST_BYTES: usize = 4_096;
const MOST_CONDITIONS: usize = 8;
const MOST_DIGITS: usize = 20;

#[derive(Clone, Copy, Debug, PartialEq, Eq)]
pub enum Op {
    Eq,
    Lt,
    Le,
    Gt,
    Ge,
}

impl Op {
    /// Does a value that stands so to the condition's value meet it?
    fn is_met_by(self, order: std::cmp::Ordering) -> bool {
        match self {
            Op::Eq => order.is_eq(),
            Op::Lt => order.is_lt(),
            Op::Le => order.is_le(),
            Op::Gt => order.is_gt(),
            Op::Ge => order.is_ge(),
        }
    }
}

/// What a condition compares with, and so the kind of its values.
#[derive(Clone, Debug, PartialEq, Eq)]
pub enum Operand {
    Text(Vec<u8>),
    Number(i64),
}

#[derive(Clone, Debug, PartialEq, Eq)]
pub struct Condition {
    pub column: Vec<u8>,
    pub op: Op,
    pub operand: Operand,
}

impl Condition {
    /// Does a file's value of this column meet the condition? An unreadable value does not.
    pub fn is_met_by(&self, value: &[u8]) -> bool {
        match &self.operand {
            Operand::Text(text) => self.op.is_met_by(value.cmp(&text[..])),
            Operand::Number(number) => match read_number(value) {
                Number::InRange(value) => self.op.is_met_by(value.cmp(number)),
                Number::OutOfRange | Number::None => false,
            },
        }
    }

    /// Does the condition read a number of this value that is out of range?
    pub fn is_out_of_range(&self, value: &[u8]) -> bool {
        matches!(self.operand, Operand::Number(_)) && read_number(value) == Number::OutOfRange
    }

    /// Do the bounds show that no value from `min` to `max` meets the condition?
    /// Bounds that are no numbers, out of range or the wrong way round show nothing.
    pub fn is_ruled_out_by(&self, min: &[u8], max: &[u8]) -> bool {
        match &self.operand {
            Operand::Text(text) => none_between(self.op, &text[..], min, max),
            Operand::Number(number) => match (read_number(min), read_number(max)) {
                (Number::InRange(min), Number::InRange(max)) => none_between(self.op, *number, min, max),
                _ => false,
            },
        }
    }
}

/// With min <= max: no value from `min` to `max` stands to `operand` as `op` asks.
fn none_between<T: Ord>(op: Op, operand: T, min: T, max: T) -> bool {
    min <= max
        && match op {
            Op::Eq => operand < min || max < operand,
            Op::Lt => operand <= min,
            Op::Le => operand < min,
            Op::Gt => max <= operand,
            Op::Ge => max < operand,
        }
}

/// What a text says as a number.
#[derive(Clone, Copy, Debug, PartialEq, Eq)]
pub enum Number {
    InRange(i64),
    /// Of a number's shape, but below -2^63 or above 2^63-1.
    OutOfRange,
    /// Not of the shape: no number.
    None,
}

/// An optional minus and 1 to 20 decimal digits, in the range from -2^63 to 2^63-1 or out of it.
pub fn read_number(text: &[u8]) -> Number {
    let (negative, digits) = match text.strip_prefix(b"-") {
        Some(digits) => (true, digits),
        None => (false, text),
    };
    if !(1..=MOST_DIGITS).contains(&digits.len()) || !digits.iter().all(u8::is_ascii_digit) {
        return Number::None;
    }
    let amount = digits.iter().fold(0i128, |number, digit| number * 10 + i128::from(digit - b'0'));
    i64::try_from(if negative { -amount } else { amount }).map_or(Number::OutOfRange, Number::InRange)
}

/// Reads a query; `None` if it is malformed.
pub fn read(query: &[u8]) -> Option<Vec<Condition>> {
    if query.len() > MOST_BYTES {
        return None;
    }
    let value = json::read(query)?;
    let items = value.as_array()?;
    if items.len() > MOST_CONDITIONS {
        return None;
    }
    let mut conditions: Vec<Condition> = Vec::new();
    for item in items {
        let condition = read_condition(item)?;
        if conditions.iter().any(|earlier| earlier.column == condition.column) {
            return None;
        }
        conditions.push(condition);
    }
    Some(conditions)
}

fn read_condition(item: &Value) -> Option<Condition> {
    let (mut column, mut number, mut op, mut operand) = (None, None, None, None);
    for (key, value) in item.as_object()? {
        let text = &value.as_text()?.decoded;
        match &key.decoded[..] {
            b"column" if column.is_none() => column = Some(text.clone()),
            b"as" if number.is_none() => {
                number = Some(match &text[..] {
                    b"text" => false,
                    b"number" => true,
                    _ => return None,
                })
            }
            b"op" if op.is_none() => {
                op = Some(match &text[..] {
                    b"eq" => Op::Eq,
                    b"lt" => Op::Lt,
                    b"le" => Op::Le,
                    b"gt" => Op::Gt,
                    b"ge" => Op::Ge,
                    _ => return None,
                })
            }
            b"value" if operand.is_none() => {
                operand = Some(match (number?, read_number(text)) {
                    (false, _) => Operand::Text(text.clone()),
                    (true, Number::InRange(number)) => Operand::Number(number),
                    (true, Number::OutOfRange | Number::None) => return None,
                })
            }
            _ => return None,
        }
    }
    Some(Condition { column: column?, op: op?, operand: operand? })
}
