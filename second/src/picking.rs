//! Picking: the files that meet every condition of a query.

use crate::history::LiveFile;
use crate::query::Condition;

/// Every condition met; a missing, null or unreadable value meets none.
pub fn is_picked(file: &LiveFile, conditions: &[Condition]) -> bool {
    conditions.iter().all(|condition| match file.values.get(&condition.column) {
        Some(Some(value)) => condition.is_met_by(value),
        Some(None) | None => false,
    })
}

/// Some condition reads a number of this file that is out of range, whether the others are met or not.
pub fn is_out_of_range(file: &LiveFile, conditions: &[Condition]) -> bool {
    conditions.iter().any(|condition| match file.values.get(&condition.column) {
        Some(Some(value)) => condition.is_out_of_range(value),
        Some(None) | None => false,
    })
}

/// Every condition is on one of the partition columns in force.
pub fn conditions_fit(conditions: &[Condition], columns: &[Vec<u8>]) -> bool {
    conditions.iter().all(|condition| columns.contains(&condition.column))
}
