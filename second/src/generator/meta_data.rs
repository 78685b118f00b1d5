//! Metadata: its facts, the ways in which they change, and its lines.

use super::dice::Dice;
use super::lines::{self, COLUMNS};
use super::writing::{quoted, strings};

/// The most partition columns of a table.
const MOST_COLUMNS: usize = 16;

/// The facts of one metaData.
#[derive(Clone, Debug)]
pub struct MetaFacts {
    pub id: String,
    pub columns: Vec<String>,
}

impl MetaFacts {
    /// A table's first metadata: up to three columns.
    pub fn first(dice: &mut Dice) -> MetaFacts {
        MetaFacts { id: "t".to_string(), columns: lines::columns(dice) }
    }

    /// Changes exactly one thing: the id, or the columns, of which one is renamed, new, gone or moved.
    pub fn change(&mut self, dice: &mut Dice) {
        let count = self.columns.len();
        match dice.below(8) {
            0 => self.id = dice.pick(&["u", "T", "t ", "\u{E9}"]).to_string(),
            1 | 2 if count >= 2 => {
                let moved = self.columns.remove(0);
                self.columns.insert(1 + dice.below(count - 1), moved);
            }
            3 if count >= 1 => {
                self.columns.remove(dice.below(count));
            }
            6 | 7 if count == MOST_COLUMNS => {
                self.columns.remove(dice.below(count));
            }
            4 | 5 if count >= 1 => self.columns[dice.below(count)] = self.new_column(dice),
            _ => self.columns.insert(dice.below(count + 1), self.new_column(dice)),
        }
    }

    fn new_column(&self, dice: &mut Dice) -> String {
        let is_new = |name: &&str| !self.columns.iter().any(|column| column == name);
        let new: Vec<&str> = COLUMNS.into_iter().filter(is_new).collect();
        if new.is_empty() {
            let mut numbered = (0..).map(|number| format!("c{number}"));
            return numbered.find(|name| !self.columns.contains(name)).unwrap_or_default();
        }
        dice.pick(&new).to_string()
    }

    pub fn line(&self, dice: &mut Dice) -> String {
        let fields = vec![
            ("id".to_string(), quoted(dice, &self.id)),
            ("partitionColumns".to_string(), strings(dice, &self.columns)),
        ];
        lines::action(dice, "metaData", fields)
    }
}
