// SPDX-License-Identifier: Apache-2.0
//! The table of cases: a line each, whose number it keeps for ever.
use std::fmt;

const TABLE: &str = include_str!("../cases.tsv");
const COLUMNS: usize = 7;

/// How much a case that fails says.
#[derive(Clone, Copy, Debug, PartialEq, Eq)]
pub enum Level {
    /// A sentence of the specification says so, without condition.
    Must,
    /// The specification says, or has it follow, that it should be so.
    Should,
    /// No sentence says so, but peers notice.
    Note,
}

impl fmt::Display for Level {
    fn fmt(&self, f: &mut fmt::Formatter<'_>) -> fmt::Result {
        f.pad(match self {
            Level::Must => "MUST",
            Level::Should => "SHOULD",
            Level::Note => "NOTE",
        })
    }
}

/// A case.
#[derive(Debug)]
pub struct Row {
    pub id: &'static str,
    /// The section of the specification.
    pub section: &'static str,
    /// Whether it is for a frontend; or else for a backend.
    pub is_of_frontend: bool,
    pub level: Level,
    pub provoked: &'static str,
    pub expected: &'static str,
    /// What the specification says of it, in its own words; empty where it says nothing.
    pub sentence: &'static str,
}

fn row_of(line: &'static str) -> Option<Row> {
    let mut columns = [""; COLUMNS];
    let mut count = 0;
    for (at, text) in line.split('\t').enumerate() {
        *columns.get_mut(at)? = text;
        count += 1;
    }
    let [id, section, who, level, provoked, expected, sentence] = columns;
    let level = [Level::Must, Level::Should, Level::Note].into_iter().find(|it| it.to_string() == level)?;
    let is_of_frontend = match who {
        "frontend" => true,
        "backend" => false,
        _ => return None,
    };
    (count == COLUMNS).then_some(Row { id, section, is_of_frontend, level, provoked, expected, sentence })
}

/// All cases, in the specification's order.
pub fn rows() -> Vec<Row> {
    TABLE.lines().skip(1).map(|it| row_of(it).unwrap_or_else(|| panic!("no case: {it}"))).collect()
}

#[cfg(test)]
mod tests {
    use super::*;
    use std::collections::HashSet;

    #[test]
    fn each_case_has_a_number_of_its_own() {
        let rows = rows();
        assert!(rows.len() >= 317, "{} cases", rows.len());
        let ids: HashSet<&str> = rows.iter().map(|it| it.id).collect();
        assert_eq!(ids.len(), rows.len());
        for row in &rows {
            let (group, number) = row.id.split_once('-').expect(row.id);
            assert!(group.len() <= 3 && group.bytes().all(|it| it.is_ascii_uppercase()), "{}", row.id);
            assert!(number.bytes().next().map_or(false, |it| it.is_ascii_digit()), "{}", row.id);
        }
    }

    #[test]
    fn what_must_be_has_a_sentence() {
        for row in rows() {
            let has_sentence = !row.sentence.is_empty() && !row.sentence.starts_with('(');
            assert!(row.level != Level::Must || has_sentence, "{} is a MUST without a sentence", row.id);
            assert!(!row.expected.is_empty() && !row.provoked.is_empty(), "{}", row.id);
        }
    }
}
