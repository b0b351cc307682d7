//! The rows of docs/PROMISES.md: each promise stands in a table under a heading, named by its first cell.

use crate::fate::{Item, Told};

/// A row, with its cells by the heads of their columns.
#[derive(Clone, Debug, PartialEq, Eq)]
pub struct Row {
    pub section: String,
    pub cells: Vec<(String, String)>,
}

fn cells(line: &str) -> Vec<String> {
    let inner = line.trim().trim_start_matches('|').trim_end_matches('|');
    inner.split('|').map(|cell| cell.trim().to_string()).collect()
}

fn is_rule(line: &str) -> bool {
    line.contains("---") && line.chars().all(|letter| "|-: ".contains(letter))
}

/// All rows of all tables. A table begins with its heads and the rule below them.
pub fn rows(text: &str) -> Vec<Row> {
    let (mut section, mut heads, mut found) = (String::new(), Vec::new(), Vec::new());
    let mut lines = text.lines().peekable();
    while let Some(line) = lines.next() {
        if let Some(title) = line.strip_prefix('#') {
            section = title.trim_start_matches('#').trim().to_string();
        } else if !line.starts_with('|') || is_rule(line) {
            continue;
        } else if lines.peek().is_some_and(|below| is_rule(below)) {
            heads = cells(line);
        } else {
            let cells = heads.iter().cloned().zip(cells(line)).collect();
            let section = section.clone();
            found.push(Row { section, cells });
        }
    }
    found
}

/// The rows as items, to be compared.
pub fn items(rows: &[Row]) -> Vec<Item> {
    let item = |row: &Row| Item {
        place: row.section.clone(),
        name: row.cells.first().map(|cell| cell.1.clone()).unwrap_or_default(),
        text: row.cells.iter().map(|cell| cell.1.as_str()).collect::<Vec<_>>().join(" | "),
    };
    rows.iter().map(item).collect()
}

/// The columns in which a row is another.
pub fn columns_changed(told: &Told, before: &[Row], after: &[Row]) -> Vec<String> {
    let find = |rows: &[Row], section: &Option<String>| {
        let named = |row: &&Row| Some(&row.section) == section.as_ref() && row.cells.first().is_some_and(|cell| cell.1 == told.name);
        rows.iter().find(named).map(|row| row.cells.clone()).unwrap_or_default()
    };
    let (old, new) = (find(before, &told.old), find(after, &told.new));
    let changed = new.iter().filter(|cell| !old.contains(cell));
    changed.map(|cell| cell.0.clone()).collect()
}

#[cfg(test)]
mod tests {
    use super::*;
    use crate::fate::{compare, Fate};

    const BEFORE: &str = "# Promises\n\n## One\n\n| promise | theorem |\n|---|---|\n| It ends | `A.ends` |\n| It is sound | `A.sound` |\n";
    const AFTER: &str = "# Promises\n\n## Two\n\n| promise | theorem |\n|---|---|\n| It ends | `A.ends` |\n\n## One\n\n\
        | promise | theorem |\n|---|---|\n| It is sound | `B.sound` |\n";

    #[test]
    fn rows_are_named_by_their_first_cell() {
        let (before, after) = (rows(BEFORE), rows(AFTER));
        assert_eq!(before.len(), 2);
        let told = compare(&items(&before), &items(&after));
        let fates: Vec<(&str, Fate)> = told.iter().map(|told| (told.name.as_str(), told.fate)).collect();
        assert_eq!(fates, [("It is sound", Fate::Changed), ("It ends", Fate::Moved)]);
        assert_eq!(columns_changed(&told[0], &before, &after), ["theorem"]);
    }
}
