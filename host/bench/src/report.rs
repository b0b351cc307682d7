//! What a run says: paragraphs and tables, on standard output as they come and at the end as Markdown.

/// A table with its title, and how it was measured.
#[derive(Default)]
pub struct Table {
    pub title: String,
    pub note: String,
    pub head: Vec<&'static str>,
    pub rows: Vec<Vec<String>>,
}

impl Table {
    pub fn new(title: &str, note: &str, head: &[&'static str]) -> Table {
        Table {
            title: title.into(),
            note: note.into(),
            head: head.to_vec(),
            rows: Vec::new(),
        }
    }

    pub fn row(&mut self, cells: Vec<String>) {
        assert_eq!(cells.len(), self.head.len());
        self.rows.push(cells);
    }

    /// The widest cell of each column.
    fn widths(&self) -> Vec<usize> {
        let width = |n: usize| self.rows.iter().map(|row| row[n].chars().count()).chain([self.head[n].len()]).max();
        (0..self.head.len()).filter_map(width).collect()
    }

    pub fn as_text(&self) -> String {
        let widths = self.widths();
        let line = |cells: Vec<&str>| {
            let padded: Vec<String> = cells.iter().zip(&widths).map(|(cell, &width)| format!("{cell:width$}")).collect();
            padded.join("  ").trim_end().to_string() + "\n"
        };
        let mut text = format!("{}\n{}\n", self.title, "-".repeat(self.title.chars().count()));
        if !self.note.is_empty() {
            text += &format!("{}\n", self.note);
        }
        if !self.rows.is_empty() {
            text += &line(self.head.to_vec());
        }
        self.rows
            .iter()
            .for_each(|row| text += &line(row.iter().map(String::as_str).collect()));
        text
    }

    pub fn as_markdown(&self) -> String {
        let line = |cells: Vec<&str>| format!("| {} |\n", cells.join(" | "));
        let mut text = format!("### {}\n\n", self.title);
        if !self.note.is_empty() {
            text += &format!("{}\n\n", self.note);
        }
        if !self.rows.is_empty() {
            text += &line(self.head.to_vec());
            text += &format!("|{}\n", "---|".repeat(self.head.len()));
        }
        self.rows
            .iter()
            .for_each(|row| text += &line(row.iter().map(String::as_str).collect()));
        text
    }
}

/// A whole number with commas.
pub fn grouped(number: u64) -> String {
    let digits = number.to_string();
    let mut text = String::new();
    for (n, digit) in digits.chars().enumerate() {
        if n > 0 && (digits.len() - n).is_multiple_of(3) {
            text.push(',');
        }
        text.push(digit);
    }
    text
}

/// All tables of a run.
#[derive(Default)]
pub struct Report {
    tables: Vec<Table>,
}

impl Report {
    /// Adds a table and prints it.
    pub fn add(&mut self, table: Table) {
        println!("{}", table.as_text());
        self.tables.push(table);
    }

    pub fn as_markdown(&self) -> String {
        let tables: Vec<String> = self.tables.iter().map(Table::as_markdown).collect();
        tables.join("\n")
    }
}

#[cfg(test)]
mod tests {
    use super::*;

    #[test]
    fn numbers_are_grouped_by_three() {
        assert_eq!([7, 1_000, 16_384, 1_234_567].map(grouped), ["7", "1,000", "16,384", "1,234,567"]);
    }

    #[test]
    fn a_table_in_both_forms() {
        let mut table = Table::new("T", "", &["a", "b"]);
        table.row(vec!["xx".into(), "y".into()]);
        assert_eq!(table.as_text(), "T\n-\na   b\nxx  y\n");
        assert_eq!(table.as_markdown(), "### T\n\n| a | b |\n|---|---|\n| xx | y |\n");
    }
}
