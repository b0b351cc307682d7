//! A terminal: what a command shows on one of so many columns, and the rows that are left on it.

use std::process::Command;

pub struct Screen {
    columns: usize,
    rows: Vec<Vec<char>>,
    row: usize,
    column: usize,
    /// How often a line was wider than the terminal and went on in the next row.
    pub wraps: usize,
    /// All that was shown, with the terminal's codes.
    pub seen: String,
}

impl Screen {
    /// What a shell's line shows on a terminal of its own. Standard output and standard error are both shown.
    pub fn after(line: &str, columns: usize) -> Screen {
        let line = format!("stty cols {columns} rows 30; {line}");
        let output = Command::new("script").args(["-qec", &line, "/dev/null"]).output().unwrap();
        let mut screen = Screen {
            columns,
            rows: vec![vec![' '; columns]],
            row: 0,
            column: 0,
            wraps: 0,
            seen: String::from_utf8(output.stdout).unwrap(),
        };
        screen.show();
        screen
    }

    /// The rows that are not empty in the end.
    pub fn rows(&self) -> Vec<String> {
        let texts = self.rows.iter().map(|row| row.iter().collect::<String>().trim_end().to_string());
        texts.filter(|text| !text.is_empty()).collect()
    }

    fn show(&mut self) {
        let seen = self.seen.clone();
        let mut parts = seen.split('\x1b');
        self.text(parts.next().unwrap_or_default());
        for part in parts {
            let end = part.find(|letter: char| letter.is_ascii_alphabetic()).expect("the end of a code");
            let (code, text) = part.split_at(end + 1);
            self.code(code);
            self.text(text);
        }
    }

    fn code(&mut self, code: &str) {
        match (code, code.ends_with('m')) {
            ("[2K", _) => self.rows[self.row].fill(' '),
            ("[1A", _) => self.go_to(self.row.saturating_sub(1)),
            ("[1B", _) => self.go_to(self.row + 1),
            // Colours.
            (_, true) => {}
            (other, _) => panic!("a code that is not known here: {other:?}"),
        }
    }

    fn text(&mut self, text: &str) {
        for letter in text.chars() {
            match letter {
                '\r' => self.column = 0,
                '\n' => self.go_to(self.row + 1),
                letter => self.letter(letter),
            }
        }
    }

    /// A letter behind the last column goes to the next row, as in xterm and its like.
    fn letter(&mut self, letter: char) {
        if self.column == self.columns {
            self.wraps += 1;
            self.column = 0;
            self.go_to(self.row + 1);
        }
        self.rows[self.row][self.column] = letter;
        self.column += 1;
    }

    fn go_to(&mut self, row: usize) {
        self.row = row;
        self.rows.resize(self.rows.len().max(row + 1), vec![' '; self.columns]);
    }
}
