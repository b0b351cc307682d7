//! The legend beside the cells.

use super::mark::{dot, label, rect, ring, Text};
use super::Plan;
use crate::map::legend::{grouped, Group, Legend, Part, Row};
use crate::map::letters::Letters;
use crate::palette;

const LINE: usize = 23;
const SWATCH: usize = 17;
/// Room for "of 140,733 given" and a gap.
const GIVEN: usize = 125;

/// A line of the legend.
enum Line<'a> {
    Heading(&'static str),
    Row(&'a Row),
    /// What a white mark on a darker cell means.
    Mark(Part),
    Note(String),
    Gap,
}

/// The lines with their places, in up to three columns where they are many.
pub struct Key<'a> {
    lines: Vec<Line<'a>>,
    /// The letters, where the cells have them.
    letters: Option<&'a Letters>,
    left: usize,
    top: usize,
    /// Lines to a column, and a column's width.
    down: usize,
    wide: usize,
}

/// What is said where a cell is several pages.
fn several(each: usize) -> [String; 4] {
    [
        format!("a cell is {each} pages:"),
        "the colour of whoever holds most of them,".to_string(),
        "the paler the more of them are free;".to_string(),
        "master block and bit file wherever they lie".to_string(),
    ]
}

fn lines(legend: &Legend, each: usize) -> Vec<Line<'_>> {
    let (users, others): (Vec<&Row>, Vec<&Row>) = legend.rows.iter().partition(|row| matches!(row.group, Group::User(_)));
    let (doubtful, system): (Vec<&Row>, Vec<&Row>) = others.into_iter().partition(|row| matches!(row.group, Group::Doubtful(_)));
    let mut lines = vec![Line::Heading("System")];
    lines.extend(system.into_iter().map(Line::Row));
    if !users.is_empty() {
        lines.extend([Line::Gap, Line::Heading("Users' files")]);
    }
    lines.extend(users.into_iter().map(Line::Row));
    lines.extend(legend.others_in_words().map(Line::Note));
    if !doubtful.is_empty() {
        lines.extend([Line::Gap, Line::Heading("Doubtful pages")]);
    }
    lines.extend(doubtful.into_iter().map(Line::Row));
    if each > 1 {
        lines.push(Line::Gap);
        lines.extend(several(each).map(Line::Note));
        return lines;
    }
    if legend.index {
        lines.extend([Line::Gap, Line::Mark(Part::Index)]);
    }
    if legend.subindex {
        lines.push(Line::Mark(Part::Subindex));
    }
    lines
}

impl Key<'_> {
    pub fn of<'a>(plan: &Plan, legend: &'a Legend, letters: &'a Letters) -> Key<'a> {
        let lines = lines(legend, plan.each);
        let longest = legend.rows.iter().map(|row| row.name.len()).max().unwrap_or(0).max(12);
        let down = (plan.height / LINE).max(18).max(lines.len().div_ceil(3));
        Key {
            lines,
            letters: plan.has_letters().then_some(letters),
            left: plan.right() + 36,
            top: plan.top,
            down,
            wide: 26 + 10 * longest + 45 + GIVEN,
        }
    }

    pub fn right(&self) -> usize {
        self.left + self.lines.len().div_ceil(self.down) * self.wide
    }

    pub fn bottom(&self) -> usize {
        self.top + self.lines.len().min(self.down) * LINE
    }

    pub fn drawn(&self) -> String {
        self.lines.iter().enumerate().map(|(n, line)| self.line(n, line)).collect()
    }

    fn line(&self, n: usize, line: &Line) -> String {
        let (x, y) = (self.left + n / self.down * self.wide, self.top + n % self.down * LINE);
        match line {
            Line::Gap => String::new(),
            Line::Heading(text) => label(
                x,
                y + 13,
                &Text {
                    bold: true,
                    ..Text::default()
                },
                text,
            ),
            Line::Row(row) => self.row(x, y, row),
            Line::Mark(part) => mark(x, y, *part),
            Line::Note(text) => label(x, y + 13, &grey(), text),
        }
    }

    /// A group's colour and letter, its name and its pages; for a user also the pages given.
    fn row(&self, x: usize, y: usize, row: &Row) -> String {
        let (colour, end) = (row.group.colour(), x + self.wide - GIVEN);
        let mut line = swatch(x, y, &colour.hex());
        if let (Some(letters), true) = (self.letters, row.group != Group::Free) {
            let look = Text {
                size: 11,
                bold: true,
                fill: &colour.ink().hex(),
                anchor: "middle",
            };
            line.push_str(&label(x + SWATCH / 2, y + 12, &look, &letters.capital(row.group)));
        }
        line.push_str(&words(x, y, &row.name));
        let count = Text {
            anchor: "end",
            ..Text::default()
        };
        line.push_str(&label(end, y + 13, &count, &grouped(row.pages as usize)));
        if let Some(given) = row.given {
            line.push_str(&label(end + 6, y + 13, &grey(), &format!("of {} given", grouped(given as usize))));
        }
        line
    }
}

fn grey() -> Text<'static> {
    Text {
        size: 12,
        fill: "#6b7484",
        ..Text::default()
    }
}

fn swatch(x: usize, y: usize, fill: &str) -> String {
    rect("swatch", [x, y, SWATCH, SWATCH].map(|number| number as f64), fill, "")
}

fn words(x: usize, y: usize, text: &str) -> String {
    label(x + SWATCH + 9, y + 13, &Text::default(), text)
}

/// What a dot or a ring means, on a grey that no group has.
fn mark(x: usize, y: usize, part: Part) -> String {
    let half = SWATCH as f64 / 2.0;
    let (across, down) = (x as f64 + half, y as f64 + half);
    let behind = swatch(x, y, &palette::USER_FILE.darker().hex());
    match part {
        Part::Subindex => behind + &ring(across, down, 22.0) + &words(x, y, "subindex block (darker)"),
        _ => behind + &dot(across, down, 22.0) + &words(x, y, "index block (darker)"),
    }
}
