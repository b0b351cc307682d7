//! The map as a picture in SVG.

mod cells;
mod key;
mod mark;

use super::layout::{cell, pages_to_a_cell, side};
use super::legend::{numbers, Group, Legend, Row};
use super::letters::Letters;
use super::page::Drawing;
use crate::volume::{Holder, Volume};
use mark::{escaped, group, label, rect, Text};

const MARGIN: usize = 28;
/// Height of the title, the line below it and the bar of shares.
const HEAD: usize = 92;
const FONT: &str = "'DejaVu Sans','Segoe UI','Helvetica Neue',Arial,sans-serif";

/// Where things lie in the picture.
struct Plan {
    /// Pages to a cell, cells to a row, and the side of a cell.
    each: usize,
    side: usize,
    cell: usize,
    /// The first cell's corner.
    left: usize,
    top: usize,
    /// The cells' extent.
    width: usize,
    height: usize,
}

impl Plan {
    fn of(pages: usize) -> Plan {
        let each = pages_to_a_cell(pages);
        let cells = pages.div_ceil(each);
        let side = side(cells);
        let cell = cell(side);
        let left = MARGIN + 10 + 8 * pages.saturating_sub(1).to_string().len();
        let (width, height) = (side * cell, cells.div_ceil(side) * cell);
        Plan {
            each,
            side,
            cell,
            left,
            top: HEAD + 46,
            width,
            height,
        }
    }

    fn right(&self) -> usize {
        self.left + self.width
    }

    fn bottom(&self) -> usize {
        self.top + self.height
    }

    /// Whether a cell has room for a letter.
    fn has_letters(&self) -> bool {
        self.cell >= 16
    }

    /// The upper left corner of the n-th cell.
    fn corner(&self, n: usize) -> (usize, usize) {
        (self.left + n % self.side * self.cell, self.top + n / self.side * self.cell)
    }
}

/// A picture of a sound volume.
pub fn svg(volume: &Volume, holders: &[Holder]) -> String {
    draw(&Drawing::sound(volume, holders))
}

/// A picture of the volume: its cells, their numbers along the edges, and a legend beside them.
pub fn draw(drawing: &Drawing) -> String {
    let Drawing { volume, pages, unsound } = drawing;
    let plan = Plan::of(pages.len());
    let legend = Legend::of(volume, pages);
    let letters = Letters::of(&legend.rows);
    let key = key::Key::of(&plan, &legend, &letters);
    let mut numbers = numbers(volume, pages);
    numbers.extend(unsound.iter().map(|words| format!("; {words}")));
    let (width, height) = (key.right() + MARGIN, plan.bottom().max(key.bottom()) + MARGIN);
    let mut picture = opened(width, height, &format!("{}: {numbers}", volume.name));
    picture.push_str(&head(&volume.name, &numbers));
    picture.push_str(&shares(&legend.rows, pages.len(), key.right() - MARGIN));
    picture.push_str(&group("numbers", &cells::numbers(&plan, pages.len())));
    let cells = match plan.each {
        1 => cells::cells(&plan, volume, pages, &letters),
        _ => cells::of_several(&plan, volume, pages),
    };
    picture.push_str(&group("cells", &cells));
    picture.push_str(&group("legend", &key.drawn()));
    picture.push_str("</svg>\n");
    picture
}

/// The picture's opening, its title and its paper.
fn opened(width: usize, height: usize, title: &str) -> String {
    let size = format!("width=\"{width}\" height=\"{height}\" viewBox=\"0 0 {width} {height}\"");
    let title = escaped(title);
    let opening =
        format!("<svg xmlns=\"http://www.w3.org/2000/svg\" {size} role=\"img\" font-family=\"{FONT}\">\n<title>{title}</title>\n");
    opening + &rect("paper", [0.0, 0.0, width as f64, height as f64], "#ffffff", "")
}

/// The volume's name, and its numbers below it.
fn head(name: &str, numbers: &str) -> String {
    let large = Text {
        size: 26,
        bold: true,
        ..Text::default()
    };
    let below = Text {
        size: 14,
        fill: "#4d5563",
        ..Text::default()
    };
    label(MARGIN, MARGIN + 20, &large, name) + &label(MARGIN, MARGIN + 44, &below, numbers)
}

/// A bar with each group's share of the pages, the free ones last.
fn shares(rows: &[Row], pages: usize, width: usize) -> String {
    let (free, held): (Vec<&Row>, Vec<&Row>) = rows.iter().partition(|row| row.group == Group::Free);
    let mut bar = String::new();
    let mut before = 0;
    for row in held.into_iter().chain(free).filter(|row| row.pages > 0) {
        let at = |count: u32| MARGIN as f64 + width as f64 * f64::from(count) / pages.max(1) as f64;
        let (from, to) = (at(before), at(before + row.pages));
        let tip = format!("{}: {} of {pages} pages", row.name, row.pages);
        bar.push_str(&rect(
            "share",
            [from, (MARGIN + 56) as f64, to - from, 12.0],
            &row.group.colour().hex(),
            &tip,
        ));
        before += row.pages;
    }
    bar
}
