//! The cells and the page numbers along their edges.

use super::mark::{dot, label, rect, ring, Text};
use super::Plan;
use crate::map::cell;
use crate::map::legend::{colour, Group, Part};
use crate::map::letters::Letters;
use crate::map::page::Page;
use crate::volume::Volume;

/// A cell for each page. Pages of one file that follow one another lie close together, others apart; the first of them has the letter.
pub fn cells(plan: &Plan, volume: &Volume, pages: &[Page], letters: &Letters) -> String {
    let mut cells = String::new();
    let mut lettered = false;
    for (n, page) in pages.iter().enumerate() {
        let next = pages.get(n + 1).filter(|_| (n + 1) % plan.side != 0);
        let close = next.is_some_and(|next| together(page, next));
        cells.push_str(&rect("page", place(plan, n, close), &colour(page).hex(), &tip(volume, n, page)));
        match Part::of(page) {
            Part::Page if lettered => {}
            Part::Page => cells.push_str(&letter(plan, n, Group::of(page), letters)),
            part => cells.push_str(&mark(plan, n, part)),
        }
        lettered = close && (lettered || Part::of(page) == Part::Page);
    }
    cells
}

/// What is shown of a page: its holder, and what is doubtful about it.
fn tip(volume: &Volume, n: usize, page: &Page) -> String {
    let doubt = page.mark.map_or(String::new(), |mark| format!(" ({})", mark.words()));
    format!("page {n}: {}{doubt}", volume.words(&page.holder))
}

/// A cell for each several pages. Those that most pages of one group are in lie close together.
pub fn of_several(plan: &Plan, volume: &Volume, pages: &[Page]) -> String {
    let cells = cell::cells(pages, plan.each);
    let drawn = |(n, cell): (usize, &cell::Cell)| {
        let next = cells.get(n + 1).filter(|_| (n + 1) % plan.side != 0);
        let close = next.is_some_and(|next| next.group() == cell.group());
        rect("pages", place(plan, n, close), &cell.colour().hex(), &cell.words(volume))
    };
    cells.iter().enumerate().map(drawn).collect()
}

/// Whether two pages are of one file, or both free.
fn together(one: &Page, two: &Page) -> bool {
    Group::of(one) == Group::of(two) && one.holder.file == two.holder.file
}

/// Where the n-th cell lies: x, y, width, height. The gap is on its right and below it.
fn place(plan: &Plan, n: usize, close: bool) -> [f64; 4] {
    let (x, y) = plan.corner(n);
    let (narrow, wide) = if plan.cell >= 12 { (1.0, 3.0) } else { (0.5, 1.5) };
    let gap = if close { narrow } else { wide };
    [x as f64, y as f64, plan.cell as f64 - gap, plan.cell as f64 - wide]
}

/// The mark of an index or subindex block.
fn mark(plan: &Plan, page: usize, part: Part) -> String {
    let [x, y, _, height] = place(plan, page, false);
    let (cell, half) = (plan.cell as f64, height / 2.0);
    match part {
        Part::Page => String::new(),
        Part::Index => dot(x + half, y + half, cell),
        Part::Subindex => ring(x + half, y + half, cell),
    }
}

/// A group's letter in a cell, where there is room for one.
fn letter(plan: &Plan, page: usize, group: Group, letters: &Letters) -> String {
    if !plan.has_letters() || group == Group::Free {
        return String::new();
    }
    let size = plan.cell * 45 / 100;
    let (x, y) = plan.corner(page);
    let half = (plan.cell - 3) / 2;
    let look = Text {
        size,
        bold: true,
        fill: &group.colour().ink().hex(),
        anchor: "middle",
    };
    label(x + half, y + half + size * 37 / 100, &look, &letters.capital(group))
}

/// Page numbers: of the rows at the left, and what is to be added for a column above.
pub fn numbers(plan: &Plan, pages: usize) -> String {
    let mut numbers = String::new();
    let beside = Text {
        size: 11,
        fill: "#4d5563",
        anchor: "end",
        ..Text::default()
    };
    let above = Text {
        anchor: "middle",
        ..beside
    };
    // a number at every row, or at every second, fourth, ..., so that they do not touch
    let rows = [1, 2, 4, 8].into_iter().find(|rows| rows * plan.cell >= 16).unwrap_or(16);
    let to_a_row = plan.side * plan.each;
    for row in (0..pages.div_ceil(to_a_row)).step_by(rows) {
        let y = plan.top + row * plan.cell + plan.cell / 2 + 3;
        numbers.push_str(&label(plan.left - 8, y, &beside, &(row * to_a_row).to_string()));
    }
    for column in (0..plan.side).step_by(plan.side / 8) {
        let x = plan.left + column * plan.cell + plan.cell / 2 - 1;
        numbers.push_str(&label(x, plan.top - 8, &above, &format!("+{}", column * plan.each)));
    }
    numbers
}
