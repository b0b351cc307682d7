//! The map for a terminal: a character for each page, or for several of a large pack.

use super::cell;
use super::fold::folded;
use super::layout::{columns, pages_to_a_character, NARROWEST};
use super::legend::{colour, grouped, numbers, Group, Legend, Part, Row};
use super::letters::Letters;
use super::page::{Drawing, Page};
use crate::palette::Colour;
use crate::volume::{Holder, Volume};

/// The map of a sound volume, as `write` has it.
pub fn text(volume: &Volume, holders: &[Holder], width: usize, colour: bool) -> String {
    write(&Drawing::sound(volume, holders), width, colour)
}

/// The map in lines of at most `width` characters (or 20, where that is less), with a terminal's colours behind the characters if `colour`.
pub fn write(drawing: &Drawing, width: usize, colour: bool) -> String {
    let Drawing { volume, pages, unsound } = drawing;
    let width = width.max(NARROWEST);
    let legend = Legend::of(volume, pages);
    let letters = Letters::of(&legend.rows);
    let edge = pages.len().saturating_sub(1).to_string().len() + 2;
    let columns = columns(pages.len(), width.saturating_sub(edge));
    let each = pages_to_a_character(pages.len(), columns);
    let mut lines: Vec<String> = unsound
        .iter()
        .flat_map(|words| folded(words.split_inclusive(' ').map(str::trim_end), width))
        .collect();
    let head = format!("{}: {}", volume.name, numbers(volume, pages));
    lines.extend(folded(head.split_inclusive(", ").map(str::trim_end), width));
    lines.push(ruler(edge, columns, each));
    for (row, signs) in signs(&letters, pages, each).chunks(columns).enumerate() {
        let number = row * columns * each;
        lines.push(format!("{number:>0$}  {1}", edge - 2, characters(signs, colour)));
    }
    lines.push(String::new());
    lines.extend(key(&letters, &legend.rows, width, colour));
    let notes = [
        legend.others_in_words(),
        Some(meant(each)),
        letters.come_again().then(|| AGAIN.to_string()),
    ];
    lines.extend(notes.iter().flatten().flat_map(|note| folded(note.split(' '), width)));
    lines.iter().map(|line| format!("{}\n", line.trim_end())).collect()
}

/// What is said where the letters do not suffice.
const AGAIN: &str = "some letters stand for several users: their colours differ";

/// What the characters mean.
fn meant(each: usize) -> String {
    match each {
        1 => "capitals: master, bit file, index and subindex blocks".to_string(),
        _ => format!(
            "a character is {each} pages: . where all are free, else whoever holds most of them, \
             a capital where none of them is free; M and B: master block and bit file"
        ),
    }
}

/// The columns' numbers, to be added to a row's.
fn ruler(edge: usize, columns: usize, each: usize) -> String {
    let ticks: String = (0..columns)
        .step_by(8)
        .map(|column| format!("{:<8}", format!("+{}", column * each)))
        .collect();
    format!("{:edge$}{ticks}", "")
}

/// A character of the map, and the colour behind it; free pages have the terminal's own.
struct Sign {
    letter: char,
    colour: Option<Colour>,
}

/// The characters of all pages, so many to each.
fn signs(letters: &Letters, pages: &[Page], each: usize) -> Vec<Sign> {
    match each {
        1 => pages.iter().map(|page| of_page(letters, page)).collect(),
        _ => cell::cells(pages, each).iter().map(|cell| of_several(letters, cell)).collect(),
    }
}

fn of_page(letters: &Letters, page: &Page) -> Sign {
    let group = Group::of(page);
    Sign {
        letter: letters.letter(group, Part::of(page)),
        colour: (group != Group::Free).then(|| colour(page)),
    }
}

fn of_several(letters: &Letters, cell: &cell::Cell) -> Sign {
    let (group, small) = (cell.group(), letters.letter(cell.group(), Part::Page));
    Sign {
        letter: if cell.is_full() { small.to_ascii_uppercase() } else { small },
        colour: (group != Group::Free).then(|| group.colour()),
    }
}

/// The characters of a row; codes stand only where the colour differs from the one before.
fn characters(signs: &[Sign], coloured: bool) -> String {
    let mut row = String::new();
    let mut before = None;
    for Sign { letter, colour } in signs {
        let behind = colour.filter(|_| coloured);
        if behind != before {
            row.push_str(&paint(behind));
            before = behind;
        }
        row.push(*letter);
    }
    if before.is_some() {
        row.push_str(&paint(None));
    }
    row
}

/// The code that sets a colour behind the characters and black or white for them, or takes it away: free pages have the terminal's own.
fn paint(behind: Option<Colour>) -> String {
    match behind {
        Some(behind) => format!("\x1b[48;5;{};38;5;{}m", behind.terminal(), behind.ink().terminal()),
        None => "\x1b[0m".to_string(),
    }
}

/// The legend: names and numbers in wide columns, else in narrow ones, else each in a line of its own.
fn key(letters: &Letters, rows: &[Row], width: usize, coloured: bool) -> Vec<String> {
    let signs: Vec<String> = rows.iter().map(|row| sign(letters, row.group, coloured)).collect();
    let name = rows.iter().map(|row| row.name.chars().count()).max().unwrap_or(0);
    let pages = rows.iter().map(|row| held(row).len()).max().unwrap_or(0);
    let forms = [(16, pages.max(6)), (name, pages)].map(|(name, pages)| {
        let items = rows
            .iter()
            .map(|row| format!("{:<name$} {:>pages$}{}", row.name, held(row), given(row)));
        items.collect::<Vec<String>>()
    });
    let form = forms.iter().find(|items| longest(items) + 4 <= width);
    match form {
        Some(items) => in_columns(&signs, items, width),
        None => one_below_the_other(&signs, rows, width),
    }
}

/// Items with their signs before them in as many columns as the width has place for.
fn in_columns(signs: &[String], items: &[String], width: usize) -> Vec<String> {
    let longest = longest(items);
    let across = (width / (longest + 7)).max(1);
    let down = items.len().div_ceil(across);
    let line = |first: usize| {
        let of_line = (first..items.len()).step_by(down);
        of_line.map(|at| format!(" {}  {:<longest$}   ", signs[at], items[at])).collect()
    };
    (0..down).map(line).collect()
}

/// Of each row the name, and its numbers below it.
fn one_below_the_other(signs: &[String], rows: &[Row], width: usize) -> Vec<String> {
    let numbers: Vec<String> = rows.iter().map(|row| format!("{}{}", held(row), given(row))).collect();
    let edge = width.saturating_sub(longest(&numbers)).clamp(2, 4);
    let row = |((sign, row), numbers): ((&String, &Row), &String)| {
        let name = format!(" {sign}  {}", row.name);
        let below = folded([numbers.as_str()], width - edge);
        let below = below.into_iter().map(move |line| format!("{:edge$}{line}", ""));
        std::iter::once(name).chain(below)
    };
    signs.iter().zip(rows).zip(&numbers).flat_map(row).collect()
}

fn longest(texts: &[String]) -> usize {
    texts.iter().map(|text| text.chars().count()).max().unwrap_or(0)
}

/// The pages of a row.
fn held(row: &Row) -> String {
    grouped(row.pages as usize)
}

/// " of 60": what a user is given.
fn given(row: &Row) -> String {
    row.given
        .map_or_else(String::new, |given| format!(" of {}", grouped(given as usize)))
}

/// A group's letter on its colour.
fn sign(letters: &Letters, group: Group, coloured: bool) -> String {
    let letter = letters.letter(group, Part::Page);
    if coloured && group != Group::Free {
        format!("{}{letter}{}", paint(Some(group.colour())), paint(None))
    } else {
        letter.to_string()
    }
}
