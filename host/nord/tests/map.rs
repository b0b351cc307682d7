//! The maps: a cell for each page, counts that add up, XML that is well formed, rows of the right length.

mod made;
mod xml;

use made::*;
use nord::map::{svg, text};
use nord::volume::{holders, read};
use std::collections::HashSet;
use std::sync::OnceLock;
use xml::{elements, Element};

fn picture(image: &[u16]) -> Vec<Element> {
    elements(&svg(&read(image), &holders(image)))
}

fn lines(image: &[u16], width: usize, colour: bool) -> Vec<String> {
    text(&read(image), &holders(image), width, colour)
        .lines()
        .map(str::to_string)
        .collect()
}

/// Volumes of all sizes, made once.
fn volumes() -> &'static [Vec<u16>] {
    static VOLUMES: OnceLock<Vec<Vec<u16>>> = OnceLock::new();
    VOLUMES.get_or_init(|| vec![volume("EMPTY", 8), yard16(), yard154(), many_users(), big_file(), full(), crowd()])
}

/// Packs whose cells are several pages, made once, with how many they are in a picture.
fn packs() -> &'static [(Vec<u16>, usize)] {
    static PACKS: OnceLock<Vec<(Vec<u16>, usize)>> = OnceLock::new();
    PACKS.get_or_init(|| vec![(pack(16_385), 2), (pack(37_035), 4)])
}

/// A number with its commas.
fn number(text: &str) -> usize {
    text.replace(',', "").parse().unwrap()
}

#[test]
fn each_page_has_one_cell() {
    for image in volumes() {
        let (volume, held) = (read(image), holders(image));
        let elements = picture(image);
        let cells: Vec<&Element> = elements.iter().filter(|element| element.get("class") == "page").collect();
        assert_eq!(cells.len(), held.len());
        let places: HashSet<(&str, &str)> = cells.iter().map(|cell| (cell.get("x"), cell.get("y"))).collect();
        assert_eq!(places.len(), held.len());
        for (page, cell) in cells.iter().enumerate() {
            assert_eq!(cell.title, format!("page {page}: {}", volume.words(&held[page])));
        }
    }
}

#[test]
fn cells_lie_within_the_picture_and_not_over_one_another() {
    for image in volumes() {
        let elements = picture(image);
        let size = |element: &Element, name: &str| element.get(name).parse::<f64>().unwrap();
        let (width, height) = (size(&elements[0], "width"), size(&elements[0], "height"));
        let mut end = (0.0, 0.0);
        for cell in elements.iter().filter(|element| element.get("class") == "page") {
            let (x, y) = (size(cell, "x"), size(cell, "y"));
            assert!(y > end.1 || (x > end.0 && y + size(cell, "height") == end.1));
            end = (x + size(cell, "width"), y + size(cell, "height"));
            assert!(end.0 < width && end.1 < height);
        }
    }
}

#[test]
fn pages_of_the_legend_are_the_volumes() {
    for image in volumes() {
        let elements = picture(image);
        let counts = elements
            .iter()
            .filter(|element| element.within == "legend" && element.get("text-anchor") == "end");
        assert_eq!(counts.map(|count| number(&count.text)).sum::<usize>() * proved::PAGE, image.len());
        let shares = elements.iter().filter(|element| element.get("class") == "share");
        let pages = shares.map(|share| share.title.split(": ").nth(1).unwrap().split(' ').next().unwrap().to_string());
        assert_eq!(pages.map(|pages| number(&pages)).sum::<usize>() * proved::PAGE, image.len());
    }
}

#[test]
fn the_title_and_the_legend_say_who_and_how_much() {
    let elements = picture(&yard154());
    assert_eq!(elements[0].title, "YARD: 154 pages, 92 free, 62 reserved, 23 unreserved");
    let legend: Vec<&str> = elements
        .iter()
        .filter(|element| element.within == "legend")
        .map(|element| element.text.as_str())
        .collect();
    let at = legend.iter().position(|text| *text == "WEIGH-BRIDGE").unwrap();
    assert_eq!(legend[at + 1..at + 3], ["5", "of 12 given"]);
}

#[test]
fn tooltips_are_in_words() {
    let picture = svg(&read(&yard154()), &holders(&yard154()));
    for words in [
        "page 0: master block",
        "page 77: bit file",
        "page 144: DOCK/LOG: data page 0",
        "page 153: DOCK/LOG: data page 9",
        "page 100: free",
    ] {
        assert!(picture.contains(&format!("<title>{words}</title>")), "{words}");
    }
}

/// Marks are only those of index and subindex blocks, and the shade of a block is not its file's.
#[test]
fn blocks_are_marked() {
    let image = big_file();
    let elements = picture(&image);
    let marks = elements
        .iter()
        .filter(|element| element.get("class") == "mark" && element.within == "cells")
        .count();
    assert_eq!(
        marks,
        holders(&image)
            .iter()
            .filter(|holder| [3, 5, 6, 8, 9].contains(&(holder.kind as u32)))
            .count()
    );
    let fill = |words: &str| {
        elements
            .iter()
            .find(|element| element.title.ends_with(words))
            .unwrap()
            .get("fill")
            .to_string()
    };
    assert_ne!(fill("DOCK/LONG:DATA index block 0"), fill("DOCK/LONG:DATA data page 0"));
    assert_eq!(fill("DOCK/LONG:DATA index block 1"), fill("DOCK/LONG:DATA subindex block"));
    assert_eq!(fill("DOCK/RUN: data page 0"), fill("DOCK/LONG:DATA data page 519"));
}

/// Names that only an unsound image has do not break the picture either.
#[test]
fn a_picture_is_well_formed_whatever_the_names() {
    let mut image = yard16();
    image[1008..1011].copy_from_slice(&[0x3c26, 0x2201, 0x3e80]);
    let elements = picture(&image);
    assert!(elements[0].title.starts_with("<&\"?>?: 16 pages"));
    for words in [0, 5, 1024, 3000] {
        let image = vec![u16::MAX; words];
        picture(&image);
        lines(&image, 80, true);
    }
}

/// The page rows of a text map, from below the columns' numbers on: number, two blanks, a character a page.
fn page_rows(lines: &[String]) -> Vec<(usize, String)> {
    let below = lines.iter().skip_while(|line| !line.trim_start().starts_with("+0")).skip(1);
    let rows = below.take_while(|line| !line.is_empty());
    rows.map(|line| {
        line.trim_start()
            .split_once("  ")
            .map(|(at, cells)| (at.parse().unwrap(), cells.to_string()))
            .unwrap()
    })
    .collect()
}

#[test]
fn rows_of_text_have_a_character_for_each_page() {
    for image in volumes() {
        let pages = image.len() / proved::PAGE;
        for width in [0, 12, 20, 40, 80, 132, 400] {
            let rows = page_rows(&lines(image, width, false));
            let (last, whole) = rows.split_last().unwrap();
            let columns = rows[0].1.len();
            assert!(whole.iter().all(|(_, cells)| cells.len() == columns) && last.1.len() <= columns);
            assert!(rows.iter().enumerate().all(|(row, (at, _))| *at == row * columns));
            assert_eq!(last.0 + last.1.len(), pages);
        }
    }
}

#[test]
fn characters_are_the_holders() {
    let rows = page_rows(&lines(&yard154(), 80, false));
    let cells: String = rows.into_iter().map(|(_, cells)| cells).collect();
    assert!(cells.starts_with("MUuOodDdddddddddddofFffogGgf"));
    assert_eq!((&cells[77..78], &cells[138..]), ("B", "ggggggdddddddddd"));
    assert_eq!(cells.matches('.').count(), 92);
}

/// Volumes whose names have 16 letters and whose numbers are long, made once.
fn wide_volumes() -> &'static [Vec<u16>] {
    static VOLUMES: OnceLock<Vec<Vec<u16>>> = OnceLock::new();
    VOLUMES.get_or_init(|| vec![long_names(), long_numbers()])
}

/// In characters, and with colours too, whose codes take no place.
#[test]
fn no_line_of_text_is_wider_than_asked_for() {
    let packs = packs().iter().map(|(image, _)| image);
    for image in volumes().iter().chain(packs).chain(wide_volumes()) {
        let (volume, held) = (read(image), holders(image));
        for width in 20..=200 {
            let lines = text(&volume, &held, width, width % 20 == 0);
            for line in lines.lines().map(without_codes) {
                assert!(line.chars().count() <= width, "{} at {width}: {line}", volume.name);
            }
        }
    }
}

/// The legend's lines as pairs of a name and its pages, where a row has a line or two.
fn legend_rows(lines: &[String]) -> Vec<(String, usize)> {
    let below = lines.iter().skip_while(|line| !line.is_empty()).skip(1);
    let mut rows: Vec<String> = Vec::new();
    for line in below.take_while(|line| line.starts_with(' ')) {
        match (&line[1..2], rows.last_mut()) {
            (" ", Some(row)) => row.push_str(line),
            _ => rows.push(line[4..].to_string()),
        }
    }
    let row = |row: &String| {
        let (name, pages) = row.split(" of ").next().unwrap().trim_end().rsplit_once(' ').unwrap();
        (name.trim_end().to_string(), number(pages))
    };
    rows.iter().map(row).collect()
}

#[test]
fn the_texts_legend_adds_up() {
    for image in volumes().iter().chain(wide_volumes()) {
        for width in [20, 28, 36, 44] {
            let rows = legend_rows(&lines(image, width, false));
            assert_eq!(rows.iter().map(|(_, pages)| pages).sum::<usize>() * proved::PAGE, image.len());
            let users = read(image).users;
            let names = rows.iter().skip(5).map(|(name, _)| name);
            assert!(names.clone().all(|name| users.iter().any(|user| user.name == *name)), "{rows:?}");
        }
    }
}

#[test]
fn colour_codes_only_where_they_are_asked_for() {
    for image in volumes() {
        let plain = lines(image, 100, false);
        assert!(plain.iter().all(|line| !line.contains('\x1b')));
        let coloured = lines(image, 100, true);
        assert!(coloured.iter().any(|line| line.contains("\x1b[48;5;")));
        assert_eq!(coloured.iter().map(|line| without_codes(line)).collect::<Vec<String>>(), plain);
        assert!(coloured
            .iter()
            .all(|line| !line.contains('\x1b') || line.rfind("\x1b[0m") == line.rfind('\x1b')));
    }
}

/// A line with its colour codes taken out.
fn without_codes(line: &str) -> String {
    let mut parts = line.split('\x1b');
    let first = parts.next().unwrap_or("").to_string();
    first + &parts.map(|part| part.split_once('m').unwrap().1).collect::<String>()
}

/// Of each cell the pages that it stands for, and how many of them each holds.
fn of_several(cell: &Element) -> (usize, usize, Vec<(usize, String)>) {
    let (pages, counts) = cell.title.split_once(": ").unwrap();
    let (first, last) = pages.strip_prefix("pages ").unwrap().split_once(" to ").unwrap();
    let count = |count: &str| {
        let (count, name) = count.split_once(' ').unwrap();
        (number(count), name.to_string())
    };
    (number(first), number(last), counts.split(", ").map(count).collect())
}

#[test]
fn a_cell_of_several_pages_tells_how_many_each_holds() {
    for (image, each) in packs() {
        let (volume, held) = (read(image), holders(image));
        let elements = picture(image);
        let cells: Vec<&Element> = elements.iter().filter(|element| element.get("class") == "pages").collect();
        assert_eq!(cells.len(), held.len().div_ceil(*each));
        for (n, cell) in cells.iter().enumerate() {
            let (first, last, counts) = of_several(cell);
            let pages = &held[n * each..held.len().min((n + 1) * each)];
            assert_eq!((first, last + 1), (n * each, n * each + pages.len()));
            assert_eq!(counts.iter().map(|(count, _)| count).sum::<usize>(), pages.len());
            for (count, name) in counts {
                let same = |holder: &&nord::volume::Holder| holder_name(&volume, holder) == name;
                assert_eq!(pages.iter().filter(same).count(), count, "{}", cell.title);
            }
        }
    }
}

/// Who holds a page, as the cells of several pages have it.
fn holder_name(volume: &nord::volume::Volume, holder: &nord::volume::Holder) -> String {
    match holder.kind as u32 {
        0 => "free".to_string(),
        1 => "master block".to_string(),
        2 => "bit file".to_string(),
        3 | 4 => "user file".to_string(),
        5..=7 => "object file".to_string(),
        _ => volume.user(holder.user).unwrap().name.clone(),
    }
}

#[test]
fn a_pack_is_drawn_in_a_picture_of_the_usual_size() {
    let size = |image: &[u16]| {
        let elements = picture(image);
        ["width", "height"].map(|name| elements[0].get(name).parse::<u32>().unwrap())
    };
    let [width, height] = size(&full());
    for (image, each) in packs() {
        let [wide, high] = size(image);
        assert!(
            wide <= width + 40 && high <= height,
            "{wide} by {high}, and {width} by {height} of 16,384 pages"
        );
        let text = svg(&read(image), &holders(image));
        assert!(
            text.len() < 2_500_000 && text.contains(&format!("a cell is {each} pages:")),
            "{} bytes",
            text.len()
        );
        assert!(!text.contains("class=\"mark\""));
    }
}

/// In a terminal a point is free pages alone, a capital none free; the master block and the bit file are seen wherever they lie.
#[test]
fn characters_of_several_pages() {
    for (image, _) in packs() {
        let held = holders(image);
        let lines = lines(image, 80, false);
        let rows = page_rows(&lines);
        let each = (rows[1].0 - rows[0].0) / rows[0].1.len();
        assert!(
            each > 1 && rows.len() <= 40 && lines.iter().all(|line| line.len() <= 80),
            "{lines:#?}"
        );
        assert!(lines.iter().any(|line| line.starts_with(&format!("a character is {each} pages: "))));
        let cells: String = rows.into_iter().map(|(_, cells)| cells).collect();
        assert_eq!(cells.len(), held.len().div_ceil(each));
        for (character, pages) in cells.chars().zip(held.chunks(each)) {
            let kinds: HashSet<u32> = pages.iter().map(|holder| holder.kind as u32).collect();
            let sought = (character == 'M', character == 'B');
            assert_eq!(sought, (kinds.contains(&1), kinds.contains(&2)), "{character} of {kinds:?}");
            assert_eq!(character == '.', kinds.iter().all(|kind| *kind == 0));
            if sought == (false, false) {
                assert_eq!(character.is_ascii_uppercase(), !kinds.contains(&0), "{character} of {kinds:?}");
            }
        }
    }
}

/// Writes pictures and texts to look at: cargo test --offline -p nord --test map -- --ignored
#[test]
#[ignore]
fn pictures_to_look_at() {
    let folder = std::path::Path::new(env!("CARGO_TARGET_TMPDIR"));
    let small = [
        ("8", volume("EMPTY", 8)),
        ("16", yard16()),
        ("154", yard154()),
        ("300", many_users()),
        ("600", big_file()),
    ];
    let packs = [("16385", pack(16_385)), ("37035", pack(37_035)), ("140733", pack(140_733))];
    for (name, image) in small.into_iter().chain([("full", full()), ("crowd", crowd())]).chain(packs) {
        let (volume, held) = (read(&image), holders(&image));
        std::fs::write(folder.join(format!("{name}.svg")), svg(&volume, &held)).unwrap();
        std::fs::write(folder.join(format!("{name}.txt")), text(&volume, &held, 100, false)).unwrap();
        std::fs::write(folder.join(format!("{name}.ansi")), text(&volume, &held, 100, true)).unwrap();
    }
}
