//! The images of host/cases, made by the proved library's calls. host/cases/README.md has the format.
#![allow(dead_code)]

use proved::PAGE;
use std::path::{Path, PathBuf};

/// An image of host/cases that has a right length.
pub struct Case {
    pub name: String,
    pub image: Vec<u16>,
}

/// Those of at most so many pages, by name.
pub fn cases(most: usize) -> Vec<Case> {
    let folder = Path::new(env!("CARGO_MANIFEST_DIR")).join("../cases");
    let mut folders: Vec<PathBuf> = std::fs::read_dir(folder).unwrap().map(|entry| entry.unwrap().path()).collect();
    folders.sort();
    folders.iter().filter_map(|folder| made(folder, most)).collect()
}

fn made(folder: &Path, most: usize) -> Option<Case> {
    let text = std::fs::read_to_string(folder.join("image")).ok()?;
    let mut lines = text.lines().filter(|line| !line.is_empty() && !line.starts_with('#'));
    let pages = lines.next()?.strip_prefix("pages ")?.parse().unwrap();
    if !(8..=most).contains(&pages) {
        return None;
    }
    let mut image = vec![0; pages * PAGE];
    lines.for_each(|line| step(&mut image, line));
    let name = folder.file_name()?.to_string_lossy().into_owned();
    Some(Case { name, image })
}

/// One line of a case's image.
fn step(image: &mut [u16], line: &str) {
    let words: Vec<&str> = line.split_whitespace().collect();
    let number = |at: usize| words.get(at).map_or(0, |word| word.parse::<usize>().unwrap());
    let bytes = |at: usize| words[at].trim_matches('"').as_bytes();
    let reply = match words[0] {
        "times" => return (0..number(1)).for_each(|n| step(image, &words[2..].join(" ").replace('#', &n.to_string()))),
        "word" => {
            image[number(1) * PAGE + number(2)] = number(3) as u16;
            return;
        }
        "format" => proved::format(image, bytes(1), words.get(2).map(|page| page.parse().unwrap())),
        "user" => proved::create_user(image, bytes(1)),
        "give" => proved::give(image, number(1), number(2)),
        "indexed" => proved::create_indexed(image, number(1), bytes(2), bytes(3), number(4) as u32),
        "contiguous" => proved::create_contiguous(image, number(1), bytes(2), bytes(3), number(5) as u32, number(4)),
        "grow" => proved::grow(image, number(1), number(2)),
        "shrink" => proved::shrink(image, number(1), number(2)),
        "delete-file" => proved::delete_file(image, number(1), number(2)),
        "delete-user" => proved::delete_user(image, number(1)),
        "write" => {
            let data: Vec<u16> = (0..PAGE).map(|n| (number(4) + 77 * n) as u16).collect();
            proved::write_page(image, number(1), number(2), number(3), &data)
        }
        _ => panic!("{line}: no such step"),
    };
    assert_eq!((reply.number, reply.rule), (0, 0), "{line}");
}
