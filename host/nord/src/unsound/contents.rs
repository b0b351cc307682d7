//! The bytes of a file of an unsound image, by its pointers. A page that is not to be found is written as zeros, and each position that is doubtful
//! is told.

use super::doubt::{words, Doubt};
use super::files::twins;
use super::judge::{Judge, Mark};
use super::shapes::File;
use super::Broken;
use crate::names::{FileName, UserName, Within};
use crate::store;
use crate::volume::{Holder, Kind, Pointer, ENTRIES, SLOTS};
use serde::Serialize;

/// A file's pages, and what is doubtful about it.
#[derive(Serialize)]
pub struct Contents {
    #[serde(flatten)]
    broken: Broken,
    pages: u32,
    bytes: usize,
    /// What is doubtful about the file's entry.
    doubts: Vec<String>,
    positions: Vec<Positions>,
    /// The file in words.
    #[serde(skip)]
    file: String,
    #[serde(skip)]
    pub data: Vec<u8>,
}

/// Positions that follow each other and have the same doubts.
#[derive(Serialize)]
struct Positions {
    from: u32,
    to: u32,
    doubts: Vec<String>,
}

/// Why there is nothing to read.
#[derive(Debug, PartialEq, Eq)]
pub enum Unreadable {
    /// No used entry has that name or number.
    Absent(String),
    /// The entry says nothing that could be followed.
    Shapeless(String),
}

/// A page of a file as its pointers say, or why there is none.
type Found = Result<u32, String>;

impl Contents {
    /// The file that is named, as far as it can be read.
    pub fn of(judge: &Judge, broken: Broken, name: &FileName) -> Result<Contents, Unreadable> {
        let file = find(judge, name).ok_or_else(|| Unreadable::Absent(name.to_string()))?;
        shaped(judge, &file)?;
        let mut contents = Contents {
            broken,
            pages: file.entry.pages(),
            bytes: 0,
            doubts: Vec::new(),
            positions: Vec::new(),
            file: judge.disk.file_words(file.user(), file.index()),
            data: Vec::new(),
        };
        let own = judge.own_doubts(&file, &twins(&judge.disk, file.user()));
        let apart: Vec<Doubt> = own.into_iter().filter(|doubt| doubt.position.is_none()).collect();
        contents.doubts = words(&apart);
        for position in 0..file.entry.pages() {
            contents.read(judge, &file, position);
        }
        contents.bytes = contents.data.len();
        Ok(contents)
    }

    /// Reads the page at a position.
    fn read(&mut self, judge: &Judge, file: &File, position: u32) {
        let found = page_at(judge, file, position);
        let doubts = match &found {
            Ok(page) => held_doubts(judge, file, position, *page),
            Err(words) => vec![format!("{words}, written as zeros")],
        };
        let page = found.map_or(&[][..], |page| judge.disk.words(page, 0, proved::PAGE as u32));
        self.data.extend(store::bytes(page));
        self.data.resize((position as usize + 1) * store::PAGE, 0);
        match self.positions.last_mut() {
            _ if doubts.is_empty() => {}
            Some(last) if last.to + 1 == position && last.doubts == doubts => last.to = position,
            _ => self.positions.push(Positions {
                from: position,
                to: position,
                doubts,
            }),
        }
    }

    /// The rule and its place, then a line for each doubt.
    pub fn lines(&self) -> Vec<String> {
        let mut lines = vec![self.broken.line()];
        lines.extend(self.doubts.iter().map(|doubt| format!("? {}: {doubt}", self.file)));
        lines.extend(self.positions.iter().map(Positions::line));
        if lines.len() == 1 {
            lines.push(format!("nothing of {} is doubtful", self.file));
        }
        lines
    }

    pub fn pages(&self) -> u32 {
        self.pages
    }
}

impl Positions {
    fn line(&self) -> String {
        let Positions { from, to, doubts } = self;
        match from == to {
            true => format!("? position {from}: {}", doubts.join("; ")),
            false => format!("? positions {from} to {to}: {}", doubts.join("; ")),
        }
    }
}

/// The first used entry with that name, or the one with that number.
fn find<'a>(judge: &Judge<'a>, name: &FileName) -> Option<File<'a>> {
    let user = match &name.user {
        UserName::Index(index) => index.value,
        UserName::Name(name) => judge.disk.users().find(|(_, entry)| entry.name() == *name)?.0,
    };
    match &name.file {
        Within::Index(index) => judge.file(user, index.value),
        Within::Name(..) if user >= ENTRIES => None,
        Within::Name(name, kind) => {
            let mut files = judge.files(user).into_iter();
            files.find(|file| file.entry.name() == *name && file.entry.type_name() == *kind)
        }
    }
}

/// Refuses an entry whose pages cannot be looked for: too many, none to begin with, or two ways at once.
fn shaped(judge: &Judge, file: &File) -> Result<(), Unreadable> {
    let (pages, all) = (file.entry.pages(), judge.disk.pages());
    let why = match file.entry.pointer() {
        _ if pages >= all => format!("page count {pages}, and the image has {all} pages"),
        Pointer::None if pages > 0 => format!("page count {pages} and no pointer"),
        Pointer::Both(_) => "its pointer is indexed and subindexed at once".to_string(),
        _ => return Ok(()),
    };
    let name = judge.disk.file_words(file.user(), file.index());
    Err(Unreadable::Shapeless(format!("{name} cannot be read: {why}")))
}

/// The page at a position of a file.
pub fn page_at(judge: &Judge, file: &File, position: u32) -> Found {
    let inside = |page: u32| match judge.disk.inside(page) {
        true => Ok(page),
        false => Err(judge.no_page(page)),
    };
    let slot = |block: u32, slot: u32| inside(judge.disk.slot(block, slot));
    match file.entry.pointer() {
        Pointer::None | Pointer::Both(_) => Err(judge.no_page(0)),
        Pointer::Plain(first) => {
            let page = first.saturating_add(position);
            inside(page).map_err(|_| format!("page {page} is no page of {}", judge.disk.pages()))
        }
        Pointer::Indexed(_) if position >= SLOTS => Err("no slot, past the index block".to_string()),
        Pointer::Indexed(block) => slot(inside(block).map_err(|words| format!("index block: {words}"))?, position),
        Pointer::Subindexed(block) => {
            let subindex = inside(block).map_err(|words| format!("subindex block: {words}"))?;
            let n = position / SLOTS;
            let index = slot(subindex, n).map_err(|words| format!("index block {n}: {words}"))?;
            slot(index, position % SLOTS)
        }
    }
}

/// What is doubtful about a page that is found.
fn held_doubts(judge: &Judge, file: &File, position: u32, page: u32) -> Vec<String> {
    let own = Holder::of_file(file.number, Kind::FileData, position);
    let marks = [(Mark::Twice, &judge.twice), (Mark::Clear, &judge.clear)];
    let told = marks.into_iter().filter(|(_, pages)| pages.has(page));
    told.map(|(mark, _)| judge.page_doubt(page, &own, mark).words).collect()
}
