//! What a word of a page is to one who holds the page. Nothing here needs a sound image.

use super::disk::{Disk, Pointer, ENTRIES, ENTRIES_TO_A_PAGE, ENTRY_WORDS, OBJECT_BLOCKS, SLOTS, USER_PAGES};
use super::fields::{self, Field, DIRECTORY, OBJECT, USER};
use super::{Holder, Kind};

/// What a word is, alone or with those beside it.
#[derive(Clone, Debug, PartialEq, Eq)]
pub struct Meaning {
    /// Beside its neighbours: "given pages".
    pub short: String,
    /// By itself: "given pages of user 0 DOCK, words 14-15 of his entry".
    pub what: String,
    /// What the words say: "100", "indexed, page 6".
    pub says: String,
    /// What stands behind the end of a name or type, and says nothing.
    pub leftovers: Option<String>,
    /// The first word of the page that belongs to it, and how many do.
    pub first: u32,
    pub words: u32,
    /// There is nothing: an entry that is not used, a slot without a page, a name's fill.
    pub blank: bool,
    /// The pointer that they are.
    pub pointer: Option<Pointer>,
}

impl Meaning {
    /// What the words say, and of a name what is left behind it: "DOCK (leftovers behind it: OLD)".
    pub fn told(&self) -> String {
        match &self.leftovers {
            Some(leftovers) => format!("{} (leftovers behind it: {leftovers})", self.says),
            None => self.says.clone(),
        }
    }
}

/// What word `word` of page `page` is, if `holder` holds that page. None where document 01 has nothing.
pub fn meaning(disk: &Disk, holder: &Holder, page: u32, word: u32) -> Option<Meaning> {
    match holder.kind {
        Kind::Free => None,
        Kind::FileData => Some(data(disk, holder, word)),
        Kind::Master => master(disk, word),
        Kind::BitFile => bits(disk, holder, page, word),
        Kind::UserPage | Kind::ObjectPage => Some(entry_word(disk, holder, page, word)),
        _ => Some(slot_word(disk, holder, page, word)),
    }
}

fn master(disk: &Disk, word: u32) -> Option<Meaning> {
    let field = fields::of(&DIRECTORY, word)?;
    let words = disk.words(0, field.first, field.words);
    Some(Meaning {
        short: field.name.to_string(),
        what: format!("{}, {} of the master block", field.name, span(field.first, field.words)),
        says: field.says(words),
        leftovers: field.leftovers(words),
        first: field.first,
        words: field.words,
        blank: word > field.first && words.get((word - field.first) as usize) == Some(&0),
        pointer: field.pointer(words),
    })
}

/// A word of a file's data, which says nothing to the file system.
fn data(disk: &Disk, holder: &Holder, word: u32) -> Meaning {
    Meaning {
        short: String::new(),
        what: format!("word {word} of {}", disk.holder_words(holder)),
        says: String::new(),
        leftovers: None,
        first: word,
        words: 1,
        blank: true,
        pointer: None,
    }
}

/// The bits of sixteen pages, or of the last ones.
fn bits(disk: &Disk, holder: &Holder, page: u32, word: u32) -> Option<Meaning> {
    let value = *disk.words(page, word, 1).first()?;
    let told = disk.told_by(holder.position, word);
    let last = told.clone().last()?;
    let set: Vec<u32> = told.clone().filter(|page| value >> (page % 16) & 1 == 1).collect();
    let pages = match told.len() {
        1 => format!("page {last}"),
        _ => format!("pages {} to {last}", told.start),
    };
    Some(Meaning {
        short: pages.clone(),
        what: format!("bits of {pages}, word {word} of {}", disk.holder_phrase(holder)),
        says: match set.len() {
            0 => "none reserved".to_string(),
            all if all == told.len() => "all reserved".to_string(),
            _ => format!("reserved {}", ranges(&set)),
        },
        leftovers: None,
        first: word,
        words: 1,
        blank: set.is_empty(),
        pointer: None,
    })
}

/// Ascending numbers, those that follow each other as a range: "0 to 8, 12".
fn ranges(numbers: &[u32]) -> String {
    let follows = |a: &u32, b: &u32| a + 1 == *b;
    let told = numbers.chunk_by(follows).map(|run| match run {
        [one] => one.to_string(),
        _ => format!("{} to {}", run[0], run[run.len() - 1]),
    });
    told.collect::<Vec<_>>().join(", ")
}

/// A word of an entry.
fn entry_word(disk: &Disk, holder: &Holder, page: u32, word: u32) -> Meaning {
    let number = ENTRIES_TO_A_PAGE.wrapping_mul(holder.position) + word / ENTRY_WORDS;
    let (table, whose, his): (&[Field], String, &str) = match holder.kind {
        Kind::UserPage => (&USER, disk.user_words(number), "his entry"),
        _ => (&OBJECT, disk.file_words(number / ENTRIES, number % ENTRIES), "its entry"),
    };
    let (start, within) = (word - word % ENTRY_WORDS, word % ENTRY_WORDS);
    let used = disk.entry_at(page, word / ENTRY_WORDS).is_some_and(|entry| entry.is_used());
    let field = fields::of(table, within).filter(|_| used || within == 0);
    let Some(field) = field else {
        return beyond(disk, page, word, (&whose, his, used));
    };
    let words = disk.words(page, start + field.first, field.words);
    Meaning {
        short: if within == 0 { whose.clone() } else { field.name.to_string() },
        what: format!("{} of {whose}, {} of {his}", field.name, span(field.first, field.words)),
        says: field.says(words),
        leftovers: field.leftovers(words),
        first: start + field.first,
        words: field.words,
        blank: !used || (within > field.first && disk.words(page, word, 1) == [0]),
        pointer: field.pointer(words),
    }
}

/// A word of an entry that is no field of document 01, or of an entry that is not used.
fn beyond(disk: &Disk, page: u32, word: u32, (whose, his, used): (&str, &str, bool)) -> Meaning {
    let why = if used { "not told by document 01" } else { "not used" };
    Meaning {
        short: String::new(),
        what: format!("word {} of {his}, {whose}: {why}", word % ENTRY_WORDS),
        says: String::new(),
        leftovers: None,
        first: word,
        words: 1,
        blank: disk.words(page, word, 1) == [0],
        pointer: None,
    }
}

/// A word of a block: half of a slot's pointer.
fn slot_word(disk: &Disk, holder: &Holder, page: u32, word: u32) -> Meaning {
    let slot = word / 2;
    let number = disk.slot(page, slot);
    Meaning {
        short: match leads(holder, slot) {
            Some(to) => format!("slot {slot}, {to}"),
            None => format!("slot {slot}, always zero"),
        },
        what: format!("slot {slot} of {}, {}", disk.holder_phrase(holder), span(2 * slot, 2)),
        says: fields::pointer_says(number),
        leftovers: None,
        first: 2 * slot,
        words: 2,
        blank: number == 0,
        pointer: Some(Pointer::of(number)),
    }
}

/// What a slot of a block leads to; none where it has to be zero.
fn leads(holder: &Holder, slot: u32) -> Option<String> {
    let position = SLOTS.wrapping_mul(holder.position) + slot;
    match holder.kind {
        Kind::UserIndex => (slot < USER_PAGES).then(|| format!("user page {slot}")),
        Kind::ObjectSubindex => (slot < OBJECT_BLOCKS).then(|| format!("object index {slot}")),
        Kind::ObjectIndex => Some(format!("object page {position}")),
        Kind::FileSubindex => Some(format!("index block {slot}")),
        _ => Some(format!("data page {position}")),
    }
}

/// "word 18", "words 16-17".
fn span(first: u32, words: u32) -> String {
    match words {
        1 => format!("word {first}"),
        _ => format!("words {first}-{}", first + words - 1),
    }
}
