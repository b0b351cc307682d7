//! What a salvage changes: users' counts, bits, unreserved.

use super::page_list::page_list;
use super::Salvaged;
use crate::volume::{meaning, Disk, Entry, Held};
use proved::Change;
use serde::Serialize;

/// So many users and so many changed words are told in lines of their own; the rest is counted.
const LINES: usize = 16;

/// A count as it was and as it is made.
#[derive(Clone, Copy, Debug, PartialEq, Eq, Serialize)]
pub struct Count {
    pub old: u32,
    pub new: u32,
}

/// What the changed words of a salvage are.
pub struct Mended<'a> {
    /// The image as it was.
    before: &'a [u16],
    changes: &'a [Change],
    /// Users whose used count changes.
    pub users: Vec<(u32, Count)>,
    pub unreserved: Count,
    /// Pages marked free that somebody holds.
    pub held: Vec<u32>,
    /// Pages reserved that nobody holds: they become free, and their words stay until a file takes them.
    pub orphans: Vec<u32>,
}

impl<'a> Mended<'a> {
    /// Of an image and its salvage.
    pub fn of(before: &'a [u16], salvaged: &'a Salvaged) -> Mended<'a> {
        let (old, new) = (Disk::new(before), Disk::new(&salvaged.image));
        let used = |(user, entry): (u32, Entry)| {
            let (old, new) = (entry.used_pages(), new.user(user)?.used_pages());
            (old != new).then_some((user, Count { old, new }))
        };
        let users = old.users().filter_map(used).collect();
        let unreserved = Count {
            old: old.unreserved(),
            new: new.unreserved(),
        };
        let (orphans, held) = bits(&old, &salvaged.changes);
        Mended {
            before,
            changes: &salvaged.changes,
            users,
            unreserved,
            held,
            orphans,
        }
    }

    /// Whether the image was sound before.
    pub fn nothing(&self) -> bool {
        self.changes.is_empty()
    }

    /// How many words are changed.
    pub fn words(&self) -> usize {
        self.changes.len()
    }

    /// All that is wrong, each in a line, and under it the changed words as a table.
    pub fn lines(&self) -> Vec<String> {
        let mut lines = self.facts();
        lines.extend(self.table());
        lines.into_iter().map(|line| format!("  {line}")).collect()
    }

    fn facts(&self) -> Vec<String> {
        let disk = Disk::new(self.before);
        let name = |user: u32| disk.user(user).map_or(String::new(), |entry| entry.name());
        let user = |(user, count): &(u32, Count)| format!("user {} used {} -> {}", name(*user), count.old, count.new);
        let mut facts: Vec<String> = self.users.iter().take(LINES).map(user).collect();
        facts.extend(more(self.users.len(), "user"));
        facts.extend(pages(&self.held, ["marked free that is held", "marked free that are held"]));
        let nobody = "reserved that no file and nothing else holds";
        facts.extend(pages(&self.orphans, [nobody, nobody]));
        let Count { old, new } = self.unreserved;
        facts.extend((old != new).then(|| format!("unreserved {old} -> {new}")));
        facts
    }

    /// The changed words with what each is, octal as in the manual.
    fn table(&self) -> Vec<String> {
        let (disk, holders) = (Disk::new(self.before), Held::of(self.before));
        let wide = disk.pages().saturating_sub(1).to_string().len().max(5);
        let mut lines = vec![format!("{:>wide$}  word  old octal  new octal  what it is", "page")];
        for Change { page, word, old, new } in self.changes.iter().take(LINES) {
            let what = meaning(&disk, &holders.first(*page), *page, *word).map_or(String::new(), |meaning| meaning.what);
            lines.push(format!("{page:>wide$}  {word:>4}     {old:06o}     {new:06o}  {what}"));
        }
        lines.extend(more(self.changes.len(), "word"));
        lines
    }

    /// Every changed word, and the same facts.
    pub fn told(&self) -> Told {
        let disk = Disk::new(self.before);
        let user = |(user, count): &(u32, Count)| User {
            user: *user,
            name: disk.user(*user).map(|entry| entry.name()),
            used: *count,
        };
        Told {
            changed: self.changes.len(),
            changes: self.changes.iter().map(Word::from).collect(),
            users: self.users.iter().map(user).collect(),
            unreserved: self.unreserved,
            held: self.held.clone(),
            orphans: self.orphans.clone(),
        }
    }
}

/// What a salvage changes, for programs.
#[derive(Serialize)]
pub struct Told {
    changed: usize,
    changes: Vec<Word>,
    users: Vec<User>,
    unreserved: Count,
    held: Vec<u32>,
    orphans: Vec<u32>,
}

/// A changed word.
#[derive(Serialize)]
struct Word {
    page: u32,
    word: u32,
    old: u32,
    new: u32,
}

impl From<&Change> for Word {
    fn from(change: &Change) -> Word {
        let Change { page, word, old, new } = *change;
        Word { page, word, old, new }
    }
}

/// A user whose used count changes.
#[derive(Serialize)]
struct User {
    user: u32,
    name: Option<String>,
    #[serde(flatten)]
    used: Count,
}

/// The pages whose bits are cleared, and those whose bits are set.
fn bits(disk: &Disk, changes: &[Change]) -> (Vec<u32>, Vec<u32>) {
    let file = disk.bit_file();
    let words = changes.iter().filter(|change| file.contains(&change.page));
    let differ = words.flat_map(|change| {
        let told = disk.told_by(change.page - file.start, change.word);
        let turned = told.filter(|page| (change.old ^ change.new) >> (page % 16) & 1 == 1);
        turned.map(|page| (page, change.old >> (page % 16) & 1 == 1))
    });
    let (cleared, set): (Vec<_>, Vec<_>) = differ.partition(|(_, was_set)| *was_set);
    let pages = |bits: Vec<(u32, bool)>| bits.into_iter().map(|(page, _)| page).collect();
    (pages(cleared), pages(set))
}

/// "3 pages marked free that are held: 5, 6, 9", if there are any.
fn pages(pages: &[u32], what: [&str; 2]) -> Option<String> {
    match pages.len() {
        0 => None,
        1 => Some(format!("1 page {}: {}", what[0], page_list(pages))),
        count => Some(format!("{count} pages {}: {}", what[1], page_list(pages))),
    }
}

/// How many are not told in lines of their own.
fn more(count: usize, what: &str) -> Option<String> {
    match count.saturating_sub(LINES) {
        0 => None,
        1 => Some(format!("and 1 {what} more (--json has all)")),
        more => Some(format!("and {more} {what}s more (--json has all)")),
    }
}
