//! The sound volumes that are measured.

use crate::answers::agreed;
use crate::calls::Question;
use crate::disk::{bit_pages, Disk};
use second::image::PAGE_WORDS;
use second::pointer::pages_held;

/// Pages of the large volumes, as many as one bit page has bits for; packs have more.
pub const LARGE_VOLUME: u32 = 16_384;

/// The pages of a large file; the last one of a volume has what is left.
const LARGE: u32 = 4_000;

/// Pages left for the call that grows a file: data, index and subindex block.
const LEFT: u32 = 3;

const FILES_OF_A_USER: u32 = 256;

/// The most files of a volume that has an entry left for one more.
const MOST_FILES: u32 = 65_535;

/// A volume with what is asked of it, and what an ext2 image of the same content has to hold.
pub struct Volume {
    pub name: String,
    pub about: String,
    pub words: Vec<u16>,
    pub question: Question,
    /// The pages of each file, user by user.
    pub files: Vec<Vec<u32>>,
}

impl Volume {
    pub fn pages(&self) -> u32 {
        (self.words.len() / PAGE_WORDS) as u32
    }

    /// The pages that are held; both programs have to say the same.
    pub fn held(&self) -> u32 {
        let reply = agreed(&self.name, &self.words);
        assert_eq!(reply.number, 0, "{}: a measured volume is sound", self.name);
        reply.value
    }

    pub fn file_count(&self) -> usize {
        self.files.iter().map(Vec::len).sum()
    }

    pub fn data_bytes(&self) -> u64 {
        self.files.iter().flatten().map(|&pages| 2048 * u64::from(pages)).sum()
    }
}

pub fn user_name(number: u32) -> Vec<u8> {
    format!("USER{number}").into_bytes()
}

pub fn file_name(number: u32) -> Vec<u8> {
    format!("FILE{number}").into_bytes()
}

pub const KIND: &[u8] = b"DATA";

/// What is asked of the last file of the last user.
pub fn question(words: &[u16], user: u32, file: u32, position: u32, growing: u32) -> Question {
    let text = |bytes| String::from_utf8(bytes).unwrap();
    let reply = second::address(words, user as usize, file as usize, position as usize);
    assert_eq!(reply.number, 0);
    Question {
        user,
        user_name: text(user_name(user)),
        file,
        file_name: text(file_name(file)),
        kind: text(KIND.to_vec()),
        position,
        page: reply.value,
        growing,
    }
}

/// The yard's disk: 154 pages, one user, one file of 100 pages.
pub fn yard() -> Volume {
    let mut disk = Disk::new(154, b"YARD", &[user_name(0)]);
    disk.indexed(0, 0, &file_name(0), KIND, 100);
    let words = disk.finish(0, LEFT);
    let question = question(&words, 0, 0, 99, 0);
    Volume {
        name: "yard".into(),
        about: "154 pages, one user, one file of 100 pages".into(),
        words,
        question,
        files: vec![vec![100]],
    }
}

/// The longest file that holds at most so many pages.
pub fn longest(left: u32) -> u32 {
    (0..=left.min(LARGE))
        .rev()
        .find(|&pages| pages_held(pages) <= u64::from(left))
        .unwrap_or(0)
}

/// One user's few large files, until so many pages of the volume are held.
pub fn few(pages: u32, held: u32) -> Volume {
    let mut disk = Disk::new(pages, b"FEW", &[user_name(0)]);
    let mut sizes: Vec<u32> = Vec::new();
    loop {
        let object_page = u32::from(sizes.is_empty());
        let size = longest(held.saturating_sub(pages - disk.free() + object_page));
        if size == 0 {
            break;
        }
        let file = sizes.len() as u32;
        disk.indexed(0, file, &file_name(file), KIND, size);
        sizes.push(size);
    }
    let words = disk.finish(0, LEFT);
    let last = sizes.len() as u32 - 1;
    let question = question(&words, 0, last, sizes[last as usize] - 1, last);
    let about = format!(
        "{pages} pages, {} held; files of {LARGE} pages and what is left",
        pages - free_pages(&words)
    );
    Volume {
        name: "few".into(),
        about,
        words,
        question,
        files: vec![sizes],
    }
}

/// A full volume of few large files.
pub fn full(pages: u32) -> Volume {
    few(pages, pages - LEFT)
}

fn free_pages(words: &[u16]) -> u32 {
    (words.len() / PAGE_WORDS) as u32 - second::check(words).value
}

/// What is not free of so many pages with so many files, each with so many pages held: these, the system's, and those left for a grow.
fn needed(pages: u32, files: u32, each: u32) -> u32 {
    let users = files.div_ceil(FILES_OF_A_USER);
    let blocks = 1 + if users > 64 { users.div_ceil(64) } else { 0 };
    let system = 1 + bit_pages(pages) + 1 + users.div_ceil(32) + blocks + (files + 1).div_ceil(32);
    system + each * files + LEFT
}

/// The most files that fit, each with so many pages held. The last user has at least two, and room for one file more.
fn most(pages: u32, each: u32) -> u32 {
    let fits = |files: &u32| needed(pages, *files, each) <= pages;
    let most = (1..=MOST_FILES).take_while(fits).last().unwrap_or(2);
    (2..=most).rev().find(|files| files % FILES_OF_A_USER >= 2).unwrap_or(2)
}

/// The pages of the first of so many files of one page. Where there is no entry for more files, it has what they leave.
fn first(pages: u32, files: u32) -> u32 {
    let left = match files {
        MOST_FILES => u64::from(pages - needed(pages, files, 2)),
        _ => 0,
    };
    (1..).take_while(|&size| pages_held(size) <= 2 + left).last().unwrap_or(1)
}

/// The names of as many users as so many files need, and how many files each has.
fn owners(files: u32) -> (Vec<Vec<u8>>, Vec<u32>) {
    let users = files.div_ceil(FILES_OF_A_USER);
    let count = |user: u32| FILES_OF_A_USER.min(files - FILES_OF_A_USER * user);
    ((0..users).map(user_name).collect(), (0..users).map(count).collect())
}

/// As many indexed files of one page as fit, or as there are entries for: then the first one has the rest.
pub fn many(pages: u32) -> Volume {
    let total = most(pages, 2);
    let (names, counts) = owners(total);
    let mut files: Vec<Vec<u32>> = counts.iter().map(|&count| vec![1; count as usize]).collect();
    files[0][0] = first(pages, total);
    let mut disk = Disk::new(pages, b"MANY", &names);
    for (user, sizes) in (0..).zip(&files) {
        (0..)
            .zip(sizes)
            .for_each(|(file, &size)| disk.indexed(user, file, &file_name(file), KIND, size));
    }
    let last = counts.len() as u32 - 1;
    let words = disk.finish(last, LEFT);
    let file = counts[last as usize] - 1;
    let question = question(&words, last, file, 0, file);
    let rest = match files[0][0] {
        1 => String::new(),
        size => format!(", the first of {size}"),
    };
    let about = format!(
        "{pages} pages, {} held; {total} indexed files of one page{rest}",
        pages - free_pages(&words)
    );
    Volume {
        name: "many".into(),
        about,
        words,
        question,
        files,
    }
}

/// As many contiguous files of one page as fit: the most files of a page each. The last user has an empty indexed file beside them, which
/// is the one that grows.
pub fn singles(pages: u32) -> Volume {
    let total = most(pages, 1) - 1;
    let (names, counts) = owners(total + 1);
    let last = counts.len() as u32 - 1;
    let mut disk = Disk::new(pages, b"SINGLES", &names);
    let mut files = Vec::new();
    for (user, &count) in (0..).zip(&counts) {
        let own = count - u32::from(user == last);
        (0..own).for_each(|file| disk.single(user, file, &file_name(file), KIND));
        files.push(vec![1; own as usize]);
    }
    let growing = counts[last as usize] - 1;
    disk.indexed(last, growing, &file_name(growing), KIND, 0);
    files[last as usize].push(0);
    let words = disk.finish(last, LEFT);
    let question = question(&words, last, growing - 1, 0, growing);
    let about = format!(
        "{pages} pages, {} held; {total} contiguous files of one page",
        pages - free_pages(&words)
    );
    Volume {
        name: "singles".into(),
        about,
        words,
        question,
        files,
    }
}

#[cfg(test)]
mod tests {
    use super::*;

    /// The same volume by calls: one user, given so many pages, with one file of this size.
    fn by_calls(pages: u32, volume: &[u8], given: u32, size: u32) -> Vec<u16> {
        let mut words = vec![0; pages as usize * PAGE_WORDS];
        assert_eq!(second::format(&mut words, volume, None).number, 0);
        assert_eq!(second::create_user(&mut words, &user_name(0)).number, 0);
        assert_eq!(second::give(&mut words, 0, given as usize).number, 0);
        assert_eq!(second::create_indexed(&mut words, 0, &file_name(0), KIND, 0).number, 0);
        (0..size).for_each(|_| assert_eq!(second::grow(&mut words, 0, 0).number, 0));
        words
    }

    #[test]
    fn volumes_are_laid_out_as_calls_make_them() {
        assert!(yard().words == by_calls(154, b"YARD", 104, 100));
        let volume = few(1_000, 700);
        let size = volume.files[0][0];
        assert!(volume.words == by_calls(1_000, b"FEW", pages_held(size) as u32 + LEFT, size));
    }

    #[test]
    fn volumes_are_sound_and_nearly_full() {
        for volume in [full(1_000), many(1_000), singles(1_000)] {
            let held = volume.held();
            assert!((995..=997).contains(&held), "{} holds {held} pages", volume.name);
        }
    }

    #[test]
    fn packs_are_sound_and_nearly_full() {
        for volume in [full(16_385), many(16_385), full(37_035)] {
            let (held, pages) = (volume.held(), volume.pages());
            assert!(
                (pages - 7..=pages - 3).contains(&held),
                "{} holds {held} of {pages} pages",
                volume.name
            );
        }
    }

    #[test]
    fn where_no_entry_is_left_the_first_file_has_the_rest() {
        assert_eq!((first(16_384, most(16_384, 2)), most(140_733, 2)), (1, MOST_FILES));
        let size = first(140_733, MOST_FILES);
        let all = needed(140_733, MOST_FILES, 2) as u64 - 2 + pages_held(size);
        assert!(size > 1_000 && all <= 140_733 && all + 3 > 140_733, "a first file of {size} pages");
    }
}
