//! The image as pages of words: numbers, pointers and entries where document 01 puts them. What lies outside the image reads as zeros.

use super::stored::Stored;
use proved::{Place, PAGE, PAGES_TO_A_BIT_PAGE};
use std::ops::Range;

/// Pointers in a block.
pub const SLOTS: u32 = 512;
/// Pages of the user file.
pub const USER_PAGES: u32 = 8;
/// Index blocks of the object file.
pub const OBJECT_BLOCKS: u32 = 4;

/// Users of a volume, and files of a user.
pub const ENTRIES: u32 = 256;
/// Entry numbers of the object file.
pub const OBJECTS: u32 = ENTRIES * ENTRIES;
pub const ENTRIES_TO_A_PAGE: u32 = 32;
pub const ENTRY_WORDS: u32 = 32;
const USED: u16 = 1 << 15;
/// The first words of an entry's name, and of a file's type.
pub const ENTRY_NAME: u32 = 1;
pub const ENTRY_TYPE: u32 = 9;
/// The first word of the pages that a user was given.
const GIVEN: u32 = 14;

/// The pages that a page of the bit file tells of.
const TOLD: u32 = PAGES_TO_A_BIT_PAGE as u32;

/// Words of the directory entry in page 0.
pub const VOLUME_NAME: u32 = 1008;
pub const OBJECT_POINTER: u32 = 1016;
pub const USER_POINTER: u32 = 1018;
pub const BIT_POINTER: u32 = 1020;
pub const UNRESERVED: u32 = 1022;

/// An image that is only read.
#[derive(Clone, Copy)]
pub struct Disk<'a> {
    image: &'a [u16],
}

/// A pointer with its flags told apart. Both flags together are an error: a sound image has none such.
#[derive(Clone, Copy, Debug, PartialEq, Eq)]
pub enum Pointer {
    None,
    Plain(u32),
    Indexed(u32),
    Subindexed(u32),
    Both(u32),
}

impl Pointer {
    pub fn of(number: u32) -> Pointer {
        let page = number & !(3 << 30);
        match number >> 30 {
            0 if page == 0 => Pointer::None,
            0 => Pointer::Plain(page),
            1 => Pointer::Indexed(page),
            2 => Pointer::Subindexed(page),
            _ => Pointer::Both(page),
        }
    }
}

impl<'a> Disk<'a> {
    pub fn new(image: &'a [u16]) -> Disk<'a> {
        Disk { image }
    }

    pub fn pages(&self) -> u32 {
        (self.image.len() / PAGE) as u32
    }

    /// Whether a pointer may lead to this page: 1..P-1.
    pub fn inside(&self, page: u32) -> bool {
        (1..self.pages()).contains(&page)
    }

    pub fn volume_name(&self) -> String {
        self.stored_volume_name().to_string()
    }

    /// The volume's name as it stands in the image.
    pub fn stored_volume_name(&self) -> Stored {
        Stored::of(self.words(0, VOLUME_NAME, 8))
    }

    pub fn unreserved(&self) -> u32 {
        self.number(0, UNRESERVED)
    }

    /// Where unreserved stands.
    pub fn unreserved_place(&self) -> Place {
        Place { page: 0, word: UNRESERVED }
    }

    /// Where the pages stand that a user was given.
    pub fn given_place(&self, user: u32) -> Place {
        Place {
            page: self.user_page(user / ENTRIES_TO_A_PAGE),
            word: ENTRY_WORDS * (user % ENTRIES_TO_A_PAGE) + GIVEN,
        }
    }

    /// How many pages the bit file of an image of this size has.
    pub fn bit_pages(&self) -> u32 {
        proved::bit_pages(self.pages() as usize) as u32
    }

    /// The pages of the bit file, as far as they lie in the image; none where the bit pointer leads to no page of it.
    pub fn bit_file(&self) -> Range<u32> {
        match self.number(0, BIT_POINTER) {
            first if self.inside(first) => first..(first + self.bit_pages()).min(self.pages()),
            _ => 0..0,
        }
    }

    /// Where a page's bit stands, if the whole bit file lies in the image.
    pub fn bit_place(&self, page: u32) -> Option<Place> {
        let file = self.bit_file();
        (file.len() as u32 == self.bit_pages()).then_some(Place {
            page: file.start + page / TOLD,
            word: page % TOLD / 16,
        })
    }

    /// A page's bit, if the whole bit file lies in the image.
    pub fn bit(&self, page: u32) -> Option<bool> {
        let place = self.bit_place(page)?;
        let word = self.words(place.page, place.word, 1).first()?;
        Some(word >> (page % 16) & 1 == 1)
    }

    /// The pages whose bits a word of the bit file's page at this position has; none where they are from P on.
    pub fn told_by(&self, position: u32, word: u32) -> Range<u32> {
        let first = TOLD.saturating_mul(position).saturating_add(16 * word);
        first.min(self.pages())..first.saturating_add(16).min(self.pages())
    }

    /// The ones of the bit file below P.
    pub fn reserved(&self) -> u32 {
        (0..self.pages()).filter(|page| self.bit(*page) == Some(true)).count() as u32
    }

    pub fn user_pointer(&self) -> Pointer {
        Pointer::of(self.number(0, USER_POINTER))
    }

    pub fn object_pointer(&self) -> Pointer {
        Pointer::of(self.number(0, OBJECT_POINTER))
    }

    /// The page number in a slot of a block; 0 is no page.
    pub fn slot(&self, block: u32, slot: u32) -> u32 {
        self.number(block, 2 * slot)
    }

    /// The used users' indexes and entries, ascending.
    pub fn users(&self) -> impl Iterator<Item = (u32, Entry<'a>)> + '_ {
        (0..ENTRIES).filter_map(|user| Some((user, self.user(user)?)))
    }

    /// A user's files' indexes and entries, ascending.
    pub fn files(&self, user: u32) -> impl Iterator<Item = (u32, Entry<'a>)> + '_ {
        (0..ENTRIES).filter_map(move |file| Some((file, self.object(ENTRIES * user + file)?)))
    }

    /// The used objects' entry numbers and entries, ascending, whether their owners are used or not.
    pub fn objects(&self) -> impl Iterator<Item = (u32, Entry<'a>)> + '_ {
        (0..OBJECTS).filter_map(|number| Some((number, self.object(number)?)))
    }

    /// A user's entry, if it is used.
    pub fn user(&self, user: u32) -> Option<Entry<'a>> {
        self.entry(self.user_page(user / ENTRIES_TO_A_PAGE), user)
    }

    /// The object entry with this number, if it is used.
    pub fn object(&self, number: u32) -> Option<Entry<'a>> {
        self.entry(self.object_page(number / ENTRIES_TO_A_PAGE), number)
    }

    /// The n-th page of the user file; 0 is none.
    pub fn user_page(&self, position: u32) -> u32 {
        match self.user_pointer() {
            Pointer::Indexed(block) if position < USER_PAGES => self.slot(block, position),
            _ => 0,
        }
    }

    /// The n-th page of the object file; 0 is none.
    pub fn object_page(&self, position: u32) -> u32 {
        match self.object_block(position / SLOTS) {
            0 => 0,
            block => self.slot(block, position % SLOTS),
        }
    }

    /// The n-th index block of the object file; 0 is none.
    pub fn object_block(&self, n: u32) -> u32 {
        match self.object_pointer() {
            Pointer::Indexed(block) if n == 0 => block,
            Pointer::Subindexed(subindex) if n < OBJECT_BLOCKS => self.slot(subindex, n),
            _ => 0,
        }
    }

    /// The entry with this number in its page, if it is used.
    fn entry(&self, page: u32, number: u32) -> Option<Entry<'a>> {
        let entry = self.entry_at(page, number % ENTRIES_TO_A_PAGE)?;
        (page != 0 && entry.is_used()).then_some(entry)
    }

    /// The n-th entry of a page, used or not.
    pub fn entry_at(&self, page: u32, n: u32) -> Option<Entry<'a>> {
        let words = self.words(page, n * ENTRY_WORDS, ENTRY_WORDS);
        (!words.is_empty()).then_some(Entry { words })
    }

    /// A number of two words, the more significant first.
    pub fn number(&self, page: u32, word: u32) -> u32 {
        pair(self.words(page, word, 2), 0)
    }

    /// Words of a page, or none where the image has no such page.
    pub fn words(&self, page: u32, first: u32, count: u32) -> &'a [u16] {
        let start = page as usize * PAGE + first as usize;
        self.image.get(start..start + count as usize).unwrap_or(&[])
    }
}

/// The 32 words of an entry, of a user or of a file.
#[derive(Clone, Copy)]
pub struct Entry<'a> {
    pub words: &'a [u16],
}

impl Entry<'_> {
    pub fn is_used(&self) -> bool {
        self.words.first().is_some_and(|word| word & USED != 0)
    }

    pub fn name(&self) -> String {
        self.stored_name().to_string()
    }

    /// A file's type.
    pub fn type_name(&self) -> String {
        self.stored_type().to_string()
    }

    /// The name as it stands in the image.
    pub fn stored_name(&self) -> Stored {
        self.stored(ENTRY_NAME, 8)
    }

    /// A file's type as it stands in the image.
    pub fn stored_type(&self) -> Stored {
        self.stored(ENTRY_TYPE, 2)
    }

    /// The name or type in so many words.
    fn stored(&self, first: u32, count: u32) -> Stored {
        let words = self.words.get(first as usize..(first + count) as usize);
        Stored::of(words.unwrap_or(&[]))
    }

    /// A user's given pages.
    pub fn given(&self) -> u32 {
        pair(self.words, GIVEN as usize)
    }

    /// A user's used pages.
    pub fn used_pages(&self) -> u32 {
        pair(self.words, 16)
    }

    /// A file's total opens.
    pub fn opens(&self) -> u32 {
        word(self.words, 19)
    }

    pub fn created(&self) -> u32 {
        pair(self.words, 20)
    }

    /// A file's pages.
    pub fn pages(&self) -> u32 {
        pair(self.words, 26)
    }

    /// A file's bytes.
    pub fn bytes(&self) -> u32 {
        pair(self.words, 28)
    }

    pub fn pointer(&self) -> Pointer {
        Pointer::of(pair(self.words, 30))
    }
}

fn word(words: &[u16], at: usize) -> u32 {
    words.get(at).copied().unwrap_or(0).into()
}

/// A number of two words, the more significant first.
fn pair(words: &[u16], at: usize) -> u32 {
    word(words, at) << 16 | word(words, at + 1)
}
