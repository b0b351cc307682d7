//! The boundary as host/include/nord.h has it.

/// A page and a word 0 .. 1,023 of it; zeros are no place.
#[repr(C)]
#[derive(Clone, Copy, Debug, Default, PartialEq, Eq)]
pub struct Place {
    pub page: u32,
    pub word: u32,
}

/// Who holds a page; the kinds are those of nord.h. Zeros are "free".
#[repr(C)]
#[derive(Clone, Copy, Debug, Default, PartialEq, Eq)]
pub struct Holder {
    pub kind: u32,
    pub user: u32,
    pub file: u32,
    pub position: u32,
}

/// What a call answers: the number of document 01's table; with 3 the lowest broken rule and its first place, with rule 8 the first two holders
/// of that page too; the value with 0; else zeros. A step that asks who holds a page has the holder as `first`, and one that reads a page the offset
/// of its words in the image as the value.
#[repr(C)]
#[derive(Clone, Copy, Debug, Default, PartialEq, Eq)]
pub struct Reply {
    pub number: u32,
    pub rule: u32,
    pub value: u32,
    pub place: Place,
    pub first: Holder,
    pub second: Holder,
}

/// What `who_holds` answers: a reply whose value is a holder.
#[repr(C)]
#[derive(Clone, Copy, Debug, Default, PartialEq, Eq)]
pub struct HolderReply {
    pub number: u32,
    pub rule: u32,
    pub holder: Holder,
    pub place: Place,
    pub first: Holder,
    pub second: Holder,
}

/// One changed word: word 0 .. 1,023 of a page, its old and its new value.
#[repr(C)]
#[derive(Clone, Copy, Debug, Default, PartialEq, Eq)]
pub struct Change {
    pub page: u32,
    pub word: u32,
    pub old: u32,
    pub new: u32,
}

/// A step of a run: a call by its number (`call`) with its arguments. `count` is a page count, a position, a page, or format's first bit page; the name is
/// the bytes `name_at .. name_at + name_bytes` of the text lent with the steps, the type likewise, and a page's data are the 1,024 words from
/// `data_at` on of the words lent with them. What a call does not use is not looked at.
#[repr(C)]
#[derive(Clone, Copy, Debug, Default, PartialEq, Eq)]
pub struct Step {
    pub call: u32,
    pub user: u32,
    pub file: u32,
    pub count: u32,
    pub created: u32,
    pub name_at: u32,
    pub name_bytes: u32,
    pub type_at: u32,
    pub type_bytes: u32,
    pub data_at: u32,
}

/// The calls of a step, by number.
pub mod call {
    pub const FORMAT: u32 = 1;
    pub const CHECK: u32 = 2;
    pub const FIND_USER: u32 = 3;
    pub const FIND_FILE: u32 = 4;
    pub const ADDRESS: u32 = 5;
    pub const WHO_HOLDS: u32 = 6;
    pub const CREATE_USER: u32 = 7;
    pub const DELETE_USER: u32 = 8;
    pub const GIVE: u32 = 9;
    pub const TAKE: u32 = 10;
    pub const CREATE_INDEXED: u32 = 11;
    pub const CREATE_CONTIGUOUS: u32 = 12;
    pub const GROW: u32 = 13;
    pub const SHRINK: u32 = 14;
    pub const DELETE_FILE: u32 = 15;
    pub const READ_PAGE: u32 = 16;
    pub const WRITE_PAGE: u32 = 17;
    pub const NOTE_OPEN: u32 = 18;
    pub const FORMAT_DEFAULT: u32 = 19;
    pub const CONVERT_TO_APOSTROPHE: u32 = 20;
    pub const CONVERT_TO_ZEROS: u32 = 21;
    pub const SALVAGE: u32 = 22;
}

/// The numbers of a step, of a change and of a reply, which the lengths of their lists are told in.
pub(crate) const STEP_NUMBERS: usize = size_of::<Step>() / size_of::<u32>();
pub(crate) const CHANGE_NUMBERS: usize = size_of::<Change>() / size_of::<u32>();
pub(crate) const REPLY_NUMBERS: usize = size_of::<Reply>() / size_of::<u32>();

/// The header's NORD_STEPS(1), NORD_CHANGE_NUMBERS(1) and NORD_REPLIES(1), and the bytes of what nord_who_holds answers.
const _: () = assert!(STEP_NUMBERS == 10 && CHANGE_NUMBERS == 4 && REPLY_NUMBERS == 13 && size_of::<HolderReply>() == 64);

/// A part of the image, in words.
#[repr(C)]
#[derive(Clone, Copy)]
pub(crate) struct Part {
    pub offset: usize,
    pub length: usize,
}

extern "C" {
    pub(crate) fn nord_check(image: *const u16, words: usize) -> Reply;
    pub(crate) fn nord_find_user(image: *const u16, words: usize, name: *const u8, name_bytes: usize) -> Reply;
    pub(crate) fn nord_find_file(
        image: *const u16,
        words: usize,
        user: usize,
        name: *const u8,
        name_bytes: usize,
        kind: *const u8,
        kind_bytes: usize,
    ) -> Reply;
    pub(crate) fn nord_address(image: *const u16, words: usize, user: usize, file: usize, position: usize) -> Reply;
    pub(crate) fn nord_who_holds(image: *const u16, words: usize, page: usize) -> HolderReply;
    pub(crate) fn nord_read_page(image: *const u16, words: usize, user: usize, file: usize, position: usize) -> Part;
    pub(crate) fn nord_list(image: *const u16, words: usize, out: *mut u8, out_bytes: usize) -> usize;
    pub(crate) fn nord_format(image: *mut u16, words: usize, name: *const u8, name_bytes: usize, bit_page: usize) -> Reply;
    pub(crate) fn nord_format_default(image: *mut u16, words: usize, name: *const u8, name_bytes: usize) -> Reply;
    pub(crate) fn nord_create_user(image: *mut u16, words: usize, name: *const u8, name_bytes: usize) -> Reply;
    pub(crate) fn nord_delete_user(image: *mut u16, words: usize, user: usize) -> Reply;
    pub(crate) fn nord_give(image: *mut u16, words: usize, user: usize, count: usize) -> Reply;
    pub(crate) fn nord_take(image: *mut u16, words: usize, user: usize, count: usize) -> Reply;
    pub(crate) fn nord_create_indexed(
        image: *mut u16,
        words: usize,
        user: usize,
        name: *const u8,
        name_bytes: usize,
        kind: *const u8,
        kind_bytes: usize,
        created: u32,
    ) -> Reply;
    pub(crate) fn nord_create_contiguous(
        image: *mut u16,
        words: usize,
        user: usize,
        name: *const u8,
        name_bytes: usize,
        kind: *const u8,
        kind_bytes: usize,
        created: u32,
        count: usize,
    ) -> Reply;
    pub(crate) fn nord_grow(image: *mut u16, words: usize, user: usize, file: usize) -> Reply;
    pub(crate) fn nord_shrink(image: *mut u16, words: usize, user: usize, file: usize) -> Reply;
    pub(crate) fn nord_delete_file(image: *mut u16, words: usize, user: usize, file: usize) -> Reply;
    pub(crate) fn nord_write_page(
        image: *mut u16,
        words: usize,
        user: usize,
        file: usize,
        position: usize,
        data: *const u16,
        data_words: usize,
    ) -> Reply;
    pub(crate) fn nord_note_open(image: *mut u16, words: usize, user: usize, file: usize) -> Reply;
    pub(crate) fn nord_convert_to_apostrophe(image: *mut u16, words: usize) -> Reply;
    pub(crate) fn nord_convert_to_zeros(image: *mut u16, words: usize) -> Reply;
    pub(crate) fn nord_salvage(image: *mut u16, words: usize, list: *mut Change, changes: usize) -> Reply;
    pub(crate) fn nord_run(
        image: *mut u16,
        words: usize,
        steps: *const Step,
        step_numbers: usize,
        text: *const u8,
        text_bytes: usize,
        data: *const u16,
        data_words: usize,
        list: *mut Change,
        change_numbers: usize,
        replies: *mut Reply,
        reply_numbers: usize,
    ) -> usize;
}
