//! The proved library's calls as safe functions of Rust. host/include/nord.h says what each number means.
//!
//! What makes them safe is the library's own contracts: none asks anything of its caller, a slice is lent for the time of the call, and
//! nothing outside it is read or written. What the contracts take for granted, that the slices lent to one call do not overlap, the borrow
//! checker sees to: an image is lent as `&mut`, and while it is so, nothing else can be a part of it. A slice without elements has a pointer
//! that is neither null nor odd, as all slices of Rust have. Words are plain numbers; an image file has the high byte first.
//!
//! Indexes, positions, pages and counts are as wide as the header has them, so a number that 32 bits do not hold is refused and not cut.
//! Names and types are bytes without fill: the apostrophe that ends a short one in an image is no part of it, and is refused in an argument.

mod boundary;

pub use boundary::{call, Change, Holder, HolderReply, Place, Reply, Step};
use boundary::{CHANGE_NUMBERS, REPLY_NUMBERS, STEP_NUMBERS};

/// The words of a page.
pub const PAGE: usize = 1024;

/// The pages of the largest image, and the largest page count of a call.
pub const MOST_PAGES: usize = 140_733;

/// The pages whose bits one page of the bit file has.
pub const PAGES_TO_A_BIT_PAGE: usize = 16 * PAGE;

/// The pages of the bit file of a volume of so many pages: a run from the bit pointer's page on.
pub const fn bit_pages(pages: usize) -> usize {
    pages.div_ceil(PAGES_TO_A_BIT_PAGE)
}

pub fn check(image: &[u16]) -> Reply {
    unsafe { boundary::nord_check(image.as_ptr(), image.len()) }
}

pub fn find_user(image: &[u16], name: &[u8]) -> Reply {
    unsafe { boundary::nord_find_user(image.as_ptr(), image.len(), name.as_ptr(), name.len()) }
}

pub fn find_file(image: &[u16], user: usize, name: &[u8], kind: &[u8]) -> Reply {
    unsafe {
        boundary::nord_find_file(
            image.as_ptr(),
            image.len(),
            user,
            name.as_ptr(),
            name.len(),
            kind.as_ptr(),
            kind.len(),
        )
    }
}

pub fn address(image: &[u16], user: usize, file: usize, position: usize) -> Reply {
    unsafe { boundary::nord_address(image.as_ptr(), image.len(), user, file, position) }
}

pub fn who_holds(image: &[u16], page: usize) -> HolderReply {
    unsafe { boundary::nord_who_holds(image.as_ptr(), image.len(), page) }
}

/// The 1,024 words of a file's page, or an empty part where `address` would refuse.
pub fn read_page(image: &[u16], user: usize, file: usize, position: usize) -> &[u16] {
    let part = unsafe { boundary::nord_read_page(image.as_ptr(), image.len(), user, file, position) };
    &image[part.offset..part.offset + part.length]
}

/// The listing of document 01 byte for byte, or the line of its refusal.
pub fn list(image: &[u16]) -> Vec<u8> {
    let mut text = vec![0; 65536];
    let length = list_into(image, &mut text);
    if length > text.len() {
        text.resize(length, 0);
        list_into(image, &mut text);
    }
    text.truncate(length);
    text
}

/// The listing's first bytes, as many as there is room for, and its whole length.
fn list_into(image: &[u16], out: &mut [u8]) -> usize {
    unsafe { boundary::nord_list(image.as_ptr(), image.len(), out.as_mut_ptr(), out.len()) }
}

/// Formats with the bit file from the page given on, or from page P/2.
pub fn format(image: &mut [u16], name: &[u8], bit_page: Option<usize>) -> Reply {
    let (words, length) = (image.as_mut_ptr(), image.len());
    match bit_page {
        Some(page) => unsafe { boundary::nord_format(words, length, name.as_ptr(), name.len(), page) },
        None => unsafe { boundary::nord_format_default(words, length, name.as_ptr(), name.len()) },
    }
}

pub fn create_user(image: &mut [u16], name: &[u8]) -> Reply {
    unsafe { boundary::nord_create_user(image.as_mut_ptr(), image.len(), name.as_ptr(), name.len()) }
}

pub fn delete_user(image: &mut [u16], user: usize) -> Reply {
    unsafe { boundary::nord_delete_user(image.as_mut_ptr(), image.len(), user) }
}

pub fn give(image: &mut [u16], user: usize, count: usize) -> Reply {
    unsafe { boundary::nord_give(image.as_mut_ptr(), image.len(), user, count) }
}

pub fn take(image: &mut [u16], user: usize, count: usize) -> Reply {
    unsafe { boundary::nord_take(image.as_mut_ptr(), image.len(), user, count) }
}

pub fn create_indexed(image: &mut [u16], user: usize, name: &[u8], kind: &[u8], created: u32) -> Reply {
    let (words, length) = (image.as_mut_ptr(), image.len());
    unsafe { boundary::nord_create_indexed(words, length, user, name.as_ptr(), name.len(), kind.as_ptr(), kind.len(), created) }
}

pub fn create_contiguous(image: &mut [u16], user: usize, name: &[u8], kind: &[u8], created: u32, count: usize) -> Reply {
    let (words, length) = (image.as_mut_ptr(), image.len());
    unsafe {
        boundary::nord_create_contiguous(
            words,
            length,
            user,
            name.as_ptr(),
            name.len(),
            kind.as_ptr(),
            kind.len(),
            created,
            count,
        )
    }
}

pub fn grow(image: &mut [u16], user: usize, file: usize) -> Reply {
    unsafe { boundary::nord_grow(image.as_mut_ptr(), image.len(), user, file) }
}

pub fn shrink(image: &mut [u16], user: usize, file: usize) -> Reply {
    unsafe { boundary::nord_shrink(image.as_mut_ptr(), image.len(), user, file) }
}

pub fn delete_file(image: &mut [u16], user: usize, file: usize) -> Reply {
    unsafe { boundary::nord_delete_file(image.as_mut_ptr(), image.len(), user, file) }
}

pub fn write_page(image: &mut [u16], user: usize, file: usize, position: usize, data: &[u16]) -> Reply {
    let (words, length) = (image.as_mut_ptr(), image.len());
    unsafe { boundary::nord_write_page(words, length, user, file, position, data.as_ptr(), data.len()) }
}

pub fn note_open(image: &mut [u16], user: usize, file: usize) -> Reply {
    unsafe { boundary::nord_note_open(image.as_mut_ptr(), image.len(), user, file) }
}

/// The volume's name and every used entry's name and type: from zeros behind a short one to an apostrophe and then zeros.
pub fn convert_to_apostrophe(image: &mut [u16]) -> Reply {
    unsafe { boundary::nord_convert_to_apostrophe(image.as_mut_ptr(), image.len()) }
}

/// And back to zeros.
pub fn convert_to_zeros(image: &mut [u16]) -> Reply {
    unsafe { boundary::nord_convert_to_zeros(image.as_mut_ptr(), image.len()) }
}

/// The bits and counts anew from what the pointers hold: the changed words in `list`, in ascending place, and their number as the value.
pub fn salvage(image: &mut [u16], list: &mut [Change]) -> Reply {
    unsafe { boundary::nord_salvage(image.as_mut_ptr(), image.len(), list.as_mut_ptr(), list.len()) }
}

/// So many changes are enough for a volume of so many pages.
pub const fn most_changes(pages: usize) -> usize {
    2 + pages.div_ceil(16) + 512
}

/// Makes the steps in order, with one check of the image for all of them: a reply for each, up to the first refusal or to the end of `steps`
/// or `replies`. Gives the number of replies; the others stay as they were. Replies, image and list are those of the single calls one after
/// the other. A step whose call is none, or that uses a part which does not lie in `text` or `data`, is a call whose arguments are wrong.
///
/// A salvage tells its changes in `list`, from its beginning on. Only one that is the first step can have any: every step that is done leaves
/// a sound image. Any other run needs no list.
///
/// `image`, `list` and `replies` are lent as `&mut`, so none overlaps another or any of the rest; `steps`, `text` and `data` are only read.
pub fn run(image: &mut [u16], steps: &[Step], text: &[u8], data: &[u16], list: &mut [Change], replies: &mut [Reply]) -> usize {
    let (words, length) = (image.as_mut_ptr(), image.len());
    unsafe {
        boundary::nord_run(
            words,
            length,
            steps.as_ptr(),
            STEP_NUMBERS * steps.len(),
            text.as_ptr(),
            text.len(),
            data.as_ptr(),
            data.len(),
            list.as_mut_ptr(),
            CHANGE_NUMBERS * list.len(),
            replies.as_mut_ptr(),
            REPLY_NUMBERS * replies.len(),
        )
    }
}
