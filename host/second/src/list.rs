//! The listing of an image of at most 32 pages, read high byte first.

use crate::bits::reserved_count;
use crate::check::check;
use crate::entry::{file_pointer, object, stored_name, stored_type, user};
use crate::image::{pages_of, pair, PAGE_WORDS};
use crate::name::Stored;
use crate::pointer::Pointer;
use crate::volume::{bits, files, unreserved, users, volume_name};

/// Bytes of the largest image that is listed.
const MOST_BYTES: usize = 32 * 2 * PAGE_WORDS;

/// The listing, or the line that refuses it; each line ends with byte 10.
pub fn list(bytes: &[u8]) -> Vec<u8> {
    if !bytes.len().is_multiple_of(2) || bytes.len() > MOST_BYTES {
        return b"REFUSED 1\n".to_vec();
    }
    let image: Vec<u16> = bytes.chunks_exact(2).map(|two| u16::from_be_bytes([two[0], two[1]])).collect();
    let reply = check(&image);
    match reply.number {
        0 => list_sound(&image).into_bytes(),
        3 => format!("REFUSED 3 RULE {}\n", reply.rule).into_bytes(),
        number => format!("REFUSED {number}\n").into_bytes(),
    }
}

/// A name or type as text, without what ends it.
fn text(name: Stored) -> String {
    name.bytes().map(char::from).collect()
}

fn list_sound(image: &[u16]) -> String {
    let pages = pages_of(image);
    let mut lines = format!(
        "VOLUME {} PAGES {pages} RESERVED {} UNRESERVED {}\n",
        text(volume_name(image)),
        reserved_count(bits(image), pages),
        unreserved(image),
    );
    for (index, entry) in users(image) {
        lines += &user_line(index, entry);
        for (file, entry) in files(image, index) {
            lines += &file_line(file, entry);
        }
    }
    lines
}

fn user_line(index: u32, entry: &[u16]) -> String {
    let (given, used) = (pair(entry, user::GIVEN), pair(entry, user::USED));
    format!("USER {index} {} GIVEN {given} USED {used}\n", text(stored_name(entry)))
}

fn file_line(file: u32, entry: &[u16]) -> String {
    let kind = match file_pointer(entry) {
        Pointer::Indexed(_) => "INDEXED",
        Pointer::Subindexed(_) => "SUBINDEXED",
        Pointer::Plain(_) => "CONTIGUOUS",
        Pointer::Zero | Pointer::Error => "EMPTY",
    };
    format!(
        "FILE {file} {}:{} PAGES {} {kind}\n",
        text(stored_name(entry)),
        text(stored_type(entry)),
        pair(entry, object::PAGES),
    )
}
