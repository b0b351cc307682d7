//! Where things lie in an image, as far as makers and damage need it. They use nothing of the second program, so that a fault of that one
//! cannot hide in the images it is tried on.

pub const PAGE: usize = 1024;

/// Pages of the largest volume (document 02, T-06): also the largest page count that a call takes, on every volume.
pub const MOST_PAGES: u32 = 140_733;

/// Pages that have their bits in one page of the bit file.
pub const TO_A_BIT_PAGE: u32 = 16_384;

/// Pages of the bit file of a volume of so many, and the highest that it can start with.
pub fn bit_pages(pages: u32) -> u32 {
    pages.div_ceil(TO_A_BIT_PAGE)
}

pub fn last_bit_start(pages: u32) -> u32 {
    pages - bit_pages(pages)
}

/// Words of the directory entry, in page 0.
pub const VOLUME_NAME: usize = 1008;
pub const OBJECT_POINTER: usize = 1016;
pub const USER_POINTER: usize = 1018;
pub const BIT_POINTER: usize = 1020;
pub const UNRESERVED: usize = 1022;

/// Words of an entry: the name of either, then a user's, then an object's.
pub const NAME: usize = 1;
pub const GIVEN: usize = 14;
pub const USED: usize = 16;
pub const OWN_INDEX: usize = 18;
pub const TYPE: usize = 9;
pub const OWNER: usize = 16;
pub const OWN_NUMBER: usize = 17;
pub const OPENS: usize = 19;
pub const PAGES: usize = 26;
pub const BYTES: usize = 28;
pub const POINTER: usize = 30;

/// The flags of a pointer.
pub const S: u32 = 1 << 31;
pub const I: u32 = 1 << 30;

pub fn pair(words: &[u16], at: usize) -> u32 {
    u32::from(words[at]) << 16 | u32::from(words[at + 1])
}

pub fn put_pair(words: &mut [u16], at: usize, value: u32) {
    words[at] = (value >> 16) as u16;
    words[at + 1] = value as u16;
}

/// Where a slot of a block lies.
pub fn slot_at(block: u32, slot: u32) -> usize {
    block as usize * PAGE + 2 * slot as usize
}

/// Where an entry lies in its page.
pub fn entry_at(page: u32, number: u32) -> usize {
    page as usize * PAGE + 32 * (number as usize % 32)
}

/// What ends a name or type that does not fill its field: an apostrophe, or a zero byte.
pub const APOSTROPHE: u8 = 39;
pub const ENDS: [u8; 2] = [APOSTROPHE, 0];

/// Writes the bytes of a field, two to a word, the high byte first.
pub fn put_bytes(words: &mut [u16], bytes: &[u8]) {
    words.iter_mut().zip(bytes.chunks_exact(2)).for_each(|(word, two)| *word = u16::from_be_bytes([two[0], two[1]]));
}

/// The bytes of a name or type: those of its field before the first that ends it, or all.
pub fn bytes_of(words: &[u16]) -> Vec<u8> {
    words.iter().flat_map(|word| word.to_be_bytes()).take_while(|byte| !ENDS.contains(byte)).collect()
}

/// An image as bytes, high byte first, as it is kept in a file.
pub fn to_bytes(image: &[u16]) -> Vec<u8> {
    image.iter().flat_map(|word| word.to_be_bytes()).collect()
}

pub fn from_bytes(bytes: &[u8]) -> Vec<u16> {
    bytes.chunks_exact(2).map(|two| u16::from_be_bytes([two[0], two[1]])).collect()
}
