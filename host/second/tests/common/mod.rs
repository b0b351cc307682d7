//! What the tests share: images to start from, and a small generator.
#![allow(dead_code)]

use second::*;

/// A formatted volume with the bit file where it is by default.
pub fn volume(pages: usize) -> Vec<u16> {
    let mut image = vec![0; pages * 1024];
    assert_eq!(format(&mut image, b"YARD", None), done(0));
    image
}

/// The same with the bit file from the page told on.
pub fn volume_from(pages: usize, first: usize) -> Vec<u16> {
    let mut image = vec![0; pages * 1024];
    assert_eq!(format(&mut image, b"YARD", Some(first)), done(0));
    image
}

/// That volume with user 0, DOCK, who is given so many pages.
pub fn dock_from(pages: usize, first: usize, given: usize) -> Vec<u16> {
    let mut image = volume_from(pages, first);
    assert_eq!(create_user(&mut image, b"DOCK"), done(0));
    assert_eq!(give(&mut image, 0, given), done(0));
    image
}

/// A volume with user 0, DOCK, who is given so many pages.
pub fn dock(pages: usize, given: usize) -> Vec<u16> {
    let mut image = volume(pages);
    assert_eq!(create_user(&mut image, b"DOCK"), done(0));
    if given > 0 {
        assert_eq!(give(&mut image, 0, given), done(0));
    }
    image
}

/// The same with file 0, READS:DATA, grown so often.
pub fn reads(pages: usize, given: usize, length: u32) -> Vec<u16> {
    let mut image = dock(pages, given);
    assert_eq!(create_indexed(&mut image, 0, b"READS", b"DATA", 0), done(0));
    for _ in 0..length {
        assert_eq!(grow(&mut image, 0, 0).number, 0);
    }
    image
}

/// Number 0 with a value.
pub fn done(value: u32) -> Reply {
    Reply { value, ..Reply::default() }
}

/// A refusal other than 3.
pub fn refused(number: u32) -> Reply {
    Reply {
        number,
        ..Reply::default()
    }
}

/// Number 3 with its rule, and the page and the word that break it.
pub fn unsound(rule: u32, page: usize, word: usize) -> Reply {
    let place = Place {
        page: page as u32,
        word: word as u32,
    };
    Reply {
        number: 3,
        rule,
        place,
        ..Reply::default()
    }
}

/// Number 3 with rule 8: a page, and its first two holders.
pub fn shared(page: usize, first: Holder, second: Holder) -> Reply {
    Reply {
        first,
        second,
        ..unsound(8, page, 0)
    }
}

/// A holder by its kind, user, file and position.
pub fn holder(kind: u32, user: u32, file: u32, position: u32) -> Holder {
    Holder {
        kind,
        user,
        file,
        position,
    }
}

/// A system page's holder.
pub fn system(kind: u32, position: u32) -> Holder {
    holder(kind, 0, 0, position)
}

/// A call must be refused with this number and leave the image as it was.
pub fn refuses(image: &[u16], number: u32, call: impl FnOnce(&mut [u16]) -> Reply) {
    let mut after = image.to_vec();
    assert_eq!(call(&mut after), refused(number));
    assert!(after == image, "a refused call changed the image");
}

/// Turns the bit of a page over, wherever in the bit file it is.
pub fn flip_bit(image: &mut [u16], page: usize) {
    let bit_page = pair(image, 1020) as usize + page / 16_384;
    image[bit_page * 1024 + page / 16 % 1024] ^= 1 << (page % 16);
}

/// A two-word number of the image.
pub fn pair(image: &[u16], at: usize) -> u32 {
    u32::from(image[at]) << 16 | u32::from(image[at + 1])
}

pub fn put_pair(image: &mut [u16], at: usize, value: u32) {
    image[at] = (value >> 16) as u16;
    image[at + 1] = value as u16;
}

/// Unreserved pages, as the directory entry says.
pub fn unreserved(image: &[u16]) -> u32 {
    pair(image, 1022)
}

/// An image as bytes, high byte first.
pub fn bytes(image: &[u16]) -> Vec<u8> {
    image.iter().flat_map(|word| word.to_be_bytes()).collect()
}

/// A name for the n-th thing of a test.
pub fn nth(n: u32) -> Vec<u8> {
    format!("N-{n}").into_bytes()
}

/// A xorshift generator, so that a failing test fails again.
pub struct Chance(u64);

impl Chance {
    pub fn new(seed: u64) -> Chance {
        Chance(seed)
    }

    pub fn below(&mut self, bound: u32) -> u32 {
        self.0 ^= self.0 << 13;
        self.0 ^= self.0 >> 7;
        self.0 ^= self.0 << 17;
        (self.0 >> 33) as u32 % bound
    }

    /// True once in so many times.
    pub fn once_in(&mut self, times: u32) -> bool {
        self.below(times) == 0
    }
}
