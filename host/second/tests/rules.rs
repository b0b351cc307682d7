//! For each rule images whose lowest broken rule it is, with the place that
//! breaks it, and images that look odd and are sound. The image of `reads(32, 6, 1)` has bit page 16,
//! user index 1, user page 2, object index 3, object page 4, and of its file
//! data page 5 and index block 6.

mod common;
use common::*;
use second::*;

const USER: usize = 2 * 1024;
const OBJECT: usize = 4 * 1024;
const S: u32 = 1 << 31;
const I: u32 = 1 << 30;

fn base() -> Vec<u16> {
    reads(32, 6, 1)
}

/// The check's answer once the base image was changed so.
fn judged(change: impl FnOnce(&mut Vec<u16>)) -> Reply {
    let mut image = base();
    change(&mut image);
    check(&image)
}

/// The answer with one word changed.
fn word(at: usize, value: u16) -> Reply {
    judged(|image| image[at] = value)
}

/// The answer with one two-word number changed.
fn two_words(at: usize, value: u32) -> Reply {
    judged(|image| put_pair(image, at, value))
}

fn slot(block: usize, n: usize) -> usize {
    block * 1024 + 2 * n
}

#[test]
fn the_base_is_sound() {
    assert_eq!(check(&base()), done(8));
}

#[test]
fn rule_1() {
    assert_eq!(check(&vec![0; 8 * 1024]), unsound(1, 0, 1008));
    assert_eq!(check(&vec![u16::MAX; 8 * 1024]), unsound(1, 0, 1008));
    assert_eq!(word(1008, 0), unsound(1, 0, 1008), "the name starts with fill");
    assert_eq!(word(1008, 0x2759), unsound(1, 0, 1008), "the name starts with an apostrophe");
    assert_eq!(word(1008, u16::from_be_bytes(*b"ya")), unsound(1, 0, 1008));
    assert_eq!(word(1010, 0x2041), unsound(1, 0, 1008), "a blank before the end");
    for bad in [0, 32, u32::MAX, I | 16, S | 16] {
        assert_eq!(two_words(1020, bad), unsound(1, 0, 1020));
    }
}

#[test]
fn rule_2() {
    assert_eq!(two_words(1018, 0), unsound(2, 0, 1016), "the two disagree");
    for bad in [1, S | 1, S | I | 1, I, I | 32, I | (I - 1)] {
        assert_eq!(two_words(1018, bad), unsound(2, 0, 1018), "user pointer {bad:x}");
        let both = judged(|image| {
            put_pair(image, 1018, bad);
            put_pair(image, 1016, 0);
        });
        assert_eq!(both, unsound(2, 0, 1016), "user pointer {bad:x}, no object pointer");
    }
    for bad in [0, 3, S | I | 3, I, S, I | 32, S | 32] {
        assert_eq!(two_words(1016, bad), unsound(2, 0, 1016), "object pointer {bad:x}");
        let both = judged(|image| {
            put_pair(image, 1018, S | 1);
            put_pair(image, 1016, bad);
        });
        assert_eq!(both, unsound(2, 0, 1016), "object pointer {bad:x}, a wrong user pointer");
    }
}

#[test]
fn rule_3() {
    for bad in [32, I | 2, S | 2, u32::MAX] {
        assert_eq!(two_words(slot(1, 0), bad), unsound(3, 1, 0));
        assert_eq!(two_words(slot(1, 7), bad), unsound(3, 1, 14));
    }
    assert_eq!(two_words(slot(1, 8), 9), unsound(3, 1, 16));
    assert_eq!(two_words(slot(1, 511), 9), unsound(3, 1, 1022));
}

#[test]
fn rule_4() {
    assert_eq!(word(USER + 18, 1), unsound(4, 2, 18));
    assert_eq!(word(USER + 18, 256), unsound(4, 2, 18));
    assert_eq!(word(USER + 1, 0), unsound(4, 2, 1));
    assert_eq!(word(USER + 1, 0x2744), unsound(4, 2, 1));
    assert_eq!(word(USER + 3, 0x4160), unsound(4, 2, 1));
    assert_eq!(two_words(USER + 16, 7), unsound(4, 2, 16));
    let twins = judged(|image| {
        create_user(image, b"RAMS");
        image.copy_within(USER + 1..USER + 9, USER + 33);
    });
    assert_eq!(twins, unsound(4, 2, 33));
    // One page in two slots: its users have the same names in the second, and
    // where they are only there, the wrong index.
    assert_eq!(two_words(slot(1, 3), 2), unsound(4, 2, 1));
    let moved = judged(|image| {
        put_pair(image, slot(1, 0), 0);
        put_pair(image, slot(1, 3), 2);
    });
    assert_eq!(moved, unsound(4, 2, 18));
}

#[test]
fn rule_5() {
    for bad in [32, I | 4, S | 4, u32::MAX] {
        assert_eq!(two_words(slot(3, 0), bad), unsound(5, 3, 0));
        assert_eq!(two_words(slot(3, 511), bad), unsound(5, 3, 1022));
    }
    let mut image = volume(32);
    for n in 0..65 {
        assert_eq!(create_user(&mut image, &nth(n)), done(n));
    }
    let subindex = (pair(&image, 1016) & !S) as usize;
    let mut fifth = image.clone();
    put_pair(&mut fifth, slot(subindex, 4), 3);
    assert_eq!(check(&fifth), unsound(5, subindex, 8));
    let mut outside = image.clone();
    put_pair(&mut outside, slot(subindex, 3), 32);
    assert_eq!(check(&outside), unsound(5, subindex, 6));
    // User 64 under a single index.
    put_pair(&mut image, 1016, I | 3);
    assert_eq!(check(&image), unsound(5, 0, 1016));
}

#[test]
fn rule_6() {
    assert_eq!(word(OBJECT + 16, 1), unsound(6, 4, 16));
    assert_eq!(word(OBJECT + 17, 1), unsound(6, 4, 17));
    assert_eq!(word(OBJECT + 1, 0), unsound(6, 4, 1));
    assert_eq!(word(OBJECT + 1, 0x2752), unsound(6, 4, 1));
    assert_eq!(word(OBJECT + 9, 0x6141), unsound(6, 4, 9));
    assert_eq!(word(OBJECT + 10, 0x2020), unsound(6, 4, 9));
    // The user's entry no longer used.
    assert_eq!(word(USER, 0), unsound(6, 4, 0));
    let twins = judged(|image| {
        create_indexed(image, 0, b"WRITES", b"DATA", 0);
        image.copy_within(OBJECT + 1..OBJECT + 11, OBJECT + 33);
    });
    assert_eq!(twins, unsound(6, 4, 33));
    // An object page in a second slot: its entries have no owner there, or the
    // same names, or only wrong numbers.
    assert_eq!(two_words(slot(3, 100), 4), unsound(6, 4, 0));
    assert_eq!(two_words(slot(3, 7), 4), unsound(6, 4, 1));
    let moved = judged(|image| {
        put_pair(image, slot(3, 0), 0);
        put_pair(image, slot(3, 7), 4);
    });
    assert_eq!(moved, unsound(6, 4, 17));
}

#[test]
fn rule_7_counts_and_pointers() {
    assert_eq!(two_words(OBJECT + 28, 2047), unsound(7, 4, 28));
    let counts = [
        (0, 4, 30),
        (2, 6, 2),
        (512, 6, 2),
        (513, 4, 30),
        (262_145, 4, 30),
        (1 << 21, 4, 28),
        (u32::MAX, 4, 28),
    ];
    for (bad, page, at) in counts {
        let changed = judged(|image| {
            put_pair(image, OBJECT + 26, bad);
            put_pair(image, OBJECT + 28, bad.wrapping_mul(2048));
        });
        assert_eq!(changed, unsound(7, page, at), "{bad} pages");
    }
    for bad in [0, I, S, I | 32, S | 6, S | I | 6, 32, I - 1, u32::MAX] {
        assert_eq!(two_words(OBJECT + 30, bad), unsound(7, 4, 30), "pointer {bad:x}");
    }
    assert_eq!(two_words(OBJECT + 30, I | 7), unsound(7, 7, 0), "a block of zeros");
    for bad in [0, 32, I | 5, S | 5, u32::MAX] {
        assert_eq!(two_words(slot(6, 0), bad), unsound(7, 6, 0));
    }
    assert_eq!(two_words(slot(6, 1), 7), unsound(7, 6, 2));
    assert_eq!(two_words(slot(6, 511), 7), unsound(7, 6, 1022));
}

#[test]
fn rule_7_runs() {
    let mut image = dock(32, 6);
    assert_eq!(create_contiguous(&mut image, 0, b"RUN", b"", 0, 3), done(0));
    assert_eq!(pair(&image, OBJECT + 30), 29);
    for bad in [0, 30, 31, 32, I - 1] {
        let mut image = image.clone();
        put_pair(&mut image, OBJECT + 30, bad);
        assert_eq!(check(&image), unsound(7, 4, 30));
    }
    for (bad, at) in [(0, 30), (4, 30), (u32::MAX, 28), (u32::MAX - 28, 28)] {
        let mut image = image.clone();
        put_pair(&mut image, OBJECT + 26, bad);
        put_pair(&mut image, OBJECT + 28, bad.wrapping_mul(2048));
        assert_eq!(check(&image), unsound(7, 4, at));
    }
}

#[test]
fn rule_7_subindexed() {
    let image = reads(600, 520, 513);
    let subindex = (pair(&image, OBJECT + 30) & !S) as usize;
    let changed = |at: usize, value: u32| {
        let mut image = image.clone();
        put_pair(&mut image, at, value);
        check(&image)
    };
    let [first, second] = [0, 1].map(|n| pair(&image, slot(subindex, n)) as usize);
    for bad in [0, 600, I | first as u32] {
        assert_eq!(changed(slot(subindex, 0), bad), unsound(7, subindex, 0));
    }
    assert_eq!(changed(slot(subindex, 1), 0), unsound(7, subindex, 2));
    assert_eq!(changed(slot(subindex, 2), second as u32), unsound(7, subindex, 4));
    assert_eq!(changed(slot(first, 511), 0), unsound(7, first, 1022));
    assert_eq!(changed(slot(second, 1), 9), unsound(7, second, 2));
    // The first index block again as the second, which should have one slot.
    assert_eq!(changed(slot(subindex, 1), first as u32), unsound(7, first, 2));
    // A single index above 512 pages, a subindex where one index will do.
    assert_eq!(changed(OBJECT + 30, I | first as u32), unsound(7, 4, 30));
    let mut lower = image.clone();
    put_pair(&mut lower, OBJECT + 26, 512);
    put_pair(&mut lower, OBJECT + 28, 512 * 2048);
    put_pair(&mut lower, slot(subindex, 1), 0);
    assert_eq!(check(&lower), unsound(7, 4, 30));
}

#[test]
fn rule_8() {
    let data = |file, position| holder(kind::FILE_DATA, 0, file, position);
    let held = [
        (1, system(kind::USER_INDEX, 0)),
        (2, system(kind::USER_PAGE, 0)),
        (3, system(kind::OBJECT_INDEX, 0)),
        (4, system(kind::OBJECT_PAGE, 0)),
        (6, holder(kind::FILE_INDEX, 0, 0, 0)),
        (16, system(kind::BIT_FILE, 0)),
    ];
    for (page, first) in held {
        assert_eq!(two_words(slot(6, 0), page), shared(page as usize, first, data(0, 0)));
    }
    // One page at two positions of a file.
    let grown = judged(|image| {
        grow(image, 0, 0);
        put_pair(image, slot(6, 1), 5);
    });
    assert_eq!(grown, shared(5, data(0, 0), data(0, 1)));
    let on_data = shared(5, system(kind::BIT_FILE, 0), data(0, 0));
    assert_eq!(two_words(1020, 5), on_data, "the bit file on a data page");
    // User pages without used users in two slots.
    let twice = judged(|image| {
        put_pair(image, slot(1, 1), 9);
        put_pair(image, slot(1, 2), 9);
    });
    assert_eq!(twice, shared(9, system(kind::USER_PAGE, 1), system(kind::USER_PAGE, 2)));
    // Two files with one index block, and two that overlap.
    let mut image = dock(32, 6);
    create_indexed(&mut image, 0, b"A", b"", 0);
    create_indexed(&mut image, 0, b"B", b"", 0);
    grow(&mut image, 0, 0);
    image.copy_within(OBJECT + 26..OBJECT + 32, OBJECT + 32 + 26);
    assert_eq!(check(&image), shared(5, data(0, 0), data(1, 0)));
    put_pair(&mut image, OBJECT + 32 + 30, 5);
    assert_eq!(check(&image), shared(5, data(0, 0), data(1, 0)));
}

#[test]
fn rule_9() {
    for page in 0..32 {
        let flipped = judged(|image| image[16 * 1024 + page / 16] ^= 1 << (page % 16));
        assert_eq!(flipped, unsound(9, 16, page / 16), "page {page}");
    }
    // An empty user page, held but free.
    assert_eq!(two_words(slot(1, 1), 9), unsound(9, 16, 0));
}

#[test]
fn rule_10() {
    for bad in [0, 14, 16, u32::MAX] {
        assert_eq!(two_words(1022, bad), unsound(10, 0, 1022));
    }
    assert_eq!(two_words(USER + 16, 1), unsound(10, 2, 16));
    assert_eq!(two_words(USER + 16, 3), unsound(10, 2, 16));
    assert_eq!(two_words(USER + 14, 7), unsound(10, 0, 1022));
    // Ten pages more given and ten less unreserved are right,
    let moved = judged(|image| {
        let rest = pair(image, 1022);
        put_pair(image, 1022, rest - 10);
        put_pair(image, USER + 14, 6 + 10);
    });
    assert_eq!(moved, done(8));
    // 2^32 pages too many, which a sum that wraps would not see.
    let wrapped = judged(|image| {
        let rest = pair(image, 1022);
        put_pair(image, 1022, rest + 7);
        put_pair(image, USER + 14, u32::MAX);
    });
    assert_eq!(wrapped, unsound(10, 0, 1022));
}

/// Breaking one rule after another from the top: the lowest is always told.
#[test]
fn the_lowest_is_told() {
    let mut image = base();
    let on_itself = shared(6, holder(kind::FILE_INDEX, 0, 0, 0), holder(kind::FILE_DATA, 0, 0, 0));
    let breaks = [
        (1023, 99, unsound(10, 0, 1022)),
        (16 * 1024 + 1, 0x8001, unsound(9, 16, 1)),
        (slot(6, 0) + 1, 6, on_itself),
        (OBJECT + 29, 1, unsound(7, 4, 28)),
        (OBJECT + 16, 9, unsound(6, 4, 16)),
        (slot(3, 9), 0x4000, unsound(5, 3, 18)),
        (USER + 18, 5, unsound(4, 2, 18)),
        (slot(1, 9), 1, unsound(3, 1, 18)),
        (1016, 0, unsound(2, 0, 1016)),
        (1020, 0x8000, unsound(1, 0, 1020)),
    ];
    for (at, value, told) in breaks {
        image[at] = value;
        assert_eq!(check(&image), told);
    }
}

#[test]
fn odd_but_sound() {
    // Bits from P on are not read.
    let mut image = volume(9);
    image[4 * 1024] |= 0xFE00;
    image[4 * 1024 + 1] = 0xFFFF;
    assert_eq!(check(&image), done(2));
    // Other bits of a used entry's word 0, and words nobody reads.
    assert_eq!(word(USER, 0xFFFF), done(8));
    assert_eq!(word(OBJECT, 0x8001), done(8));
    assert_eq!(word(OBJECT + 18, 77), done(8));
    assert_eq!(word(USER + 13, 77), done(8));
    // Bytes behind the end of a name, and a type whose first byte ends it.
    assert_eq!(word(1015, 0x00FF), done(8));
    assert_eq!(word(USER + 8, 0x00FF), done(8));
    assert_eq!(word(OBJECT + 8, 0x00FF), done(8));
    assert_eq!(word(OBJECT + 9, 0x0041), done(8));
    assert_eq!(word(OBJECT + 9, 0x2741), done(8));
    // An unused entry may hold anything else.
    assert_eq!(judged(|image| image[USER + 33..USER + 64].fill(0xFFFF)), done(8));
    // An object page of a user who is not there.
    let empty = judged(|image| {
        put_pair(image, slot(3, 80), 20);
        image[16 * 1024 + 1] |= 1 << 4;
        let rest = pair(image, 1022);
        put_pair(image, 1022, rest - 1);
    });
    assert_eq!(empty, done(9));
}
