//! Larger packs (document 02, T-06): a bit file of as many pages as P wants, what
//! format makes of it, and the rules that speak of it.

mod common;
use common::*;
use second::*;

const S: u32 = 1 << 31;
const I: u32 = 1 << 30;

/// Sizes at both sides of each border, the two packs of document 02, and the
/// pages of their bit files.
const SIZES: [(usize, usize); 8] = [
    (8, 1),
    (16_383, 1),
    (16_384, 1),
    (16_385, 2),
    (32_768, 2),
    (32_769, 3),
    (37_035, 3),
    (140_733, 9),
];

/// The 288 MB pack, with its bit file 70,366..70,374.
fn pack() -> Vec<u16> {
    volume(140_733)
}

/// The check's answer once a bit is turned over; it is then turned back.
fn with_bit(image: &mut [u16], page: usize) -> Reply {
    flip_bit(image, page);
    let reply = check(image);
    flip_bit(image, page);
    reply
}

/// The words of a fresh volume's bit file, laid out by hand.
fn fresh_bits(first: usize, bit_pages: usize) -> Vec<u16> {
    let mut bits = vec![0; bit_pages * 1024];
    for page in (first..first + bit_pages).chain([0]) {
        bits[page / 16] |= 1 << (page % 16);
    }
    bits
}

/// Formats words that are all ones: the directory entry's and those of all bit
/// pages are written, and no others.
fn formats(pages: usize, bit_page: Option<usize>, first: usize, bit_pages: usize) {
    let mut image = vec![u16::MAX; pages * 1024];
    let mut wanted = image.clone();
    assert_eq!(format(&mut image, b"YARD", bit_page), done(0));
    wanted[1008..1024].copy_from_slice(&[0x5941, 0x5244, 0x2700, 0, 0, 0, 0, 0, 0, 0, 0, 0, 0, 0, 0, 0]);
    put_pair(&mut wanted, 1020, first as u32);
    put_pair(&mut wanted, 1022, (pages - 1 - bit_pages) as u32);
    wanted[first * 1024..][..bit_pages * 1024].copy_from_slice(&fresh_bits(first, bit_pages));
    assert!(image == wanted, "{pages} pages from {first}");
    assert_eq!(check(&image), done(1 + bit_pages as u32));
}

#[test]
fn format_by_default() {
    for (pages, bit_pages) in SIZES {
        formats(pages, None, pages / 2, bit_pages);
    }
}

#[test]
fn format_at_both_ends() {
    for (pages, bit_pages) in SIZES {
        formats(pages, Some(1), 1, bit_pages);
        formats(pages, Some(pages - bit_pages), pages - bit_pages, bit_pages);
    }
}

/// The numbers to check by of the readings.
#[test]
fn numbers_to_check_by() {
    for (pages, first, unreserved_pages) in [(37_035, 18_517, 37_031), (140_733, 70_366, 140_723)] {
        let image = volume(pages);
        assert_eq!((pair(&image, 1020), unreserved(&image)), (first, unreserved_pages));
    }
    let mut image = pack();
    assert_eq!(with_bit(&mut image, 140_732), unsound(9, 70_374, 603));
    assert_eq!(format(&mut image, b"YARD", Some(140_724)), done(0));
    refuses(&image, 2, |image| format(image, b"YARD", Some(140_725)));
}

/// A run that begins with page 0 or ends at P, or would wrap.
#[test]
fn format_outside() {
    for (pages, bit_pages) in SIZES {
        let mut image = vec![0; pages * 1024];
        let highest = pages - bit_pages;
        let wide = u32::MAX as usize + 1;
        for bad in [
            0,
            highest + 1,
            pages - 1 + usize::from(bit_pages == 1),
            pages,
            wide - 1,
            wide - 8,
            wide + 1,
        ] {
            assert_eq!(format(&mut image, b"YARD", Some(bad)), refused(2), "{pages} pages from {bad}");
        }
        assert!(image.iter().all(|&word| word == 0));
    }
}

#[test]
fn lengths_of_words() {
    let largest = 140_733 * 1024;
    for words in [largest + 1, largest + 1023, largest + 1024, 2 * largest, 7 * 1024, 8 * 1024 - 1] {
        let mut image = vec![0; words];
        assert_eq!(check(&image), refused(1), "{words} words");
        assert_eq!(format(&mut image, b"YARD", None), refused(1));
        assert_eq!(salvage(&mut image, &mut []), refused(1));
        assert_eq!(who_holds(&image, 0).reply, refused(1));
    }
}

#[test]
fn who_holds_the_bit_pages() {
    for (pages, bit_pages) in SIZES {
        for first in [1, pages / 2, pages - bit_pages] {
            let image = volume_from(pages, first);
            for n in 0..bit_pages {
                assert_eq!(who_holds(&image, first + n).holder, system(kind::BIT_FILE, n as u32));
            }
            let around = [first - 1, first + bit_pages].into_iter().filter(|&page| page > 0 && page < pages);
            for page in around {
                assert_eq!(who_holds(&image, page).holder, system(kind::FREE, 0), "page {page} of {pages}");
            }
            assert_eq!(who_holds(&image, 0).holder, system(kind::MASTER, 0));
            assert_eq!(who_holds(&image, pages).reply, refused(2));
        }
    }
}

/// Rule 1 asks for the whole run; a pointer whose run ends below P breaks only
/// rule 9, as the bits are not there.
#[test]
fn rule_1_asks_for_the_whole_run() {
    for (pages, bit_pages) in SIZES {
        let mut image = volume_from(pages, 1);
        let (end, over) = (pages as u32, bit_pages as u32);
        let wrong = [
            0,
            end - over + 1,
            end,
            I,
            I | 1,
            S,
            S | 1,
            I - 1,
            u32::MAX,
            0_u32.wrapping_sub(over),
            u32::MAX - 7,
        ];
        for bad in wrong {
            put_pair(&mut image, 1020, bad);
            assert_eq!(check(&image), unsound(1, 0, 1020), "{pages} pages, pointer {bad}");
            assert_eq!(salvage(&mut image, &mut []), unsound(1, 0, 1020));
        }
        put_pair(&mut image, 1020, end - over);
        assert_eq!(check(&image), unsound(9, pages - bit_pages, 0));
    }
}

/// A wrong bit at both sides of each border, where there is such a page: its word,
/// in its own bit page.
#[test]
fn rule_9_in_each_bit_page() {
    for (pages, bit_pages) in SIZES {
        for first in [1, pages / 2, pages - bit_pages] {
            let image = &mut volume_from(pages, first);
            for n in 0..bit_pages {
                let (lowest, highest) = (16_384 * n, (16_384 * n + 16_383).min(pages - 1));
                assert_eq!(with_bit(image, lowest), unsound(9, first + n, 0));
                let middle = (lowest + 77).min(highest);
                assert_eq!(with_bit(image, middle), unsound(9, first + n, middle % 16_384 / 16));
                assert_eq!(with_bit(image, highest), unsound(9, first + n, highest % 16_384 / 16));
                assert_eq!(with_bit(image, first + n).rule, 9, "bit page {n} is not reserved");
            }
            assert_eq!(check(image), done(1 + bit_pages as u32));
        }
    }
}

/// Of wrong bits in several bit pages the lowest page's is told.
#[test]
fn rule_9_tells_the_lowest() {
    let mut image = pack();
    let pages = [140_732, 131_072, 131_071, 65_536, 65_535, 32_768, 16_384, 16_383];
    for page in pages {
        flip_bit(&mut image, page);
        assert_eq!(check(&image), unsound(9, 70_366 + page / 16_384, page % 16_384 / 16));
    }
}

/// The bits from P on, of the last bit page, say nothing. Where 16 divides P they
/// begin a word, where 16,384 does there are none.
#[test]
fn bits_from_p_on_are_not_read() {
    for (pages, bit_pages) in SIZES {
        let image = &mut volume(pages);
        let before = image.clone();
        for beyond in pages..16_384 * bit_pages {
            flip_bit(image, beyond);
        }
        assert_eq!(check(image), done(1 + bit_pages as u32), "{pages} pages");
        assert_eq!(before != *image, pages % 16_384 != 0);
        assert_eq!(with_bit(image, pages - 1).rule, 9);
        let with_ones = image.clone();
        assert_eq!(salvage(image, &mut []), done(0));
        assert!(*image == with_ones, "salvage changed bits from P on");
    }
}

/// The bit file's last page, and every other one, may have no second holder.
#[test]
fn rule_8_of_each_bit_page() {
    let mut image = dock_from(140_733, 70_366, 10);
    assert_eq!(create_contiguous(&mut image, 0, b"RUN", b"", 0, 1), done(0));
    let pointer = 4 * 1024 + 30;
    for n in 0..9 {
        put_pair(&mut image, pointer, 70_366 + n);
        let data = holder(kind::FILE_DATA, 0, 0, 0);
        assert_eq!(check(&image), shared(70_366 + n as usize, system(kind::BIT_FILE, n), data));
    }
    // The bit file over the user index, the user page and the object index.
    for (first, bit_position, second) in [(1, 0, kind::USER_INDEX), (2, 0, kind::USER_PAGE), (3, 0, kind::OBJECT_INDEX)] {
        put_pair(&mut image, 1020, first);
        let told = shared(first as usize, system(kind::BIT_FILE, bit_position), system(second, 0));
        assert_eq!(check(&image), told);
    }
}

/// Unreserved is P less 1 less the run; P - 2, as with one bit page, is too much.
#[test]
fn rule_10_counts_all_bit_pages() {
    for (pages, bit_pages) in SIZES {
        let mut image = volume(pages);
        let right = (pages - 1 - bit_pages) as u32;
        for wrong in [right - 1, right + 1, (pages - 2) as u32 + u32::from(bit_pages == 1), 0, u32::MAX] {
            put_pair(&mut image, 1022, wrong);
            assert_eq!(check(&image), unsound(10, 0, 1022), "{pages} pages, {wrong} unreserved");
        }
        put_pair(&mut image, 1022, right);
        assert_eq!(check(&image), done(1 + bit_pages as u32));
    }
}
