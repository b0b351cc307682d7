//! Users and files on larger packs (document 02, T-06): runs and searches over the
//! border of two bit pages, counts above 65,535, and pages whose numbers have a
//! high word.

mod common;
use common::*;
use second::*;

const S: u32 = 1 << 31;
const I: u32 = 1 << 30;

/// On volumes with the bit file from page 1 on: the lowest page that is free once
/// user 0 has his three pages and his first object page.
fn first_free(bit_pages: usize) -> usize {
    1 + bit_pages + 4
}

/// A volume whose pages below `end` are all held: by the system, the bit file, and
/// a contiguous file 1 of user 0. All else is free, and all of it is given to him.
fn filled_below(pages: usize, bit_pages: usize, end: usize) -> Vec<u16> {
    let first = first_free(bit_pages);
    let mut image = dock_from(pages, 1, pages - first);
    assert_eq!(create_contiguous(&mut image, 0, b"ABOVE", b"", 0, pages - end), done(0));
    assert_eq!(create_contiguous(&mut image, 0, b"BELOW", b"", 0, end - first), done(1));
    assert_eq!(delete_file(&mut image, 0, 0), done(0));
    assert_eq!(check(&image), done(end as u32));
    image
}

/// A contiguous file over the border of two bit pages: its bits in both, its pages
/// zeroed, and all of it free again once it is deleted.
#[test]
fn a_run_over_a_border() {
    for (pages, bit_pages, border) in [(16_385, 2, 16_384), (32_769, 3, 32_768), (37_035, 3, 32_768), (140_733, 9, 131_072)] {
        let first = border - 9;
        let count = pages - first;
        let mut image = dock_from(pages, 1, count);
        image[first * 1024..].fill(0xE3E3);
        let free = image.clone();
        assert_eq!(create_contiguous(&mut image, 0, b"RUN", b"", 0, count), done(0));
        assert_eq!(check(&image), done((first_free(bit_pages) + count) as u32));
        assert!(image[first * 1024..].iter().all(|&word| word == 0));
        for n in [0, 8, 9, count - 1] {
            assert_eq!(address(&image, 0, 0, n), done((first + n) as u32));
            assert_eq!(who_holds(&image, first + n).holder, holder(kind::FILE_DATA, 0, 0, n as u32));
        }
        assert_eq!(who_holds(&image, first - 1).holder, system(kind::FREE, 0));
        assert_eq!(delete_file(&mut image, 0, 0), done(0));
        assert_eq!(check(&image), done(first_free(bit_pages) as u32));
        assert_eq!(image[1024..(1 + bit_pages) * 1024][1..], free[1024..(1 + bit_pages) * 1024][1..]);
    }
}

/// The lowest free page is found in the bit page that has it, and the highest run
/// of so many is below a border, over it, or above it.
#[test]
fn searches_over_a_border() {
    for (pages, bit_pages, border) in [(16_400, 2, 16_384), (32_800, 3, 32_768), (140_733, 9, 65_536)] {
        let mut image = filled_below(pages, bit_pages, border);
        assert_eq!(create_indexed(&mut image, 0, b"READS", b"DATA", 0), done(0));
        assert_eq!(grow(&mut image, 0, 0), done(border as u32));
        assert_eq!(grow(&mut image, 0, 0), done(border as u32 + 2));
        assert_eq!(shrink(&mut image, 0, 0), done(0));
        // Ten pages at the end of the bit page below, by deleting and writing anew.
        let first = first_free(bit_pages);
        assert_eq!(delete_file(&mut image, 0, 1), done(0));
        assert_eq!(create_contiguous(&mut image, 0, b"TOP", b"", 0, pages - border - 2), done(1));
        assert_eq!(address(&image, 0, 1, 0), done(border as u32 + 2));
        assert_eq!(create_contiguous(&mut image, 0, b"TEN", b"", 0, 10), done(2));
        assert_eq!(address(&image, 0, 2, 0), done(border as u32 - 10));
        assert_eq!(check(&image).value as usize, first + pages - border + 10);
        assert_eq!(delete_file(&mut image, 0, 0), done(0));
        refuses(&image, 11, |image| create_contiguous(image, 0, b"RUN", b"", 0, border - 9 - first));
        assert_eq!(delete_file(&mut image, 0, 2), done(0));
        // 12 pages in a row go over the border, and so do all that are free.
        assert_eq!(create_contiguous(&mut image, 0, b"TWELVE", b"", 0, 12), done(0));
        assert_eq!(address(&image, 0, 0, 11), done(border as u32 + 1));
        assert_eq!(delete_file(&mut image, 0, 0), done(0));
        assert_eq!(create_contiguous(&mut image, 0, b"RUN", b"", 0, border + 2 - first), done(0));
        assert_eq!(address(&image, 0, 0, 0), done(first as u32));
        assert_eq!(check(&image), done(pages as u32));
    }
}

/// The default bit file of 32,769 pages is 16,384..16,386: no run goes over it.
#[test]
fn no_run_over_the_bit_file() {
    let mut image = dock_from(32_769, 16_384, 32_761);
    refuses(&image, 11, |image| create_contiguous(image, 0, b"RUN", b"", 0, 16_383));
    assert_eq!(create_contiguous(&mut image, 0, b"RUN", b"", 0, 16_382), done(0));
    assert_eq!(address(&image, 0, 0, 0), done(16_387));
    assert_eq!(create_contiguous(&mut image, 0, b"NEXT", b"", 0, 16_379), done(1));
    assert_eq!(address(&image, 0, 1, 0), done(5));
    assert_eq!(check(&image), done(32_769));
}

/// Each page of the largest volume is held: counts and bytes with a high word.
#[test]
fn all_of_the_largest_volume() {
    let mut image = dock_from(140_733, 1, 140_719);
    assert_eq!(unreserved(&image), 1);
    let user = 11 * 1024;
    assert_eq!(image[user + 14..user + 16], [2, 9_647]);
    refuses(&image, 9, |image| create_contiguous(image, 0, b"RUN", b"", 0, 140_720));
    refuses(&image, 9, |image| create_contiguous(image, 0, b"RUN", b"", 0, 140_733));
    refuses(&image, 2, |image| create_contiguous(image, 0, b"RUN", b"", 0, 140_734));
    assert_eq!(create_contiguous(&mut image, 0, b"RUN", b"", 0, 140_719), done(0));
    assert_eq!(check(&image), done(140_733));
    let object = 13 * 1024;
    assert_eq!(image[object + 26..object + 32], [2, 9_647, 4_397, 30_720, 0, 14]);
    assert_eq!(image[user + 16..user + 18], [2, 9_647]);
    assert_eq!(address(&image, 0, 0, 140_718), done(140_732));
    assert_eq!(address(&image, 0, 0, 140_719), refused(4));
    assert_eq!(who_holds(&image, 140_732).holder, holder(kind::FILE_DATA, 0, 0, 140_718));
    assert_eq!(delete_file(&mut image, 0, 0), done(0));
    assert_eq!(check(&image), done(14));
}

#[test]
fn give_and_take_of_many() {
    let mut image = dock_from(140_733, 70_366, 100_000);
    let user = 2 * 1024;
    assert_eq!((image[user + 14], image[user + 15], unreserved(&image)), (1, 34_464, 40_720));
    refuses(&image, 10, |image| give(image, 0, 40_721));
    refuses(&image, 10, |image| give(image, 0, 140_733));
    refuses(&image, 2, |image| give(image, 0, 140_734));
    refuses(&image, 9, |image| take(image, 0, 100_001));
    refuses(&image, 9, |image| take(image, 0, 140_733));
    refuses(&image, 2, |image| take(image, 0, 140_734));
    assert_eq!(give(&mut image, 0, 40_720), done(0));
    assert_eq!((pair(&image, user + 14), unreserved(&image)), (140_720, 0));
    assert_eq!(take(&mut image, 0, 75_000), done(0));
    assert_eq!((pair(&image, user + 14), unreserved(&image)), (65_720, 75_000));
    assert_eq!(delete_user(&mut image, 0), done(0));
    assert_eq!((unreserved(&image), check(&image)), (140_720, done(13)));
}

/// A file grown where the low pages are held: data pages, index blocks and the
/// subindex block have numbers above 65,535, and so has what a later user and his
/// file take. Page 70,000 is the words 1 and 4,464.
#[test]
fn growing_above_65535() {
    let mut image = filled_below(140_733, 9, 70_000);
    assert_eq!(take(&mut image, 0, 5_000), done(0));
    assert_eq!(create_indexed(&mut image, 0, b"READS", b"DATA", 0), done(0));
    assert_eq!(grow(&mut image, 0, 0), done(70_000));
    let object = 13 * 1024;
    assert_eq!(image[object + 30..object + 32], [16_385, 4_465]);
    assert_eq!(image[70_001 * 1024..70_001 * 1024 + 2], [1, 4_464]);
    assert_eq!(write_page(&mut image, 0, 0, 0, &[0xBEE5; 1024]), done(0));
    assert_eq!(image[70_000 * 1024..70_001 * 1024], [0xBEE5; 1024]);
    for _ in 1..513 {
        assert_eq!(grow(&mut image, 0, 0).number, 0);
    }
    // 512 data pages and a block, then data page, block and subindex block.
    assert_eq!(address(&image, 0, 0, 512), done(70_513));
    assert_eq!(image[object + 30..object + 32], [32_769, 4_979]);
    assert_eq!(image[70_515 * 1024..70_515 * 1024 + 5], [1, 4_465, 1, 4_978, 0]);
    assert_eq!(who_holds(&image, 70_515).holder, holder(kind::FILE_SUBINDEX, 0, 0, 0));
    assert_eq!(who_holds(&image, 70_514).holder, holder(kind::FILE_INDEX, 0, 0, 1));
    for n in 1..65 {
        assert_eq!(create_user(&mut image, &nth(n)), done(n));
    }
    // User 32's page, user 64's page and the object file's subindex block.
    assert_eq!(image[10 * 1024..10 * 1024 + 6], [0, 11, 1, 4_980, 1, 4_981]);
    assert_eq!(image[1016..1018], [32_769, 4_982]);
    assert_eq!(create_indexed(&mut image, 64, b"READS", b"DATA", 0), done(0));
    assert_eq!(who_holds(&image, 70_519).holder, system(kind::OBJECT_INDEX, 1));
    assert_eq!(who_holds(&image, 70_520).holder, system(kind::OBJECT_PAGE, 512));
    assert_eq!(check(&image), done(70_521));
    for _ in 0..513 {
        assert_eq!(shrink(&mut image, 0, 0), done(0));
    }
    assert_eq!(delete_file(&mut image, 0, 1), done(0));
    assert_eq!(check(&image), done(14 + 5));
}

/// Page p's place among the pages above 65,536 to which `lifted` moves it.
fn up(page: u32) -> u32 {
    65_536 + 1_000 * page
}

/// The volume of `reads(16, 5, 1)` with each of its pages 1..6 moved up to a number
/// with a high word, on the largest pack with its bit file from page 1 on: as no
/// calls lay it out.
fn lifted() -> Vec<u16> {
    let mut image = volume_from(140_733, 1);
    let small = reads(16, 5, 1);
    for page in 1..7_usize {
        let to = up(page as u32) as usize;
        image[to * 1024..][..1024].copy_from_slice(&small[page * 1024..][..1024]);
        flip_bit(&mut image, to);
    }
    let at = |page: u32| up(page) as usize * 1024;
    put_pair(&mut image, 1016, I | up(3));
    put_pair(&mut image, 1018, I | up(1));
    put_pair(&mut image, at(1), up(2));
    put_pair(&mut image, at(3), up(4));
    put_pair(&mut image, at(4) + 30, I | up(6));
    put_pair(&mut image, at(6), up(5));
    // 16 - 6 - 5 pages were unreserved: the sum is P now, with nine bit pages.
    put_pair(&mut image, 1022, 140_733 - (1 + 9 + 4) - 5);
    image
}

#[test]
fn system_pages_above_65535() {
    let mut image = lifted();
    assert_eq!(check(&image), done(1 + 9 + 6));
    let kinds = [kind::USER_INDEX, kind::USER_PAGE, kind::OBJECT_INDEX, kind::OBJECT_PAGE];
    for (page, kind) in (1..).zip(kinds) {
        assert_eq!(who_holds(&image, up(page) as usize).holder, system(kind, 0));
    }
    assert_eq!(find_user(&image, b"DOCK"), done(0));
    assert_eq!(find_file(&image, 0, b"READS", b"DATA"), done(0));
    assert_eq!(address(&image, 0, 0, 0), done(up(5)));
    assert_eq!(note_open(&mut image, 0, 0), done(0));
    assert_eq!(give(&mut image, 0, 65_536), done(0));
    assert_eq!(image[up(2) as usize * 1024 + 14..][..2], [1, 5]);
    assert_eq!(grow(&mut image, 0, 0), done(10));
    assert_eq!(check(&image), done(17));
}

/// Both words of a pointer count: with the high one gone it names another page, or
/// is no pointer's at all.
#[test]
fn the_high_word_is_read() {
    let at = |page: u32| up(page) as usize * 1024;
    let image = &mut lifted();
    let places = [(1016, I), (1018, I), (at(1), 0), (at(3), 0), (at(4) + 30, I), (at(6), 0)];
    for (place, flags) in places {
        let right = pair(image, place);
        put_pair(image, place, flags | right & 0xFFFF);
        assert_eq!(check(image).number, 3, "word {place}");
        put_pair(image, place, flags | 140_733);
        assert!((2..=7).contains(&check(image).rule), "word {place} names page P");
        put_pair(image, place, right);
    }
    assert_eq!(check(image), done(16));
    // The place that is told has its page's high word, too.
    image[at(2) + 18] = 1;
    assert_eq!(check(image), unsound(4, up(2) as usize, 18));
    image[at(2) + 18] = 0;
    put_pair(image, at(6) + 2, 9);
    assert_eq!(check(image), unsound(7, up(6) as usize, 2));
    put_pair(image, at(6) + 2, 0);
    put_pair(image, at(6), up(4));
    let data = holder(kind::FILE_DATA, 0, 0, 0);
    assert_eq!(check(image), shared(up(4) as usize, system(kind::OBJECT_PAGE, 0), data));
    // A user pointer below its flags: 65,536 pages more, and it is S or beyond P.
    put_pair(image, at(6), up(5));
    put_pair(image, 1018, S | up(1));
    assert_eq!(check(image), unsound(2, 0, 1018));
}
