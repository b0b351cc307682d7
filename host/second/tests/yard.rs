//! The yard examples of document 01.

mod common;
use common::*;
use second::bits::{bit_place, page_and_word};
use second::entry::{object_number, EntryPlace};
use second::pointer::{block_and_slot, pages_held, pages_to_grow, Pointer};
use second::*;

#[test]
fn bits_count_from_the_right() {
    assert_eq!(bit_place(77), (4, 13));
    assert_eq!(bit_place(16_383), (1_023, 15));
    assert_eq!(page_and_word(16_383), (0, 1_023));
    // Document 02, T-06: the bits go on in the next page of the bit file.
    assert_eq!(page_and_word(16_384), (1, 0));
    assert_eq!((page_and_word(140_732), bit_place(140_732).1), ((8, 603), 12));
}

#[test]
fn pointers() {
    assert_eq!(Pointer::read(16_384 << 16 | 6), Pointer::Indexed(6));
    assert_eq!(Pointer::read(49_152 << 16 | 6), Pointer::Error);
    assert_eq!(block_and_slot(511), (0, 511));
    assert_eq!(block_and_slot(512), (1, 0));
}

#[test]
fn entries() {
    assert_eq!(object_number(3, 40), 808);
    assert_eq!(EntryPlace::of(808), EntryPlace { position: 25, word: 256 });
    assert_eq!(block_and_slot(EntryPlace::of(object_number(64, 0)).position), (1, 0));
    assert_eq!(EntryPlace::of(33), EntryPlace { position: 1, word: 32 });
}

#[test]
fn growth() {
    assert_eq!([0, 1, 512, 1_024].map(pages_to_grow), [2, 1, 3, 2]);
    assert_eq!(pages_held(513), 516);
}

/// The same by the calls themselves: what grow takes, shrink returns.
#[test]
fn growth_by_calls() {
    let used = |image: &[u16]| pair(image, 2 * 1024 + 16);
    let mut image = reads(1_100, 1_050, 0);
    let mut taken = Vec::new();
    for _ in 0..1_025 {
        let before = used(&image);
        assert_eq!(grow(&mut image, 0, 0).number, 0);
        taken.push(used(&image) - before);
    }
    assert_eq!([0, 1, 512, 1_024].map(|from: usize| taken[from]), [2, 1, 3, 2]);
    assert_eq!(taken[..513].iter().sum::<u32>(), 516);
    for taken in taken.into_iter().rev() {
        let before = used(&image);
        assert_eq!(shrink(&mut image, 0, 0), done(0));
        assert_eq!(before - used(&image), taken);
    }
    assert_eq!(check(&image), done(6));
}

#[test]
fn opens_come_round() {
    let mut image = reads(16, 0, 0);
    let opens = 4 * 1024 + 19;
    assert_eq!(note_open(&mut image, 0, 0), done(0));
    assert_eq!(image[opens], 1);
    image[opens] = 65_535;
    assert_eq!(note_open(&mut image, 0, 0), done(0));
    assert_eq!(image[opens], 0);
}

#[test]
fn lengths() {
    for (pages, bit_pages) in [(8, 1), (16_384, 1), (16_385, 2), (140_733, 9)] {
        assert_eq!(check(&volume(pages)), done(1 + bit_pages));
    }
    for pages in [7, 140_734] {
        let mut image = vec![0; pages * 1024];
        assert_eq!(format(&mut image, b"YARD", None), refused(1));
        assert_eq!(check(&image), refused(1));
    }
}

#[test]
fn a_volume_of_154_pages() {
    let mut image = volume(154);
    assert_eq!(pair(&image, 1020), 77);
    assert_eq!(unreserved(&image), 152);
    assert_eq!(create_user(&mut image, b"DOCK"), done(0));
    assert_eq!(unreserved(&image), 149);
    let kinds = [1, 2, 3].map(|page| who_holds(&image, page).holder.kind);
    assert_eq!(kinds, [kind::USER_INDEX, kind::USER_PAGE, kind::OBJECT_INDEX]);
    assert_eq!(give(&mut image, 0, 100), done(0));
    assert_eq!(unreserved(&image), 49);
    assert_eq!(create_indexed(&mut image, 0, b"READS", b"DATA", 7), done(0));
    assert_eq!(who_holds(&image, 4).holder.kind, kind::OBJECT_PAGE);
    assert_eq!(unreserved(&image), 48);
    assert_eq!(grow(&mut image, 0, 0), done(5));
    assert_eq!(who_holds(&image, 6).holder.kind, kind::FILE_INDEX);
    assert_eq!(create_contiguous(&mut image, 0, b"RUN", b"", 8, 10), done(1));
    let addresses: Vec<u32> = (0..10).map(|n| address(&image, 0, 1, n).value).collect();
    assert_eq!(addresses, (144..154).collect::<Vec<u32>>());
    // Pages 0..6, the bit page and the run of ten.
    assert_eq!(check(&image), done(18));
}

#[test]
fn the_listing() {
    let image = reads(16, 5, 1);
    let expected = "VOLUME YARD PAGES 16 RESERVED 8 UNRESERVED 5\n\
                    USER 0 DOCK GIVEN 5 USED 2\n\
                    FILE 0 READS:DATA PAGES 1 INDEXED\n";
    assert_eq!(String::from_utf8(list(&bytes(&image))).unwrap(), expected);
}
