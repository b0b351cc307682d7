//! What `volume` reads, held to the proved library.

mod made;

use made::*;
use nord::volume::{holders, read, Disk, FileKind, Holder};

/// One page's holder by the walk is the one by the library.
fn same_holder(image: &[u16], held: &[Holder], page: usize) {
    let library = proved::who_holds(image, page);
    let walk = held[page];
    assert_eq!((library.number, library.rule), (0, 0));
    let library = library.holder;
    let walked = (walk.kind as u32, walk.user, walk.file, walk.position);
    assert_eq!(walked, (library.kind, library.user, library.file, library.position), "page {page}");
}

fn same_holders(image: &[u16], step: usize) {
    assert_eq!(proved::check(image).number, 0);
    let held = holders(image);
    assert_eq!(held.len() * proved::PAGE, image.len());
    (0..held.len()).step_by(step).for_each(|page| same_holder(image, &held, page));
}

#[test]
fn holders_are_the_librarys() {
    same_holders(&volume("EMPTY", 8), 1);
    same_holders(&volume("EMPTY", 100), 1);
    let mut one_user = volume("ONE", 9);
    user(&mut one_user, "DOCK", 0);
    same_holders(&one_user, 1);
    same_holders(&yard16(), 1);
    same_holders(&yard154(), 1);
}

#[test]
fn holders_are_the_librarys_where_the_object_file_is_subindexed() {
    same_holders(&many_users(), 1);
}

#[test]
fn holders_are_the_librarys_where_a_file_is_subindexed() {
    let image = big_file();
    let held = holders(&image);
    same_holders(&image, 7);
    // the subindex block and both index blocks
    for page in 0..600 {
        if matches!(held[page].kind as u32, 8 | 9) {
            same_holder(&image, &held, page);
        }
    }
}

#[test]
fn holders_are_the_librarys_on_a_large_pack() {
    for pages in [16_385, 37_035] {
        let image = pack(pages);
        let held = holders(&image);
        same_holders(&image, 131);
        // the bit pages, their neighbours and the ends
        let bits = (pages / 2 - 1)..=(pages / 2 + pages.div_ceil(16_384));
        bits.chain([0, pages - 1]).for_each(|page| same_holder(&image, &held, page));
    }
}

#[test]
fn held_pages_are_the_visits_of_the_check() {
    for image in [yard16(), yard154(), many_users(), big_file(), pack(16_385), pack(37_035)] {
        let held = holders(&image).iter().filter(|holder| holder.kind as u32 != 0).count() as u32;
        assert_eq!(held, proved::check(&image).value);
        assert_eq!(held, read(&image).reserved);
    }
}

#[test]
fn the_yards_volume_reads_as_the_listing_has_it() {
    let volume = read(&yard16());
    assert_eq!(
        (volume.name.as_str(), volume.pages, volume.reserved, volume.unreserved),
        ("YARD", 16, 8, 5)
    );
    let [dock] = &volume.users[..] else { panic!("one user") };
    assert_eq!((dock.index, dock.name.as_str(), dock.given, dock.used), (0, "DOCK", 5, 2));
    let [reads] = &dock.files[..] else { panic!("one file") };
    assert_eq!(
        (reads.index, reads.full_name().as_str(), reads.pages, reads.kind),
        (0, "READS:DATA", 1, FileKind::Indexed)
    );
    assert_eq!((reads.opens, reads.created), (0, 1234));
}

#[test]
fn users_and_files_ascend_and_are_found() {
    let mut image = many_users();
    done(proved::note_open(&mut image, 69, 1));
    let volume = read(&image);
    assert!((0..70).eq(volume.users.iter().map(|user| user.index)));
    let last = volume.user(69).unwrap();
    let kinds: Vec<FileKind> = last.files.iter().map(|file| file.kind).collect();
    assert_eq!(kinds, [FileKind::Indexed, FileKind::Contiguous, FileKind::Empty]);
    assert_eq!(
        last.file(1).map(|file| (file.full_name(), file.opens, file.created)),
        Some(("B:".to_string(), 1, 5))
    );
    assert!(volume.user(70).is_none() && last.file(3).is_none());
    assert_eq!(read(&big_file()).users[0].files[0].kind, FileKind::Subindexed);
}

#[test]
fn holders_in_words() {
    let image = yard154();
    let (volume, held) = (read(&image), holders(&image));
    let words = |page: usize| volume.words(&held[page]);
    assert_eq!(words(0), "master block");
    assert_eq!(words(77), "bit file");
    assert_eq!(words(144), "DOCK/LOG: data page 0");
    assert_eq!(words(5), "DOCK/READS:DATA data page 0");
    assert_eq!(words(6), "DOCK/READS:DATA index block 0");
    let last = read(&yard16());
    assert_eq!(
        last.words(&Holder {
            user: 9,
            file: 7,
            ..held[5]
        }),
        "user 9 file 7 data page 0"
    );
}

#[test]
fn json_says_what_the_listing_says() {
    let json = serde_json::to_value(nord::volume_json::Listed::from(&read(&yard16()))).unwrap();
    let file = serde_json::json!({"index": 0, "name": "READS", "type": "DATA", "pages": 1, "kind": "INDEXED", "opens": 0, "created": 1234});
    let user = serde_json::json!({"index": 0, "name": "DOCK", "given": 5, "used": 2, "files": [file]});
    let whole = serde_json::json!({"name": "YARD", "pages": 16, "reserved": 8, "unreserved": 5, "users": [user]});
    assert_eq!(json, whole);
}

/// Nothing is promised of an unsound image but that reading it ends, and ends well.
#[test]
fn any_image_is_read_without_panic() {
    let mut dice = Dice(7);
    for words in [0, 1, 1023, 1024, 1025, 8 * 1024, 9 * 1024 + 5] {
        let images = [
            vec![0; words],
            vec![u16::MAX; words],
            (0..words).map(|_| dice.below(65536) as u16).collect(),
        ];
        images.iter().for_each(|image| look(image));
    }
    for sound in [yard16(), yard154(), many_users()] {
        for _ in 0..60 {
            look(&damaged(&sound, &mut dice));
        }
    }
}

/// A bit file that lies in the image in part is held as far as it does, and tells no bit; one that begins outside is nowhere.
#[test]
fn a_bit_file_that_does_not_fit() {
    let mut image = volume("PACK", 16_385);
    let pages_of = |image: &[u16]| {
        look(image);
        let held = (0..).zip(holders(image)).filter(|(_, holder)| holder.kind as u32 == 2);
        held.map(|(page, holder)| (page, holder.position)).collect::<Vec<(u32, u32)>>()
    };
    assert_eq!(pages_of(&image), [(8192, 0), (8193, 1)]);
    for (pointer, wanted) in [
        (0, &[][..]),
        (1, &[(1, 0), (2, 1)]),
        (16_383, &[(16_383, 0), (16_384, 1)]),
        (16_384, &[(16_384, 0)]),
        (16_385, &[]),
        (1 << 30 | 5, &[]),
        (u32::MAX, &[]),
    ] {
        (image[1020], image[1021]) = ((pointer >> 16) as u16, pointer as u16);
        assert_eq!(pages_of(&image), wanted, "a pointer to {pointer}");
        let bit = Disk::new(&image).bit(16_384);
        assert_eq!(bit.is_some(), wanted.len() == 2, "a pointer to {pointer}");
    }
}

fn look(image: &[u16]) {
    let (volume, held) = (read(image), holders(image));
    assert_eq!(volume.pages as usize, held.len());
    held.iter().for_each(|holder| assert!(!volume.words(holder).is_empty()));
}

/// The image with some words of its held pages replaced.
fn damaged(sound: &[u16], dice: &mut Dice) -> Vec<u16> {
    let mut image = sound.to_vec();
    let held: Vec<u64> = (0u64..)
        .zip(holders(sound))
        .filter(|(_, holder)| holder.kind as u32 != 0)
        .map(|(page, _)| page)
        .collect();
    for _ in 0..40 {
        let page = held[dice.below(held.len() as u64) as usize];
        let word = if page == 0 { 1008 + dice.below(16) } else { dice.below(1024) };
        let pages = (sound.len() / 1024) as u64;
        let values = [dice.below(pages), dice.below(65536), 65535, 16384, 32768];
        image[(page * 1024 + word) as usize] = values[dice.below(5) as usize] as u16;
    }
    image
}
