//! The steps that change: which pages they take, and each word they write.

mod common;
use common::*;
use second::*;

const S: u32 = 1 << 31;
const I: u32 = 1 << 30;

/// The words that differ, as places with their new values.
fn changes(before: &[u16], after: &[u16]) -> Vec<(usize, u16)> {
    let places = (0..before.len()).filter(|&at| before[at] != after[at]);
    places.map(|at| (at, after[at])).collect()
}

fn held(image: &[u16], page: u32) -> (u32, u32, u32, u32) {
    let HolderReply { reply, holder } = who_holds(image, page as usize);
    assert_eq!(reply, done(0));
    (holder.kind, holder.user, holder.file, holder.position)
}

#[test]
fn format_writes_its_words_alone() {
    let before = vec![0xABCD; 20 * 1024];
    let mut image = before.clone();
    assert_eq!(format(&mut image, b"YARD-7", Some(19)), done(0));
    let entry = &image[1008..1024];
    assert_eq!(entry[..4], [0x5941, 0x5244, 0x2D37, 0x2700]);
    assert_eq!(entry[4..], [0, 0, 0, 0, 0, 0, 0, 0, 0, 19, 0, 18]);
    assert_eq!(image[..1008], before[..1008]);
    assert_eq!(image[1024..19 * 1024], before[1024..19 * 1024]);
    assert_eq!(image[19 * 1024..19 * 1024 + 2], [1, 8]);
    assert!(image[19 * 1024 + 2..].iter().all(|&word| word == 0));
    assert_eq!(check(&image), done(2));
}

#[test]
fn a_user_is_written() {
    let mut image = vec![0xABCD; 9 * 1024];
    format(&mut image, b"YARD", None);
    assert_eq!(create_user(&mut image, b"A"), done(0));
    let mut entry = [0; 1024];
    (entry[0], entry[1]) = (32_768, 0x4127);
    assert_eq!(image[2 * 1024..3 * 1024], entry);
    let before = image.clone();
    assert_eq!(create_user(&mut image, b"BC"), done(1));
    let user = 2 * 1024 + 32;
    let written = [(user, 32_768), (user + 1, 0x4243), (user + 2, 0x2700), (user + 18, 1)];
    assert_eq!(changes(&before, &image), written);
    // The deleted one's place is cleared, and used again.
    assert_eq!(delete_user(&mut image, 0), done(0));
    assert!(image[2 * 1024..user].iter().all(|&word| word == 0));
    assert_eq!(create_user(&mut image, b"D"), done(0));
}

#[test]
fn a_file_is_written() {
    let mut image = dock(40, 9);
    image[4 * 1024..5 * 1024].fill(0xABCD);
    assert_eq!(create_contiguous(&mut image, 0, b"RUN", b"T", 0x12345, 3), done(0));
    let mut entry = [0; 1024];
    (entry[0], entry[1], entry[2], entry[9]) = (32_768, 0x5255, 0x4E27, 0x5427);
    (entry[20], entry[21], entry[27], entry[29], entry[31]) = (1, 0x2345, 3, 6_144, 37);
    assert_eq!(image[4 * 1024..5 * 1024], entry);
    assert_eq!(pair(&image, 2 * 1024 + 16), 3);
    assert_eq!(create_indexed(&mut image, 0, b"X", b"", 0), done(1));
    assert_eq!(image[4 * 1024 + 32 + 16..][..2], [0, 1]);
}

#[test]
fn freed_pages_keep_their_words_and_new_ones_have_none() {
    let mut image = dock(40, 9);
    assert_eq!(create_contiguous(&mut image, 0, b"RUN", b"", 0, 2), done(0));
    assert_eq!(write_page(&mut image, 0, 0, 1, &[5; 1024]), done(0));
    assert_eq!(read_page(&image, 0, 0, 1), [5; 1024]);
    assert_eq!(read_page(&image, 0, 0, 0), [0; 1024]);
    let before = image.clone();
    assert_eq!(delete_file(&mut image, 0, 0), done(0));
    let touched = changes(&before, &image);
    let entry = 4 * 1024..4 * 1024 + 32;
    assert!(touched
        .iter()
        .all(|&(at, word)| word == 0 && (entry.contains(&at) || at == 2 * 1024 + 17 || at == 20 * 1024 + 2)));
    assert_eq!(image[39 * 1024..], [5; 1024]);
    assert_eq!(create_contiguous(&mut image, 0, b"RUN", b"", 0, 2), done(0));
    assert_eq!(read_page(&image, 0, 0, 1), [0; 1024]);
}

#[test]
fn give_and_take() {
    let before = dock(40, 9);
    let mut image = before.clone();
    assert_eq!(give(&mut image, 0, 5), done(0));
    assert_eq!(changes(&before, &image), [(1023, 21), (2 * 1024 + 15, 14)]);
    assert_eq!(take(&mut image, 0, 14), done(0));
    assert_eq!(changes(&before, &image), [(1023, 35), (2 * 1024 + 15, 0)]);
    assert_eq!(delete_user(&mut image, 0), done(0));
    let mut image = before.clone();
    assert_eq!(delete_user(&mut image, 0), done(0));
    assert_eq!(unreserved(&image), 35);
    assert_eq!(check(&image), done(5));
}

#[test]
fn shrink_goes_back_to_a_single_index() {
    let mut image = reads(600, 520, 512);
    let single = pair(&image, 4 * 1024 + 30);
    assert_eq!(single, I | 6);
    let before = image.clone();
    let data = grow(&mut image, 0, 0).value;
    let pointer = pair(&image, 4 * 1024 + 30);
    assert_eq!(pointer, S | (data + 2));
    assert_eq!(held(&image, data), (kind::FILE_DATA, 0, 0, 512));
    assert_eq!(held(&image, data + 1), (kind::FILE_INDEX, 0, 0, 1));
    assert_eq!(held(&image, data + 2), (kind::FILE_SUBINDEX, 0, 0, 0));
    let grown = image.clone();
    assert_eq!(shrink(&mut image, 0, 0), done(0));
    // As before the grow, but the freed pages keep their words.
    let freed = data as usize * 1024..(data as usize + 3) * 1024;
    assert_eq!(image[freed.clone()], grown[freed.clone()]);
    assert!(changes(&before, &image).iter().all(|(at, _)| freed.contains(at)));
}

#[test]
fn shrink_clears_the_slot_of_a_block_that_stays() {
    let mut image = reads(40, 9, 2);
    assert_eq!(pair(&image, 6 * 1024 + 2), 7);
    assert_eq!(shrink(&mut image, 0, 0), done(0));
    assert_eq!(pair(&image, 6 * 1024 + 2), 0);
    assert_eq!(shrink(&mut image, 0, 0), done(0));
    assert_eq!(pair(&image, 6 * 1024), 5, "the freed index block keeps its words");
    assert_eq!(pair(&image, 4 * 1024 + 30), 0);
    assert_eq!(check(&image), done(6));
}

#[test]
fn the_object_file_stays_subindexed() {
    let mut image = volume(64);
    for n in 0..64 {
        create_user(&mut image, &nth(n));
    }
    assert_eq!(pair(&image, 1016), I | 3);
    let before = unreserved(&image);
    assert_eq!(create_user(&mut image, b"N-64"), done(64));
    // User page 2 and the subindex block, in this order.
    assert_eq!(before - unreserved(&image), 2);
    assert_eq!(held(&image, 5), (kind::USER_PAGE, 0, 0, 2));
    assert_eq!(held(&image, 6), (kind::OBJECT_SUBINDEX, 0, 0, 0));
    assert_eq!(held(&image, 3), (kind::OBJECT_INDEX, 0, 0, 0));
    assert_eq!(delete_user(&mut image, 64), done(0));
    assert_eq!(pair(&image, 1016), S | 6);
    assert_eq!(create_user(&mut image, b"AGAIN"), done(64));
    // A file of user 64: object index block 1, then object page 512.
    assert_eq!(create_indexed(&mut image, 64, b"X", b"", 0), done(0));
    assert_eq!(held(&image, 7), (kind::OBJECT_INDEX, 0, 0, 1));
    assert_eq!(held(&image, 8), (kind::OBJECT_PAGE, 0, 0, 512));
    assert_eq!(find_file(&image, 64, b"X", b""), done(0));
    assert_eq!(before - unreserved(&image), 4);
}

#[test]
fn the_lowest_unused_counts_absent_pages() {
    let mut image = volume(64);
    for n in 0..33 {
        create_user(&mut image, &nth(n));
    }
    // Take user page 0 away; its users have nothing.
    put_pair(&mut image, 1024, 0);
    image[32 * 1024] &= !(1 << 2);
    let more = unreserved(&image) + 1;
    put_pair(&mut image, 1022, more);
    assert_eq!(check(&image), done(5));
    image[2 * 1024..3 * 1024].fill(0xABCD);
    assert_eq!(create_user(&mut image, b"FIRST"), done(0));
    assert_eq!(held(&image, 2), (kind::USER_PAGE, 0, 0, 0));
    assert_eq!(find_user(&image, b"N-32"), done(32));
    assert_eq!(find_user(&image, b"N-1"), refused(4));
}

#[test]
fn who_holds_what() {
    let mut image = reads(40, 9, 1);
    create_contiguous(&mut image, 0, b"RUN", b"", 0, 2);
    create_user(&mut image, b"RAMS");
    create_indexed(&mut image, 1, b"Q", b"", 0);
    let expected = [
        (0, (kind::MASTER, 0, 0, 0)),
        (1, (kind::USER_INDEX, 0, 0, 0)),
        (2, (kind::USER_PAGE, 0, 0, 0)),
        (3, (kind::OBJECT_INDEX, 0, 0, 0)),
        (4, (kind::OBJECT_PAGE, 0, 0, 0)),
        (5, (kind::FILE_DATA, 0, 0, 0)),
        (6, (kind::FILE_INDEX, 0, 0, 0)),
        (7, (kind::OBJECT_PAGE, 0, 0, 8)),
        (8, (kind::FREE, 0, 0, 0)),
        (20, (kind::BIT_FILE, 0, 0, 0)),
        (37, (kind::FREE, 0, 0, 0)),
        (38, (kind::FILE_DATA, 0, 1, 0)),
        (39, (kind::FILE_DATA, 0, 1, 1)),
    ];
    for (page, holder) in expected {
        assert_eq!(held(&image, page), holder, "page {page}");
    }
}

#[test]
fn bits_from_p_on_stay() {
    let mut image = volume(40);
    let bits = 20 * 1024;
    image[bits + 2] |= 0xFF00;
    image[bits + 3..bits + 1024].fill(0xFFFF);
    assert_eq!(create_user(&mut image, b"DOCK"), done(0));
    assert_eq!(give(&mut image, 0, 30), done(0));
    assert_eq!(create_contiguous(&mut image, 0, b"RUN", b"", 0, 8), done(0));
    assert_eq!(address(&image, 0, 0, 0), done(32));
    assert_eq!(image[bits + 2], 0xFFFF);
    assert_eq!(delete_file(&mut image, 0, 0), done(0));
    assert_eq!(image[bits + 2], 0xFF00);
    assert!(image[bits + 3..bits + 1024].iter().all(|&word| word == 0xFFFF));
}

#[test]
fn entries_are_cleared_before_they_are_written() {
    let mut image = reads(40, 9, 1);
    let (user, object) = (2 * 1024 + 32, 4 * 1024 + 32);
    image[user..user + 32].fill(0x7FFF);
    image[object..object + 32].fill(0x7FFF);
    assert_eq!(create_user(&mut image, b"Q"), done(1));
    assert_eq!(create_indexed(&mut image, 0, b"X", b"", 0), done(1));
    let written = |start: usize| changes(&[0; 32], &image[start..start + 32]);
    assert_eq!(written(user), [(0, 32_768), (1, 0x5127), (18, 1)]);
    assert_eq!(written(object), [(0, 32_768), (1, 0x5827), (9, 0x2700), (17, 1)]);
}
