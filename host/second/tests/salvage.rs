//! Salvage of stale bits and counts (document 02, T-05): what is written anew,
//! what is told of it, what is refused, and what stays. The image of
//! `reads(16, 5, 1)` has bit page 8, user index 1, user page 2, object index 3,
//! object page 4, and of its file data page 5 and index block 6. Word 0 of its
//! bit page is 383, its used count 2, its unreserved 5.

mod common;
use common::*;
use second::*;

const UNRESERVED: usize = 1022;
const BITS: usize = 8 * 1024;
const USER: usize = 2 * 1024;
const OBJECT: usize = 4 * 1024;
const GIVEN: usize = 14;
const USED: usize = 16;
const S: u32 = 1 << 31;
const I: u32 = 1 << 30;

/// A record as no salvage writes it.
const LEFT: Change = Change {
    page: 0xAAAA_AAAA,
    word: 0x5555_5555,
    old: 0x3333_3333,
    new: 0xCCCC_CCCC,
};

fn change(page: u32, word: u32, old: u32, new: u32) -> Change {
    Change { page, word, old, new }
}

fn yard() -> Vec<u16> {
    reads(16, 5, 1)
}

/// Salvages with room for so many records; gives the answer and all of them.
fn salvaged(image: &mut [u16], room: usize) -> (Reply, Vec<Change>) {
    let mut list = vec![LEFT; room];
    (salvage(image, &mut list), list)
}

/// Salvages an image with exactly these changes, with just enough room and with
/// more: the records past them stay, the words told are those that differ, the
/// image is sound then, and a second run lists nothing. One record less is 14.
fn changes(image: &[u16], wanted: &[Change]) -> Vec<u16> {
    for more in [0, 1, 7] {
        let mut after = image.to_vec();
        let (reply, list) = salvaged(&mut after, wanted.len() + more);
        assert_eq!((reply, &list[..wanted.len()]), (done(wanted.len() as u32), wanted));
        assert_eq!(list[wanted.len()..], vec![LEFT; more]);
        assert_eq!(differing(image, &after), wanted);
        assert_eq!(check(&after).number, 0, "{:?}", check(&after));
        let before = after.clone();
        assert_eq!(salvaged(&mut after, more), (done(0), vec![LEFT; more]));
        assert!(after == before, "a second run changed the image");
    }
    for room in 0..wanted.len() {
        refuses_with(image, room, refused(14));
    }
    let mut after = image.to_vec();
    salvaged(&mut after, wanted.len());
    after
}

/// The words in which two images differ, as changes from the one to the other.
fn differing(before: &[u16], after: &[u16]) -> Vec<Change> {
    let two = before.iter().zip(after).enumerate().filter(|(_, (old, new))| old != new);
    two.map(|(at, (&old, &new))| change(at as u32 / 1024, at as u32 % 1024, old.into(), new.into()))
        .collect()
}

/// A salvage with so much room is refused with this answer, and leaves the image
/// and the list as they were.
fn refuses_with(image: &[u16], room: usize, reply: Reply) {
    let mut after = image.to_vec();
    assert_eq!(salvaged(&mut after, room), (reply, vec![LEFT; room]));
    assert!(after == image, "a refused salvage changed the image");
}

/// The yard's image with words and two-word numbers set.
fn yard_with(change: impl FnOnce(&mut Vec<u16>)) -> Vec<u16> {
    let mut image = yard();
    change(&mut image);
    image
}

#[test]
fn a_sound_image_needs_no_records() {
    assert_eq!(changes(&yard(), &[]), yard());
    assert_eq!(changes(&volume(8), &[]), volume(8));
}

#[test]
fn one_wrong_bit() {
    let clear = yard_with(|image| image[BITS] = 383 & !(1 << 5));
    assert_eq!(changes(&clear, &[change(8, 0, 351, 383)]), yard());
    let set = yard_with(|image| image[BITS] = 383 | 1 << 15);
    assert_eq!(changes(&set, &[change(8, 0, 33_151, 383)]), yard());
    let moved = yard_with(|image| image[BITS] = 383 & !(1 << 8) | 1 << 7);
    assert_eq!(changes(&moved, &[change(8, 0, 255, 383)]), yard());
}

/// Bits that were lost or set all over: each word is told once, whole ones that
/// are right are not.
#[test]
fn many_wrong_bits() {
    let mut image = reads(154, 100, 40);
    let sound = image.clone();
    for word in 0..10 {
        image[77 * 1024 + word] = if word == 1 {
            sound[77 * 1024 + word]
        } else {
            !sound[77 * 1024 + word]
        };
    }
    image[77 * 1024 + 9] = sound[77 * 1024 + 9] ^ 512;
    let told = [0, 2, 3, 4, 5, 6, 7, 8, 9].map(|word: u32| {
        let at = 77 * 1024 + word as usize;
        change(77, word, image[at].into(), sound[at].into())
    });
    assert_eq!(changes(&image, &told), sound);
}

#[test]
fn a_used_count_by_its_halves() {
    let used = |used: u32| yard_with(|image| put_pair(image, USER + USED, used));
    assert_eq!(changes(&used(3), &[change(2, 17, 3, 2)]), yard());
    assert_eq!(changes(&used(65_538), &[change(2, 16, 1, 0)]), yard());
    assert_eq!(changes(&used(65_536), &[change(2, 16, 1, 0), change(2, 17, 0, 2)]), yard());
    assert_eq!(
        changes(&used(u32::MAX), &[change(2, 16, 65_535, 0), change(2, 17, 65_535, 2)]),
        yard()
    );
}

#[test]
fn unreserved_by_its_halves() {
    let unreserved = |rest: u32| yard_with(|image| put_pair(image, UNRESERVED, rest));
    assert_eq!(changes(&unreserved(6), &[change(0, 1023, 6, 5)]), yard());
    assert_eq!(changes(&unreserved(65_541), &[change(0, 1022, 1, 0)]), yard());
    let both = [change(0, 1022, 9, 0), change(0, 1023, 4, 5)];
    assert_eq!(changes(&unreserved(9 << 16 | 4), &both), yard());
}

/// A used count above given is only a stale count; what counts is what is held.
#[test]
fn used_may_be_above_given() {
    let image = yard_with(|image| put_pair(image, USER + USED, 6));
    assert_eq!(check(&image), unsound(4, 2, 16));
    assert_eq!(changes(&image, &[change(2, 17, 6, 2)]), yard());
}

/// Three repairs at once: the user's page lies before the bit page, then behind
/// it. The list is by page and word, not by what was repaired.
#[test]
fn changes_ascend_by_place() {
    let image = yard_with(|image| {
        put_pair(image, USER + USED, 4);
        put_pair(image, UNRESERVED, 0);
        image[BITS] = 1;
    });
    let told = [change(0, 1023, 0, 5), change(2, 17, 4, 2), change(8, 0, 1, 383)];
    assert_eq!(changes(&image, &told), yard());
    let mut behind = vec![0; 20 * 1024];
    assert_eq!(format(&mut behind, b"YARD", Some(1)), done(0));
    assert_eq!(create_user(&mut behind, b"DOCK"), done(0));
    let (sound, user) = (behind.clone(), 3 * 1024);
    put_pair(&mut behind, user + USED, 1 << 16 | 1);
    put_pair(&mut behind, UNRESERVED, 1);
    (behind[1024], behind[1025]) = (0, 3);
    let told = [
        change(0, 1023, 1, 15),
        change(1, 0, 0, 31),
        change(1, 1, 3, 0),
        change(3, 16, 1, 0),
        change(3, 17, 1, 0),
    ];
    assert_eq!(changes(&behind, &told), sound);
}

/// The later user's page lies before the first one's: places ascend, not users.
#[test]
fn users_come_by_their_pages() {
    let mut image = volume(32);
    for n in 0..33 {
        assert_eq!(create_user(&mut image, &nth(n)), done(n));
    }
    let (first, later) = (pair(&image, 1024), pair(&image, 1026));
    assert_eq!((first, later), (2, 4));
    let pages: Vec<u16> = image[2 * 1024..3 * 1024].to_vec();
    image.copy_within(4 * 1024..5 * 1024, 2 * 1024);
    image[4 * 1024..5 * 1024].copy_from_slice(&pages);
    put_pair(&mut image, 1024, later);
    put_pair(&mut image, 1026, first);
    assert_eq!(check(&image), done(6));
    put_pair(&mut image, 4 * 1024 + USED, 7);
    put_pair(&mut image, 4 * 1024 + 32 * 5 + USED, 8);
    put_pair(&mut image, 2 * 1024 + USED, 9);
    changes(&image, &[change(2, 17, 9, 0), change(4, 17, 7, 0), change(4, 177, 8, 0)]);
}

/// 13 by what a user's files hold; his used count does not matter.
#[test]
fn overdrawn_by_a_user() {
    for used in [0, 1, 2, 5] {
        let image = yard_with(|image| {
            put_pair(image, USER + GIVEN, 1);
            put_pair(image, USER + USED, used);
        });
        refuses_with(&image, 9, refused(13));
    }
    let all = yard_with(|image| put_pair(image, USER + GIVEN, 2));
    changes(&all, &[change(0, 1023, 5, 8)]);
}

/// 13 by the sum, which is 16 = unreserved + given + 6 system pages.
#[test]
fn overdrawn_by_the_sum() {
    let given = |given: u32| yard_with(|image| put_pair(image, USER + GIVEN, given));
    changes(&given(10), &[change(0, 1023, 5, 0)]);
    for above in [11, 65_546, I, S, u32::MAX] {
        refuses_with(&given(above), 9, refused(13));
    }
    let mut wraps = yard();
    assert_eq!(create_user(&mut wraps, b"GATE"), done(1));
    put_pair(&mut wraps, USER + GIVEN, S + 5);
    put_pair(&mut wraps, USER + 32 + GIVEN, S);
    refuses_with(&wraps, 9, refused(13));
}

/// A user holds more than he was given where the sum is right.
#[test]
fn overdrawn_with_the_sum_right() {
    let image = yard_with(|image| {
        put_pair(image, USER + GIVEN, 1);
        put_pair(image, UNRESERVED, 9);
    });
    assert_eq!(check(&image), unsound(4, 2, 16));
    refuses_with(&image, 9, refused(13));
}

/// 3 before 13 before 14; 1 before all.
#[test]
fn the_order_of_refusals() {
    let image = yard_with(|image| {
        put_pair(image, USER + GIVEN, 1);
        image[BITS] = 0;
    });
    refuses_with(&image, 0, refused(13));
    refuses_with(&image, 1, refused(13));
    let mut image = image;
    image[USER + 18] = 1;
    refuses_with(&image, 0, unsound(4, 2, 18));
    for length in [0, 1, 7 * 1024, 8 * 1024 - 1, 16 * 1024 - 1] {
        refuses_with(&image[..length], 0, refused(1));
        refuses_with(&image[..length], 3, refused(1));
    }
    refuses_with(&vec![0; 140_734 * 1024], 1, refused(1));
}

/// 14 exactly if more words change than there are records; its value is 0.
#[test]
fn the_list_is_too_short() {
    let image = yard_with(|image| {
        put_pair(image, USER + USED, 1 << 16);
        image[BITS] = 0;
    });
    for room in 0..3 {
        refuses_with(&image, room, refused(14));
    }
    changes(&image, &[change(2, 16, 1, 0), change(2, 17, 0, 2), change(8, 0, 0, 383)]);
}

/// P = 154 lies in word 9: its bits from 10 on, and the words behind it, keep
/// their values, also in the new value that is told.
#[test]
fn bits_from_p_on_stay() {
    let mut image = dock(154, 0);
    let bits = 77 * 1024;
    image[bits + 9] = 0xFC00;
    image[bits + 10..bits + 1024].fill(0xA5A5);
    assert_eq!(changes(&image, &[]), image);
    let sound = image.clone();
    image[bits + 9] = 0xFC00 | 1 << 9;
    assert_eq!(changes(&image, &[change(77, 9, 0xFE00, 0xFC00)]), sound);
    image[bits + 9] = 0x5400 | 1;
    let after = changes(&image, &[change(77, 9, 0x5401, 0x5400)]);
    assert_eq!(after[bits + 9..bits + 11], [0x5400, 0xA5A5]);
}

/// P = 16 begins word 1, which is no page's.
#[test]
fn no_bit_from_p_on_where_16_divides_p() {
    let image = yard_with(|image| {
        image[BITS] = 0x8000 | 383;
        image[BITS + 1] = 0xFFFF;
    });
    let after = changes(&image, &[change(8, 0, 33_151, 383)]);
    assert_eq!(after[BITS + 1], 0xFFFF);
}

#[test]
fn the_smallest_and_the_largest() {
    let mut image = volume(8);
    let sound = image.clone();
    image[4 * 1024] = 0xFFEE;
    put_pair(&mut image, UNRESERVED, u32::MAX);
    let told = [change(0, 1022, 65_535, 0), change(0, 1023, 65_535, 6), change(4, 0, 0xFFEE, 0xFF11)];
    let after = changes(&image, &told);
    assert_eq!((after[4 * 1024], &after[..1024]), (0xFF11, &sound[..1024]));
    let mut image = volume(16_384);
    let sound = image.clone();
    image[8_192 * 1024..8_193 * 1024].fill(u16::MAX);
    let bits = (0..1_024).map(|word| change(8_192, word, 65_535, u32::from(word == 0 || word == 512)));
    let bits: Vec<Change> = bits.collect();
    let (reply, list) = salvaged(&mut image, 1_024);
    assert_eq!((reply, list), (done(1_024), bits));
    assert!(image == sound, "not the fresh volume");
}

/// Turns the bits of some pages over, ascending and each in a word of its own; gives
/// what is told of their words once they are put right.
fn stale_bits(image: &mut [u16], pages: &[usize]) -> Vec<Change> {
    let bit_page = pair(image, 1020) as usize;
    let turned = pages.iter().map(|&page| {
        let (n, word) = (page / 16_384, page / 16 % 1_024);
        let at = (bit_page + n) * 1024 + word;
        let right = u32::from(image[at]);
        image[at] ^= 1 << (page % 16);
        change((bit_page + n) as u32, word as u32, u32::from(image[at]), right)
    });
    turned.collect()
}

/// Stale bits in several pages of the bit file (document 02, T-06), one of a bit page
/// among them, with a used count and unreserved. The user's page lies before the bit
/// file, then behind it.
#[test]
fn stale_bits_in_several_bit_pages() {
    for (pages, first, user) in [(32_769, 16_420, 2), (140_733, 70_366, 2), (140_733, 1, 11)] {
        let sound = dock_from(pages, first, 10);
        let mut image = sound.clone();
        let mut wrong = [first + 1, 16_383, 16_384, 32_767, 32_768, 40_000 % pages, pages - 1].to_vec();
        wrong.sort_unstable();
        wrong.dedup();
        let bits = stale_bits(&mut image, &wrong);
        put_pair(&mut image, user * 1024 + USED, 1 << 16);
        put_pair(&mut image, UNRESERVED, 7 << 16 | 7);
        let right = pair(&sound, UNRESERVED);
        let mut told = vec![change(0, 1022, 7, right >> 16), change(0, 1023, 7, right & 0xFFFF)];
        let used = [change(user as u32, 16, 1, 0)];
        if user < first {
            told.extend(used.into_iter().chain(bits));
        } else {
            told.extend(bits.into_iter().chain(used));
        }
        let stale = image.clone();
        assert_eq!(salvaged(&mut image, told.len() - 1).0, refused(14));
        assert!(image == stale, "{pages} pages from {first}: changed by a refusal");
        assert_eq!(salvaged(&mut image, told.len()), (done(told.len() as u32), told));
        assert!(image == sound, "{pages} pages from {first}: not the volume before");
        assert_eq!(salvaged(&mut image, 0), (done(0), vec![]));
    }
}

/// Every word of the bit file is wrong, the words behind the last one in use are no
/// page's: the changes are 8,796, and with one record less it is 14.
#[test]
fn all_bits_of_the_largest() {
    let sound = volume(140_733);
    let mut image = sound.clone();
    let bits = 70_366 * 1024;
    image[bits..bits + 9 * 1024].iter_mut().for_each(|word| *word = !*word);
    let stale = image.clone();
    assert_eq!(salvaged(&mut image, 8_795), (refused(14), vec![LEFT; 8_795]));
    assert!(image == stale);
    let (reply, list) = salvaged(&mut image, 8_797);
    assert_eq!((reply, list[8_796]), (done(8_796), LEFT));
    for (word, told) in (0..).zip(&list[..8_796]) {
        let (old, new) = (u32::from(stale[bits + word as usize]), u32::from(image[bits + word as usize]));
        assert_eq!(*told, change(70_366 + word / 1_024, word % 1_024, old, new));
    }
    // Page 140,732 is bit 12 of its word: the three bits behind it stay.
    assert_eq!((image[bits + 8_795], image[bits + 8_796]), (0xE000, 0xFFFF));
    assert!(image[bits + 8_796..bits + 9 * 1024].iter().all(|&word| word == 0xFFFF));
    image[bits + 8_795] = 0;
    image[bits + 8_796..bits + 9 * 1024].fill(0);
    assert!(image == sound);
}

/// Used counts are of data, index and subindex pages, contiguous files among
/// them: a file of 513 pages uses 516.
#[test]
fn what_files_hold() {
    let mut image = reads(600, 540, 513);
    assert_eq!(create_contiguous(&mut image, 0, b"RUN", b"", 0, 10), done(1));
    assert_eq!(create_indexed(&mut image, 0, b"EMPTY", b"", 0), done(2));
    let sound = image.clone();
    put_pair(&mut image, USER + USED, 0);
    assert_eq!(changes(&image, &[change(2, 17, 0, 526)]), sound);
    put_pair(&mut image, USER + GIVEN, 525);
    refuses_with(&image, 9, refused(13));
}

/// Each used user's count, under a subindexed object file, too.
#[test]
fn used_counts_of_many_users() {
    let mut image = volume(64);
    for n in 0..66 {
        assert_eq!(create_user(&mut image, &nth(n)), done(n));
    }
    assert_eq!(give(&mut image, 65, 3), done(0));
    assert_eq!(create_contiguous(&mut image, 65, b"RUN", b"", 0, 3), done(0));
    let sound = image.clone();
    let pages = [0, 1, 2].map(|slot| pair(&image, 1024 + 2 * slot));
    for (page, n, used) in [(pages[0], 1, 7), (pages[1], 31, 1), (pages[2], 1, 0)] {
        put_pair(&mut image, page as usize * 1024 + 32 * n + USED, used);
    }
    let told = [change(pages[0], 49, 7, 0), change(pages[1], 1009, 1, 0), change(pages[2], 49, 0, 3)];
    assert_eq!(changes(&image, &told), sound);
}

/// Entries that are not used keep what they hold, and what they hold counts for
/// nothing.
#[test]
fn unused_entries_stay() {
    let image = yard_with(|image| {
        for n in 1..32 {
            image[USER + 32 * n..][..32].fill(0x7FFF);
        }
        put_pair(image, USER + USED, 3);
    });
    changes(&image, &[change(2, 17, 3, 2)]);
    let mut image = dock(16, 5);
    image[USER] = 0;
    put_pair(&mut image, USER + USED, 9);
    let after = changes(&image, &[change(0, 1023, 6, 11)]);
    assert_eq!((pair(&after, USER + USED), pair(&after, USER + GIVEN)), (9, 5));
}

/// Unreserved comes from given, and not from used, before or after.
#[test]
fn unreserved_is_from_the_sum() {
    let image = yard_with(|image| {
        put_pair(image, USER + GIVEN, 7);
        put_pair(image, USER + USED, 1);
    });
    changes(&image, &[change(0, 1023, 5, 3), change(2, 17, 1, 2)]);
}

/// Rules 9 and 10 are not asked.
#[test]
fn broken_by_rules_9_and_10_alone() {
    let image = yard_with(|image| image[BITS] = 383 | 1 << 9);
    assert_eq!(check(&image), unsound(9, 8, 0));
    changes(&image, &[change(8, 0, 895, 383)]);
    let image = yard_with(|image| put_pair(image, UNRESERVED, 4));
    assert_eq!(check(&image), unsound(10, 0, 1022));
    changes(&image, &[change(0, 1023, 4, 5)]);
}

/// Stale bits and counts beside what each damage breaks: the answer is 3, with
/// the rule and the place that it breaks, whatever room the list has.
fn broken(damage: impl Fn(&mut Vec<u16>), reply: Reply) {
    let mut image = yard();
    assert_eq!(create_user(&mut image, b"GATE"), done(1));
    damage(&mut image);
    let stale = |image: &mut Vec<u16>| {
        image[BITS] = 1;
        put_pair(image, UNRESERVED, u32::MAX);
        put_pair(image, USER + USED, 1_000);
    };
    for room in [0, 1, 20] {
        refuses_with(&image, room, reply);
    }
    stale(&mut image);
    for room in [0, 1, 20] {
        refuses_with(&image, room, reply);
    }
}

#[test]
fn each_of_rules_1_to_8() {
    broken(|image| image[1008] = 0, unsound(1, 0, 1008));
    broken(|image| put_pair(image, 1020, 16), unsound(1, 0, 1020));
    broken(|image| put_pair(image, 1018, 0), unsound(2, 0, 1016));
    broken(|image| put_pair(image, 1018, S | 1), unsound(2, 0, 1018));
    broken(|image| put_pair(image, 1024 + 14, 16), unsound(3, 1, 14));
    broken(|image| image[USER + 1] = 0x2020, unsound(4, 2, 1));
    broken(|image| image[USER + 18] = 1, unsound(4, 2, 18));
    broken(|image| image.copy_within(USER + 1..USER + 9, USER + 33), unsound(4, 2, 33));
    broken(|image| image[USER + 32 + 18] = 2, unsound(4, 2, 50));
    broken(|image| put_pair(image, 3 * 1024 + 2, 16), unsound(5, 3, 2));
    broken(|image| image[OBJECT + 17] = 1, unsound(6, 4, 17));
    broken(|image| put_pair(image, OBJECT + 28, 2_047), unsound(7, 4, 28));
    broken(|image| put_pair(image, OBJECT + 26, 2), unsound(7, 4, 28));
    broken(|image| put_pair(image, 6 * 1024, 0), unsound(7, 6, 0));
    let (index, data) = (holder(kind::FILE_INDEX, 0, 0, 0), holder(kind::FILE_DATA, 0, 0, 0));
    broken(|image| put_pair(image, 6 * 1024, 6), shared(6, index, data));
    broken(|image| put_pair(image, 6 * 1024, 8), shared(8, system(kind::BIT_FILE, 0), data));
}

/// A count above given is passed over: the place is that of a later word, or of
/// a later user, or of a higher rule.
#[test]
fn used_above_given_is_no_place() {
    let above = |image: &mut Vec<u16>| put_pair(image, USER + USED, 6);
    let own = yard_with(|image| {
        above(image);
        image[USER + 18] = 7;
    });
    assert_eq!(check(&own), unsound(4, 2, 16));
    refuses_with(&own, 5, unsound(4, 2, 18));
    let file = yard_with(|image| {
        above(image);
        image[OBJECT + 9] = 0x2020;
    });
    assert_eq!(check(&file), unsound(4, 2, 16));
    refuses_with(&file, 5, unsound(6, 4, 9));
}

/// A wrong byte or page count is none that salvage puts right.
#[test]
fn page_and_byte_counts_stay() {
    let image = yard_with(|image| {
        put_pair(image, OBJECT + 26, 2);
        put_pair(image, OBJECT + 28, 4_096);
    });
    refuses_with(&image, 9, unsound(7, 6, 2));
}

/// A file of 512 reads' pages as the dock left it once it laid pointer 513 over
/// pointer 1: page 519, of read 513, is named by slot 0, and page 5, of read 1,
/// by none; both are reserved. The used count is as told.
fn pointer_513_over_1(used: u32) -> Vec<u16> {
    let mut image = reads(600, 520, 512);
    assert_eq!(address(&image, 0, 0, 0), done(5));
    assert_eq!(write_page(&mut image, 0, 0, 0, &[0xE3E3; 1024]), done(0));
    put_pair(&mut image, 6 * 1024, 519);
    image[300 * 1024 + 32] |= 1 << 7;
    put_pair(&mut image, USER + USED, used);
    image
}

#[test]
fn the_docks_disk_with_512_pages() {
    let image = pointer_513_over_1(513);
    assert_eq!(check(&image), unsound(9, 300, 0));
    let after = changes(&image, &[change(300, 0, 65_535, 65_503)]);
    assert_eq!(address(&after, 0, 0, 0), done(519));
    assert_eq!(who_holds(&after, 5).holder, system(kind::FREE, 0));
    assert_eq!(after[5 * 1024..6 * 1024], [0xE3E3; 1024]);
    let charged = pointer_513_over_1(514);
    assert_eq!(check(&charged), unsound(9, 300, 0));
    changes(&charged, &[change(2, 17, 514, 513), change(300, 0, 65_535, 65_503)]);
}

#[test]
fn the_docks_disk_with_513_pages() {
    let mut image = pointer_513_over_1(514);
    put_pair(&mut image, OBJECT + 26, 513);
    put_pair(&mut image, OBJECT + 28, 513 * 2048);
    assert_eq!(check(&image), unsound(7, 4, 30));
    refuses_with(&image, 40, unsound(7, 4, 30));
}

/// Chance damage of bits and counts on a volume with users and files. What must
/// come out is known from the volume as it was.
#[test]
fn by_chance() {
    let mut chance = Chance::new(20_260_105);
    let sound = several();
    let users = [0, 32, 64].map(|word| 3 * 1024 + word);
    for _ in 0..300 {
        let mut image = sound.clone();
        for _ in 0..chance.below(4) {
            let page = chance.below(45) as usize;
            image[1024 + page / 16] ^= 1 << (page % 16);
        }
        let bits_from_p = chance.below(8) as u16;
        image[1024 + 2] ^= bits_from_p << 13;
        let user = users[chance.below(3) as usize];
        match chance.below(4) {
            0 => image[user + USED] = chance.below(3) as u16,
            1 => image[user + USED + 1] = chance.below(9) as u16,
            2 => put_pair(&mut image, UNRESERVED, chance.below(70_000)),
            _ => {}
        }
        let mut wanted = sound.clone();
        wanted[1024 + 2] ^= bits_from_p << 13;
        assert_eq!(changes(&image, &differing(&image, &wanted)), wanted);
    }
}

/// 45 pages, the bit page 1 before the users' page 3, three users with files.
fn several() -> Vec<u16> {
    let mut image = vec![0; 45 * 1024];
    assert_eq!(format(&mut image, b"YARD", Some(1)), done(0));
    assert_eq!(create_user(&mut image, b"DOCK").number, 0);
    assert_eq!(create_user(&mut image, b"GATE").number, 0);
    assert_eq!(create_user(&mut image, b"BARN").number, 0);
    for user in 0..2 {
        assert_eq!(give(&mut image, user, 8), done(0));
        assert_eq!(create_indexed(&mut image, user, b"READS", b"DATA", 0).number, 0);
        assert_eq!(create_contiguous(&mut image, user, b"RUN", b"", 0, 2).number, 0);
        assert_eq!(grow(&mut image, user, 0).number, 0);
    }
    image
}
