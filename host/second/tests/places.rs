//! Where an image is broken: the order of the places, where two things are
//! wrong at once, and the holders in their order. `rules.rs` has the places one
//! by one.

mod common;
use common::*;
use second::*;

const S: u32 = 1 << 31;
const I: u32 = 1 << 30;
const USED: u16 = 32_768;

fn slot(block: usize, n: usize) -> usize {
    block * 1024 + 2 * n
}

/// Sets words of pages, then checks.
fn with(image: &[u16], words: &[(usize, usize, u16)]) -> Reply {
    let mut image = image.to_vec();
    words.iter().for_each(|&(page, word, value)| image[page * 1024 + word] = value);
    check(&image)
}

/// The numbers to check by of the readings: the 154-page yard volume with its
/// first user.
#[test]
fn numbers_to_check_by() {
    let image = dock(154, 0);
    assert_eq!(with(&image, &[(2, 17, 1)]), unsound(4, 2, 16));
    assert_eq!(with(&image, &[(0, 1023, 150)]), unsound(10, 0, 1022));
    assert_eq!(with(&image, &[(77, 6, 1 << 4)]), unsound(9, 77, 6));
}

/// Two users on user pages whose numbers descend: user 0 on page 9, user 32 on
/// page 8. Document 01's volumes are not laid out so by any calls.
fn two_user_pages() -> Vec<u16> {
    let mut image = dock(32, 0);
    let from = 2 * 1024;
    image.copy_within(from..from + 1024, 9 * 1024);
    image.copy_within(from..from + 1024, 8 * 1024);
    image[8 * 1024 + 1] = u16::from_be_bytes(*b"RA");
    image[8 * 1024 + 18] = 32;
    put_pair(&mut image, slot(1, 0), 9);
    put_pair(&mut image, slot(1, 1), 8);
    for page in [2, 8, 9] {
        image[16 * 1024 + page / 16] ^= 1 << (page % 16);
    }
    let rest = unreserved(&image);
    put_pair(&mut image, 1022, rest - 1);
    assert_eq!(check(&image).number, 0);
    image
}

#[test]
fn entries_come_by_number_and_not_by_page() {
    let image = two_user_pages();
    assert_eq!(with(&image, &[(8, 18, 7), (9, 18, 7)]), unsound(4, 9, 18));
    assert_eq!(with(&image, &[(8, 18, 7)]), unsound(4, 8, 18));
    assert_eq!(with(&image, &[(8, 17, 1), (9, 17, 1)]), unsound(4, 9, 16));
    let given = [(8, 15, 5), (9, 15, 5), (8, 17, 1), (9, 17, 1)];
    assert_eq!(with(&image, &given), unsound(10, 9, 16));
}

/// The words of one entry ascend, and a later entry's fault waits.
#[test]
fn words_of_users_ascend() {
    let mut image = dock(32, 5);
    create_user(&mut image, b"RAMS");
    create_user(&mut image, b"EWES");
    let (name, used, own) = ((2, 33, 0), (2, 49, 9), (2, 50, 7));
    assert_eq!(with(&image, &[own, used, name]), unsound(4, 2, 33));
    assert_eq!(with(&image, &[own, used]), unsound(4, 2, 48));
    assert_eq!(with(&image, &[own]), unsound(4, 2, 50));
    // User 1 has user 0's name: told at user 1, before user 2's faults and after user 0's.
    let twins = [(2, 33, image[2 * 1024 + 1]), (2, 34, image[2 * 1024 + 2])];
    let [one, two] = twins;
    assert_eq!(with(&image, &[one, two, (2, 65, 0)]), unsound(4, 2, 33));
    assert_eq!(with(&image, &[one, two, (2, 18, 9)]), unsound(4, 2, 18));
    assert_eq!(with(&image, &[one, two, (2, 50, 9)]), unsound(4, 2, 33));
    // User 2 has user 0's name, user 1 the wrong index.
    let late = [(2, 65, image[2 * 1024 + 1]), (2, 66, image[2 * 1024 + 2]), (2, 50, 7)];
    assert_eq!(with(&image, &late), unsound(4, 2, 50));
}

/// Files 0, 1 and 2 of one user, of one page, none and none.
fn three_files() -> Vec<u16> {
    let mut image = reads(32, 9, 1);
    create_indexed(&mut image, 0, b"WRITES", b"DATA", 0);
    create_indexed(&mut image, 0, b"READS", b"TEXT", 0);
    assert_eq!(check(&image), done(8));
    image
}

#[test]
fn words_of_objects_ascend() {
    let image = three_files();
    let (name, kind, owner, own) = ((4, 33, 0), (4, 41, 0x6100), (4, 48, 7), (4, 49, 7));
    assert_eq!(with(&image, &[own, owner, kind, name]), unsound(6, 4, 33));
    assert_eq!(with(&image, &[own, owner, kind]), unsound(6, 4, 41));
    assert_eq!(with(&image, &[own, owner]), unsound(6, 4, 48));
    assert_eq!(with(&image, &[own]), unsound(6, 4, 49));
    // The owner is not used: word 0 of his first file, whatever else is wrong.
    assert_eq!(with(&image, &[(2, 0, 0), own, (4, 1, 0)]), unsound(6, 4, 0));
    // File 2 as file 0: its name and type. The type alone may be the same.
    let same_type: Vec<(usize, usize, u16)> = (9..11).map(|n| (4, 64 + n, image[4 * 1024 + n])).collect();
    assert_eq!(with(&image, &same_type), unsound(6, 4, 65));
    let later: Vec<(usize, usize, u16)> = same_type.into_iter().chain([own]).collect();
    assert_eq!(with(&image, &later), unsound(6, 4, 49));
    // Files 0 and 1 have one name and one illegal type: the lower one's type.
    let twins: Vec<(usize, usize, u16)> = (1..9).map(|n| (4, 32 + n, image[4 * 1024 + n])).collect();
    let illegal = [(4, 9, 0x6100), (4, 41, 0x6100), (4, 10, 0), (4, 42, 0)];
    let both: Vec<(usize, usize, u16)> = twins.into_iter().chain(illegal).collect();
    assert_eq!(with(&image, &both), unsound(6, 4, 9));
}

/// Two users may have files of one name.
#[test]
fn names_are_a_users_own() {
    let mut image = reads(32, 9, 1);
    create_user(&mut image, b"RAMS");
    create_indexed(&mut image, 1, b"READS", b"DATA", 0);
    assert_eq!(check(&image).number, 0);
}

/// A volume with object file subindexed, blocks 0 and 1, on pages that descend.
fn object_blocks() -> Vec<u16> {
    let mut image = volume(32);
    for n in 0..65 {
        assert_eq!(create_user(&mut image, &nth(n)), done(n));
    }
    assert_eq!(create_indexed(&mut image, 64, b"A", b"", 0), done(0));
    assert_eq!(create_indexed(&mut image, 0, b"A", b"", 0), done(0));
    let subindex = (pair(&image, 1016) & !S) as usize;
    let [zero, one] = [0, 1].map(|n| pair(&image, slot(subindex, n)) as usize);
    let first: Vec<u16> = image[zero * 1024..][..1024].to_vec();
    image.copy_within(one * 1024..(one + 1) * 1024, zero * 1024);
    image[one * 1024..][..1024].copy_from_slice(&first);
    put_pair(&mut image, slot(subindex, 0), one as u32);
    put_pair(&mut image, slot(subindex, 1), zero as u32);
    assert!(zero < one && check(&image).number == 0);
    image
}

#[test]
fn object_blocks_come_by_number() {
    let image = object_blocks();
    let subindex = (pair(&image, 1016) & !S) as usize;
    let [zero, one] = [0, 1].map(|n| pair(&image, slot(subindex, n)) as usize);
    assert!(one < zero);
    let (in_zero, in_one, in_subindex) = ((zero, 1022, 1), (one, 0, 1), (subindex, 1022, 1));
    assert_eq!(with(&image, &[in_one, in_zero, in_subindex]), unsound(5, subindex, 1022));
    assert_eq!(with(&image, &[in_one, in_zero]), unsound(5, zero, 1022));
    assert_eq!(with(&image, &[in_one]), unsound(5, one, 0));
    // A single index over user 64 comes first of all.
    let single = [(0, 1016, 0x4000), (0, 1017, zero as u16), in_zero];
    assert_eq!(with(&image, &single), unsound(5, 0, 1016));
}

/// A file of 513 pages whose index block 1 lies before block 0, and a second
/// file behind it.
fn long_file() -> Vec<u16> {
    let mut image = reads(600, 540, 513);
    create_indexed(&mut image, 0, b"SECOND", b"", 0);
    assert_eq!(grow(&mut image, 0, 1).number, 0);
    let subindex = (pair(&image, 4 * 1024 + 30) & !S) as usize;
    let [zero, one] = [0, 1].map(|n| pair(&image, slot(subindex, n)) as usize);
    let first: Vec<u16> = image[zero * 1024..][..1024].to_vec();
    image.copy_within(one * 1024..(one + 1) * 1024, zero * 1024);
    image[one * 1024..][..1024].copy_from_slice(&first);
    put_pair(&mut image, slot(subindex, 0), one as u32);
    put_pair(&mut image, slot(subindex, 1), zero as u32);
    assert!(zero < one && check(&image).number == 0);
    image
}

/// Bytes, pointer, subindex block, index blocks by number; then the next file.
#[test]
fn the_parts_of_a_file() {
    let image = long_file();
    let subindex = (pair(&image, 4 * 1024 + 30) & !S) as usize;
    let [zero, one] = [0, 1].map(|n| pair(&image, slot(subindex, n)) as usize);
    let (next, in_one, in_zero) = ((4, 32 + 28, 1), (one, 2, 1), (zero, 1022, 1));
    let (in_subindex, pointer, bytes) = ((subindex, 1022, 1), (4, 30, 0xC000), (4, 28, 1));
    let mut faults = vec![next];
    assert_eq!(with(&image, &faults), unsound(7, 4, 32 + 28));
    for (fault, page, word) in [
        (in_one, one, 2),
        (in_zero, zero, 1022),
        (in_subindex, subindex, 1022),
        (pointer, 4, 30),
        (bytes, 4, 28),
    ] {
        faults.push(fault);
        assert_eq!(with(&image, &faults), unsound(7, page, word));
    }
    // A count that wants one block less and one more.
    let count = |pages: u32| {
        let mut image = image.clone();
        put_pair(&mut image, 4 * 1024 + 26, pages);
        put_pair(&mut image, 4 * 1024 + 28, 2048 * pages);
        check(&image)
    };
    assert_eq!(count(512), unsound(7, 4, 30));
    assert_eq!(count(514), unsound(7, one, 2));
    assert_eq!(count(1_024), unsound(7, one, 2));
    assert_eq!(count(1_025), unsound(7, subindex, 4));
    assert_eq!(count(262_144), unsound(7, subindex, 4));
    assert_eq!(count(262_145), unsound(7, 4, 30));
}

/// The lowest page of all, and of its holders the first two by kind, user, file
/// and position, whatever comes first on the disk.
#[test]
fn holders_in_their_order() {
    let mut image = dock(64, 30);
    create_user(&mut image, b"RAMS");
    give(&mut image, 1, 10);
    for (user, name) in [(1, b"A"), (0, b"B"), (0, b"C")] {
        assert_eq!(create_indexed(&mut image, user, name, b"", 0).number, 0);
    }
    for (user, file) in [(1, 0), (0, 0), (0, 1), (0, 1)] {
        assert_eq!(grow(&mut image, user, file).number, 0);
    }
    let of = |user: usize, file: usize| {
        let page = pair(&image, slot(3, 8 * user)) as usize;
        (pair(&image, page * 1024 + 32 * file + 30) & !I) as usize
    };
    let (rams, b, c) = (of(1, 0), of(0, 0), of(0, 1));
    let data = |user, file, position| holder(kind::FILE_DATA, user, file, position);
    let point = |pairs: &[(usize, usize, usize)]| {
        let mut image = image.clone();
        pairs
            .iter()
            .for_each(|&(block, n, page)| put_pair(&mut image, slot(block, n), page as u32));
        check(&image)
    };
    // A page of three: the third is not told; user 1's comes last.
    assert_eq!(
        point(&[(rams, 0, 40), (b, 0, 40), (c, 0, 40)]),
        shared(40, data(0, 0, 0), data(0, 1, 0))
    );
    assert_eq!(point(&[(rams, 0, 40), (c, 1, 40)]), shared(40, data(0, 1, 1), data(1, 0, 0)));
    // Twice in one file comes before a later file.
    assert_eq!(
        point(&[(c, 0, 40), (c, 1, 40), (rams, 0, 40)]),
        shared(40, data(0, 1, 0), data(0, 1, 1))
    );
    // The kind comes before the user: user 1's index block, user 0's data.
    let index = holder(kind::FILE_INDEX, 1, 0, 0);
    assert_eq!(point(&[(b, 0, rams)]), shared(rams, index, data(0, 0, 0)));
    // Two pages: the lower one.
    assert_eq!(
        point(&[(b, 0, 41), (c, 0, 41), (rams, 0, 40), (c, 1, 40)]),
        shared(40, data(0, 1, 1), data(1, 0, 0))
    );
    // A system's page of two kinds: an empty object page as user page.
    let (user_page, object_page) = (system(kind::USER_PAGE, 7), system(kind::OBJECT_PAGE, 511));
    assert_eq!(point(&[(3, 511, 40), (1, 7, 40), (b, 0, 40)]), shared(40, user_page, object_page));
}

/// A file's subindex block, one of its index blocks and a run over them.
#[test]
fn holders_of_one_file() {
    let mut image = long_file();
    assert_eq!(create_contiguous(&mut image, 0, b"RUN", b"", 0, 3), done(2));
    let subindex = pair(&image, 4 * 1024 + 30) & !S;
    let [zero, one] = [0, 1].map(|n| pair(&image, slot(subindex as usize, n)));
    let point = |at: usize, page: u32| {
        let mut image = image.clone();
        put_pair(&mut image, at, page);
        check(&image)
    };
    let of = |kind, position| holder(kind, 0, 0, position);
    let (top, index, data) = (kind::FILE_SUBINDEX, kind::FILE_INDEX, kind::FILE_DATA);
    assert_eq!(
        point(slot(one as usize, 0), subindex),
        shared(subindex as usize, of(top, 0), of(data, 512))
    );
    assert_eq!(
        point(slot(zero as usize, 511), one),
        shared(one as usize, of(index, 1), of(data, 511))
    );
    let run = holder(data, 0, 2, 0);
    assert_eq!(point(4 * 1024 + 64 + 30, one), shared(one as usize, of(index, 1), run));
}

/// The lowest page whose bit is wrong, set or not set.
#[test]
fn the_lowest_wrong_bit() {
    let image = reads(64, 9, 1);
    let bits = 32 * 1024;
    let flip = |pages: &[usize]| {
        let mut image = image.clone();
        pages.iter().for_each(|page| image[bits + page / 16] ^= 1 << (page % 16));
        check(&image)
    };
    assert_eq!(flip(&[63, 32]), unsound(9, 32, 2));
    assert_eq!(flip(&[63]), unsound(9, 32, 3));
    assert_eq!(flip(&[40, 6]), unsound(9, 32, 0));
}

/// The used counts come before the sum, and the lower user first.
#[test]
fn counts_in_their_order() {
    let mut image = dock(32, 5);
    create_user(&mut image, b"RAMS");
    give(&mut image, 1, 5);
    let (zero, one, sum) = ((2, 17, 1), (2, 49, 1), (0, 1023, 1));
    assert_eq!(with(&image, &[sum, one, zero]), unsound(10, 2, 16));
    assert_eq!(with(&image, &[sum, one]), unsound(10, 2, 48));
    assert_eq!(with(&image, &[sum]), unsound(10, 0, 1022));
    // An unused user's counts are nobody's.
    assert_eq!(with(&image, &[(2, 64, 0), (2, 81, 9)]), done(5));
    assert_eq!(with(&image, &[(2, 64, USED)]).rule, 4);
}
