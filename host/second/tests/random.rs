//! Chance sequences of calls from a fresh format: the image stays sound,
//! a refused call changes nothing, and the calls agree with one another.

mod common;
use common::*;
use second::*;

/// A user, file or the like: mostly small, seldom out of range.
fn index(chance: &mut Chance) -> usize {
    let index = match chance.below(40) {
        0 => 256 + chance.below(10),
        1 => chance.below(256),
        _ => chance.below(5),
    };
    index as usize
}

fn count(chance: &mut Chance) -> usize {
    let count = match chance.below(30) {
        0 => 0,
        1 => 140_734,
        2 => chance.below(140_734),
        _ => 1 + chance.below(12),
    };
    count as usize
}

fn some_name(chance: &mut Chance) -> Vec<u8> {
    if chance.once_in(40) {
        b"no".to_vec()
    } else {
        nth(chance.below(8))
    }
}

fn some_type(chance: &mut Chance) -> &'static [u8] {
    [b"" as &[u8], b"A", b"DATA", b"TOO-LONG"][chance.below(40) as usize / 13]
}

/// One chance call; gives a word for it and its reply.
fn call(image: &mut [u16], chance: &mut Chance) -> (&'static str, Reply) {
    let (user, file, position) = (index(chance), index(chance), chance.below(6) as usize);
    let (name, kind, count) = (some_name(chance), some_type(chance), count(chance));
    let created = chance.below(u32::MAX);
    match chance.below(40) {
        0..=3 => ("create user", create_user(image, &name)),
        4 => ("delete user", delete_user(image, user)),
        5..=9 => ("give", give(image, user, count)),
        10 => ("take", take(image, user, count)),
        11..=15 => ("create indexed", create_indexed(image, user, &name, kind, created)),
        16..=18 => ("create contiguous", create_contiguous(image, user, &name, kind, created, count)),
        19..=27 => ("grow", grow(image, user, file)),
        28..=31 => ("shrink", shrink(image, user, file)),
        32..=33 => ("delete file", delete_file(image, user, file)),
        34..=36 => ("write", write_page(image, user, file, position, &[created as u16; 1024])),
        37 if created % 4 == 0 => ("convert to apostrophe", convert_to_apostrophe(image)),
        37 if created % 4 == 1 => ("convert to zeros", convert_to_zeros(image)),
        37 => ("note open", note_open(image, user, file)),
        38 => ("find user", find_user(image, &name)),
        _ => ("find file", find_file(image, user, &name, kind)),
    }
}

/// The visits are the reserved bits.
fn assert_sound(image: &[u16], after: &str) {
    let bit_page = pair(image, 1020) as usize * 1024;
    let pages = image.len() / 1024;
    let reserved = (0..pages).filter(|p| image[bit_page + p / 16] >> (p % 16) & 1 == 1).count();
    assert_eq!(check(image), done(reserved as u32), "after {after}");
}

/// Each held page is where its holder says.
fn assert_holders_agree(image: &[u16]) {
    for page in 0..image.len() / 1024 {
        let HolderReply { reply, holder } = who_holds(image, page);
        assert_eq!(reply, done(0));
        if holder.kind == kind::FILE_DATA {
            let [user, file, position] = [holder.user, holder.file, holder.position].map(|number| number as usize);
            assert_eq!(address(image, user, file, position), done(page as u32));
            assert_eq!(read_page(image, user, file, position), &image[page * 1024..][..1024]);
        }
    }
}

/// Grow, then shrink: all counts, pointers and addresses are as before.
fn assert_shrink_undoes_grow(image: &[u16], user: usize, file: usize) {
    let mut after = image.to_vec();
    let grown = grow(&mut after, user, file);
    if grown.number != 0 {
        return;
    }
    let taken: Vec<usize> = (0..image.len() / 1024)
        .filter(|&page| who_holds(image, page).holder.kind == kind::FREE)
        .filter(|&page| who_holds(&after, page).holder.kind != kind::FREE)
        .collect();
    assert!(taken.contains(&(grown.value as usize)));
    assert_eq!(shrink(&mut after, user, file), done(0));
    // Only the pages that were taken and freed again may differ.
    for at in (0..image.len()).filter(|at| !taken.contains(&(at / 1024))) {
        assert_eq!(after[at], image[at], "word {at}");
    }
}

/// So many calls on a fresh volume; gives how often each number was met.
fn run(pages: usize, calls: u32, seed: u64) -> [u32; 13] {
    let mut chance = Chance::new(seed);
    let mut image: Vec<u16> = (0..pages * 1024).map(|_| chance.below(65_536) as u16).collect();
    let bit_page = 1 + chance.below(pages as u32 - 1);
    assert_eq!(format(&mut image, b"YARD", Some(bit_page as usize)), done(0));
    let mut numbers = [0; 13];
    for n in 0..calls {
        let before = image.clone();
        let (name, reply) = call(&mut image, &mut chance);
        numbers[reply.number as usize] += 1;
        if reply.number == 0 {
            assert_sound(&image, name);
        } else {
            assert_eq!(reply, refused(reply.number));
            assert!(image == before, "{name} was refused and changed the image");
        }
        if n % 50 == 0 {
            assert_holders_agree(&image);
            assert_shrink_undoes_grow(&image, chance.below(4) as usize, chance.below(4) as usize);
        }
    }
    numbers
}

#[test]
fn small_volumes() {
    let mut met = [0; 13];
    for seed in 1..=24 {
        let pages = 8 + 5 * (seed as usize % 12);
        let numbers = run(pages, 500, 0x9E37_79B9_7F4A_7C15_u64.wrapping_mul(seed));
        (0..13).for_each(|n| met[n] += numbers[n]);
    }
    // A length is never wrong here, and a volume never unsound; 8 needs 256.
    let expected = [0, 2, 4, 5, 6, 7, 9, 10, 11, 12];
    assert!(expected.iter().all(|&n| met[n] > 0), "numbers met: {met:?}");
    assert_eq!((met[1], met[3]), (0, 0));
}

/// Volumes with a bit file of more than one page, most of which are held by one
/// contiguous file: what is left lies over the border of two bit pages.
#[test]
fn larger_packs() {
    for (pages, below, above, seed) in [(16_400, 16_360, 0, 5), (32_790, 32_740, 10, 6)] {
        let mut chance = Chance::new(seed);
        let mut image = dock_from(pages, 1, pages - 25);
        assert_eq!(create_contiguous(&mut image, 0, b"ABOVE", b"", 0, pages - below - above), done(0));
        assert_eq!(create_contiguous(&mut image, 0, b"BELOW", b"", 0, below - 30), done(1));
        assert_eq!(delete_file(&mut image, 0, 0), done(0));
        let mut met = [0; 13];
        for _ in 0..150 {
            let before = pair(&image, 1022);
            let (name, reply) = call(&mut image, &mut chance);
            met[reply.number as usize] += 1;
            assert_sound(&image, name);
            assert!(reply.number == 0 || pair(&image, 1022) == before);
        }
        assert!(met[0] > 25 && met[3] == 0, "numbers met: {met:?}");
    }
}

/// A file that passes 512 and 1,024 pages up and down by chance, another one
/// growing between its pages.
#[test]
fn long_files() {
    let mut chance = Chance::new(0xB10C_5107);
    let mut image = reads(1_300, 1_200, 0);
    assert_eq!(create_indexed(&mut image, 0, b"OTHER", b"", 0), done(1));
    let mut addresses: Vec<u32> = Vec::new();
    let mut longest = 0;
    for n in 0..3_000 {
        let up = if n < 1_600 { chance.below(10) < 9 } else { chance.below(10) < 1 };
        let reply = if up { grow(&mut image, 0, 0) } else { shrink(&mut image, 0, 0) };
        match (reply.number, up) {
            (0, true) => addresses.push(reply.value),
            (0, false) => drop(addresses.pop()),
            (number, _) => assert!(matches!(number, 6 | 9)),
        }
        longest = longest.max(addresses.len());
        if n % 20 == 0 {
            grow(&mut image, 0, 1);
        }
        if n % 100 == 0 {
            assert_sound(&image, "a chance length");
            let found = (0..addresses.len()).map(|p| address(&image, 0, 0, p).value);
            assert_eq!(found.collect::<Vec<u32>>(), addresses);
            assert_eq!(address(&image, 0, 0, addresses.len()), refused(4));
        }
    }
    assert!(longest > 1_024 && addresses.len() < 512);
}
