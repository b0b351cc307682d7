//! Images made to hurt the check: it must answer, and soon.

mod common;
use common::*;
use second::*;

const I: u32 = 1 << 30;
const S: u32 = 1 << 31;

/// A volume with 256 users and all 2,048 object pages, each entry a file of
/// the same pages, bytes and pointer.
fn full_of(pages: u32, pointer: u32) -> Vec<u16> {
    let mut image = volume(16_384);
    for n in 0..256 {
        assert_eq!(create_user(&mut image, &nth(n)), done(n));
    }
    let subindex = pair(&image, 1016) & !S;
    let unused = pair(&image, subindex as usize * 1024) as usize;
    image[8_192 * 1024 + unused / 16] &= !(1 << (unused % 16));
    for block in 0..4_u32 {
        let index = 100 + block;
        put_pair(&mut image, subindex as usize * 1024 + 2 * block as usize, index);
        for slot in 0..512_u32 {
            let page = 1_000 + 512 * block + slot;
            put_pair(&mut image, index as usize * 1024 + 2 * slot as usize, page);
        }
    }
    for number in 0..65_536 {
        let at = 1_000 * 1024 + 32 * number;
        image[at] = 32_768;
        image[at + 1] = 0x4100 + b'A' as u16 + (number % 16) as u16;
        image[at + 2] = 0x4141 + (number / 16 % 16) as u16;
        image[at + 16] = (number / 256) as u16;
        image[at + 17] = number as u16;
        put_pair(&mut image, at + 26, pages);
        put_pair(&mut image, at + 28, pages.wrapping_mul(2048));
        put_pair(&mut image, at + 30, pointer);
    }
    image
}

/// 65,536 files of 262,144 pages, all on two blocks and one data page.
#[test]
fn shared_blocks() {
    let mut image = full_of(262_144, S | 10_000);
    for slot in 0..512 {
        put_pair(&mut image, 10_000 * 1024 + 2 * slot, 10_001);
        put_pair(&mut image, 10_001 * 1024 + 2 * slot, 10_002);
    }
    let subindex = |file| holder(kind::FILE_SUBINDEX, 0, file, 0);
    assert_eq!(check(&image), shared(10_000, subindex(0), subindex(1)));
    // A block in a circle: the subindex block is its own index block.
    for slot in 0..512 {
        put_pair(&mut image, 10_000 * 1024 + 2 * slot, 10_000);
    }
    assert_eq!(check(&image), shared(10_000, subindex(0), subindex(1)));
    // The last file of all has a wrong shape.
    let last = 1_000 * 1024 + 32 * 65_535;
    put_pair(&mut image, last + 30, S | 16_384);
    assert_eq!(check(&image), unsound(7, 3_047, 32 * 31 + 30));
}

/// The same files, but the lowest page with two holders is a data page that
/// only the last index block of the two last files names: both are the last in
/// the order, and all blocks before are shared, too.
#[test]
fn the_last_two_holders() {
    let mut image = full_of(262_144, S | 10_000);
    for slot in 0..512 {
        put_pair(&mut image, 10_000 * 1024 + 2 * slot, 10_001);
        put_pair(&mut image, 10_001 * 1024 + 2 * slot, 10_002);
        put_pair(&mut image, 10_003 * 1024 + 2 * slot, 10_001);
        put_pair(&mut image, 10_004 * 1024 + 2 * slot, 10_002);
    }
    put_pair(&mut image, 10_003 * 1024 + 2 * 511, 10_004);
    put_pair(&mut image, 10_004 * 1024 + 2 * 511, 50);
    for number in [65_534, 65_535] {
        put_pair(&mut image, 1_000 * 1024 + 32 * number + 30, S | 10_003);
    }
    let data = |file| holder(kind::FILE_DATA, 255, file, 262_143);
    assert_eq!(check(&image), shared(50, data(254), data(255)));
}

/// Two thousand subindex blocks, each of 33 files or so, all of them over the
/// same index block; then the last file of all has a wrong slot.
#[test]
fn many_subindex_blocks() {
    let mut image = full_of(262_144, S | 4_000);
    for number in 0..65_536 {
        let block = 4_000 + number % 2_000;
        put_pair(&mut image, 1_000 * 1024 + 32 * number + 30, S | block as u32);
    }
    for page in (4_000..6_000).chain([16_000, 16_002]) {
        for slot in 0..512 {
            put_pair(&mut image, page * 1024 + 2 * slot, if page < 16_000 { 16_000 } else { 16_001 });
        }
    }
    let subindex = |user, file| holder(kind::FILE_SUBINDEX, user, file, 0);
    assert_eq!(check(&image), shared(4_000, subindex(0, 0), subindex(7, 208)));
    put_pair(&mut image, 1_000 * 1024 + 32 * 65_535 + 30, S | 16_002);
    put_pair(&mut image, 16_002 * 1024 + 1022, 0);
    assert_eq!(check(&image), unsound(7, 16_002, 1022));
}

/// 65,536 contiguous files over the whole volume.
#[test]
fn shared_runs() {
    let on_user_index = shared(1, system(kind::USER_INDEX, 0), holder(kind::FILE_DATA, 0, 0, 0));
    assert_eq!(check(&full_of(16_383, 1)), on_user_index);
    assert_eq!(check(&full_of(16_384, 1)), unsound(7, 1_000, 30));
}

/// Counts near 2^32 for all users, and nothing else wrong.
#[test]
fn great_counts() {
    let mut image = full_of(0, 0);
    for page in (100..104).chain(1_000..3_048) {
        image[8_192 * 1024 + page / 16] |= 1 << (page % 16);
    }
    let user_index = (pair(&image, 1018) & !I) as usize;
    for user in 0..256 {
        let page = pair(&image, user_index * 1024 + 2 * (user / 32)) as usize;
        put_pair(&mut image, page * 1024 + 32 * (user % 32) + 14, u32::MAX);
        put_pair(&mut image, page * 1024 + 32 * (user % 32) + 16, u32::MAX);
    }
    put_pair(&mut image, 1022, u32::MAX);
    assert_eq!(check(&image), unsound(10, 2, 16));
}

/// Images of chance words, and sound images with a few words changed.
#[test]
fn chance_words() {
    let mut chance = Chance::new(0x5EC0_17D5);
    let mut image = vec![0; 8 * 1024];
    for _ in 0..50 {
        image.fill_with(|| chance.below(65_536) as u16);
        assert_ne!(check(&image).number, 0);
        list(&bytes(&image));
    }
    let mut sound = reads(32, 12, 4);
    create_contiguous(&mut sound, 0, b"RUN", b"", 0, 3);
    let mut rules = [0; 11];
    for _ in 0..20_000 {
        let mut image = sound.clone();
        for _ in 0..=chance.below(3) {
            let page = [0, 1, 2, 3, 4, 6, 16][chance.below(7) as usize];
            let near = if page == 0 { 1008 + chance.below(16) } else { chance.below(80) };
            let value = chance.below(40) | chance.below(4) << 14;
            image[page * 1024 + near as usize] = value as u16;
        }
        let reply = check(&image);
        assert!(matches!(reply.number, 0 | 3) && (reply.number == 3) == (reply.rule > 0));
        assert_eq!(reply.rule > 0, reply.place != Place::default());
        assert_eq!(reply.rule == 8, reply.second.kind != kind::FREE);
        rules[reply.rule as usize] += 1;
        who_holds(&image, chance.below(32) as usize);
        grow(&mut image, 0, 0);
        assert_eq!(check(&image).rule, reply.rule);
    }
    assert!(rules.iter().all(|&met| met > 0), "rules met: {rules:?}");
}
