//! Volumes to begin with: formatted ones, long files and many users by the second program's calls (which are quick), and the ends of what
//! an image can be. Behind their names stands what the calls write, the zeros of old volumes, or anything.

use crate::fills::{put_name, refilled};
use crate::random::Random;
use crate::scene::Scene;
use crate::words::*;

/// Pages of the largest volume whose words are all by chance. Of a larger one every so many pages are, and those where bit pages mostly are or
/// meet; the others are zero, as each word by chance would cost more than the calls on it.
const DENSE: u32 = 17_000;
const SOME: usize = 64;

/// An image of words by chance.
pub fn by_chance(random: &mut Random, pages: u32) -> Vec<u16> {
    let mut image = vec![0; pages as usize * PAGE];
    if pages <= DENSE {
        random.fill(&mut image);
        return image;
    }
    let borders = (0..=bit_pages(pages)).map(|n| (n * TO_A_BIT_PAGE).min(pages));
    let near: Vec<u32> = borders.chain([pages / 2]).collect();
    let is_written = |page: usize| page.is_multiple_of(SOME) || near.iter().any(|&border| page.abs_diff(border as usize) < 16);
    let written = image.chunks_mut(PAGE).enumerate().filter(|(page, _)| is_written(*page));
    written.for_each(|(_, words)| random.fill(words));
    image
}

/// The same, or zeros.
pub fn blank(random: &mut Random, pages: u32) -> Vec<u16> {
    match random.one_in(4) {
        true => vec![0; pages as usize * PAGE],
        false => by_chance(random, pages),
    }
}

/// A name for the n-th thing of a volume.
pub fn nth(n: u32) -> Vec<u8> {
    format!("N-{n}").into_bytes()
}

/// A legal name of 1 to 16 bytes; its first bytes tell the number, so names of two numbers differ.
pub fn some_name(random: &mut Random, number: u32) -> Vec<u8> {
    const LEGAL: &[u8] = b"ABCDEFGHIJKLMNOPQRSTUVWXYZ0123456789-";
    let mut name = vec![LEGAL[number as usize % 37], LEGAL[number as usize / 37]];
    if number < 37 && random.one_in(2) {
        return name[..1].to_vec();
    }
    for _ in 0..random.below(15) {
        name.push(*random.pick(LEGAL));
    }
    name
}

/// A setting-up call must be done: the makers ask only for what there is room for.
fn must(reply: second::Reply) -> usize {
    assert_eq!(reply.number, 0, "a volume could not be made");
    reply.value as usize
}

/// A formatted volume of chance words.
pub fn formatted(random: &mut Random, pages: u32) -> Vec<u16> {
    let mut image = blank(random, pages);
    let bit_page = if random.one_in(3) { None } else { Some(random.between(1, last_bit_start(pages)) as usize) };
    must(second::format(&mut image, b"YARD", bit_page));
    refilled(random, &mut image);
    image
}

/// The same with one user who was given all but a few pages.
pub fn with_owner(random: &mut Random, pages: u32, keep: u32) -> Vec<u16> {
    let mut image = formatted(random, pages);
    must(second::create_user(&mut image, b"DOCK"));
    let rest = pair(&image, UNRESERVED);
    must(second::give(&mut image, 0, (rest - keep.min(rest - 1)) as usize));
    refilled(random, &mut image);
    image
}

/// A volume whose file 0 of user 0 has so many pages, with a shorter file whose pages lie between its own.
pub fn with_long_file(random: &mut Random, pages: u32, length: u32) -> Vec<u16> {
    let mut image = with_owner(random, pages, 4);
    must(second::create_indexed(&mut image, 0, b"LONG", b"DATA", 0));
    must(second::create_indexed(&mut image, 0, b"SHORT", b"", 0));
    for n in 0..length {
        must(second::grow(&mut image, 0, 0));
        if n % 100 == 50 {
            must(second::grow(&mut image, 0, 1));
        }
    }
    refilled(random, &mut image);
    image
}

/// A volume with so many users.
pub fn with_users(random: &mut Random, pages: u32, users: u32) -> Vec<u16> {
    let mut image = formatted(random, pages);
    for n in 0..users {
        must(second::create_user(&mut image, &nth(n)));
    }
    refilled(random, &mut image);
    image
}

/// A volume with three users. User 0 has an indexed file of two pages, an empty one and a contiguous one; the first two have one name. There
/// is room for more files, and for each to grow.
pub fn with_names(random: &mut Random, pages: u32) -> Vec<u16> {
    let mut image = formatted(random, pages);
    for name in [b"DOCK" as &[u8], b"RAMS-AND-EWES", b"SIXTEEN-LETTERS-"] {
        must(second::create_user(&mut image, name));
    }
    must(second::give(&mut image, 0, 8));
    must(second::give(&mut image, 1, 2));
    must(second::create_indexed(&mut image, 0, b"READS", b"DATA", 0));
    must(second::create_indexed(&mut image, 0, b"READS", b"TX", 0));
    must(second::create_contiguous(&mut image, 0, b"RUN", b"", 0, 1));
    for _ in 0..2 {
        must(second::grow(&mut image, 0, 0));
    }
    refilled(random, &mut image);
    image
}

/// A volume with entries on three user pages and three object pages, the last of them under a second index block: 64 users, of whom 0 and 65
/// have files. Some entries between are unused. Names and types are of any length. It takes 26 pages at least.
pub fn with_entries(random: &mut Random, pages: u32) -> Vec<u16> {
    let mut image = formatted(random, pages);
    for n in 0..66 {
        must(second::create_user(&mut image, &some_name(random, n)));
    }
    for (user, files) in [(0, 34), (65, 3)] {
        must(second::give(&mut image, user, 4));
        for n in 0..files {
            let kind = &b"TYPE"[..random.below(5) as usize];
            must(second::create_indexed(&mut image, user, &some_name(random, n), kind, n));
        }
        must(second::grow(&mut image, user, 0));
        must(second::create_contiguous(&mut image, user, b"RUN", b"", 0, 1));
        must(second::delete_file(&mut image, user, 1));
    }
    for user in [3, 40] {
        must(second::delete_user(&mut image, user));
    }
    refilled(random, &mut image);
    image
}

/// A volume whose user 0 has so many files, some of them with pages.
pub fn with_files(random: &mut Random, pages: u32, files: u32) -> Vec<u16> {
    let mut image = with_owner(random, pages, 9);
    for n in 0..files {
        let file = must(second::create_indexed(&mut image, 0, &nth(n), b"X", n));
        if n % 8 == 0 && pages > 100 {
            must(second::grow(&mut image, 0, file));
        }
    }
    refilled(random, &mut image);
    image
}

/// 256 users and all 2,048 object pages, each entry a file of the same pages, bytes and pointer: what costs a check most. The object file
/// has new blocks, whose bits and counts are not yet right.
pub fn full_of_entries(random: &mut Random, length: u32, pointer: u32) -> Vec<u16> {
    let mut image = vec![0; 16_384 * PAGE];
    must(second::format(&mut image, b"YARD", None));
    for n in 0..256 {
        must(second::create_user(&mut image, &nth(n)));
    }
    let subindex = pair(&image, OBJECT_POINTER) & !S;
    for n in 0..2_048 {
        put_pair(&mut image, slot_at(subindex, n / 512), 100 + n / 512);
        put_pair(&mut image, slot_at(100 + n / 512, n % 512), 1_000 + n);
    }
    for number in 0..65_536 {
        let entry = &mut image[1_000 * PAGE + 32 * number..][..32];
        entry[0] = 0x8000;
        put_name(random, &mut entry[NAME..NAME + 8], &nth(number as u32 % 256));
        entry[OWNER] = (number / 256) as u16;
        entry[OWN_NUMBER] = number as u16;
        put_pair(entry, PAGES, length);
        put_pair(entry, BYTES, length.wrapping_mul(2048));
        put_pair(entry, POINTER, pointer);
    }
    image
}

/// A sound volume with 256 users who have 256 empty files each.
pub fn all_files(random: &mut Random) -> Vec<u16> {
    let mut image = full_of_entries(random, 0, 0);
    let scene = Scene::read(&image);
    let system = [0, scene.user_index, scene.object_block].into_iter().chain(scene.bit_run());
    let blocks = scene.user_pages.iter().chain(&scene.object_indexes).chain(&scene.object_pages).map(|&(_, page)| page);
    let held: Vec<u32> = system.chain(blocks).collect();
    scene.bit_run().for_each(|page| image[page as usize * PAGE..][..PAGE].fill(0));
    for &page in &held {
        image[scene.bit_at(page)] |= 1 << (page % 16);
    }
    put_pair(&mut image, UNRESERVED, scene.pages - held.len() as u32);
    image
}

/// Two blocks that every file of `full_of_entries` with 262,144 pages and the pointer `S | 10_000` shares; in a circle, the first is its own index block.
pub fn shared_blocks(image: &mut [u16], circle: bool) {
    for slot in 0..512 {
        put_pair(image, slot_at(10_000, slot), if circle { 10_000 } else { 10_001 });
        put_pair(image, slot_at(10_001, slot), 10_002);
    }
}

/// Gives the last two files of such a volume a tree of their own, whose last position alone is this page.
pub fn last_two(image: &mut [u16], page: u32) {
    for slot in 0..512 {
        put_pair(image, slot_at(10_003, slot), 10_001);
        put_pair(image, slot_at(10_004, slot), 10_002);
    }
    put_pair(image, slot_at(10_003, 511), 10_004);
    put_pair(image, slot_at(10_004, 511), page);
    for number in [65_534, 65_535] {
        put_pair(image, 1_000 * PAGE + 32 * number + POINTER, S | 10_003);
    }
}
