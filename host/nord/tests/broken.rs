//! Where an image is broken, as it is told, held to the proved library's places: whatever the library says of an image that was damaged by
//! chance, the words around the place say it too.

mod made;

use made::*;
use nord::broken::Broken;
use nord::page::Page;
use nord::volume::{Held, Holder, Kind};
use serde_json::Value;

/// What is told of an unsound image: its rule, and that the words agree with the library.
fn told(image: &[u16]) -> Option<u32> {
    let reply = proved::check(image);
    if reply.number != 3 {
        return None;
    }
    let broken = Broken::of(image, reply);
    let json = serde_json::Value::from(nord::answers::fields(broken.told()));
    let line = format!("{reply:?} {json}");
    if reply.rule == 8 {
        let both: Vec<Holder> = vec![reply.first.into(), reply.second.into()];
        assert_eq!(Held::of(image).both(reply.place.page), both, "{line}");
        return Some(8);
    }
    assert!(broken.expected().is_some_and(|words| !words.is_empty()), "{line}");
    if let (Value::Number(from), Value::Number(to)) = (&json["expected"]["from"], &json["expected"]["to"]) {
        let there = json["there"]["number"].as_u64().unwrap();
        assert!(from.as_u64().unwrap() > there || there > to.as_u64().unwrap(), "{line}");
    }
    Some(reply.rule)
}

/// The pages that some kinds of holders hold.
fn pages(image: &[u16], kinds: &[Kind]) -> Vec<u64> {
    let held = Held::of(image);
    let count = (image.len() / proved::PAGE) as u32;
    (0..count)
        .filter(|page| kinds.contains(&held.first(*page).kind))
        .map(u64::from)
        .collect()
}

/// One or two words of these pages replaced, some by words that could stand there.
fn hurt(sound: &[u16], held: &[u64], dice: &mut Dice) -> Vec<u16> {
    let mut image = sound.to_vec();
    let count = (sound.len() / proved::PAGE) as u64;
    for _ in 0..1 + dice.below(2) {
        let page = held[dice.below(held.len() as u64) as usize];
        let entry = 32 * dice.below(3);
        let words = [1008 + dice.below(16), dice.below(1024), dice.below(24), entry + dice.below(32)];
        let word = if page == 0 { words[0] } else { words[1 + dice.below(3) as usize] };
        let name = [0x4100, 0x2700, 0x4127, 0x2741, 0x5530][dice.below(5) as usize];
        let values = [dice.below(count), dice.below(40), dice.below(65536), 0, 16384, 32768, name];
        image[(page * 1024 + word) as usize] = values[dice.below(7) as usize] as u16;
    }
    image
}

#[test]
fn what_is_told_is_what_the_library_says() {
    let mut dice = Dice(3);
    let mut met = [0; 11];
    let kinds: [&[Kind]; 6] = [
        &[Kind::Master],
        &[Kind::UserIndex, Kind::UserPage],
        &[Kind::ObjectSubindex, Kind::ObjectIndex],
        &[Kind::ObjectPage],
        &[Kind::FileIndex, Kind::FileSubindex],
        &[Kind::BitFile],
    ];
    for sound in [yard16(), yard154(), many_users(), big_file()] {
        let held = kinds.map(|kinds| pages(&sound, kinds));
        for held in held.iter().filter(|held| !held.is_empty()) {
            for _ in 0..100 {
                let image = hurt(&sound, held, &mut dice);
                met[told(&image).unwrap_or(0) as usize] += 1;
            }
        }
    }
    println!("{met:?}");
    assert!(met[1..].iter().all(|count| *count >= 10), "{met:?}");
}

/// An image with some words replaced: the rule it breaks, its place, what that is, and what was expected.
fn says(sound: &[u16], words: &[(u32, u32, u16)]) -> (u32, (u32, u32), String, String) {
    let mut image = sound.to_vec();
    for (page, word, value) in words {
        image[(page * 1024 + word) as usize] = *value;
    }
    let reply = proved::check(&image);
    let broken = Broken::of(&image, reply);
    let place = (reply.place.page, reply.place.word);
    (reply.rule, place, broken.what(), broken.expected().unwrap_or_default())
}

/// The page that is this of a sound image.
fn page(image: &[u16], kind: Kind, position: u32) -> u32 {
    let such = |holder: &Holder| holder.kind == kind && holder.position == position;
    nord::volume::holders(image).iter().position(such).unwrap() as u32
}

fn is(told: (u32, (u32, u32), String, String), rule: u32, place: (u32, u32), what: &str, expected: &str) {
    assert_eq!(told, (rule, place, what.to_string(), expected.to_string()));
}

#[test]
fn places_of_users_and_the_object_file() {
    let image = many_users();
    let (subindex, first) = (page(&image, Kind::ObjectSubindex, 0), page(&image, Kind::ObjectIndex, 0));
    let (users, objects) = (page(&image, Kind::UserPage, 0), page(&image, Kind::ObjectPage, 0));
    let pointer = "object pointer, words 1016-1017 of the master block";
    let inside = "indexed or subindexed to a page in 1..299, as the user pointer is not zero";
    is(says(&image, &[(0, 1016, 0), (0, 1017, 0)]), 2, (0, 1016), pointer, inside);
    let name = "name of user 1 U0, words 1-8 of his entry";
    let own = "a name of his own: user 0 has this one";
    is(says(&image, &[(users, 33, 0x5530)]), 4, (users, 33), name, own);
    let refilled = [(users, 33, 0x5530), (users, 34, 0x0041), (users, 35, 0x2742)];
    is(says(&image, &refilled), 4, (users, 33), name, own);
    let indexed = [(0, 1016, 0x4000), (0, 1017, first as u16)];
    is(says(&image, &indexed), 5, (0, 1016), pointer, "subindexed, as there is user 64 U64");
    let slot = "slot 4 of the object subindex, words 8-9";
    is(
        says(&image, &[(subindex, 9, 7)]),
        5,
        (subindex, 8),
        slot,
        "zero, as only slots 0..3 are used",
    );
    let slot = "slot 9 of object index 0, words 18-19";
    is(
        says(&image, &[(first, 18, 1)]),
        5,
        (first, 18),
        slot,
        "zero or a page in 1..299, without flags",
    );
    let mark = "used mark of user 0 file 0, word 0 of its entry";
    let unused = "not used (bit 15 clear), as there is no user 0";
    is(says(&image, &[(users, 0, 0)]), 6, (objects, 0), mark, unused);
    let kind = "type of U0/B:?Z (user 0 file 1), words 9-10 of its entry";
    let four = "0 to 4 of A-Z, 0-9 and hyphen, a shorter one ended by an apostrophe or a zero byte";
    is(says(&image, &[(objects, 41, 0x015a)]), 6, (objects, 41), kind, four);
}

#[test]
fn places_of_a_subindexed_file() {
    let image = big_file();
    let (objects, subindex) = (page(&image, Kind::ObjectPage, 0), page(&image, Kind::FileSubindex, 0));
    let second = page(&image, Kind::FileIndex, 1);
    let of = "DOCK/LONG:DATA (user 0 file 0)";
    let slot = |n: u32| format!("slot {n} of the subindex block of {of}, words {}-{}", 2 * n, 2 * n + 1);
    is(
        says(&image, &[(subindex, 3, 0)]),
        7,
        (subindex, 2),
        &slot(1),
        "a page in 1..599, without flags",
    );
    is(
        says(&image, &[(subindex, 5, 9)]),
        7,
        (subindex, 4),
        &slot(2),
        "zero, past the file's index blocks",
    );
    let last = format!("slot 8 of index block 1 of {of}, words 16-17");
    is(
        says(&image, &[(second, 17, 9)]),
        7,
        (second, 16),
        &last,
        "zero, past the file's pages",
    );
    let pointer = format!("pointer of {of}, words 30-31 of its entry");
    let either = "for 520 pages: subindexed to a page in 1..599, or a first page in 1..80 without flags (contiguous)";
    is(says(&image, &[(objects, 30, 0x4000)]), 7, (objects, 30), &pointer, either);
    let none = [(objects, 26, 4), (objects, 27, 1), (objects, 28, 0x2000), (objects, 29, 2048)];
    is(says(&image, &none), 7, (objects, 30), &pointer, "none is right for 262145 pages");
    let empty = [(objects, 27, 0), (objects, 28, 0), (objects, 29, 0)];
    is(says(&image, &empty), 7, (objects, 30), &pointer, "zero, as the file has no pages");
    let bytes = format!("bytes of {of}, words 28-29 of its entry");
    let many = "2,048 for each of 2097672 pages, which no number of two words is";
    is(says(&image, &[(objects, 26, 32)]), 7, (objects, 28), &bytes, many);
}

/// A page of users or objects that stands twice in its file: the words belong to two entries, and are wrong to the later one alone.
#[test]
fn of_a_page_held_twice_the_one_it_is_wrong_to_is_told() {
    let mut image = many_users();
    let (index, pages) = (1, [image[1024 + 1], image[1024 + 3], image[1024 + 5]]);
    assert!(pages.iter().all(|page| *page != 0));
    image[index * 1024 + 5] = pages[1];
    let reply = proved::check(&image);
    assert_eq!((reply.number, reply.rule), (3, 4));
    let json = nord::answers::fields(Broken::of(&image, reply).told());
    assert_eq!(json["what"], "name of user 64 U32, words 1-8 of his entry");
    assert_eq!(json["expected"]["words"], "a name of his own: user 32 has this one");
}

/// Every page of noise, of ones alone, of zeros alone, and of volumes with many words replaced.
#[test]
fn any_image_is_shown_without_panic() {
    let mut dice = Dice(11);
    let small = yard16();
    let noise: Vec<u16> = (0..9 * 1024).map(|_| dice.below(65536) as u16).collect();
    let mut images = vec![noise, vec![u16::MAX; 8 * 1024], vec![0; 8 * 1024], small.clone()];
    for _ in 0..6 {
        let held: Vec<u64> = (0..7).chain([8]).collect();
        images.push((0..40).fold(small.clone(), |image, _| hurt(&image, &held, &mut dice)));
    }
    for image in &images {
        let reply = proved::check(image);
        for number in 0..(image.len() / proved::PAGE) as u32 {
            let broken = (reply.number == 3).then(|| Broken::of(image, reply));
            let page = Page::of(image, number, broken);
            let marks = page.text().lines().filter(|line| line.starts_with('>')).count();
            assert_eq!(marks, if reply.number == 3 && reply.place.page == number { 2 } else { 0 });
            assert_eq!(nord::answers::fields(page.shown())["words"].as_array().map(Vec::len), Some(1024));
            let word = dice.below(1024) as u32;
            assert!(page.word_text(word).contains(&format!("word {word} (octal {word:o})")));
            assert_eq!(nord::answers::fields(page.word_shown(word))["words"][0]["word"], word);
        }
    }
}

#[test]
fn files_that_share_a_tree_cost_little() {
    let image = shared_tree();
    let start = std::time::Instant::now();
    let held = Held::of(&image);
    let both = |page: u32| {
        held.both(page)
            .iter()
            .map(|holder| (holder.kind as u32, holder.user, holder.file, holder.position))
            .collect::<Vec<_>>()
    };
    assert_eq!(both(5000), [(8, 0, 0, 0), (8, 0, 1, 0)]);
    assert_eq!(both(5001), [(9, 0, 0, 0), (9, 0, 0, 1)]);
    assert_eq!(both(6000), [(10, 0, 0, 0), (10, 0, 0, 1)]);
    assert_eq!(both(7000), [(10, 0, 5, 6999), (10, 0, 6, 6999)]);
    assert!(held.more(5000) && held.more(6000) && held.more(7000) && !held.more(0));
    assert!(start.elapsed().as_secs() < 5, "{:?}", start.elapsed());
}

/// A full-size volume whose 2,048 object pages are one: 65,536 files, some subindexed to one block of one block, the others runs over all pages.
fn shared_tree() -> Vec<u16> {
    let mut image = volume("SHARED", 16_384);
    for n in 0..65 {
        user(&mut image, &format!("U{n}"), 0);
    }
    let subindex = usize::from(image[1017]);
    for n in 0..4 {
        image[subindex * 1024 + 2 * n + 1] = 4000;
    }
    for slot in 0..512 {
        image[4000 * 1024 + 2 * slot + 1] = 4001;
        image[5000 * 1024 + 2 * slot + 1] = 5001;
        image[5001 * 1024 + 2 * slot + 1] = 6000;
    }
    for entry in 0..32 {
        let at = 4001 * 1024 + 32 * entry;
        image[at] = 32768;
        let pointer: [u16; 2] = if entry < 5 { [32768, 5000] } else { [0, 1] };
        image[at + 26..at + 32].copy_from_slice(&[0, 16383, 0, 0, pointer[0], pointer[1]]);
    }
    image
}
