//! What is told of a salvage, held to the library and to the walk that finds every page's holder: each page that is said to be held, or held by
//! nobody, is so, the counts are what the files hold, and what the check says a salvage can do it does.

mod made;

use made::*;
use nord::salvage::{refusal, CanMend, Mended, Overdrawn, Salvaged};
use nord::volume::{Disk, Held, Kind, ENTRIES_TO_A_PAGE};
use proved::{Change, PAGE};
use serde_json::Value;
use std::path::Path;

/// Some bits, some used counts and unreserved made wrong, and sometimes what a user was given.
fn damaged(sound: &[u16], dice: &mut Dice) -> Vec<u16> {
    let disk = Disk::new(sound);
    let mut image = sound.to_vec();
    for _ in 0..dice.below(6) {
        let place = disk.bit_place(dice.below(disk.pages().into()) as u32).unwrap();
        image[place.page as usize * PAGE + place.word as usize] = dice.below(65_536) as u16;
    }
    for (user, _) in disk.users() {
        let entry = disk.user_page(user / ENTRIES_TO_A_PAGE) as usize * PAGE + 32 * (user % 32) as usize;
        match dice.below(60) {
            0..20 => image[entry + 17] = dice.below(30) as u16,
            20..24 => image[entry + 16] = dice.below(3) as u16,
            24 => image[entry + 15] = dice.below(400) as u16,
            _ => {}
        }
    }
    if dice.below(3) == 0 {
        image[1023] = dice.below(400) as u16;
    }
    image
}

/// The pages whose bit is this and that are held, or that are not.
fn pages(image: &[u16], bit: bool, is_held: bool) -> Vec<u32> {
    let (disk, held) = (Disk::new(image), Held::of(image));
    let such = |page: &u32| disk.bit(*page) == Some(bit) && (held.first(*page).kind != Kind::Free) == is_held;
    (0..disk.pages()).filter(such).collect()
}

/// A salvage that is done: the facts are right, nothing else changes, the image is sound, and a second one has nothing to do.
fn done_right(image: &[u16], salvaged: &Salvaged) {
    let (mended, after) = (Mended::of(image, salvaged), Disk::new(&salvaged.image));
    assert_eq!(mended.held, pages(image, false, true));
    assert_eq!(mended.orphans, pages(image, true, false));
    assert_eq!(
        (mended.unreserved.old, mended.unreserved.new),
        (Disk::new(image).unreserved(), after.unreserved())
    );
    let held = Held::of(image);
    for (user, entry) in Disk::new(image).users() {
        let holds = held.count(|holder| holder.kind.of_a_file() && holder.user == user);
        let told = mended
            .users
            .iter()
            .find(|(other, _)| *other == user)
            .map(|(_, count)| (count.old, count.new));
        assert_eq!(told, (entry.used_pages() != holds).then_some((entry.used_pages(), holds)));
    }
    let mut again = image.to_vec();
    for Change { page, word, old, new } in &salvaged.changes {
        let at = *page as usize * PAGE + *word as usize;
        assert_eq!(u32::from(again[at]), *old);
        again[at] = *new as u16;
    }
    assert!(again == salvaged.image && salvaged.changes.is_sorted_by_key(|change| (change.page, change.word)));
    made::done(proved::check(&salvaged.image));
    assert!(Salvaged::of(&salvaged.image).is_ok_and(|second| second.changes.is_empty()));
}

/// What the check says of an image is what a salvage does. Gives whether it is done.
fn agrees(image: &[u16]) -> bool {
    let (check, salvaged) = (proved::check(image), Salvaged::of(image));
    if let Ok(salvaged) = &salvaged {
        done_right(image, salvaged);
    }
    match (check.number, CanMend::of(image, check), &salvaged) {
        (0, _, Ok(salvaged)) => assert!(salvaged.changes.is_empty()),
        (3, CanMend::Yes { words, .. }, Ok(salvaged)) => assert_eq!(words, salvaged.changes.len()),
        (3, CanMend::No { reply, .. }, Err(refused)) => {
            assert_eq!((reply, reply.number), (*refused, 13));
            assert!(!Overdrawn::of(image).reasons().is_empty());
            let json: Value = refusal(image, reply, Path::new("disk.img")).details.into();
            assert!(json["below_zero"] != 0 || !json["users"].as_array().unwrap().is_empty());
        }
        _ => panic!("the check and the salvage do not agree: {check:?}"),
    }
    salvaged.is_ok()
}

#[test]
fn what_is_told_is_what_the_library_does() {
    let mut dice = Dice(5);
    let sound = [volume("EMPTY", 8), yard16(), yard154(), many_users(), big_file()];
    let (mut mended, mut refused) = (0, 0);
    for round in 0..200 {
        match agrees(&damaged(&sound[round % 5], &mut dice)) {
            true => mended += 1,
            false => refused += 1,
        }
    }
    assert!(mended > 100 && refused > 5, "{mended} mended, {refused} refused");
}

#[test]
fn what_is_told_of_a_large_pack_is_what_the_library_does() {
    let mut dice = Dice(7);
    let sound = [pack(16_385), pack(37_035)];
    let mended = (0..12).filter(|round| agrees(&damaged(&sound[round % 2], &mut dice))).count();
    assert!(mended > 6, "{mended} mended");
}

/// A pack of three bit pages of which every bit below P is wrong; no bit from P on is touched.
#[test]
fn every_bit_of_a_large_pack() {
    let mut image = pack(37_035);
    let bits = Disk::new(&image).bit_file();
    let words = bits.start as usize * PAGE..bits.end as usize * PAGE;
    image[words.clone()].iter_mut().for_each(|word| *word = !*word);
    let salvaged = Salvaged::of(&image).unwrap_or_else(|reply| panic!("{reply:?}"));
    let told = salvaged.changes.iter().filter(|change| bits.contains(&change.page)).count();
    assert_eq!(told, 37_035_usize.div_ceil(16));
    let past = words.start + 37_035_usize.div_ceil(16);
    assert!(salvaged.image[past..words.end] == image[past..words.end]);
    let (word, mask) = (past - 1, u16::MAX << (37_035 % 16));
    assert_eq!((salvaged.image[word] & mask, image[word] & mask), (mask, mask));
    done_right(&image, &salvaged);
}

/// The list that is lent is long enough for a full-size volume of which every bit and every count is wrong.
#[test]
fn every_bit_and_count_of_a_full_volume() {
    let mut image = crowd();
    let disk = Disk::new(&image);
    let bits = disk.bit_file().start as usize * PAGE;
    let users: Vec<usize> = (0..8).map(|n| disk.user_page(n) as usize * PAGE).collect();
    image[bits..bits + PAGE].iter_mut().for_each(|word| *word = !*word);
    for page in users {
        (0..32).for_each(|n| (image[page + 32 * n + 16], image[page + 32 * n + 17]) = (9, 9));
    }
    (image[1022], image[1023]) = (9, 9);
    let salvaged = Salvaged::of(&image).unwrap_or_else(|reply| panic!("{reply:?}"));
    assert_eq!(salvaged.changes.len(), proved::most_changes(16_384));
    done_right(&image, &salvaged);
}
