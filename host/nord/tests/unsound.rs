//! What is doubtful, held to the proved library: an image has a doubt exactly when the library calls it unsound, and the first doubt of the lowest
//! broken rule is at the library's place. Nothing panics on any image, and hostile ones cost little.

#[path = "made/cases.rs"]
mod cases;
#[path = "made/hostile.rs"]
mod hostile;
mod made;

use cases::cases;
use hostile::shared_tree;
use made::*;
use nord::map::{draw, write, Drawing};
use nord::rescue::choose;
use nord::unsound::{drawn, twins, Broken, Contents, Doubt, Judge, Listing, Who};
use nord::volume;
use std::path::Path;
use std::time::Instant;

/// All doubts of an image: the volume's, then each user's and his files'.
fn doubts(judge: &Judge) -> Vec<Doubt> {
    let mut doubts = judge.volume_doubts();
    for user in 0..256 {
        let files = judge.files(user);
        let entry = judge.disk.user(user);
        doubts.extend(entry.iter().flat_map(|entry| judge.user_doubts(user, entry, &files)));
    }
    for user in 0..256 {
        let twins = twins(&judge.disk, user);
        doubts.extend(judge.files(user).iter().flat_map(|file| judge.doubts(file, &twins)));
    }
    doubts
}

/// The lowest broken rule, or 0, which doubts and library have to agree on.
fn agreed(image: &[u16], name: &str) -> u32 {
    let reply = proved::check(image);
    let judge = Judge::of(image);
    let doubts = doubts(&judge);
    let rule = doubts.iter().map(|doubt| doubt.rule).min().unwrap_or(0);
    assert_eq!(rule, reply.rule, "{name}: {reply:?} {doubts:?}");
    let of_rule: Vec<&Doubt> = doubts.iter().filter(|doubt| doubt.rule == rule).collect();
    // With rules 8 and 9 the library tells the lowest page of all, and here it is the first page of each file. Rule 10 has the users before the sum.
    let first = match rule {
        10 => of_rule.iter().find(|doubt| doubt.place.page > 0).or(of_rule.first()),
        _ => of_rule.first(),
    };
    if !matches!(rule, 8 | 9) {
        assert_eq!(
            first.map_or(Default::default(), |doubt| doubt.place),
            reply.place,
            "{name}: {doubts:?}"
        );
    }
    let listing = Listing::of(&judge, Broken::of(reply));
    assert_eq!(listing.doubtful() > 0, reply.number == 3, "{name}");
    rule
}

/// Everything that is shown of an image, which must not panic; each file is either chosen or left.
fn shown(image: &[u16], pages: &[u32]) -> usize {
    let (judge, broken) = (Judge::of(image), Broken::of(proved::check(image)));
    let volume = volume::of(&judge.disk);
    let drawing = Drawing {
        volume: &volume,
        pages: drawn(&judge),
        unsound: Some(broken.line()),
    };
    let length = write(&drawing, 80, true).len() + draw(&drawing).len() + Listing::of(&judge, broken).text().len();
    let who: usize = pages.iter().map(|page| Who::of(&judge, broken, *page).text().len()).sum();
    let choice = choose(&judge, Path::new("files"));
    let files = (0..256).map(|user| judge.files(user).len()).sum::<usize>();
    assert_eq!(choice.chosen.len() + choice.left.len(), files);
    for chosen in &choice.chosen {
        assert_eq!(chosen.copy.pages.len() as u32, chosen.file.entry.pages());
    }
    length + who
}

#[test]
fn a_case_has_doubts_exactly_when_it_is_unsound() {
    let mut met = [0; 11];
    for case in cases(proved::MOST_PAGES) {
        met[agreed(&case.image, &case.name) as usize] += 1;
        if case.image.len() <= 2000 * proved::PAGE {
            assert!(shown(&case.image, &[0, 1, 5, 7]) > 0);
        }
    }
    println!("{met:?}");
    assert!(met.iter().all(|count| *count >= 3), "{met:?}");
}

/// A word or two replaced, some by words that could stand there: of any page that is no file's data, more often of the first entries and slots.
fn hurt(sound: &[u16], blocks: &[usize], dice: &mut Dice) -> Vec<u16> {
    let mut image = sound.to_vec();
    let count = (sound.len() / proved::PAGE) as u64;
    for _ in 0..1 + dice.below(2) {
        let page = blocks[dice.below(blocks.len() as u64) as usize];
        let word = match page {
            0 => 1008 + dice.below(16),
            _ => [dice.below(1024), dice.below(24), 32 * dice.below(3) + dice.below(32)][dice.below(3) as usize],
        };
        let values = [
            dice.below(count),
            dice.below(40),
            dice.below(65536),
            0,
            16384,
            32768,
            0x4100,
            0x2741,
        ];
        image[page * proved::PAGE + word as usize] = values[dice.below(8) as usize] as u16;
    }
    image
}

/// The pages that are no data of files.
fn blocks(image: &[u16]) -> Vec<usize> {
    let held = volume::holders(image);
    let is_block = |page: &usize| !matches!(held[*page].kind, volume::Kind::Free | volume::Kind::FileData);
    (0..held.len()).filter(is_block).collect()
}

#[test]
fn a_hurt_image_has_doubts_exactly_when_it_is_unsound() {
    let (mut dice, mut met) = (Dice(7), [0; 11]);
    for sound in [yard16(), yard154(), many_users(), big_file()] {
        let blocks = blocks(&sound);
        assert_eq!(agreed(&sound, "sound"), 0);
        for round in 0..400 {
            let image = hurt(&sound, &blocks, &mut dice);
            met[agreed(&image, &format!("round {round}")) as usize] += 1;
        }
    }
    println!("{met:?}");
    assert!(met.iter().all(|count| *count >= 10), "{met:?}");
}

#[test]
fn any_image_is_shown() {
    let mut dice = Dice(11);
    let small = yard16();
    let noise: Vec<u16> = (0..9 * 1024).map(|_| dice.below(65536) as u16).collect();
    let mut images = vec![noise, vec![u16::MAX; 8 * 1024], vec![0; 8 * 1024], small.clone()];
    let held: Vec<usize> = (0..7).chain([8]).collect();
    for _ in 0..200 {
        images.push((0..20).fold(small.clone(), |image, _| hurt(&image, &held, &mut dice)));
    }
    for image in &images {
        let all: Vec<u32> = (0..20).chain([u32::MAX]).collect();
        assert!(shown(image, &all) > 0);
        let (judge, broken) = (Judge::of(image), Broken::of(proved::check(image)));
        for name in ["@0/@0", "@0/@1", "@3/@7", "@300/@0", "@0/@4294967295", "DOCK/READS:DATA", "DOCK/X"] {
            if let Ok(contents) = Contents::of(&judge, broken, &name.parse().unwrap()) {
                assert_eq!(contents.data.len(), 2048 * contents.pages() as usize, "{name}");
                assert!(contents.lines().len() > 1);
            }
        }
    }
}

#[test]
fn files_that_share_a_tree_cost_little() {
    for (pages, of_a_file) in [(16_384, 16_383), (16_384, 262_144), (proved::MOST_PAGES, 140_732)] {
        let image = shared_tree(pages, of_a_file);
        let start = Instant::now();
        let judge = Judge::of(&image);
        let broken = Broken::of(proved::check(&image));
        assert_eq!(choose(&judge, Path::new("files")).left.len(), 65_536);
        assert!(Listing::of(&judge, broken).doubtful() > 65_536);
        let contents = Contents::of(&judge, broken, &"@255/@255".parse().unwrap()).ok();
        let readable = (of_a_file < pages as u32).then_some(of_a_file as usize * 2048);
        assert_eq!(contents.map(|contents| contents.data.len()), readable);
        println!("{pages} pages, {of_a_file} of a file: {:?}", start.elapsed());
        assert!(start.elapsed().as_secs() < 40, "{:?}", start.elapsed());
    }
}
