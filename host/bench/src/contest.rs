//! Calls of both programs timed on one image in memory. A call that changes words has them put back outside the timed part.

use crate::answers::agreed;
use crate::calls::{ask, Call, Program, Question};
use crate::timing::{race, side, Effort, Side, Spread, Times};
use crate::volumes::Volume;
use second::image::PAGE_WORDS;
use std::cell::RefCell;
use std::hint::black_box;
use std::time::{Duration, Instant};

/// A page as it was, by the place of its first word.
pub type Kept = (usize, Vec<u16>);

/// The pages that a call changes, as they are before it. Both programs have to answer the same and to leave the same words.
fn pages_changed(image: &[u16], call: Call, q: &Question) -> Vec<Kept> {
    let (mut first, mut other) = (image.to_vec(), image.to_vec());
    let answers = (ask(Program::Proved, call, &mut first, q), ask(Program::Second, call, &mut other, q));
    assert_eq!(answers.0, answers.1, "{}: the answers differ", call.name());
    assert_eq!(answers.0.reply.number, 0, "{}: a measured call is done", call.name());
    assert!(first == other, "{}: the words differ", call.name());
    changed(image, &first)
}

/// The pages that differ, as they are in the first of two images.
pub fn changed(image: &[u16], after: &[u16]) -> Vec<Kept> {
    let pages = image.chunks_exact(PAGE_WORDS).zip(after.chunks_exact(PAGE_WORDS)).enumerate();
    let differ = pages.filter(|(_, (before, after))| before != after);
    differ.map(|(n, (before, _))| (n * PAGE_WORDS, before.to_vec())).collect()
}

/// Puts pages back as they were.
pub fn put_back(image: &mut [u16], kept: &[Kept]) {
    kept.iter()
        .for_each(|(at, page)| image[*at..*at + PAGE_WORDS].copy_from_slice(page));
}

/// A side whose work changes words: each run is timed by itself, and the pages that it changed are put back after it.
pub fn changing<'a>(image: &'a RefCell<Vec<u16>>, kept: &'a [Kept], work: impl Fn(&mut [u16]) + 'a) -> Side<'a> {
    Box::new(move |repeats| {
        let words = &mut image.borrow_mut();
        let mut spent = Duration::ZERO;
        for _ in 0..repeats {
            let start = Instant::now();
            work(black_box(words));
            spent += start.elapsed();
            put_back(words, kept);
        }
        spent
    })
}

/// A side that asks one call.
fn asking<'a>(image: &'a RefCell<Vec<u16>>, program: Program, call: Call, q: &'a Question, kept: &'a [Kept]) -> Side<'a> {
    if call.changes() {
        return changing(image, kept, move |words| {
            black_box(ask(program, call, words, q));
        });
    }
    side(move || {
        black_box(ask(program, call, black_box(&mut image.borrow_mut()), q));
    })
}

/// The proved library's and the second program's time, and their ratio.
pub struct Figures {
    pub proved: f64,
    pub second: f64,
    pub ratio: Spread,
}

/// What the first two sides of a race tell, the library's and the second program's.
pub fn figures(times: &[Times]) -> Figures {
    Figures {
        proved: Spread::of(&times[0]).median,
        second: Spread::of(&times[1]).median,
        ratio: Spread::of_ratio(&times[0], &times[1]),
    }
}

/// Times one call on a volume: both programs, and the library's check alone, in turns. Gives also the call over the check, both the library's.
pub fn contest(volume: &Volume, call: Call, effort: Effort) -> (Figures, Spread) {
    let kept = pages_changed(&volume.words, call, &volume.question);
    let image = RefCell::new(volume.words.clone());
    let q = &volume.question;
    let mut sides = vec![
        asking(&image, Program::Proved, call, q, &kept),
        asking(&image, Program::Second, call, q, &kept),
    ];
    sides.push(asking(&image, Program::Proved, Call::Check, q, &[]));
    let times = race(&mut sides, effort);
    drop(sides);
    assert!(image.into_inner() == volume.words, "{}: the image is as it was", call.name());
    (figures(&times), Spread::of_ratio(&times[0], &times[2]))
}

/// The check of words by the library, and by the second program.
fn checks(words: &[u16]) -> [Side<'_>; 2] {
    let first = side(|| {
        black_box(proved::check(black_box(words)));
    });
    let other = side(|| {
        black_box(second::check(black_box(words)));
    });
    [first, other]
}

/// Times the check alone on words that need not be sound; both programs have to say the same.
pub fn check_contest(words: &[u16], effort: Effort) -> Figures {
    agreed("a measured image", words);
    figures(&race(&mut checks(words), effort))
}

/// The same in turns with the library's check of a sound image. Gives also the check over that one, both the library's. That both programs say
/// the same has been seen.
pub fn check_beside(words: &[u16], sound: &[u16], effort: Effort) -> (Figures, Spread) {
    let [first, other] = checks(words);
    let [beside, _] = checks(sound);
    let times = race(&mut [first, other, beside], effort);
    (figures(&times), Spread::of_ratio(&times[0], &times[2]))
}

/// The library's check alone in turns with its check of a sound image: its time, and over the other.
pub fn check_over(words: &[u16], sound: &[u16], effort: Effort) -> (f64, Spread) {
    let [first, _] = checks(words);
    let [beside, _] = checks(sound);
    let times = race(&mut [first, beside], effort);
    (Spread::of(&times[0]).median, Spread::of_ratio(&times[0], &times[1]))
}
