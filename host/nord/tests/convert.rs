//! What is told of a conversion, held to the proved library: each name that is said to be in the way is, there are as many as it says, and what is
//! said to have changed has.

mod made;

use made::*;
use nord::answers::Call;
use nord::args::Ending;
use nord::convert::{Changed, InTheWay};
use nord::volume::{Disk, Whose};
use proved::{Place, Reply};
use serde_json::Value;
use std::path::Path;

const BOTH: [Ending; 2] = [Ending::Apostrophe, Ending::Zeros];

fn convert(image: &mut [u16], to: Ending) -> Reply {
    match to {
        Ending::Apostrophe => proved::convert_to_apostrophe(image),
        Ending::Zeros => proved::convert_to_zeros(image),
    }
}

/// What stands behind the name of a field is made this, then zeros; the name stays.
fn refill(image: &mut [u16], Place { page, word }: Place, words: usize, behind: &[u8]) {
    let field = &mut image[page as usize * proved::PAGE + word as usize..][..words];
    let mut bytes = nord::store::bytes(field);
    let end = bytes.iter().position(|byte| matches!(byte, 0 | b'\'')).unwrap();
    let zeros = std::iter::repeat(&0);
    bytes[end..]
        .iter_mut()
        .zip(behind.iter().chain(zeros))
        .for_each(|(byte, new)| *byte = *new);
    field.copy_from_slice(&nord::store::words(&bytes));
}

/// Some short names of the image with other fills.
fn mixed(image: &[u16], dice: &mut Dice) -> Vec<u16> {
    const FILLS: [&[u8]; 8] = [b"", b"", b"", b"'", b"'", b"''", b"\0S", b"'\0\0\0OLD"];
    let mut mixed = image.to_vec();
    let disk = Disk::new(image);
    for short in disk.shorts().iter().filter(|_| dice.below(3) == 0).collect::<Vec<_>>() {
        let words = if matches!(short.whose, Whose::Type(..)) { 2 } else { 8 };
        let behind = FILLS[dice.below(8) as usize];
        refill(&mut mixed, disk.name_place(short.whose), words, behind);
    }
    mixed
}

/// What is told of the name or type that is in the way, if one is.
fn told(image: &[u16], to: Ending, reply: Reply) -> Option<Value> {
    let found = InTheWay::of(image, to)?;
    Some(found.refusal(reply, Call::ToZeros, Path::new("disk.img")).details.into())
}

/// Puts it right, at the place that is told.
fn mend(image: &mut [u16], to: Ending, told: &Value) {
    let number = |key: &str| told[key].as_u64().unwrap() as u32;
    let place = Place {
        page: number("page"),
        word: number("word"),
    };
    let words = if told["field"] == "type" { 2 } else { 8 };
    refill(image, place, words, if to == Ending::Zeros { b"'" } else { b"" });
}

/// How many bytes a conversion that is done changes.
fn changed(image: &mut [u16], to: Ending) -> usize {
    let before = nord::store::bytes(image);
    done(convert(image, to));
    let after = nord::store::bytes(image);
    before.iter().zip(&after).filter(|(before, after)| before != after).count()
}

/// The library refuses as long as something is told to be in the way, which is put right one after the other, and then converts. Gives how many
/// there were.
fn agrees(mut image: Vec<u16>, to: Ending) -> u64 {
    let all = InTheWay::of(&image, to).map_or(0, |found| found.count() as u64);
    for left in (1..=all).rev() {
        let mut after = image.clone();
        let reply = convert(&mut after, to);
        assert!(reply.number == 12 && after == image);
        let told = told(&image, to, reply).expect("a name in the way");
        assert_eq!(told["in_the_way"], left, "{told}");
        mend(&mut image, to, &told);
    }
    assert!(InTheWay::of(&image, to).is_none());
    let changed = changed(&mut image, to);
    assert_eq!(Changed::of(&image).answer(to).json[0]["changed"], changed);
    all
}

#[test]
fn what_is_told_is_what_the_library_does() {
    let mut dice = Dice(4);
    let sound = [volume("EMPTY", 8), yard16(), yard154(), many_users()];
    let mut refused = 0;
    for round in 0..96 {
        let image = mixed(&sound[round / 2 % 4], &mut dice);
        done(proved::check(&image));
        refused += u32::from(agrees(image, BOTH[round % 2]) > 0);
    }
    assert!((60..96).contains(&refused), "{refused} of 96 are refused");
}
