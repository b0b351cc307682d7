//! Names that fall into few slots of the library's table of stamps (crates/heads/src/stamps.rt, twins.rt): about the worst it can be given,
//! since a name whose two slots were both met is compared with all before it. The files have one name and differ in their types alone, so that
//! each comparison is long too. Name and types fill their fields: no apostrophe ends them, and no slot depends on a fill.

use second::name::{pack, NAME_WORDS, TYPE_WORDS};

/// The name they all have.
pub const COMMON: &[u8; 16] = b"SAME-NAME-FOR-US";

const LETTERS: &[u8; 37] = b"ABCDEFGHIJKLMNOPQRSTUVWXYZ0123456789-";

/// As few slots as leave 256 types of four bytes.
const FEW: u32 = 48;

/// The library's number of some words, going on from another number.
fn hash(from: u32, words: &[u16]) -> u32 {
    words
        .iter()
        .fold(from, |h, &word| h.wrapping_add(u32::from(word)).wrapping_mul(1_597_334_677))
}

/// The two slots of the common name with a type.
fn slots(from: u32, kind: &[u8]) -> (u32, u32) {
    let number = hash(from, &pack::<TYPE_WORDS>(kind));
    (number >> 8 & 4_095, number >> 20)
}

/// The n-th type of four bytes.
fn kind(n: usize) -> Vec<u8> {
    [37 * 37 * 37, 37 * 37, 37, 1].iter().map(|place| LETTERS[n / place % 37]).collect()
}

/// So many types that fall into few slots with the common name.
pub fn of_few_slots(count: usize) -> Vec<Vec<u8>> {
    let from = hash(0, &pack::<NAME_WORDS>(COMMON));
    let few = |kind: &Vec<u8>| slots(from, kind).0 < FEW && slots(from, kind).1 < FEW;
    (0..37usize.pow(4)).map(kind).filter(few).take(count).collect()
}

/// So many types in their order, which fall into slots as it comes.
pub fn in_order(count: usize) -> Vec<Vec<u8>> {
    (0..count).map(kind).collect()
}

#[cfg(test)]
mod tests {
    use super::*;

    /// How many of some types find both their slots met by those before.
    fn met(kinds: &[Vec<u8>]) -> usize {
        let from = hash(0, &pack::<NAME_WORDS>(COMMON));
        let mut seen = [false; 4096];
        let mut meet = |slot: u32| std::mem::replace(&mut seen[slot as usize], true);
        kinds
            .iter()
            .map(|kind| slots(from, kind))
            .filter(|&(low, high)| {
                let low = meet(low);
                meet(high) && low
            })
            .count()
    }

    #[test]
    fn most_of_256_types_are_met() {
        assert_eq!(of_few_slots(256).len(), 256);
        assert!(met(&of_few_slots(256)) > 180);
        assert!(met(&in_order(256)) < 10);
    }
}
