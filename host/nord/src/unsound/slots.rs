//! The slots of a block as sets. A block is looked at once, and what many files that share it ask of it costs little.

use crate::volume::SLOTS;

const WORDS: usize = SLOTS as usize / 64;

/// Some of the 512 slots of a block.
#[derive(Clone, Copy, Debug, PartialEq, Eq)]
pub struct Slots([u64; WORDS]);

impl Slots {
    /// The slots that are such.
    pub fn such(such: impl Fn(u32) -> bool) -> Slots {
        let mut set = [0; WORDS];
        for slot in (0..SLOTS).filter(|slot| such(*slot)) {
            set[slot as usize / 64] |= 1 << (slot % 64);
        }
        Slots(set)
    }

    /// Those before slot `end`.
    pub fn before(self, end: u32) -> Slots {
        self.masked(|n| below(end, n))
    }

    /// Those from slot `start` on.
    pub fn from(self, start: u32) -> Slots {
        self.masked(|n| !below(start, n))
    }

    pub fn or(self, other: Slots) -> Slots {
        Slots(std::array::from_fn(|n| self.0[n] | other.0[n]))
    }

    /// The slots that are not in the set.
    pub fn others(self) -> Slots {
        Slots(self.0.map(|word| !word))
    }

    pub fn count(&self) -> u32 {
        self.0.iter().map(|word| word.count_ones()).sum()
    }

    pub fn first(&self) -> Option<u32> {
        let word = self.0.iter().position(|word| *word != 0)?;
        Some(64 * word as u32 + self.0[word].trailing_zeros())
    }

    fn masked(self, mask: impl Fn(u32) -> u64) -> Slots {
        Slots(std::array::from_fn(|n| self.0[n] & mask(n as u32)))
    }
}

/// The slots before `end` that the n-th 64 slots have.
fn below(end: u32, n: u32) -> u64 {
    match end.saturating_sub(64 * n) {
        left @ 0..64 => (1 << left) - 1,
        _ => u64::MAX,
    }
}

/// What the slots of a block are, and the pages that they lead to.
pub struct Block {
    /// Those that lead to a page 1..P-1, and those that are not zero.
    inside: Slots,
    some: Slots,
    /// Those whose page has two holders, and those whose page's bit is clear.
    pub twice: Counted,
    pub clear: Counted,
    /// How many lead to a page.
    pub held: u32,
}

/// Some slots of a block, and how many there are: most blocks of a file are asked for all of them.
pub struct Counted {
    slots: Slots,
    count: u32,
}

impl Counted {
    pub fn of(slots: Slots) -> Counted {
        Counted {
            slots,
            count: slots.count(),
        }
    }

    pub fn before(&self, end: u32) -> Slots {
        self.slots.before(end)
    }

    /// How many there are before slot `end`.
    pub fn count_before(&self, end: u32) -> u32 {
        match end < SLOTS {
            true => self.before(end).count(),
            false => self.count,
        }
    }
}

impl Block {
    pub fn new(inside: Slots, some: Slots, twice: Slots, clear: Slots) -> Block {
        Block {
            inside,
            some,
            twice: Counted::of(twice),
            clear: Counted::of(clear),
            held: inside.count(),
        }
    }

    /// The slots that are wrong where the first `end` must lead to a page and the others must be zero.
    pub fn wrong(&self, end: u32) -> Slots {
        self.inside.others().before(end).or(self.some.from(end))
    }

    /// How many these are.
    pub fn count_wrong(&self, end: u32) -> u32 {
        match end < SLOTS {
            true => self.wrong(end).count(),
            false => SLOTS - self.held,
        }
    }

    /// The slots that are wrong where the first `end` may lead to a page and the others must be zero.
    pub fn not_allowed(&self, end: u32) -> Slots {
        let outside = self.inside.or(self.some.others()).others();
        outside.or(self.some.from(end))
    }
}

#[cfg(test)]
mod tests {
    use super::Slots;

    #[test]
    fn sets_are_cut_at_any_slot() {
        let thirds = Slots::such(|slot| slot % 3 == 0);
        for end in [0, 1, 2, 63, 64, 65, 128, 511, 512, 600, u32::MAX] {
            let (before, from) = (thirds.before(end), thirds.from(end));
            assert_eq!(before.count(), end.min(512).div_ceil(3), "{end}");
            assert_eq!((before.count() + from.count(), before.or(from)), (171, thirds), "{end}");
            assert_eq!(from.first(), (end..512).find(|slot| slot % 3 == 0), "{end}");
        }
        assert_eq!((thirds.others().count(), thirds.others().first()), (341, Some(1)));
    }
}
