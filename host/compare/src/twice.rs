//! Small volumes that meet rules 1 to 7 and break rule 8: one page with two holders of wanted kinds, and volumes with files of every shape,
//! also the longest, whose positions share their pages.

use crate::fills::put_name;
use crate::random::Random;
use crate::volumes::nth;
use crate::words::*;

/// The kinds of holder, by number.
const BIT_FILE: u32 = 2;
const USER_INDEX: u32 = 3;
const USER_PAGE: u32 = 4;
const OBJECT_SUBINDEX: u32 = 5;
const OBJECT_INDEX: u32 = 6;
const OBJECT_PAGE: u32 = 7;
pub const FILE_SUBINDEX: u32 = 8;
const FILE_INDEX: u32 = 9;
const FILE_DATA: u32 = 10;

/// The kinds that can hold one page, the first and the second of its holders. The master page is nobody else's; bit file, user index and
/// object subindex are one page each. No page is the user index and a file's subindex block: the user pages would be index blocks, which
/// have no used entry, and a file has a used owner.
pub fn pairs() -> Vec<(u32, u32)> {
    let all = (BIT_FILE..=FILE_DATA).flat_map(|first| (first..=FILE_DATA).map(move |second| (first, second)));
    let single = |kind| [BIT_FILE, USER_INDEX, OBJECT_SUBINDEX].contains(&kind);
    all.filter(|&(first, second)| first != second || !single(first)).filter(|&pair| pair != (USER_INDEX, FILE_SUBINDEX)).collect()
}

/// A volume whose lowest page with two holders has a first holder and a second one of these kinds.
pub fn twice(random: &mut Random, (first, second): (u32, u32)) -> Vec<u16> {
    let mut laid = Laid::new(random, [first, second]);
    laid.user_file();
    laid.object_file();
    if laid.users.is_empty() {
        return laid.image;
    }
    if laid.is(FILE_DATA) && first >= FILE_SUBINDEX && first < second && laid.random.one_in(2) {
        laid.own_block();
        return laid.image;
    }
    if laid.is(FILE_SUBINDEX) {
        laid.subindex_blocks();
    }
    if laid.is(FILE_INDEX) {
        laid.index_blocks();
    }
    if laid.is(FILE_DATA) {
        laid.data_pages();
    }
    laid.image
}

/// A volume with files of every shape that share their data pages.
pub fn long_files(random: &mut Random) -> Vec<u16> {
    let mut laid = Laid::new(random, [0, 0]);
    laid.user_file();
    laid.object_file();
    for pages in [513, 1_024, 1_100, 2_000, 1, 20, 512] {
        let pages = if laid.random.one_in(2) { pages } else { pages + laid.random.below(300) };
        laid.long_file(pages);
    }
    for pages in [1, 3] {
        let first = laid.random.between(1, laid.pages - pages);
        laid.file(pages, first);
    }
    laid.file(0, 0);
    laid.image
}

/// A volume being laid out. The page `low` is the one that is held twice; all others that are taken lie above it.
struct Laid<'a> {
    random: &'a mut Random,
    image: Vec<u16>,
    pages: u32,
    low: u32,
    kinds: [u32; 2],
    /// Pages above `low` that nobody has, shuffled.
    free: Vec<u32>,
    /// A page of zeros, and a block whose 512 slots name it.
    zeros: u32,
    full: u32,
    /// The users that are used, and the next file of each.
    users: Vec<(u32, u32)>,
    user_index: u32,
    object_block: u32,
}

impl Laid<'_> {
    fn new(random: &mut Random, kinds: [u32; 2]) -> Laid<'_> {
        let (pages, low) = (random.between(45, 90), random.between(1, 7));
        let mut free: Vec<u32> = (low + 1..pages).collect();
        random.shuffle(&mut free);
        let image = vec![0; pages as usize * PAGE];
        let mut laid =
            Laid { random, image, pages, low, kinds, free, zeros: 0, full: 0, users: Vec::new(), user_index: 0, object_block: 0 };
        (laid.zeros, laid.full) = (laid.page(), laid.page());
        laid.fill(laid.full, 0, 512);
        put_name(laid.random, &mut laid.image[VOLUME_NAME..VOLUME_NAME + 8], b"YARD");
        let bits = laid.as_kind(BIT_FILE);
        laid.put(BIT_POINTER, bits);
        laid
    }

    fn page(&mut self) -> u32 {
        self.free.pop().expect("there are pages enough")
    }

    fn is(&self, kind: u32) -> bool {
        self.kinds.contains(&kind)
    }

    /// How many of the two holders are of this kind.
    fn times(&self, kind: u32) -> u32 {
        self.kinds.iter().filter(|&&other| other == kind).count() as u32
    }

    /// The low page where it is held so, else another one.
    fn as_kind(&mut self, kind: u32) -> u32 {
        if self.is(kind) {
            self.low
        } else {
            self.page()
        }
    }

    fn put(&mut self, at: usize, value: u32) {
        put_pair(&mut self.image, at, value);
    }

    /// Slots of a block, all of which name the page of zeros.
    fn fill(&mut self, block: u32, from: u32, to: u32) {
        (from..to).for_each(|slot| self.put(slot_at(block, slot), self.zeros));
    }

    /// The user index, and two users on one page; none where the user index is a block of the object file.
    fn user_file(&mut self) {
        self.user_index = self.as_kind(USER_INDEX);
        self.put(USER_POINTER, I | self.user_index);
        if !(self.is(USER_INDEX) && (self.is(OBJECT_SUBINDEX) || self.is(OBJECT_INDEX))) {
            let page = self.page();
            self.put(slot_at(self.user_index, 0), page);
            for index in [self.random.below(8), self.random.between(8, 31)] {
                let entry = entry_at(page, index);
                self.image[entry] = 0x8000;
                put_name(self.random, &mut self.image[entry + NAME..entry + NAME + 8], &nth(index));
                self.image[entry + OWN_INDEX] = index as u16;
                self.users.push((index, self.random.below(3)));
            }
        }
        for n in 0..self.times(USER_PAGE) {
            let slot = self.random.between(1 + 3 * n, 3 + 3 * n);
            self.put(slot_at(self.user_index, slot), self.low);
        }
    }

    /// The object file: block 0, other blocks and pages as wanted, and an object page for each user.
    fn object_file(&mut self) {
        let subindexed = self.is(OBJECT_SUBINDEX) || self.is(OBJECT_INDEX) || self.random.one_in(2);
        let top = self.as_kind(OBJECT_SUBINDEX);
        self.put(OBJECT_POINTER, top | if subindexed { S } else { I });
        self.object_block = if subindexed { self.page() } else { top };
        if subindexed {
            self.put(slot_at(top, 0), self.object_block);
        }
        for n in 0..self.times(OBJECT_INDEX) {
            self.put(slot_at(top, n + 1), self.low);
        }
        for (user, _) in self.users.clone() {
            let page = self.page();
            self.put(slot_at(self.object_block, 8 * user), page);
        }
        for n in 0..self.times(OBJECT_PAGE) {
            let slot = self.random.between(256 + 100 * n, 355 + 100 * n);
            self.put(slot_at(self.object_block, slot), self.low);
        }
    }

    /// A new file of one of the users.
    fn file(&mut self, pages: u32, pointer: u32) {
        let n = self.random.below(self.users.len() as u32) as usize;
        let (user, file) = self.users[n];
        self.users[n].1 += self.random.between(1, 3);
        let number = 256 * user + file;
        let page = pair(&self.image, slot_at(self.object_block, number / 32));
        let entry = &mut self.image[entry_at(page, number)..][..32];
        entry[0] = 0x8000;
        put_name(self.random, &mut entry[NAME..NAME + 8], &nth(number));
        entry[OWNER] = user as u16;
        entry[OWN_NUMBER] = number as u16;
        put_pair(entry, PAGES, pages);
        put_pair(entry, BYTES, 2048 * pages);
        put_pair(entry, POINTER, pointer);
    }

    /// A file one of whose data pages is its own subindex or index block.
    fn own_block(&mut self) {
        let slot = self.random.below(20);
        if self.is(FILE_INDEX) {
            self.fill(self.low, 0, 20);
            self.put(slot_at(self.low, slot), self.low);
            return self.file(20, I | self.low);
        }
        let block = self.page();
        self.fill(block, 0, 20);
        self.put(slot_at(block, slot), self.low);
        self.put(slot_at(self.low, 0), self.full);
        self.put(slot_at(self.low, 1), block);
        self.file(532, S | self.low);
    }

    /// Files whose subindex block is the low page: its two blocks are full. Where it is the object file's subindex block, these are the
    /// object file's blocks, too.
    fn subindex_blocks(&mut self) {
        for slot in 0..2 {
            let block = pair(&self.image, slot_at(self.low, slot));
            if block == 0 {
                self.put(slot_at(self.low, slot), self.full);
            }
            for n in (0..512).filter(|_| block != 0) {
                if pair(&self.image, slot_at(block, n)) == 0 {
                    self.put(slot_at(block, n), self.zeros);
                }
            }
        }
        for _ in 0..self.times(FILE_SUBINDEX) {
            self.file(1_024, S | self.low);
        }
    }

    /// Files one of whose index blocks is the low page, with as many pages as its slots name. It may be a later block, or two of one file.
    fn index_blocks(&mut self) {
        if self.times(FILE_INDEX) == 2 && self.random.one_in(2) {
            self.fill(self.low, 0, 512);
            let subindex = self.subindex(&[self.low, self.low]);
            return self.file(1_024, S | subindex);
        }
        if pair(&self.image, slot_at(self.low, 0)) == 0 {
            let filled = self.random.between(1, 5);
            self.fill(self.low, 0, filled);
        }
        let filled = (0..512).take_while(|&slot| pair(&self.image, slot_at(self.low, slot)) != 0).count() as u32;
        for _ in 0..self.times(FILE_INDEX) {
            if self.random.one_in(2) {
                let subindex = self.subindex(&[self.full, self.low]);
                self.file(512 + filled, S | subindex);
            } else {
                self.file(filled, I | self.low);
            }
        }
    }

    fn subindex(&mut self, blocks: &[u32]) -> u32 {
        let subindex = self.page();
        (0..).zip(blocks).for_each(|(slot, &block)| self.put(slot_at(subindex, slot), block));
        subindex
    }

    /// Files one of whose data pages is the low page, or a file that has it twice.
    fn data_pages(&mut self) {
        if self.times(FILE_DATA) == 2 && self.random.one_in(3) {
            let (one, two) = (self.random.below(10), self.random.between(10, 19));
            return self.data_page(&[one, two]);
        }
        for n in 0..self.times(FILE_DATA) {
            if n == 0 && self.random.one_in(3) {
                let (first, more) = (self.random.between(1, self.low), self.random.below(3));
                self.file(self.low + 1 - first + more, first);
            } else {
                let slot = self.random.below(20);
                self.data_page(&[slot]);
            }
        }
    }

    /// An indexed or subindexed file with the low page in these slots of its last block.
    fn data_page(&mut self, slots: &[u32]) {
        let block = self.page();
        self.fill(block, 0, 20);
        slots.iter().for_each(|&slot| self.put(slot_at(block, slot), self.low));
        if self.random.one_in(2) {
            return self.file(20, I | block);
        }
        let subindex = self.subindex(&[self.full, block]);
        self.file(532, S | subindex);
    }

    /// A file of so many pages, its data pages by chance, its blocks its own.
    fn long_file(&mut self, pages: u32) {
        let blocks: Vec<u32> = (0..pages.div_ceil(512)).map(|_| self.page()).collect();
        for n in 0..pages {
            let data = self.random.between(1, self.pages - 1);
            self.put(slot_at(blocks[n as usize / 512], n % 512), data);
        }
        if pages <= 512 {
            return self.file(pages, I | blocks[0]);
        }
        let subindex = self.subindex(&blocks);
        self.file(pages, S | subindex);
    }
}

#[cfg(test)]
mod tests {
    use super::*;

    /// The wanted holders are the first two of the lowest page, as the second program has it.
    #[test]
    fn each_pair_is_told() {
        let mut random = Random::of_round(3, 0);
        assert_eq!(pairs().len(), 41);
        for pair in pairs().into_iter().flat_map(|pair| [pair; 8]) {
            let reply = second::check(&twice(&mut random, pair));
            assert_eq!((reply.rule, reply.first.kind, reply.second.kind), (8, pair.0, pair.1), "{reply:?}");
        }
    }

    #[test]
    fn long_files_break_rule_8_alone() {
        let mut random = Random::of_round(4, 0);
        (0..20).for_each(|_| assert_eq!(second::check(&long_files(&mut random)).rule, 8));
    }
}
