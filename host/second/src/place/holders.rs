//! The first two holders of a page that has more than one (rule 8): in document
//! 01's order of kinds, and of one kind by user, file and position.

use crate::entry::{file_pointer, object};
use crate::holder::system_holders;
use crate::image::pair;
use crate::pointer::{named, Pointer, SLOTS};
use crate::reply::{kind, Holder};
use crate::volume::all_files;

/// The first two holders of a page, where rules 1 to 7 hold; free where there
/// are fewer.
pub(super) fn first_two(image: &[u16], pages: u32, page: u32) -> [Holder; 2] {
    let mut found: Vec<Holder> = system_holders(image, page).take(2).collect();
    let mut seen = Naming::new(image, pages, page);
    for kind in [kind::FILE_SUBINDEX, kind::FILE_INDEX, kind::FILE_DATA] {
        let left = 2 - found.len();
        found.extend(seen.files(kind, left));
    }
    [0, 1].map(|n| found.get(n).copied().unwrap_or_default())
}

/// Which slots of each block name the page, and at which positions under each
/// subindex block it is. Each is found once: on a broken image all files may
/// share it.
struct Naming<'a> {
    image: &'a [u16],
    page: u32,
    blocks: Vec<Option<Vec<u32>>>,
    trees: Vec<Option<Vec<u32>>>,
}

impl<'a> Naming<'a> {
    fn new(image: &'a [u16], pages: u32, page: u32) -> Naming<'a> {
        let unknown = vec![None; pages as usize];
        let (blocks, trees) = (unknown.clone(), unknown);
        Naming {
            image,
            page,
            blocks,
            trees,
        }
    }

    /// The first files, up to so many, that hold the page as one kind of
    /// holder, with their positions.
    fn files(&mut self, kind: u32, most: usize) -> Vec<Holder> {
        if most == 0 {
            return Vec::new();
        }
        let holders = all_files(self.image).flat_map(|(user, file, entry)| {
            let positions = match kind {
                kind::FILE_SUBINDEX => self.as_subindex(entry),
                kind::FILE_INDEX => self.as_index(entry),
                _ => self.as_data(entry),
            };
            positions.into_iter().map(move |position| Holder {
                kind,
                user,
                file,
                position,
            })
        });
        holders.take(most).collect()
    }

    /// The slots of a block that name the page.
    fn slots(&mut self, block: u32) -> &[u32] {
        let (image, wanted) = (self.image, self.page);
        self.blocks[block as usize].get_or_insert_with(|| {
            let naming = named(image, block).filter(|&(_, page)| page == wanted);
            naming.map(|(slot, _)| slot).collect()
        })
    }

    /// The positions under a subindex block at which the page is.
    fn positions(&mut self, subindex: u32) -> Vec<u32> {
        if let Some(known) = &self.trees[subindex as usize] {
            return known.clone();
        }
        let mut found = Vec::new();
        for (n, block) in named(self.image, subindex) {
            found.extend(self.slots(block).iter().map(|slot| n * SLOTS + slot));
        }
        self.trees[subindex as usize] = Some(found.clone());
        found
    }

    /// 0 where the page is the file's subindex block.
    fn as_subindex(&self, entry: &[u16]) -> Vec<u32> {
        let is = file_pointer(entry) == Pointer::Subindexed(self.page);
        Vec::from_iter(is.then_some(0))
    }

    /// The file's index blocks that the page is.
    fn as_index(&mut self, entry: &[u16]) -> Vec<u32> {
        match file_pointer(entry) {
            Pointer::Indexed(block) if block == self.page => vec![0],
            Pointer::Subindexed(block) => self.slots(block).to_vec(),
            _ => Vec::new(),
        }
    }

    /// The file's positions at which the page is.
    fn as_data(&mut self, entry: &[u16]) -> Vec<u32> {
        match file_pointer(entry) {
            Pointer::Plain(first) => {
                let position = self.page.checked_sub(first);
                Vec::from_iter(position.filter(|&n| n < pair(entry, object::PAGES)))
            }
            Pointer::Indexed(block) => self.slots(block).to_vec(),
            Pointer::Subindexed(block) => self.positions(block),
            _ => Vec::new(),
        }
    }
}
