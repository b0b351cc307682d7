//! What a salvage does and what is in the way of one. The proved library mends and tells the words that it changes, or refuses with a number:
//! which pages, users and counts these words are is found in the image before and after.

mod can_mend;
pub mod mended;
mod orphans;
mod overdrawn;
mod page_list;
mod refused;

pub use can_mend::CanMend;
pub use mended::Mended;
pub use orphans::{copy_out, file_name, CopiedOut};
pub use overdrawn::Overdrawn;
pub use refused::refusal;

use proved::{Change, Reply, PAGE};

/// What the library leaves of an image, and every word that it has changed, in ascending place.
pub struct Salvaged {
    pub image: Vec<u16>,
    pub changes: Vec<Change>,
}

impl Salvaged {
    /// Salvages a copy, with as long a list as any volume of this size needs.
    pub fn of(image: &[u16]) -> Result<Salvaged, Reply> {
        let mut changes = vec![Change::default(); proved::most_changes(image.len() / PAGE)];
        let mut copy = image.to_vec();
        let reply = proved::salvage(&mut copy, &mut changes);
        changes.truncate(reply.value as usize);
        match reply.number {
            0 => Ok(Salvaged { image: copy, changes }),
            _ => Err(reply),
        }
    }
}
