//! Who holds a page of a sound image.

use crate::arguments;
use crate::bits::is_reserved;
use crate::check::demand_sound;
use crate::entry::{ENTRIES, ENTRIES_TO_A_PAGE};
use crate::image::page_count;
use crate::pointer::{Pointer, SLOTS};
use crate::reply::{kind, Holder, HolderReply, Refusal, Reply};
use crate::volume::{all_files, bit_run, bits, file_pages, object_index, object_page, object_pointer, user_page, user_pointer, Role};

/// The holder of a page, or that it is free.
pub fn who_holds(image: &[u16], page: usize) -> HolderReply {
    let (reply, holder) = match try_who_holds(image, page) {
        Ok(holder) => (Reply::default(), holder),
        Err(refusal) => (refusal.into(), Holder::default()),
    };
    HolderReply { reply, holder }
}

fn try_who_holds(image: &[u16], page: usize) -> Result<Holder, Refusal> {
    let pages = page_count(image)?;
    let page = arguments::page(page, pages)?;
    demand_sound(image, pages)?;
    if !is_reserved(bits(image), page) {
        return Ok(Holder::default());
    }
    let holder = system_holders(image, page).next().or_else(|| file_holder(image, page));
    Ok(holder.unwrap_or_default())
}

/// The system's holders of a page, by kind and position; on a sound image there
/// is one at most.
pub(crate) fn system_holders(image: &[u16], page: u32) -> impl Iterator<Item = Holder> + '_ {
    let is = |kind, held: bool| at(kind, u32::from(held), |_| true);
    let bit_run = bit_run(image);
    is(kind::MASTER, page == 0)
        .chain(at(kind::BIT_FILE, bit_run.len() as u32, move |n| bit_run.start + n == page))
        .chain(is(kind::USER_INDEX, user_pointer(image) == Pointer::Indexed(page)))
        .chain(at(kind::USER_PAGE, ENTRIES / ENTRIES_TO_A_PAGE, move |n| {
            user_page(image, n) == Some(page)
        }))
        .chain(is(kind::OBJECT_SUBINDEX, object_pointer(image) == Pointer::Subindexed(page)))
        .chain(at(kind::OBJECT_INDEX, 4, move |n| object_index(image, n) == Some(page)))
        .chain(at(kind::OBJECT_PAGE, 4 * SLOTS, move |n| object_page(image, n) == Some(page)))
}

/// A system's holder for each of so many positions that holds the page.
fn at(kind: u32, positions: u32, holds: impl Fn(u32) -> bool) -> impl Iterator<Item = Holder> {
    (0..positions).filter(move |&n| holds(n)).map(move |position| Holder {
        kind,
        position,
        ..Holder::default()
    })
}

/// The file that holds a page of a sound image.
fn file_holder(image: &[u16], page: u32) -> Option<Holder> {
    all_files(image).find_map(|(user, file, entry)| {
        let held = file_pages(image, entry);
        let &(_, role, position) = held.iter().find(|&&(number, ..)| number == page)?;
        let kind = match role {
            Role::Subindex => kind::FILE_SUBINDEX,
            Role::Index => kind::FILE_INDEX,
            Role::Data => kind::FILE_DATA,
        };
        Some(Holder {
            kind,
            user,
            file,
            position,
        })
    })
}
