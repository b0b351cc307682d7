//! Conversion of what stands behind short names and types (document 02, T-04):
//! from zeros alone, as on old volumes, to one apostrophe and then zeros, and
//! back. It is of the volume's name and of every used entry; unused entries
//! may hold anything and are not looked at.

use crate::check::demand_sound;
use crate::entry::{ENTRIES, NAME, TYPE};
use crate::image::{page_count, VOLUME_NAME};
use crate::name::{Fill, Stored, NAME_WORDS, TYPE_WORDS};
use crate::reply::{demand, Outcome, Reply, WRONG_FILL};
use crate::volume::{file_entry, user_entry};

/// Zeros behind short names and types become one apostrophe and then zeros.
pub fn convert_to_apostrophe(image: &mut [u16]) -> Reply {
    try_convert(image, Fill::Zeros, Fill::Apostrophe).into()
}

/// And back: the apostrophe becomes a zero, too.
pub fn convert_to_zeros(image: &mut [u16]) -> Reply {
    try_convert(image, Fill::Apostrophe, Fill::Zeros).into()
}

/// All are judged before the first is written.
fn try_convert(image: &mut [u16], from: Fill, to: Fill) -> Outcome {
    let pages = page_count(image)?;
    demand_sound(image, pages)?;
    let (names, types) = places(image);
    let right = all_filled::<NAME_WORDS>(image, &names, from) && all_filled::<TYPE_WORDS>(image, &types, from);
    demand(right, WRONG_FILL)?;
    fill_all::<NAME_WORDS>(image, &names, to);
    fill_all::<TYPE_WORDS>(image, &types, to);
    Ok(0)
}

/// Where the names begin that are converted, and where the types do.
fn places(image: &[u16]) -> (Vec<usize>, Vec<usize>) {
    let (mut names, mut types) = (vec![VOLUME_NAME], Vec::new());
    for user in 0..ENTRIES {
        let Some(entry) = user_entry(image, user) else { continue };
        names.push(entry + NAME);
        for entry in (0..ENTRIES).filter_map(|file| file_entry(image, user, file)) {
            names.push(entry + NAME);
            types.push(entry + TYPE);
        }
    }
    (names, types)
}

/// Whether each field is as this fill leaves it. What has all bytes of its field
/// is so with either.
fn all_filled<const N: usize>(image: &[u16], fields: &[usize], fill: Fill) -> bool {
    let mut fields = fields.iter().map(|&at| &image[at..][..N]);
    fields.all(|field| field == Stored::read(field).filled::<N>(fill))
}

/// Writes each field anew, with this fill.
fn fill_all<const N: usize>(image: &mut [u16], fields: &[usize], fill: Fill) {
    for &at in fields {
        let field = &mut image[at..][..N];
        field.copy_from_slice(&Stored::read(field).filled::<N>(fill));
    }
}
