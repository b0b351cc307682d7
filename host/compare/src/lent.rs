//! The slices that a script is lent in: its steps as numbers, with the places of their names, types and data in one text and one row of
//! words.

use crate::calls::Call;
use crate::script::{used, Asked, Part};
use crate::words::PAGE;
use proved::call as number;

/// What is not used of a step: a run that looked at it would go wrong.
const UNUSED: u32 = u32::MAX;

/// The slices of a script.
pub struct Lent {
    pub steps: Vec<proved::Step>,
    pub text: Vec<u8>,
    pub data: Vec<u16>,
}

impl Lent {
    /// Each name, type and page of data once, and the steps with their places.
    pub fn of(script: &[Asked]) -> Lent {
        let (mut text, mut data) = (Vec::new(), Vec::new());
        for call in script.iter().map(Asked::call) {
            let (name, kind, page) = parts(call);
            put(&mut text, name);
            put(&mut text, kind);
            put(&mut data, &page);
        }
        let steps = script.iter().map(|asked| step(asked, &text, &data)).collect();
        Lent { steps, text, data }
    }
}

fn step(asked: &Asked, text: &[u8], data: &[u16]) -> proved::Step {
    match asked {
        Asked::NoCall { number, call } => proved::Step { call: *number, ..step_of(call, text, data) },
        Asked::Call(_) | Asked::Salvage => step_of(asked.call(), text, data),
        Asked::Outside { part, past, call } => {
            let mut step = step_of(call, text, data);
            match part {
                Part::Name => step.name_at = outside(text.len(), step.name_bytes, *past),
                Part::Type => step.type_at = outside(text.len(), step.type_bytes, *past),
                Part::Data => step.data_at = outside(data.len(), PAGE as u32, *past),
            }
            step
        }
    }
}

/// Where a part of so many things begins that ends so far behind the end of a row.
fn outside(row: usize, length: u32, past: u32) -> u32 {
    let end = row as u64 + u64::from(past);
    narrow(end.saturating_sub(u64::from(length)) as usize)
}

/// The name, the type and the page of data of a call, empty where it has none. Data of another length than a page's are not lent: their step
/// then names a part outside, which is as wrong.
fn parts(call: &Call) -> (&[u8], &[u8], Vec<u16>) {
    match call {
        Call::FindUser { name } | Call::Format { name, .. } | Call::CreateUser { name } => (name, &[], Vec::new()),
        Call::FindFile { name, kind, .. } => (name, kind, Vec::new()),
        Call::CreateIndexed { name, kind, .. } | Call::CreateContiguous { name, kind, .. } => (name, kind, Vec::new()),
        Call::WritePage { data, .. } if data.length == PAGE => (&[], &[], data.words()),
        _ => (&[], &[], Vec::new()),
    }
}

/// Where some things lie in a row, if they do; none of them lie at its end.
fn place<T: PartialEq>(of: &[T], wanted: &[T]) -> Option<usize> {
    match wanted.len() {
        0 => Some(of.len()),
        length => of.windows(length).position(|part| part == wanted),
    }
}

fn put<T: PartialEq + Clone>(of: &mut Vec<T>, more: &[T]) {
    if place(of, more).is_none() {
        of.extend_from_slice(more);
    }
}

fn unused() -> proved::Step {
    proved::Step {
        call: UNUSED,
        user: UNUSED,
        file: UNUSED,
        count: UNUSED,
        created: UNUSED,
        name_at: UNUSED,
        name_bytes: UNUSED,
        type_at: UNUSED,
        type_bytes: UNUSED,
        data_at: UNUSED,
    }
}

/// A number of a step. One that 32 bits do not hold becomes the largest of them, which is as wrong in its place.
fn narrow(number: usize) -> u32 {
    u32::try_from(number).unwrap_or(u32::MAX)
}

/// The step of a call, with all that the call does not use filled.
fn step_of(call: &Call, text: &[u8], data: &[u16]) -> proved::Step {
    let mut step = numbers_of(call);
    let (name, kind, page) = parts(call);
    let at = |place: Option<usize>| place.map_or(UNUSED, |at| at as u32);
    if used(call).contains(&Part::Name) {
        (step.name_at, step.name_bytes) = (at(place(text, name)), name.len() as u32);
    }
    if used(call).contains(&Part::Type) {
        (step.type_at, step.type_bytes) = (at(place(text, kind)), kind.len() as u32);
    }
    if !page.is_empty() {
        step.data_at = at(place(data, &page));
    }
    step
}

/// The number of a call.
pub fn number_of(call: &Call) -> u32 {
    numbers_of(call).call
}

/// The call's number and the numbers that it uses.
fn numbers_of(call: &Call) -> proved::Step {
    let of = |call: u32| proved::Step { call, ..unused() };
    let user = |call: u32, user: &usize| proved::Step { user: narrow(*user), ..of(call) };
    let file = |call: u32, owner: &usize, file: &usize| proved::Step { file: narrow(*file), ..user(call, owner) };
    let counted = |count: &usize, step: proved::Step| proved::Step { count: narrow(*count), ..step };
    match call {
        Call::Check => of(number::CHECK),
        Call::FindUser { .. } => of(number::FIND_USER),
        Call::FindFile { user: owner, .. } => user(number::FIND_FILE, owner),
        Call::Address { user, file: f, position } => counted(position, file(number::ADDRESS, user, f)),
        Call::WhoHolds { page } => counted(page, of(number::WHO_HOLDS)),
        Call::ReadPage { user, file: f, position } => counted(position, file(number::READ_PAGE, user, f)),
        Call::Format { bit_page: Some(page), .. } => counted(page, of(number::FORMAT)),
        Call::Format { bit_page: None, .. } => of(number::FORMAT_DEFAULT),
        Call::CreateUser { .. } => of(number::CREATE_USER),
        Call::DeleteUser { user: owner } => user(number::DELETE_USER, owner),
        Call::Give { user: owner, count } => counted(count, user(number::GIVE, owner)),
        Call::Take { user: owner, count } => counted(count, user(number::TAKE, owner)),
        Call::CreateIndexed { user: owner, created, .. } => proved::Step { created: *created, ..user(number::CREATE_INDEXED, owner) },
        Call::CreateContiguous { user: owner, created, count, .. } => {
            counted(count, proved::Step { created: *created, ..user(number::CREATE_CONTIGUOUS, owner) })
        }
        Call::Grow { user, file: f } => file(number::GROW, user, f),
        Call::Shrink { user, file: f } => file(number::SHRINK, user, f),
        Call::DeleteFile { user, file: f } => file(number::DELETE_FILE, user, f),
        Call::WritePage { user, file: f, position, .. } => counted(position, file(number::WRITE_PAGE, user, f)),
        Call::NoteOpen { user, file: f } => file(number::NOTE_OPEN, user, f),
        Call::ConvertToApostrophe => of(number::CONVERT_TO_APOSTROPHE),
        Call::ConvertToZeros => of(number::CONVERT_TO_ZEROS),
        Call::Salvage { .. } => of(number::SALVAGE),
    }
}
