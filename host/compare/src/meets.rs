//! What a call met: edges that a run must have been at, so that its agreement says something about them.

use crate::calls::Call;
use crate::choose::WIDE;
use crate::scene::{File, Scene};
use crate::script::{Asked, Part, Played, Script};
use crate::tally::{Met, NUMBERS};
use crate::words::{MOST_PAGES, OPENS, TO_A_BIT_PAGE};

/// What a call would meet on this image, with the number that it then answers.
pub fn meets(image: &[u16], scene: &Scene, call: &Call) -> Vec<(Met, u32)> {
    let mut met = Vec::new();
    let pages_of = |user: &usize, file: &usize| scene.file(*user, *file).map_or(0, |file| file.pages);
    match call {
        Call::Grow { user, file } if pages_of(user, file) == 512 => met.push((Met::FilePast512, 0)),
        Call::Grow { user, file } if pages_of(user, file) == 1_024 => met.push((Met::FilePast1024, 0)),
        Call::Shrink { user, file } if pages_of(user, file) == 513 => met.push((Met::BackTo512, 0)),
        Call::CreateUser { .. } => met.push((Met::All256Users, 8)),
        Call::CreateIndexed { .. } => met.push((Met::All256Files, 8)),
        Call::CreateContiguous { count, .. } => {
            let longest = scene.longest_run(image) as usize;
            if *count == longest {
                met.push((Met::RunJustFits, 0));
            } else if *count == longest + 1 {
                met.push((Met::RunJustDoesNot, 11));
            }
        }
        Call::NoteOpen { user, file } if scene.file(*user, *file).is_some_and(|file| image[file.at + OPENS] == 65_535) => {
            met.push((Met::OpensCameRound, 0));
        }
        _ => {}
    }
    met.extend(limit(scene, call));
    let mut whatever = wide(call);
    if scene.longest_run(image) == 0 {
        whatever.push(Met::FullVolume);
    }
    met.extend(whatever.into_iter().flat_map(|what| (0..NUMBERS as u32).map(move |number| (what, number))));
    met
}

/// A page count at one of its limits, with the numbers that the call may then answer: the largest is right on every volume.
fn limit(scene: &Scene, call: &Call) -> Vec<(Met, u32)> {
    let count = match call {
        Call::Give { count, .. } | Call::Take { count, .. } | Call::CreateContiguous { count, .. } => *count,
        _ => return Vec::new(),
    };
    let (most, one) = (MOST_PAGES as usize, TO_A_BIT_PAGE as usize);
    let short = |what: Met| [9, 10, 11].map(|number| (what, number)).to_vec();
    match count {
        0 => vec![(Met::CountOf0, 2)],
        _ if count == most => short(Met::MostCount),
        _ if count == most + 1 => vec![(Met::AboveMost, 2)],
        _ if count == one + 1 && scene.pages <= TO_A_BIT_PAGE => short(Met::AboveOneBitPage),
        _ => Vec::new(),
    }
}

/// The arguments of a call that 32 bits do not hold.
fn wide(call: &Call) -> Vec<Met> {
    let (mut users, mut files, mut positions, mut pages, mut counts) = (None, None, None, None, None);
    match call {
        Call::FindFile { user, .. } | Call::DeleteUser { user } | Call::CreateIndexed { user, .. } => users = Some(*user),
        Call::Give { user, count } | Call::Take { user, count } | Call::CreateContiguous { user, count, .. } => {
            (users, counts) = (Some(*user), Some(*count));
        }
        Call::Address { user, file, position } | Call::ReadPage { user, file, position } | Call::WritePage { user, file, position, .. } => {
            (users, files, positions) = (Some(*user), Some(*file), Some(*position));
        }
        Call::Grow { user, file } | Call::Shrink { user, file } | Call::DeleteFile { user, file } | Call::NoteOpen { user, file } => {
            (users, files) = (Some(*user), Some(*file));
        }
        Call::WhoHolds { page } => pages = Some(*page),
        Call::Format { bit_page, .. } => pages = *bit_page,
        Call::Check
        | Call::FindUser { .. }
        | Call::CreateUser { .. }
        | Call::ConvertToApostrophe
        | Call::ConvertToZeros
        | Call::Salvage { .. } => {}
    }
    let all =
        [(Met::WideUser, users), (Met::WideFile, files), (Met::WidePosition, positions), (Met::WidePage, pages), (Met::WideCount, counts)];
    all.into_iter().filter(|(_, number)| number.is_some_and(|number| number >= WIDE)).map(|(what, _)| what).collect()
}

/// What a run met: how it ended, and formats within it.
pub fn run_meets(script: &Script, played: &Played) -> Vec<Met> {
    let (asked, made) = (&script.asked, played.made);
    let Some(last) = made.checked_sub(1) else { return Vec::new() };
    let done = |n: usize| n < made && played.replies[n].number == 0;
    let is_format = |n: usize| matches!(asked[n], Asked::Call(Call::Format { .. }));
    let mut met: Vec<Met> = (1..last).filter(|&n| is_format(n) && done(n) && done(n + 1)).map(|_| Met::FormatWithin).collect();
    met.extend(match (played.replies[last].number, &asked[last]) {
        (0, _) if made == asked.len() => Some(Met::RunWhole),
        (0, _) => Some(Met::RunOutOfRoom),
        (1, _) => Some(Met::RunWrongLength),
        (2, Asked::NoCall { .. }) => Some(Met::NoCall),
        (2, Asked::Outside { part: Part::Name, .. }) => Some(Met::NameOutside),
        (2, Asked::Outside { part: Part::Type, .. }) => Some(Met::TypeOutside),
        (2, Asked::Outside { part: Part::Data, .. }) => Some(Met::DataOutside),
        (3, _) => Some(Met::RunUnsound),
        _ => None,
    });
    if made < asked.len() && !done(last) {
        met.push(Met::RunRefused);
    }
    met
}

/// What a done call left: a user from 64 up, or an entry used again below one that is in use.
pub fn leaves(before: &Scene, image: &[u16]) -> Option<Met> {
    let after = Scene::read(image);
    if after.users.len() > before.users.len() {
        let new = after.users.iter().find(|user| before.users.iter().all(|old| old.index != user.index))?;
        let reused = after.users.last().is_some_and(|last| last.index > new.index);
        return if new.index > 63 { Some(Met::UserPast64) } else { reused.then_some(Met::ReusedEntry) };
    }
    if after.files.len() > before.files.len() {
        let key = |file: &File| (file.user, file.file);
        let new = after.files.iter().find(|file| before.file(file.user as usize, file.file as usize).is_none())?;
        let reused = after.files.iter().any(|file| file.user == new.user && key(file) > key(new));
        return reused.then_some(Met::ReusedEntry);
    }
    None
}
