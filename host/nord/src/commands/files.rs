//! Files: create, grow, shrink, delete, open.

use crate::answers::{Answer, Call};
use crate::args::File;
use crate::failure::Failure;
use crate::names::{FileName, Within};
use crate::plan::{enough, on_file, Each, Place, Plan, Planned};
use crate::typed::Number;
use proved::{call, Step};
use serde::Serialize;

pub fn plan(command: File, plan: &mut Plan) -> Planned {
    match command {
        File::Create {
            file, contiguous, created, ..
        } => create(plan, &file, contiguous, created),
        File::Grow { file, count, .. } => grow(plan, &file, count),
        File::Shrink { file, count, .. } => shrink(plan, &file, count),
        File::Delete { file, .. } => delete(plan, &file),
        File::Open { file, .. } => open(plan, &file),
    }
}

/// A file by its indexes.
#[derive(Serialize)]
struct Indexed {
    user: u32,
    file: u32,
}

/// A file that has grown: by how many pages, and which these are.
#[derive(Serialize)]
struct Grown {
    user: u32,
    file: u32,
    pages: u32,
    data: Vec<u32>,
}

/// A file that has shrunk by so many pages.
#[derive(Serialize)]
struct Shrunk {
    user: u32,
    file: u32,
    pages: u32,
}

fn create(plan: &mut Plan, file: &FileName, contiguous: Option<Number>, created: u32) -> Planned {
    let Some((user, index)) = make(plan, file, contiguous, created)? else {
        return Ok(None);
    };
    Ok(Some(Box::new(move |_| {
        Answer::new(format!("user {user} file {index} created"), Indexed { user, file: index })
    })))
}

/// The call that creates an empty indexed file, or a contiguous one of so many pages, and the file's indexes.
pub fn make(plan: &mut Plan, file: &FileName, contiguous: Option<Number>, created: u32) -> Result<Option<Place>, Failure> {
    let Within::Name(name, kind) = &file.file else {
        return Err(Failure::Usage("a new file is named by its name, not by an index".to_string()));
    };
    let Some(user) = plan.user(&file.user) else { return Ok(None) };
    let pages = contiguous.as_ref().map(|count| count.value);
    let (number, call, each) = match contiguous {
        None => (call::CREATE_INDEXED, Call::CreateIndexed, Each::Only),
        Some(count) => (call::CREATE_CONTIGUOUS, Call::CreateContiguous, Each::Of(count.pages())),
    };
    let step = Step {
        created,
        count: pages.unwrap_or(0),
        ..plan.typed(number, user, name, kind)
    };
    let index = plan.forecast.add_file(user, name, kind, pages);
    plan.calls(call, file, each, index, 1, |_| step);
    Ok(index.map(|index| (user, index)))
}

fn grow(plan: &mut Plan, file: &FileName, count: Number) -> Planned {
    some(&count)?;
    let Some((user, index)) = plan.file(file) else { return Ok(None) };
    grow_by(plan, file, (user, index), &count);
    Ok(Some(Box::new(move |made| {
        let all = made.replies.iter().map(|reply| reply.value).collect::<Vec<_>>();
        let data = all[all.len() - count.value as usize..].to_vec();
        let numbers = data.iter().map(u32::to_string).collect::<Vec<_>>().join(" ");
        let (line, pages) = (format!("grown by {}: {numbers}", count.pages()), count.value);
        Answer::new(
            line,
            Grown {
                user,
                file: index,
                pages,
                data,
            },
        )
    })))
}

fn shrink(plan: &mut Plan, file: &FileName, count: Number) -> Planned {
    some(&count)?;
    let Some((user, index)) = plan.file(file) else { return Ok(None) };
    shrink_by(plan, file, (user, index), &count);
    Ok(Some(Box::new(move |_| {
        let (line, pages) = (format!("shrunk by {}", count.pages()), count.value);
        Answer::new(line, Shrunk { user, file: index, pages })
    })))
}

fn some(count: &Number) -> Result<(), Failure> {
    match count.value {
        0 => Err(Failure::Usage("a file grows or shrinks by 1 page or more".to_string())),
        _ => Ok(()),
    }
}

/// The calls by which a file grows by so many pages. A refusal says how far it came, though nothing of it is kept.
pub fn grow_by(plan: &mut Plan, file: &FileName, place: Place, count: &Number) {
    let pages = plan.forecast.pages(place).unwrap_or(0).saturating_add(count.value);
    let each = Each::PageOf(format!("{count} to grow by"));
    plan.calls(Call::Grow, file, each, None, enough(count.value), |_| on_file(call::GROW, place, 0));
    plan.forecast.resize(place, pages);
}

/// The calls by which a file shrinks by so many pages.
pub fn shrink_by(plan: &mut Plan, file: &FileName, place: Place, count: &Number) {
    let pages = plan.forecast.pages(place).unwrap_or(0).saturating_sub(count.value);
    let each = Each::PageOf(format!("{count} to shrink by"));
    plan.calls(Call::Shrink, file, each, None, enough(count.value), |_| {
        on_file(call::SHRINK, place, 0)
    });
    plan.forecast.resize(place, pages);
}

fn delete(plan: &mut Plan, file: &FileName) -> Planned {
    let Some((user, index)) = plan.file(file) else { return Ok(None) };
    plan.call(Call::DeleteFile, file, None, on_file(call::DELETE_FILE, (user, index), 0));
    plan.forecast.remove_file((user, index));
    Ok(Some(Box::new(move |_| {
        Answer::new(format!("user {user} file {index} deleted"), Indexed { user, file: index })
    })))
}

fn open(plan: &mut Plan, file: &FileName) -> Planned {
    let Some((user, index)) = plan.file(file) else { return Ok(None) };
    plan.call(Call::Open, file, None, on_file(call::NOTE_OPEN, (user, index), 0));
    Ok(Some(Box::new(move |_| {
        let line = format!("user {user} file {index}: an open is noted");
        Answer::new(line, Indexed { user, file: index })
    })))
}
