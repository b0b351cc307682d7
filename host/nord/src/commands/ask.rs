//! Commands that ask an image: check, list, find, address, who.

use crate::answers::{done, Answer, Call, Refusal};
use crate::args::Ask;
use crate::broken::Broken;
use crate::failure::Failure;
use crate::names::{FileName, UserName, Within};
use crate::plan::{on_file, Plan, Planned};
use crate::salvage::CanMend;
use crate::typed::Number;
use crate::volume::{Disk, Holder};
use crate::volume_json::{self, Listed};
use crate::{session, store, swapped, volume};
use proved::{call, HolderReply, Reply};
use serde::Serialize;

/// A sound image: how many pages it has, and how many of them are held.
#[derive(Serialize)]
struct Sound {
    sound: bool,
    visits: u32,
    pages: usize,
}

pub fn check(image: &[u16], at: &Ask) -> Result<Answer, Failure> {
    let reply = proved::check(image);
    if let Some(answer) = sound(reply, image.len()) {
        return Ok(answer);
    }
    let refusal = Refusal::of(reply, Call::Check, "");
    let path = store::shown(&at.image);
    Err(Failure::Refused(match refusal.number {
        3 => {
            let told = Broken::of(image, reply).tell(refusal, path);
            let told = CanMend::of(image, reply).tell(told, path);
            swapped::tell(told, image, path)
        }
        _ => refusal,
    }))
}

/// What is said of a sound image of so many words.
pub fn sound(reply: Reply, words: usize) -> Option<Answer> {
    let (visits, pages) = (reply.value, words / proved::PAGE);
    let line = format!("sound: {visits} of {pages} pages are held");
    let sound = reply.number == 0;
    sound.then(|| Answer::new(line, Sound { sound, visits, pages }))
}

pub fn list(image: &[u16]) -> Result<Answer, Failure> {
    done(proved::check(image), Call::Check, "")?;
    let text = String::from_utf8_lossy(&proved::list(image)).into_owned();
    Ok(Answer::of(text, Listed::from(&volume::read(image))))
}

/// What was found: a user's index, and of a file its own too.
#[derive(Serialize)]
struct Found {
    user: u32,
    #[serde(skip_serializing_if = "Option::is_none")]
    file: Option<u32>,
}

pub fn find(image: &mut [u16], at: &Ask, name: &str) -> Result<Answer, Failure> {
    match name.contains('/') {
        true => find_file(image, at, &name.parse().map_err(Failure::Usage)?),
        false => find_user(image, at, &name.parse().map_err(Failure::Usage)?),
    }
}

fn find_user(image: &mut [u16], at: &Ask, name: &UserName) -> Result<Answer, Failure> {
    if matches!(name, UserName::Index(_)) {
        return Err(not_a_name());
    }
    session::one(image, &at.image, |list| {
        list.user(name);
        Ok(Some(Box::new(|made| {
            let (user, file) = (made.last(), None);
            Answer::new(format!("user {user}"), Found { user, file })
        })))
    })
}

fn find_file(image: &mut [u16], at: &Ask, name: &FileName) -> Result<Answer, Failure> {
    if matches!(name.file, Within::Index(_)) {
        return Err(not_a_name());
    }
    session::one(image, &at.image, |list| {
        let Some((user, _)) = list.file(name) else { return Ok(None) };
        Ok(Some(Box::new(move |made| {
            let file = made.last();
            let line = format!("user {user} file {file}");
            Answer::new(line, Found { user, file: Some(file) })
        })))
    })
}

fn not_a_name() -> Failure {
    Failure::Usage("find looks for a name and gives its index; this is an index".to_string())
}

/// Where a page of a file lies.
#[derive(Serialize)]
struct Address {
    page: u32,
    user: u32,
    file: u32,
    position: u32,
}

pub fn address(image: &mut [u16], at: &Ask, file: &FileName, position: &Number) -> Result<Answer, Failure> {
    session::one(image, &at.image, |list| addressed(list, file, position))
}

fn addressed(list: &mut Plan, file: &FileName, position: &Number) -> Planned {
    let Some((user, index)) = list.file(file) else { return Ok(None) };
    let (subject, position) = (format!("position {position} of {file}"), position.value);
    list.call(Call::Address, subject, None, on_file(call::ADDRESS, (user, index), position));
    Ok(Some(Box::new(move |made| {
        let (page, file) = (made.last(), index);
        let address = Address {
            page,
            user,
            file,
            position,
        };
        Answer::new(format!("page {page}"), address)
    })))
}

/// Who holds a page.
#[derive(Serialize)]
struct Who {
    page: u32,
    #[serde(flatten)]
    holder: volume_json::Holder,
}

pub fn who(image: &[u16], page: &Number) -> Result<Answer, Failure> {
    let answer = proved::who_holds(image, page.value as usize);
    let subject = format!("page {page} of {}", image.len() / proved::PAGE);
    done(plain(answer), Call::Who, subject)?;
    let (page, holder) = (page.value, Holder::from(answer.holder));
    let who = Who {
        page,
        holder: (&holder).into(),
    };
    Ok(Answer::new(Disk::new(image).holder_words(&holder), who))
}

/// An answer about a holder without him.
pub fn plain(answer: HolderReply) -> Reply {
    Reply {
        number: answer.number,
        rule: answer.rule,
        value: 0,
        place: answer.place,
        first: answer.first,
        second: answer.second,
    }
}
