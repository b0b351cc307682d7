//! Users: add, delete, give, take.

use crate::answers::{Answer, Call};
use crate::args::User;
use crate::names::UserName;
use crate::plan::{Plan, Planned};
use crate::typed::Number;
use proved::{call, Step};
use serde::Serialize;

pub fn plan(command: User, plan: &mut Plan) -> Planned {
    match command {
        User::Add { name, .. } => add(plan, name),
        User::Delete { user, .. } => delete(plan, &user),
        User::Give { user, count, .. } => moved(plan, &user, count, Call::Give),
        User::Take { user, count, .. } => moved(plan, &user, count, Call::Take),
    }
}

/// A user that was added.
#[derive(Serialize)]
struct Added {
    user: u32,
    name: String,
}

/// A user that is gone.
#[derive(Serialize)]
struct Gone {
    user: u32,
}

/// Pages that were given to a user or taken from him.
#[derive(Serialize)]
struct Moved {
    user: u32,
    pages: u32,
}

fn add(plan: &mut Plan, name: String) -> Planned {
    create(plan, &name);
    Ok(Some(Box::new(move |made| {
        let user = made.last();
        Answer::new(format!("user {user} {name} added"), Added { user, name })
    })))
}

/// The call that creates a user, and his index.
pub fn create(plan: &mut Plan, name: &str) -> Option<u32> {
    let step = plan.named(call::CREATE_USER, name);
    let index = plan.forecast.add_user(name);
    plan.call(Call::AddUser, name, index, step);
    index
}

fn delete(plan: &mut Plan, user: &UserName) -> Planned {
    let Some(index) = plan.user(user) else { return Ok(None) };
    let step = on_user(call::DELETE_USER, index, 0);
    plan.call(Call::DeleteUser, user, None, step);
    plan.forecast.remove_user(index);
    Ok(Some(Box::new(move |_| {
        Answer::new(format!("user {index} deleted"), Gone { user: index })
    })))
}

/// Give and take.
fn moved(plan: &mut Plan, user: &UserName, count: Number, call: Call) -> Planned {
    let Some(index) = plan.user(user) else { return Ok(None) };
    let (number, words) = match call {
        Call::Take => (call::TAKE, "taken from"),
        _ => (call::GIVE, "given to"),
    };
    let step = on_user(number, index, count.value);
    plan.call(call, format!("{count} for {user}"), None, step);
    Ok(Some(Box::new(move |_| {
        let line = format!("{} {words} user {index}", count.pages());
        let pages = count.value;
        Answer::new(line, Moved { user: index, pages })
    })))
}

/// A call on a user, with a count or 0.
pub fn on_user(call: u32, user: u32, count: u32) -> Step {
    Step {
        call,
        user,
        count,
        ..Step::default()
    }
}
