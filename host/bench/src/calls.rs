//! The seven calls that are measured, asked of either program, with what is asked of a volume.

use crate::answers;
use proved::{Holder, HolderReply, Reply};
use std::fmt::Write;

#[derive(Clone, Copy, Debug, PartialEq, Eq)]
pub enum Program {
    Proved,
    Second,
}

#[derive(Clone, Copy, Debug, PartialEq, Eq)]
pub enum Call {
    Check,
    Address,
    FindUser,
    FindFile,
    Grow,
    CreateFile,
    WhoHolds,
}

pub const CALLS: [Call; 7] = [
    Call::Check,
    Call::Address,
    Call::FindUser,
    Call::FindFile,
    Call::Grow,
    Call::CreateFile,
    Call::WhoHolds,
];

impl Call {
    pub fn name(self) -> &'static str {
        match self {
            Call::Check => "check",
            Call::Address => "address",
            Call::FindUser => "find-user",
            Call::FindFile => "find-file",
            Call::Grow => "grow",
            Call::CreateFile => "create-file",
            Call::WhoHolds => "who-holds",
        }
    }

    pub fn by_name(name: &str) -> Option<Call> {
        CALLS.into_iter().find(|call| call.name() == name)
    }

    pub fn changes(self) -> bool {
        matches!(self, Call::Grow | Call::CreateFile)
    }
}

impl Program {
    pub fn name(self) -> &'static str {
        match self {
            Program::Proved => "proved",
            Program::Second => "second",
        }
    }

    pub fn by_name(name: &str) -> Option<Program> {
        [Program::Proved, Program::Second]
            .into_iter()
            .find(|program| program.name() == name)
    }
}

/// What is asked of a volume: always what is found last.
#[derive(Clone, Debug, Default, PartialEq, Eq)]
pub struct Question {
    pub user: u32,
    pub user_name: String,
    pub file: u32,
    pub file_name: String,
    pub kind: String,
    pub position: u32,
    /// The page that lies there.
    pub page: u32,
    /// The file that grows, of the same user.
    pub growing: u32,
}

/// The name of the file that is created.
pub const NEW_NAME: &[u8] = b"NEW";

impl Question {
    /// The user, the file, the position, the page and the file that grows, as calls take them.
    fn numbers(&self) -> [usize; 5] {
        [self.user, self.file, self.position, self.page, self.growing].map(|number| number as usize)
    }

    /// As one line of text, for a child process.
    pub fn to_text(&self) -> String {
        let mut text = String::new();
        for part in [self.user, self.file, self.position, self.page, self.growing] {
            write!(text, "{part} ").unwrap();
        }
        text + &[self.user_name.as_str(), &self.file_name, &self.kind].join(" ")
    }

    pub fn from_text(text: &str) -> Option<Question> {
        let parts: Vec<&str> = text.split_whitespace().collect();
        let number = |n: usize| parts.get(n)?.parse().ok();
        let name = |n: usize| parts.get(n).map(|part| part.to_string());
        Some(Question {
            user: number(0)?,
            file: number(1)?,
            position: number(2)?,
            page: number(3)?,
            growing: number(4)?,
            user_name: name(5)?,
            file_name: name(6)?,
            kind: name(7)?,
        })
    }
}

/// A call's numbers, with the holder that who-holds gives.
#[derive(Clone, Copy, Debug, PartialEq, Eq)]
pub struct Answer {
    pub reply: Reply,
    pub holder: Holder,
}

impl From<Reply> for Answer {
    fn from(reply: Reply) -> Answer {
        Answer {
            reply,
            holder: Holder::default(),
        }
    }
}

impl From<HolderReply> for Answer {
    fn from(of: HolderReply) -> Answer {
        let reply = Reply {
            number: of.number,
            rule: of.rule,
            value: 0,
            place: of.place,
            first: of.first,
            second: of.second,
        };
        Answer { reply, holder: of.holder }
    }
}

impl From<second::Reply> for Answer {
    fn from(reply: second::Reply) -> Answer {
        answers::reply(reply).into()
    }
}

impl From<second::HolderReply> for Answer {
    fn from(of: second::HolderReply) -> Answer {
        Answer {
            reply: answers::reply(of.reply),
            holder: answers::holder(of.holder),
        }
    }
}

/// Asks one program one call.
pub fn ask(program: Program, call: Call, image: &mut [u16], q: &Question) -> Answer {
    match program {
        Program::Proved => ask_proved(call, image, q),
        Program::Second => ask_second(call, image, q),
    }
}

fn ask_proved(call: Call, image: &mut [u16], q: &Question) -> Answer {
    let [user, file, position, page, growing] = q.numbers();
    match call {
        Call::Check => proved::check(image).into(),
        Call::Address => proved::address(image, user, file, position).into(),
        Call::FindUser => proved::find_user(image, q.user_name.as_bytes()).into(),
        Call::FindFile => proved::find_file(image, user, q.file_name.as_bytes(), q.kind.as_bytes()).into(),
        Call::Grow => proved::grow(image, user, growing).into(),
        Call::CreateFile => proved::create_indexed(image, user, NEW_NAME, q.kind.as_bytes(), 1).into(),
        Call::WhoHolds => proved::who_holds(image, page).into(),
    }
}

fn ask_second(call: Call, image: &mut [u16], q: &Question) -> Answer {
    let [user, file, position, page, growing] = q.numbers();
    match call {
        Call::Check => second::check(image).into(),
        Call::Address => second::address(image, user, file, position).into(),
        Call::FindUser => second::find_user(image, q.user_name.as_bytes()).into(),
        Call::FindFile => second::find_file(image, user, q.file_name.as_bytes(), q.kind.as_bytes()).into(),
        Call::Grow => second::grow(image, user, growing).into(),
        Call::CreateFile => second::create_indexed(image, user, NEW_NAME, q.kind.as_bytes(), 1).into(),
        Call::WhoHolds => second::who_holds(image, page).into(),
    }
}
