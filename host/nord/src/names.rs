//! Users and files as people name them: `DOCK`, `DOCK/READS:DATA`, or by index `@0`, `@0/@3`. No name has an @ in it, so a name of digits
//! alone is never taken for an index, nor an index for a name.

use crate::answers::Refusal;
use crate::typed::Number;
use std::fmt;
use std::str::FromStr;

/// A user by name or index.
#[derive(Clone, Debug, PartialEq, Eq)]
pub enum UserName {
    Name(String),
    Index(Number),
}

/// A file of a user, by name and type or by index.
#[derive(Clone, Debug, PartialEq, Eq)]
pub struct FileName {
    pub user: UserName,
    pub file: Within,
}

/// Which of the user's files.
#[derive(Clone, Debug, PartialEq, Eq)]
pub enum Within {
    Name(String, String),
    Index(Number),
}

impl FromStr for UserName {
    type Err = String;

    fn from_str(text: &str) -> Result<UserName, String> {
        match (text.strip_prefix('@'), text.contains('/')) {
            (_, true) => Err("a user is wanted, not a file".to_string()),
            (Some(index), _) => Ok(UserName::Index(index.parse()?)),
            (None, _) => Ok(UserName::Name(text.to_string())),
        }
    }
}

impl FromStr for FileName {
    type Err = String;

    fn from_str(text: &str) -> Result<FileName, String> {
        let (user, file) = text
            .split_once('/')
            .ok_or("a file is named USER/FILE:TYPE, such as DOCK/READS:DATA")?;
        let file = match file.strip_prefix('@') {
            Some(index) => Within::Index(index.parse()?),
            None => {
                let (name, kind) = file.split_once(':').unwrap_or((file, ""));
                Within::Name(name.to_string(), kind.to_string())
            }
        };
        Ok(FileName { user: user.parse()?, file })
    }
}

impl fmt::Display for UserName {
    fn fmt(&self, out: &mut fmt::Formatter) -> fmt::Result {
        match self {
            UserName::Name(name) => write!(out, "{name}"),
            UserName::Index(index) => write!(out, "@{index}"),
        }
    }
}

impl fmt::Display for FileName {
    fn fmt(&self, out: &mut fmt::Formatter) -> fmt::Result {
        match &self.file {
            Within::Name(name, kind) => write!(out, "{}/{name}:{kind}", self.user),
            Within::Index(index) => write!(out, "{}/@{index}", self.user),
        }
    }
}

/// Whether this can be the name of a volume, a user or a file: 1 to 16 of A-Z, 0-9 and hyphen.
pub fn is_legal(name: &str) -> bool {
    (1..=16).contains(&name.len()) && name.bytes().all(is_letter)
}

/// Whether a name or a type may have this byte.
pub fn is_letter(byte: u8) -> bool {
    byte.is_ascii_uppercase() || byte.is_ascii_digit() || byte == b'-'
}

/// A name that is not there and is a number may be meant as an index.
pub fn hint(refusal: Refusal, name: &str) -> Refusal {
    let digits = !name.is_empty() && name.bytes().all(|byte| byte.is_ascii_digit());
    match refusal.number {
        4 if digits => refusal.with(format!("an index is written @{name}")),
        _ => refusal,
    }
}
