//! The fields of an image's names and types.

use crate::fills::{End, Fill};
use crate::scene::Scene;
use crate::words::*;

/// Whose name a field has, or that it has a type.
#[derive(Clone, Copy, Debug, PartialEq, Eq, PartialOrd, Ord)]
pub enum What {
    Volume,
    User,
    File,
    Type,
}

impl What {
    pub fn words(self) -> &'static str {
        match self {
            What::Volume => "volume name",
            What::User => "user's name",
            What::File => "file's name",
            What::Type => "type",
        }
    }

    /// The bytes of the field, and of the shortest that is legal.
    pub fn bytes(self) -> usize {
        if self == What::Type {
            4
        } else {
            16
        }
    }

    pub fn least(self) -> usize {
        usize::from(self != What::Type)
    }
}

/// A field: where it is, whose, and its bytes.
#[derive(Clone, Debug)]
pub struct Field {
    pub what: What,
    pub at: usize,
    pub user: u32,
    pub file: u32,
    pub bytes: Vec<u8>,
}

impl Field {
    /// All fields of an image that can be seen.
    pub fn all(image: &[u16], scene: &Scene) -> Vec<Field> {
        let field = |what: What, at: usize, user: u32, file: u32| Field {
            what,
            at,
            user,
            file,
            bytes: to_bytes(&image[at..at + what.bytes() / 2]),
        };
        let mut all = vec![field(What::Volume, VOLUME_NAME, 0, 0)];
        all.extend(scene.users.iter().map(|user| field(What::User, user.at + NAME, user.index, 0)));
        for file in &scene.files {
            all.push(field(What::File, file.at + NAME, file.user, file.file));
            all.push(field(What::Type, file.at + TYPE, file.user, file.file));
        }
        all
    }

    /// Where its end is, and which; none where it is full.
    pub fn end(&self) -> Option<(usize, End)> {
        let place = self.bytes.iter().position(|byte| ENDS.contains(byte))?;
        Some((place, if self.bytes[place] == APOSTROPHE { End::Apostrophe } else { End::Zero }))
    }

    /// Its bytes before the end.
    pub fn name(&self) -> &[u8] {
        &self.bytes[..self.end().map_or(self.bytes.len(), |(place, _)| place)]
    }

    /// Its bytes behind the end.
    pub fn behind(&self) -> &[u8] {
        self.end().map_or(&[], |(place, _)| &self.bytes[place + 1..])
    }

    pub fn fill(&self) -> Fill {
        Fill::of(&self.bytes)
    }

    pub fn has_leftovers(&self) -> bool {
        matches!(self.fill(), Fill::Left(_))
    }
}
