//! What a call met of names and types: the fields before it, its answer, and the fields after it.

use super::*;
use crate::calls::{Answer, Call};
use crate::scene::Scene;
use crate::words::{APOSTROPHE, PAGE};

/// A call with the images before and after it, and its answer.
pub struct Seen<'a> {
    pub before: &'a [u16],
    pub call: &'a Call,
    pub answer: &'a Answer,
    pub after: &'a [u16],
}

/// The pages of the largest image that is listed.
const LISTED: usize = 32;

fn is_legal(byte: u8) -> bool {
    byte.is_ascii_uppercase() || byte.is_ascii_digit() || byte == b'-'
}

impl Seen<'_> {
    /// The edges that it met.
    pub fn edges(&self) -> Vec<Edge> {
        let fields = Field::all(self.before, &Scene::read(self.before));
        let format = matches!(self.call, Call::Format { .. });
        let mut edges = match self.answer.number {
            2 => self.argument(),
            3 => self.told(&fields),
            0 | 4.. if !format => sound(&fields),
            _ => Vec::new(),
        };
        if self.call == &Call::Check && self.answer.number == 0 && self.before.len() <= LISTED * PAGE {
            edges.extend(fields.iter().filter(|field| field.has_leftovers()).map(|field| Edge::Listed(field.what)));
        }
        match self.answer.number {
            0 => {
                edges.extend(self.found(&fields));
                edges.extend(self.written());
                edges.extend(self.kept(&fields));
            }
            5 => edges.extend(self.taken(&fields)),
            _ => {}
        }
        edges
    }

    /// An end in the name or type that was asked for.
    fn argument(&self) -> Vec<Edge> {
        let (name, kind) = name_and_type(self.call);
        let parts = [(Part::Name, name), (Part::Type, kind)];
        let has = |(part, bytes): (Part, &[u8]), end: End| bytes.contains(&end.byte()).then_some((part, end));
        let ended = parts.into_iter().flat_map(|part| End::ALL.map(|end| has(part, end)));
        ended.flatten().map(|(part, end)| Edge::Argument(self.call.which(), part, end)).collect()
    }

    /// The name or type that a rule was told for: what is wrong with it, or, where nothing is, that it is equal to a lower one.
    fn told(&self, fields: &[Field]) -> Vec<Edge> {
        let place = self.answer.place;
        let at = place.page as usize * PAGE + place.word as usize;
        let Some(field) = fields.iter().find(|field| field.at == at) else { return Vec::new() };
        let is_equal = !field.name().is_empty() && field.name().iter().all(|&byte| is_legal(byte));
        match field.what {
            What::User if is_equal => equal(fields, field, None),
            What::File if is_equal => equal(fields, field, type_of(fields, field)),
            what => faults(field).into_iter().map(|fault| Edge::Told(what, fault)).collect(),
        }
    }

    /// What a find found: the user's or the file's name, and the type.
    fn found(&self, fields: &[Field]) -> Vec<Edge> {
        let value = self.answer.value;
        let found: Vec<&Field> = match self.call {
            Call::FindUser { .. } => fields.iter().filter(|field| field.what == What::User && field.user == value).collect(),
            Call::FindFile { user, .. } => of_file(fields, *user, value as usize),
            _ => Vec::new(),
        };
        found.into_iter().map(|field| Edge::Found(field.what, field.fill())).collect()
    }

    /// Whose name a create was refused for.
    fn taken(&self, fields: &[Field]) -> Vec<Edge> {
        let (name, kind) = name_and_type(self.call);
        let named = |what: What| fields.iter().filter(move |field| field.what == what && field.name() == name);
        let taken: Vec<&Field> = match self.call {
            Call::CreateUser { .. } => named(What::User).collect(),
            Call::CreateIndexed { user, .. } | Call::CreateContiguous { user, .. } => {
                let files = named(What::File).filter(|field| field.user as usize == *user);
                let both = files.filter_map(|file| Some([file, type_of(fields, file)?]));
                both.filter(|[_, of]| of.name() == kind).flatten().collect()
            }
            _ => Vec::new(),
        };
        taken.into_iter().map(|field| Edge::Taken(self.call.which(), field.what, field.fill())).collect()
    }

    /// The lengths of the name and the type that a call wrote, each as it is to be written.
    fn written(&self) -> Vec<Edge> {
        let fields = Field::all(self.after, &Scene::read(self.after));
        let new = self.answer.value;
        let written: Vec<&Field> = match self.call {
            Call::Format { .. } => fields.iter().filter(|field| field.what == What::Volume).collect(),
            Call::CreateUser { .. } => fields.iter().filter(|field| field.what == What::User && field.user == new).collect(),
            Call::CreateIndexed { user, .. } | Call::CreateContiguous { user, .. } => of_file(&fields, *user, new as usize),
            _ => Vec::new(),
        };
        let (name, kind) = name_and_type(self.call);
        let part = |field: &Field| if field.what == What::Type { (Part::Type, kind) } else { (Part::Name, name) };
        let right = written.into_iter().map(|field| (field, part(field))).filter(|(field, (_, bytes))| is_written(field, bytes));
        right.map(|(_, (part, bytes))| Edge::Written(self.call.which(), part, bytes.len())).collect()
    }

    /// The leftovers that stayed, or were cleared.
    fn kept(&self, fields: &[Field]) -> Vec<Edge> {
        let (which, of) = (self.call.which(), entry_of(self.call));
        let touched = fields.iter().filter(|field| match (field.what, of) {
            (What::Volume, _) => true,
            (What::User, (Some(user), _)) => field.user as usize == user,
            (What::File | What::Type, (Some(user), Some(file))) => (field.user as usize, field.file as usize) == (user, file),
            _ => false,
        });
        let left = touched.filter(|field| field.has_leftovers());
        let edge = |field: &Field| {
            let range = field.at..field.at + field.bytes.len() / 2;
            match (self.after[range.clone()] == self.before[range.clone()], self.after[range].iter().all(|&word| word == 0)) {
                (true, _) => Some(Edge::Kept(which, field.what)),
                (_, true) => Some(Edge::Cleared(which, field.what)),
                _ => None,
            }
        };
        left.filter_map(edge).collect()
    }
}

/// What the fields of a sound image are.
fn sound(fields: &[Field]) -> Vec<Edge> {
    let mut edges = Vec::new();
    for field in fields {
        edges.push(Edge::Filled(field.what, field.fill()));
        edges.extend(field.end().map(|(place, end)| Edge::Ends(field.what, end, place)));
        let kinds = (0..field.behind().len()).filter_map(|n| byte(&field.behind()[n..]));
        edges.extend(kinds.map(|byte| Edge::Behind(field.what, byte)));
        let mut others = fields.iter().filter(|other| beside(fields, field, other));
        if field.has_leftovers() && others.any(|other| other.name().starts_with(field.name()) && other.name() != field.name()) {
            edges.push(Edge::Begins(field.what));
        }
    }
    edges
}

/// Whether two fields are such as must not be equal: two users', two names of one user's files of one type, two types of files of one name.
fn beside(fields: &[Field], one: &Field, two: &Field) -> bool {
    let other_half = |field: &Field| {
        let other = if field.what == What::File { What::Type } else { What::File };
        fields.iter().find(|half| half.what == other && (half.user, half.file) == (field.user, field.file)).map(|half| half.name().to_vec())
    };
    match (one.what, two.what) {
        (What::User, What::User) => true,
        (What::File, What::File) | (What::Type, What::Type) => one.user == two.user && other_half(one) == other_half(two),
        _ => false,
    }
}

/// The kind of the first of these bytes behind an end.
fn byte(behind: &[u8]) -> Option<Byte> {
    Some(match behind[0] {
        byte if is_legal(byte) => Byte::Legal,
        b'a'..=b'z' => Byte::Small,
        APOSTROPHE => Byte::Apostrophe,
        0 => return behind.iter().any(|&byte| byte != 0).then_some(Byte::ZeroThenMore),
        0x80.. => Byte::Upper,
        _ => Byte::Other,
    })
}

/// What is wrong before the end of a field.
fn faults(field: &Field) -> Vec<Fault> {
    let name = field.name();
    let has = |wanted: fn(u8) -> bool| name.iter().any(|&byte| wanted(byte));
    let mut faults: Vec<Fault> = field.end().filter(|&(place, _)| place == 0).map(|(_, end)| Fault::First(end)).into_iter().collect();
    let all = [
        (Fault::Small, has(|byte| byte.is_ascii_lowercase())),
        (Fault::Last, name.len() == field.what.bytes() && name.last().is_some_and(|&byte| !is_legal(byte))),
        (Fault::Next, has(|byte| [APOSTROPHE - 1, APOSTROPHE + 1].contains(&byte))),
        (Fault::Upper, has(|byte| [APOSTROPHE | 0x80, 0x80].contains(&byte))),
    ];
    faults.extend(all.into_iter().filter(|(_, met)| *met).map(|(fault, _)| fault));
    faults
}

/// The field is equal to a lower one, with its type where it is a file's: where they differ in their words.
fn equal(fields: &[Field], field: &Field, kind: Option<&Field>) -> Vec<Edge> {
    let lower = fields.iter().filter(|other| other.what == field.what && (other.user, other.file) < (field.user, field.file));
    let named = lower.filter(|other| other.name() == field.name() && (field.what == What::User || other.user == field.user));
    let mut edges = Vec::new();
    for other in named {
        let of = type_of(fields, other);
        if of.map(Field::name) == kind.map(Field::name) {
            edges.extend((other.bytes != field.bytes).then_some(Edge::Equal(field.what)));
            edges.extend((of.map(|of| &of.bytes) != kind.map(|kind| &kind.bytes)).then_some(Edge::Equal(What::Type)));
        }
    }
    edges
}

/// The type beside a file's name.
fn type_of<'a>(fields: &'a [Field], name: &Field) -> Option<&'a Field> {
    let of_file = |field: &&Field| field.what == What::Type && (field.user, field.file) == (name.user, name.file);
    fields.iter().find(of_file).filter(|_| name.what == What::File)
}

/// A file's name and type.
fn of_file(fields: &[Field], user: usize, file: usize) -> Vec<&Field> {
    let is_half =
        |field: &&Field| [What::File, What::Type].contains(&field.what) && (field.user as usize, field.file as usize) == (user, file);
    fields.iter().filter(is_half).collect()
}

/// The name and the type that a call asks for; nothing where it asks for none.
fn name_and_type(call: &Call) -> (&[u8], &[u8]) {
    match call {
        Call::FindUser { name } | Call::Format { name, .. } | Call::CreateUser { name } => (name, &[]),
        Call::FindFile { name, kind, .. } | Call::CreateIndexed { name, kind, .. } | Call::CreateContiguous { name, kind, .. } => {
            (name, kind)
        }
        _ => (&[], &[]),
    }
}

/// The user and the file that a call works on.
fn entry_of(call: &Call) -> (Option<usize>, Option<usize>) {
    match call {
        Call::Give { user, .. } | Call::Take { user, .. } | Call::DeleteUser { user } => (Some(*user), None),
        Call::CreateIndexed { user, .. } | Call::CreateContiguous { user, .. } => (Some(*user), None),
        Call::Grow { user, file } | Call::Shrink { user, file } | Call::DeleteFile { user, file } => (Some(*user), Some(*file)),
        Call::WritePage { user, file, .. } | Call::NoteOpen { user, file } => (Some(*user), Some(*file)),
        _ => (None, None),
    }
}

/// Whether a field is as it is to be written: the bytes, where they are short one apostrophe, then zeros.
fn is_written(field: &Field, bytes: &[u8]) -> bool {
    let mut wanted = [bytes, &[APOSTROPHE]].concat();
    wanted.resize(field.bytes.len(), 0);
    wanted == field.bytes
}
