//! For each edge of names words to put on the volume of `volumes::with_names`, and calls that then meet the edge.

use super::*;
use crate::calls::{Call, Data};
use crate::damage::Words;
use crate::random::Random;
use crate::scene::Scene;
use crate::words::*;

/// Bytes of legal names, and others by the edge that they are for.
const LEGAL: &[u8] = b"ABCDEFGHIJKLMNOPQRSTUVWXYZ0123456789-";
const SMALL: &[u8] = b"aefrsz";
const OTHER: &[u8] = b" \"/:@[`{\x01\x7F";
const UPPER: &[u8] = b"\x80\xA7\xAD\xB0\xC1\xFF";

/// Aims at the edges on one volume.
pub struct Aims<'a> {
    pub random: &'a mut Random,
    pub image: &'a [u16],
    pub scene: &'a Scene,
}

/// What is aimed at: words to put, then calls.
type Aimed = (Words, Vec<Call>);

impl Aims<'_> {
    pub fn aimed(&mut self, edge: Edge) -> Aimed {
        match edge {
            Edge::Filled(what, fill) | Edge::Found(what, fill) | Edge::Taken(_, what, fill) => self.filled(what, fill, None),
            Edge::Listed(what) => self.filled(what, Fill::Left(End::Apostrophe), None),
            Edge::Kept(_, what) => self.filled(what, Fill::Left(End::Apostrophe), Some((0, 0))),
            Edge::Cleared(_, what) => self.filled(what, Fill::Left(End::Zero), Some((1, 0))),
            Edge::Ends(what, end, place) => self.ends(what, end, place),
            Edge::Behind(what, byte) => self.behind(what, byte),
            Edge::Begins(what) => self.begins(what),
            Edge::Told(what, fault) => self.told(what, fault),
            Edge::Equal(what) => (self.equal(what), vec![Call::Check, self.any_call()]),
            Edge::Argument(which, part, end) => (Words::new(), vec![self.argument(which, part, end)]),
            Edge::Written(which, part, length) => (Words::new(), vec![self.written(which, part, length)]),
        }
    }

    fn below(&mut self, bound: usize) -> usize {
        self.random.below(bound as u32) as usize
    }

    /// Legal bytes, so many; no name of the volume begins so.
    fn name(&mut self, length: usize) -> Vec<u8> {
        loop {
            let name: Vec<u8> = (0..length).map(|_| *self.random.pick(LEGAL)).collect();
            let fields = Field::all(self.image, self.scene);
            if length == 0 || !fields.iter().any(|field| field.name().starts_with(&name)) {
                return name;
            }
        }
    }

    /// A field of this kind, where one is wanted the user's or the file's.
    fn field(&mut self, what: What, wanted: Option<(u32, u32)>) -> Field {
        let fits = |field: &Field| match (what, wanted) {
            (What::User, Some((user, _))) => field.user == user,
            (What::File | What::Type, Some((_, file))) => field.file == file,
            _ => true,
        };
        let all = Field::all(self.image, self.scene).into_iter().filter(|field| field.what == what && fits(field));
        let all: Vec<Field> = all.collect();
        self.random.pick(&all).clone()
    }

    fn filled(&mut self, what: What, fill: Fill, wanted: Option<(u32, u32)>) -> Aimed {
        let most = what.bytes() - 2;
        let length = if fill == Fill::Full { what.bytes() } else { self.random.between(what.least() as u32, most as u32) as usize };
        let (name, field) = (self.name(length), self.field(what, wanted));
        let bytes = fill.field(self.random, &name, what.bytes());
        self.with(field, bytes)
    }

    /// The field with these bytes, and calls on it.
    fn with(&mut self, field: Field, bytes: Vec<u8>) -> Aimed {
        let field = Field { bytes, ..field };
        (words(&field), self.calls_on(&field))
    }

    fn ends(&mut self, what: What, end: End, place: usize) -> Aimed {
        let (name, field) = (self.name(place), self.field(what, None));
        let left = if self.random.one_in(3) { [Fill::Written, Fill::Zeros][end as usize] } else { Fill::Left(end) };
        let bytes = left.field(self.random, &name, what.bytes());
        self.with(field, bytes)
    }

    fn behind(&mut self, what: What, byte: Byte) -> Aimed {
        let length = self.random.between(what.least() as u32, what.bytes() as u32 - 3) as usize;
        let (name, field, end) = (self.name(length), self.field(what, None), *self.random.pick(&End::ALL));
        let mut bytes = Fill::Left(end).field(self.random, &name, what.bytes());
        let at = self.random.between(length as u32 + 1, what.bytes() as u32 - 2) as usize;
        bytes[at] = match byte {
            Byte::Legal => *self.random.pick(LEGAL),
            Byte::Small => *self.random.pick(SMALL),
            Byte::Apostrophe => APOSTROPHE,
            Byte::ZeroThenMore => 0,
            Byte::Upper => *self.random.pick(UPPER),
            Byte::Other => *self.random.pick(OTHER),
        };
        bytes[at + 1] = *self.random.pick(SMALL);
        self.with(field, bytes)
    }

    /// User 0, or file 0 of his, and the next: the second is as the first begins.
    fn begins(&mut self, what: What) -> Aimed {
        let (first, second) = (self.field(what, Some((0, 0))), self.field(what, Some((1, 1))));
        let name = self.name(what.bytes());
        let length = self.random.between(what.least() as u32, what.bytes() as u32 - 2) as usize;
        let end = *self.random.pick(&End::ALL);
        let short = Fill::Left(end).field(self.random, &name[..length], what.bytes());
        let mut all = words(&Field { bytes: name, ..first });
        let second = Field { bytes: short, ..second };
        all.extend(words(&second));
        if what == What::File {
            all.extend(self.same_type());
        }
        (all, self.calls_on(&second))
    }

    /// File 1 gets the type of file 0.
    fn same_type(&mut self) -> Words {
        let [from, to] = [0, 1].map(|file| self.field(What::Type, Some((0, file))));
        words(&Field { bytes: from.bytes, ..to })
    }

    fn told(&mut self, what: What, fault: Fault) -> Aimed {
        let full = fault == Fault::Last || self.random.one_in(4);
        let length = if full { what.bytes() } else { self.random.between(1, what.bytes() as u32 - 1) as usize };
        let (mut name, field, fill) = (self.name(length), self.field(what, None), *self.random.pick(&Fill::ALL));
        let at = self.below(length);
        match fault {
            Fault::First(end) => name[0] = end.byte(),
            Fault::Small => name[at] = *self.random.pick(SMALL),
            Fault::Last => name[length - 1] = *self.random.pick(OTHER),
            Fault::Next => name[at] = *self.random.pick(&[APOSTROPHE - 1, APOSTROPHE + 1]),
            Fault::Upper => name[at] = *self.random.pick(&[APOSTROPHE | 0x80, 0x80]),
        }
        let bytes = fill.field(self.random, &name, what.bytes());
        (words(&Field { bytes, ..field }), vec![Call::Check, self.any_call()])
    }

    /// A later user or file, equal to a lower one but for the fill of its name, or of its type.
    fn equal(&mut self, what: What) -> Words {
        let (first, second) = (self.field(what, Some((0, 0))), self.field(what, Some((1, 1))));
        let length = self.random.between(what.least() as u32, what.bytes() as u32 - 2) as usize;
        let name = self.name(length);
        let mut fills = [Fill::Zeros, Fill::Written, Fill::Left(End::Apostrophe), Fill::Left(End::Zero)];
        self.random.shuffle(&mut fills);
        let [one, two] = [fills[0], fills[1]].map(|fill| fill.field(self.random, &name, what.bytes()));
        let mut all = words(&Field { bytes: one, ..first });
        all.extend(words(&Field { bytes: two, ..second }));
        if what == What::File {
            all.extend(self.same_type());
        }
        all
    }

    /// A call that would be done but for an end in its name or type: at its start, within, or behind it.
    fn argument(&mut self, which: usize, part: Part, end: End) -> Call {
        let (mut name, mut kind) = if which < FORMAT { (b"READS".to_vec(), b"TX".to_vec()) } else { (self.name(5), b"A".to_vec()) };
        if which == FIND_USER {
            name = self.field(What::User, None).name().to_vec();
            name.truncate(15);
        }
        let bytes = if part == Part::Name { &mut name } else { &mut kind };
        let at = if self.random.one_in(2) { bytes.len() } else { self.random.below(bytes.len() as u32 + 1) as usize };
        bytes.insert(at, end.byte());
        named_call(which, name, kind)
    }

    fn written(&mut self, which: usize, part: Part, length: usize) -> Call {
        let (name, kind) = if part == Part::Name { (length, self.below(5)) } else { (self.below(16) + 1, length) };
        let (name, kind) = (self.name(name), self.name(kind));
        named_call(which, name, kind)
    }

    /// A call on an unsound image: it tells what is wrong, whatever it is.
    fn any_call(&mut self) -> Call {
        let (name, kind) = (self.name(3), Vec::new());
        let calls = [
            named_call(FIND_USER, name.clone(), kind.clone()),
            named_call(CREATE_USER, name.clone(), kind.clone()),
            named_call(CREATE_INDEXED, name, kind),
            Call::Grow { user: 0, file: 0 },
            Call::Give { user: 1, count: 1 },
        ];
        self.random.pick(&calls).clone()
    }

    /// Calls that ask for what the field has, that are refused for it, and that work on its entry; the last clears it.
    fn calls_on(&mut self, field: &Field) -> Vec<Call> {
        let user = field.user as usize;
        match field.what {
            What::Volume => self.calls_on_volume(),
            What::User => self.calls_on_user(user, field.name()),
            What::File | What::Type => {
                let of = |what: What, of: &Field| (of.what == what).then(|| of.name().to_vec());
                let other = Field::all(self.image, self.scene).into_iter();
                let beside = other.filter(|other| (other.user, other.file) == (field.user, field.file) && other.at != field.at);
                let both: Vec<Field> = beside.chain([field.clone()]).collect();
                let [name, kind] = [What::File, What::Type].map(|what| both.iter().find_map(|half| of(what, half)).unwrap_or_default());
                calls_on_file(user, field.file as usize, name, kind)
            }
        }
    }

    fn calls_on_volume(&mut self) -> Vec<Call> {
        let (name, kind) = (self.name(4), Vec::new());
        vec![
            Call::Check,
            Call::Give { user: 0, count: 1 },
            Call::Take { user: 0, count: 1 },
            named_call(CREATE_USER, name.clone(), kind.clone()),
            Call::DeleteUser { user: 2 },
            named_call(CREATE_INDEXED, name, kind),
        ]
    }

    /// User 0 has files, the others have none.
    fn calls_on_user(&mut self, user: usize, name: &[u8]) -> Vec<Call> {
        let asked = || (name.to_vec(), Vec::new());
        let ([find, create], new) = ([FIND_USER, CREATE_USER].map(|which| named_call(which, asked().0, asked().1)), self.name(6));
        let mut calls = vec![Call::Check, find, create, Call::Give { user, count: 1 }, Call::Take { user, count: 1 }];
        if user > 0 {
            calls.push(Call::DeleteUser { user });
            return calls;
        }
        calls.push(named_call(CREATE_CONTIGUOUS, new, Vec::new()));
        let file = 0;
        calls.extend([
            Call::Grow { user, file },
            Call::Shrink { user, file },
            Call::NoteOpen { user, file },
            Call::DeleteFile { user, file },
        ]);
        calls
    }
}

/// File 1 is empty, file 2 is contiguous.
fn calls_on_file(user: usize, file: usize, name: Vec<u8>, kind: Vec<u8>) -> Vec<Call> {
    let mut calls = vec![Call::Check];
    calls.extend([FIND_FILE, CREATE_INDEXED, CREATE_CONTIGUOUS].map(|which| named_call(which, name.clone(), kind.clone())));
    calls.push(Call::NoteOpen { user, file });
    if file != 1 {
        calls.push(Call::WritePage { user, file, position: 0, data: Data { first: 7, length: PAGE } });
    }
    if file != 2 {
        calls.extend([Call::Grow { user, file }, Call::Shrink { user, file }]);
    }
    calls.push(Call::DeleteFile { user, file });
    calls
}

/// The words of a field.
fn words(field: &Field) -> Words {
    (field.at..).zip(from_bytes(&field.bytes)).collect()
}

/// A call by its place in `calls::NAMES` with this name, and this type; files are user 0's.
fn named_call(which: usize, name: Vec<u8>, kind: Vec<u8>) -> Call {
    match which {
        FIND_USER => Call::FindUser { name },
        FIND_FILE => Call::FindFile { user: 0, name, kind },
        FORMAT => Call::Format { name, bit_page: Some(1) },
        FORMAT_DEFAULT => Call::Format { name, bit_page: None },
        CREATE_USER => Call::CreateUser { name },
        CREATE_INDEXED => Call::CreateIndexed { user: 0, name, kind, created: 7 },
        _ => Call::CreateContiguous { user: 0, name, kind, created: 7, count: 1 },
    }
}
