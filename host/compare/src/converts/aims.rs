//! For each edge of the conversions words to put on a volume that is in the fill to start from, and calls that then meet the edge.

use super::*;
use crate::calls::Call;
use crate::damage::{Damage, Words};
use crate::names::Field;
use crate::random::Random;
use crate::scene::Scene;
use crate::words::*;

/// Bytes of legal names.
const LEGAL: &[u8] = b"ABCDEFGHIJKLMNOPQRSTUVWXYZ0123456789-";

/// What is aimed at: words to put, how much of the image is lent, and calls.
pub struct Aimed {
    pub words: Words,
    pub lent: Option<usize>,
    pub calls: Vec<Call>,
}

/// Aims at the edges of a direction on one volume, which is in the fill to start from.
pub struct Aims<'a> {
    pub random: &'a mut Random,
    pub image: &'a [u16],
    pub scene: &'a Scene,
    pub way: Way,
}

impl Aims<'_> {
    /// None where the volume has nothing of the kind.
    pub fn aimed(&mut self, edge: Edge) -> Option<Aimed> {
        let words = match edge {
            Edge::Changed | Edge::Length | Edge::ThereAndBack | Edge::Twice | Edge::Wrote | Edge::Between => Words::new(),
            Edge::Nothing => self.all_full(None),
            Edge::Converted(what, length) => self.short(what, length, self.way.from(), |_| true)?,
            Edge::Full(what) => self.short(what, what.bytes(), self.way.from(), |_| true)?,
            Edge::Later(what) => self.somewhere(what, self.way.from(), |field| number(field) >= 32)?,
            Edge::LaterBlock => self.somewhere(What::File, self.way.from(), |field| number(field) >= 512 * 32)?,
            Edge::Unused(what, like) => self.unused(what, like)?,
            Edge::InTheWay(what, fill) => self.somewhere(what, fill, |_| true)?,
            Edge::OnlyShort(what) => {
                let field = self.field(what, |_| true)?;
                self.all_full(Some(&field))
            }
            Edge::LaterInTheWay(what) => {
                let fill = *self.random.pick(&wrong_fills(self.way));
                self.somewhere(what, fill, |field| number(field) >= 32)?
            }
            Edge::Mixed => self.mixed(),
            Edge::Again => self.all_to(),
            Edge::Unsound(rule, wrong) => self.unsound(rule, wrong)?,
        };
        Some(Aimed { words, lent: self.lent(edge), calls: self.calls(edge) })
    }

    fn lent(&mut self, edge: Edge) -> Option<usize> {
        let words = self.image.len();
        (edge == Edge::Length).then(|| *self.random.pick(&[0, 1, 7 * PAGE, 8 * PAGE - 1, words - 1, words - PAGE + 1]))
    }

    fn calls(&mut self, edge: Edge) -> Vec<Call> {
        let (way, back) = (self.way.call(), self.way.back().call());
        match edge {
            Edge::ThereAndBack => vec![way, back],
            Edge::Twice => vec![way.clone(), way],
            Edge::Wrote => vec![Call::CreateUser { name: self.new_name(7) }, way],
            Edge::Between => {
                let name = self.scene.users.first().map_or(b"NOBODY".to_vec(), |user| user.name.clone());
                let after = [Call::FindUser { name }, Call::CreateUser { name: self.new_name(5) }, Call::NoteOpen { user: 0, file: 0 }];
                [vec![Call::Check, way], after.to_vec(), vec![Call::Check]].concat()
            }
            _ => vec![way],
        }
    }

    fn fields(&self) -> Vec<Field> {
        Field::all(self.image, self.scene)
    }

    /// Legal bytes, so many; no field has just these.
    fn new_name(&mut self, length: usize) -> Vec<u8> {
        let fields = self.fields();
        loop {
            let name: Vec<u8> = (0..length).map(|_| *self.random.pick(LEGAL)).collect();
            if length == 0 || fields.iter().all(|field| field.name() != name) {
                return name;
            }
        }
    }

    /// Some field of this kind.
    fn field(&mut self, what: What, fits: impl Fn(&Field) -> bool) -> Option<Field> {
        let all: Vec<Field> = self.fields().into_iter().filter(|field| field.what == what && fits(field)).collect();
        (!all.is_empty()).then(|| self.random.pick(&all).clone())
    }

    /// A field of this kind gets another name or type of so many bytes, filled up so.
    fn short(&mut self, what: What, length: usize, fill: Fill, fits: impl Fn(&Field) -> bool) -> Option<Words> {
        let field = self.field(what, fits)?;
        Some(self.renamed(&field, length, fill))
    }

    /// The same with any length that leaves room for leftovers.
    fn somewhere(&mut self, what: What, fill: Fill, fits: impl Fn(&Field) -> bool) -> Option<Words> {
        let length = self.random.between(what.least() as u32, what.bytes() as u32 - 2);
        self.short(what, length as usize, fill, fits)
    }

    /// Where a type is another one, its file's name is, too, so that no two files are equal.
    fn renamed(&mut self, field: &Field, length: usize, fill: Fill) -> Words {
        let name = self.new_name(length);
        let mut bytes = fill.field(self.random, &name, field.what.bytes());
        if matches!(fill, Fill::Left(_)) && self.random.one_in(2) {
            one_left(self.random, &mut bytes[length + 1..]);
        }
        let mut words = put(field.at, &bytes);
        if field.what == What::Type {
            let name = self.new_name(12);
            words.extend(put(field.at - TYPE + NAME, &self.way.from().field(self.random, &name, 16)));
        }
        words
    }

    /// No field is short, but for one that is in the way.
    fn all_full(&mut self, but: Option<&Field>) -> Words {
        let mut words = Words::new();
        for field in self.fields() {
            let name = self.new_name(field.what.bytes());
            words.extend(put(field.at, &name));
        }
        if let Some(field) = but {
            let length = self.random.between(field.what.least() as u32, field.what.bytes() as u32 - 2) as usize;
            let (name, fill) = (self.new_name(length), *self.random.pick(&wrong_fills(self.way)));
            words.extend(put(field.at, &fill.field(self.random, &name, field.what.bytes())));
        }
        words
    }

    /// Every field in the fill that the call writes.
    fn all_to(&mut self) -> Words {
        let to = self.way.to();
        self.fields().into_iter().flat_map(|field| put(field.at, &to.field(self.random, field.name(), field.what.bytes()))).collect()
    }

    /// Some fields in the fill that the call writes; a long name keeps its own.
    fn mixed(&mut self) -> Words {
        let (to, mut words) = (self.way.to(), Words::new());
        for field in self.fields() {
            if self.random.one_in(2) {
                words.extend(put(field.at, &to.field(self.random, field.name(), field.what.bytes())));
            }
        }
        words
    }

    /// An unused entry gets a name and a type, as if it were used: in the fill to start from, or in another.
    fn unused(&mut self, what: What, like: bool) -> Option<Words> {
        let pages = if what == What::User { &self.scene.user_pages } else { &self.scene.object_pages };
        let entries = pages.iter().flat_map(|&(_, page)| (0..32).map(move |n| entry_at(page, n)));
        let unused: Vec<usize> = entries.filter(|&at| self.image[at] & 0x8000 == 0).collect();
        if unused.is_empty() {
            return None;
        }
        let at = *self.random.pick(&unused);
        let fill = if like { self.way.from() } else { *self.random.pick(&wrong_fills(self.way)) };
        let (name, kind) = (self.random.between(1, 14) as usize, self.random.below(3) as usize);
        let mut words = put(at + NAME, &fill.field(self.random, &b"LEFT-FROM-BEFORE"[..name], 16));
        words.extend(put(at + TYPE, &fill.field(self.random, &b"OLD"[..kind], 4)));
        Some(words)
    }

    /// Damage aimed at a rule; the fill is right throughout, or a field that the damage does not touch is in the wrong one.
    fn unsound(&mut self, rule: u32, wrong: bool) -> Option<Words> {
        for _ in 0..20 {
            let Some(mut words) = Damage::new(self.random, self.image, self.scene).aimed(rule) else { continue };
            let more = if wrong { self.wrong_beside(&words) } else { self.is_right_with(&words).then(Words::new) };
            if let Some(more) = more {
                words.extend(more);
                return Some(words);
            }
        }
        None
    }

    /// A short field that these words do not touch gets the other fill: the volume's name, which can be seen whatever is broken, or one more.
    fn wrong_beside(&mut self, words: &Words) -> Option<Words> {
        let is_in = |field: &Field, at: usize| (field.at..field.at + field.bytes.len() / 2).contains(&at);
        let fits = |field: &Field| field.fill() != Fill::Full && words.iter().all(|&(at, _)| !is_in(field, at));
        let fields: Vec<Field> = self.fields().into_iter().filter(fits).collect();
        let first = fields.first()?.clone();
        let more = self.random.pick(&fields).clone();
        let to = self.way.to();
        Some([first, more].iter().flat_map(|field| put(field.at, &to.field(self.random, field.name(), field.what.bytes()))).collect())
    }

    /// Whether all fields that can be seen are in the fill to start from, with these words.
    fn is_right_with(&self, words: &Words) -> bool {
        let mut image = self.image.to_vec();
        words.iter().for_each(|&(at, word)| image[at] = word);
        let fields = Field::all(&image, &Scene::read(&image));
        fields.iter().all(|field| [Fill::Full, self.way.from()].contains(&field.fill()))
    }
}

/// The number of a field's entry in its file.
fn number(field: &Field) -> u32 {
    match field.what {
        What::Volume => 0,
        What::User => field.user,
        What::File | What::Type => 256 * field.user + field.file,
    }
}

/// Leaves one of the bytes behind an end, and makes the others zero.
fn one_left(random: &mut Random, behind: &mut [u8]) {
    let at = random.below(behind.len() as u32) as usize;
    let byte = behind[at].max(1);
    behind.fill(0);
    behind[at] = byte;
}

/// The words of a field with these bytes.
fn put(at: usize, bytes: &[u8]) -> Words {
    (at..).zip(from_bytes(bytes)).collect()
}
