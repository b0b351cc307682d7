//! What became of named texts that stand in places: definitions in files, rows in sections.

/// A text with its name, and where it stands.
#[derive(Clone, Debug, PartialEq, Eq)]
pub struct Item {
    pub place: String,
    pub name: String,
    pub text: String,
}

#[derive(Clone, Copy, Debug, PartialEq, Eq)]
pub enum Fate {
    /// The same text in the same place.
    Stayed,
    /// Another text in the same place.
    Changed,
    /// The same text in another place.
    Moved,
    MovedAndChanged,
    Came,
    Went,
}

pub const FATES: [Fate; 6] = [
    Fate::Stayed,
    Fate::Changed,
    Fate::Moved,
    Fate::MovedAndChanged,
    Fate::Came,
    Fate::Went,
];

impl Fate {
    pub fn name(self) -> &'static str {
        match self {
            Fate::Stayed => "stayed",
            Fate::Changed => "changed",
            Fate::Moved => "moved",
            Fate::MovedAndChanged => "moved and changed",
            Fate::Came => "came",
            Fate::Went => "went",
        }
    }
}

/// What became of one item, by its place and name before and after.
#[derive(Clone, Debug, PartialEq, Eq)]
pub struct Told {
    pub fate: Fate,
    pub name: String,
    pub old: Option<String>,
    pub new: Option<String>,
}

/// Items still without their counterparts, on both sides.
struct Left<'a> {
    before: Vec<&'a Item>,
    after: Vec<&'a Item>,
    told: Vec<Told>,
}

impl<'a> Left<'a> {
    /// Joins what is alike, one to one, in the order in which it stands.
    fn join(&mut self, fate: Fate, alike: impl Fn(&Item, &Item) -> bool) {
        let (after, told) = (&mut self.after, &mut self.told);
        self.before.retain(|old| {
            let Some(n) = after.iter().position(|new| alike(old, new)) else {
                return true;
            };
            let new = after.remove(n);
            told.push(Told {
                fate,
                name: old.name.clone(),
                old: Some(old.place.clone()),
                new: Some(new.place.clone()),
            });
            false
        });
    }

    fn rest(mut self) -> Vec<Told> {
        let one = |fate, item: &Item, old, new| Told {
            fate,
            name: item.name.clone(),
            old,
            new,
        };
        let place = |item: &Item| Some(item.place.clone());
        self.told
            .extend(self.before.iter().map(|item| one(Fate::Went, item, place(item), None)));
        self.told
            .extend(self.after.iter().map(|item| one(Fate::Came, item, None, place(item))));
        self.told
    }
}

/// What became of each item. Of a name that stands in several other places the one with the same text is meant, or else the first.
pub fn compare(before: &[Item], after: &[Item]) -> Vec<Told> {
    let mut left = Left {
        before: before.iter().collect(),
        after: after.iter().collect(),
        told: Vec::new(),
    };
    left.join(Fate::Stayed, |old, new| old == new);
    left.join(Fate::Changed, |old, new| (&old.place, &old.name) == (&new.place, &new.name));
    left.join(Fate::Moved, |old, new| (&old.name, &old.text) == (&new.name, &new.text));
    left.join(Fate::MovedAndChanged, |old, new| old.name == new.name);
    left.rest()
}

#[cfg(test)]
mod tests {
    use super::*;

    fn item(place: &str, name: &str, text: &str) -> Item {
        let [place, name, text] = [place, name, text].map(str::to_string);
        Item { place, name, text }
    }

    fn fates(before: &[Item], after: &[Item]) -> Vec<(String, Fate)> {
        let mut fates: Vec<(String, Fate)> = compare(before, after).into_iter().map(|told| (told.name, told.fate)).collect();
        fates.sort_by(|a, b| a.0.cmp(&b.0));
        fates
    }

    #[test]
    fn each_fate() {
        let before = [
            item("A", "stays", "1"),
            item("A", "changes", "1"),
            item("A", "moves", "1"),
            item("A", "moves-changed", "1"),
            item("A", "goes", "1"),
        ];
        let after = [
            item("A", "stays", "1"),
            item("A", "changes", "2"),
            item("B", "moves", "1"),
            item("B", "moves-changed", "2"),
            item("B", "comes", "1"),
        ];
        let expected = [
            ("changes", Fate::Changed),
            ("comes", Fate::Came),
            ("goes", Fate::Went),
            ("moves", Fate::Moved),
            ("moves-changed", Fate::MovedAndChanged),
            ("stays", Fate::Stayed),
        ];
        assert_eq!(fates(&before, &after), expected.map(|(name, fate)| (name.to_string(), fate)));
    }

    #[test]
    fn a_name_in_two_places_is_told_by_its_text() {
        let before = [item("A", "x", "1"), item("B", "x", "2")];
        let after = [item("C", "x", "2"), item("D", "x", "1")];
        let told = compare(&before, &after);
        let places: Vec<_> = told.iter().map(|t| (t.fate, t.old.as_deref(), t.new.as_deref())).collect();
        assert_eq!(places, [(Fate::Moved, Some("A"), Some("D")), (Fate::Moved, Some("B"), Some("C"))]);
    }
}
