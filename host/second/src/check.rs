//! The check: the ten rules in order, each judged only where all lower ones
//! hold, and where it is asked.

use crate::bits::{bits_below, lies_within, words_in_use};
use crate::entry::{entry_words, file_pointer, is_used, object, stored_name, stored_type, user, EntryPlace, ENTRIES, ENTRIES_TO_A_PAGE};
use crate::image::{all_zero, page_count, page_words, pair, BIT_POINTER, OBJECT_POINTER, UNRESERVED, USER_POINTER};
use crate::name::Stored;
use crate::place::broken;
use crate::pointer::{pages_held, slot, Pointer, SLOTS};
use crate::reply::{Outcome, Refusal, Reply};
use crate::rules::Asked;
use crate::volume::{bit_run, bits, volume_name};
use crate::walk::Walk;

/// Checks the image; with 0, the value is the number of visits.
pub fn check(image: &[u16]) -> Reply {
    page_count(image).and_then(|pages| demand_sound(image, pages)).into()
}

/// Number 3, its rule and its place where the image is unsound, else the
/// visits. The place is looked for only once a rule has failed.
pub(crate) fn demand_sound(image: &[u16], pages: u32) -> Outcome {
    judge(image, pages, Asked::All).map(|held| held.visits)
}

/// The same of the rules that speak of pointers; gives what these hold.
pub(crate) fn demand_pointers(image: &[u16], pages: u32) -> Result<Held, Refusal> {
    judge(image, pages, Asked::Pointers)
}

fn judge(image: &[u16], pages: u32, asked: Asked) -> Result<Held, Refusal> {
    let parts = Parts::new(image, pages, asked);
    parts.judge().map_err(|rule| Refusal::unsound(broken(image, pages, rule, asked)))
}

/// What the pointers of an image hold.
pub(crate) struct Held {
    /// A bit for each held page, laid out as the bit file is.
    pub(crate) bits: Vec<u16>,
    /// Held pages, each once.
    visits: u32,
    /// Pages that no file holds.
    pub(crate) system: u64,
    /// The used users, by their indexes.
    pub(crate) users: Vec<Option<User>>,
}

/// What rule 4 learns of a used user, and what his files turn out to hold.
pub(crate) struct User {
    pub(crate) given: u32,
    used: u32,
    pub(crate) held: u64,
}

/// What rule 6 learns of a used object.
struct File {
    user: usize,
    name: (Stored, Stored),
    pages: u32,
    bytes: u32,
    pointer: Pointer,
}

/// What the lower rules have found for the higher ones.
struct Parts<'a> {
    image: &'a [u16],
    pages: u32,
    asked: Asked,
    /// Pages no file holds, as often as they are held.
    system: Vec<u32>,
    users: Vec<Option<User>>,
    /// Object pages with their positions in the object file.
    object_pages: Vec<(u32, u32)>,
    files: Vec<File>,
}

/// A rule judged: Err is its number, broken.
type Judged = Result<(), u32>;

fn rule(number: u32, holds: bool) -> Judged {
    if holds {
        Ok(())
    } else {
        Err(number)
    }
}

/// Whether no two keys are equal.
fn all_differ<K: Ord>(mut keys: Vec<K>) -> bool {
    keys.sort_unstable();
    keys.windows(2).all(|two| two[0] != two[1])
}

impl<'a> Parts<'a> {
    fn new(image: &'a [u16], pages: u32, asked: Asked) -> Parts<'a> {
        Parts {
            image,
            pages,
            asked,
            system: vec![0],
            users: (0..ENTRIES).map(|_| None).collect(),
            object_pages: Vec::new(),
            files: Vec::new(),
        }
    }

    fn judge(mut self) -> Result<Held, u32> {
        self.rule_1()?;
        let (user_pointer, object_pointer) = self.rule_2()?;
        if let Pointer::Indexed(block) = user_pointer {
            let user_pages = self.rule_3(block)?;
            self.rule_4(&user_pages)?;
        }
        self.rule_5(object_pointer)?;
        self.rule_6()?;
        let mut walk = Walk::new(self.image, self.pages);
        self.rule_7(&mut walk)?;
        rule(8, !walk.met_twice())?;
        if self.asked.with_counts() {
            self.rule_9(walk.held())?;
            self.rule_10()?;
        }
        Ok(Held {
            visits: walk.visits(),
            bits: walk.into_held(),
            system: self.system.len() as u64,
            users: self.users,
        })
    }

    fn in_range(&self, page: u32) -> bool {
        (1..self.pages).contains(&page)
    }

    /// The volume's name and the bit pointer, which with a flag is far above P.
    fn rule_1(&mut self) -> Judged {
        let first = pair(self.image, BIT_POINTER);
        rule(1, volume_name(self.image).is_name() && lies_within(first, self.pages))?;
        self.system.extend(bit_run(self.image));
        Ok(())
    }

    /// The user pointer and the object pointer.
    fn rule_2(&self) -> Result<(Pointer, Pointer), u32> {
        let user = Pointer::read(pair(self.image, USER_POINTER));
        let object = Pointer::read(pair(self.image, OBJECT_POINTER));
        let holds = match (user, object) {
            (Pointer::Zero, Pointer::Zero) => true,
            (Pointer::Indexed(users), Pointer::Indexed(objects) | Pointer::Subindexed(objects)) => {
                self.in_range(users) && self.in_range(objects)
            }
            _ => false,
        };
        rule(2, holds)?;
        Ok((user, object))
    }

    /// The filled slots of a block and their pages. The first `allowed` slots
    /// are zero or in 1..P-1, the others zero; else the rule is broken.
    fn slots(&self, number: u32, block: u32, allowed: u32) -> Result<Vec<(u32, u32)>, u32> {
        let mut filled = Vec::new();
        for n in 0..allowed {
            let page = slot(self.image, block, n);
            if page != 0 {
                rule(number, self.in_range(page))?;
                filled.push((n, page));
            }
        }
        let rest = &page_words(self.image, block)[2 * allowed as usize..];
        rule(number, all_zero(rest))?;
        Ok(filled)
    }

    /// The user index; gives the user pages with their positions.
    fn rule_3(&mut self, block: u32) -> Result<Vec<(u32, u32)>, u32> {
        let user_pages = self.slots(3, block, ENTRIES / ENTRIES_TO_A_PAGE)?;
        self.system.push(block);
        self.system.extend(user_pages.iter().map(|&(_, page)| page));
        Ok(user_pages)
    }

    /// The used users.
    fn rule_4(&mut self, user_pages: &[(u32, u32)]) -> Judged {
        let mut names = Vec::new();
        for (number, entry) in used_entries(self.image, user_pages) {
            let (given, used) = (pair(entry, user::GIVEN), pair(entry, user::USED));
            let name = stored_name(entry);
            let own = u32::from(entry[user::OWN_INDEX]) == number;
            let within = used <= given || !self.asked.with_counts();
            rule(4, own && name.is_name() && within)?;
            names.push(name);
            self.users[number as usize] = Some(User { given, used, held: 0 });
        }
        rule(4, all_differ(names))
    }

    /// The object file's blocks.
    fn rule_5(&mut self, pointer: Pointer) -> Judged {
        match pointer {
            Pointer::Indexed(block) => {
                rule(5, self.users[64..].iter().all(Option::is_none))?;
                self.object_index(0, block)
            }
            Pointer::Subindexed(subindex) => {
                self.system.push(subindex);
                for (n, block) in self.slots(5, subindex, 4)? {
                    self.object_index(n, block)?;
                }
                Ok(())
            }
            _ => Ok(()),
        }
    }

    /// One index block of the object file.
    fn object_index(&mut self, n: u32, block: u32) -> Judged {
        self.system.push(block);
        for (slot, page) in self.slots(5, block, SLOTS)? {
            self.system.push(page);
            self.object_pages.push((n * SLOTS + slot, page));
        }
        Ok(())
    }

    /// The used objects.
    fn rule_6(&mut self) -> Judged {
        for (number, entry) in used_entries(self.image, &self.object_pages) {
            let user = (number / ENTRIES) as usize;
            let (name, kind) = (stored_name(entry), stored_type(entry));
            let numbered = usize::from(entry[object::USER]) == user && u32::from(entry[object::OWN_NUMBER]) == number;
            let named = name.is_name() && kind.is_type();
            rule(6, self.users[user].is_some() && numbered && named)?;
            self.files.push(File {
                user,
                name: (name, kind),
                pages: pair(entry, object::PAGES),
                bytes: pair(entry, object::BYTES),
                pointer: file_pointer(entry),
            });
        }
        let mut by_user = self.files.chunk_by(|a, b| a.user == b.user);
        rule(6, by_user.all(|files| all_differ(files.iter().map(|file| file.name).collect())))
    }

    /// The files' shapes; also marks every held page, and adds up what each
    /// user's files hold.
    fn rule_7(&mut self, walk: &mut Walk) -> Judged {
        for &page in &self.system {
            walk.mark(page);
        }
        for file in &self.files {
            let bytes = 2048 * u64::from(file.pages);
            rule(7, u64::from(file.bytes) == bytes && walk.mark_file(file.pages, file.pointer))?;
            if let Some(user) = &mut self.users[file.user] {
                user.held += match file.pointer {
                    Pointer::Plain(_) => u64::from(file.pages),
                    _ => pages_held(file.pages),
                };
            }
        }
        Ok(())
    }

    /// The bit file against the pages that are held.
    fn rule_9(&self, held: &[u16]) -> Judged {
        let bits = bits(self.image);
        rule(
            9,
            (0..words_in_use(self.pages)).all(|word| bits[word] & bits_below(self.pages, word) == held[word]),
        )
    }

    /// The counts, added as numbers that never wrap.
    fn rule_10(&self) -> Judged {
        let users = || self.users.iter().flatten();
        let given: u64 = users().map(|user| u64::from(user.given)).sum();
        let unreserved = u64::from(pair(self.image, UNRESERVED));
        let whole = unreserved + given + self.system.len() as u64;
        let charged = users().all(|user| u64::from(user.used) == user.held);
        rule(10, charged && whole == u64::from(self.pages))
    }
}

/// The used entries of an entry file with their numbers, its pages being
/// given with their positions.
fn used_entries<'b>(image: &'b [u16], pages: &'b [(u32, u32)]) -> impl Iterator<Item = (u32, &'b [u16])> {
    pages.iter().flat_map(move |&(position, page)| {
        (0..ENTRIES_TO_A_PAGE)
            .map(move |n| (position * ENTRIES_TO_A_PAGE + n, EntryPlace::of(n).start_in(page)))
            .map(move |(number, start)| (number, entry_words(image, start)))
            .filter(|(_, entry)| is_used(entry))
    })
}
