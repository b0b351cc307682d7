//! Calls by chance: mostly on what is there, at the edges of what fits, and now and then with something wrong.

use crate::calls::{Call, Data, NAMES};
use crate::random::Random;
use crate::scene::{File, Scene, User};
use crate::volumes::nth;
use crate::words::{last_bit_start, ENDS, MOST_PAGES, PAGE, TO_A_BIT_PAGE};

/// What a sequence of calls is mostly about; each is a weight for every call in the order of `calls::NAMES`.
pub type Profile = [u32; NAMES.len()];

pub const MIXED: Profile = [1, 2, 2, 3, 4, 3, 0, 0, 4, 2, 6, 3, 6, 5, 14, 6, 4, 3, 2, 1, 1, 1];
pub const GROWING: Profile = [0, 1, 1, 1, 2, 1, 0, 0, 2, 0, 5, 1, 4, 2, 30, 3, 1, 1, 1, 0, 0, 0];
pub const SHRINKING: Profile = [0, 0, 1, 1, 2, 1, 0, 0, 1, 3, 1, 3, 1, 1, 3, 20, 6, 1, 1, 1, 1, 1];
pub const RUNS: Profile = [0, 0, 1, 2, 2, 1, 0, 0, 1, 0, 3, 1, 1, 14, 2, 1, 7, 1, 1, 0, 0, 1];
pub const USERS: Profile = [0, 2, 0, 0, 2, 0, 0, 0, 20, 6, 4, 2, 2, 1, 1, 0, 1, 0, 0, 1, 1, 1];
pub const FILES: Profile = [0, 0, 4, 1, 2, 1, 0, 0, 1, 1, 2, 1, 20, 4, 4, 1, 8, 1, 2, 1, 1, 1];
pub const ASKING: Profile = [1, 4, 4, 6, 8, 6, 0, 0, 1, 1, 1, 1, 1, 1, 1, 1, 1, 2, 6, 1, 1, 1];
pub const ANY: Profile = [1; NAMES.len()];

pub const PROFILES: [Profile; 7] = [MIXED, GROWING, SHRINKING, RUNS, USERS, FILES, ASKING];

/// The first number that 32 bits do not hold. One so much larger than a right number is wrong, and cut to 32 bits it would be right.
pub const WIDE: usize = 1 << 32;

/// Chooses calls on the image that is seen.
pub struct Choice<'a> {
    pub random: &'a mut Random,
    pub image: &'a [u16],
    pub scene: &'a Scene,
}

impl Choice<'_> {
    /// A call by the weights of a profile.
    pub fn call(&mut self, profile: &Profile) -> Call {
        let mut left = self.random.below(profile.iter().sum());
        let which = profile.iter().position(|&weight| {
            left < weight || {
                left -= weight;
                false
            }
        });
        match which.unwrap_or(0) {
            0 => Call::Check,
            1 => Call::FindUser { name: self.known_user_name() },
            2 => self.find_file(),
            3 | 5 | 17 => self.at_position(which.unwrap_or(0)),
            4 => Call::WhoHolds { page: self.page() },
            6 => Call::Format { name: self.new_name(), bit_page: Some(self.page()) },
            7 => Call::Format { name: self.new_name(), bit_page: None },
            8 => Call::CreateUser { name: self.name_for_user() },
            9 => Call::DeleteUser { user: self.user() },
            10 => self.give(),
            11 => self.take(),
            12 => self.create_indexed(),
            13 => self.create_contiguous(),
            19 => Call::ConvertToApostrophe,
            20 => Call::ConvertToZeros,
            21 => Call::Salvage { room: self.room() },
            n => self.on_file(n),
        }
    }

    /// Room for changes: none, few, or as many as there can be.
    fn room(&mut self) -> usize {
        let few = self.random.below(6) as usize;
        *self.random.pick(&[0, few, few, proved::most_changes(self.scene.pages as usize)])
    }

    /// How many words to lend: mostly all, seldom a length that is wrong or that cuts the volume.
    pub fn lent(&mut self, one_in: u32) -> Option<usize> {
        if !self.random.one_in(one_in) {
            return None;
        }
        let words = self.image.len();
        let part = self.random.below(words as u32 + 1) as usize;
        Some(*self.random.pick(&[0, 1, PAGE - 1, 7 * PAGE, 8 * PAGE - 1, words - 1, words - PAGE, part]))
    }

    fn some_user(&mut self) -> Option<&User> {
        let users = &self.scene.users;
        (!users.is_empty()).then(|| self.random.pick(users))
    }

    fn some_file(&mut self) -> Option<&File> {
        let files = &self.scene.files;
        (!files.is_empty()).then(|| self.random.pick(files))
    }

    /// A number that is too large: just so, by far, or by as much as 32 bits do not hold.
    fn too_large(&mut self, bound: usize, right: usize) -> usize {
        *self.random.pick(&[bound, bound + 1, 65_536.max(bound), u32::MAX as usize, WIDE, WIDE + right, 3 * WIDE + right, usize::MAX])
    }

    fn below(&mut self, bound: u32) -> usize {
        self.random.below(bound) as usize
    }

    /// An index, mostly of a user who is there.
    fn user(&mut self) -> usize {
        let there = self.some_user().map_or(0, |user| user.index) as usize;
        match self.random.below(24) {
            0 => self.too_large(256, there),
            1 => self.below(256),
            _ => there,
        }
    }

    /// The user who may use the most pages more, or any.
    fn rich_user(&mut self) -> usize {
        if self.random.one_in(3) {
            return self.user();
        }
        self.scene.users.iter().max_by_key(|user| user.left()).map_or(0, |user| user.index as usize)
    }

    /// A user and a file, mostly there.
    fn user_and_file(&mut self) -> (usize, usize) {
        let there = self.some_file().map_or((0, 0), |file| (file.user as usize, file.file as usize));
        match self.random.below(16) {
            0 => (there.0, self.too_large(256, there.1)),
            1 => (self.user(), self.below(256)),
            2 => (self.user(), there.1),
            _ => there,
        }
    }

    fn page(&mut self) -> usize {
        let pages = self.scene.pages as usize;
        let any = self.below(self.scene.pages);
        match self.random.below(16) {
            0 => self.too_large(pages, any),
            1 => *self.random.pick(&[0, 1, pages - 1, pages / 2, last_bit_start(self.scene.pages) as usize]),
            2 => self.random.between(self.scene.bit_run().start, self.scene.bit_run().end - 1) as usize,
            3 | 4 => self.some_file().map_or(1, |file| file.page() as usize),
            _ => any,
        }
    }

    fn position(&mut self, user: usize, file: usize) -> usize {
        let pages = self.scene.file(user, file).map_or(0, |file| file.pages);
        let there = self.below(pages.max(1));
        match self.random.below(10) {
            0 => self.too_large(pages as usize, there),
            1 => *self.random.pick(&[0, 511, 512, 1_023, 1_024, 65_536, pages as usize]),
            2 | 3 => pages.wrapping_sub(1) as usize,
            _ => there,
        }
    }

    /// A name that is wrong somewhere.
    fn wrong_name(&mut self) -> Vec<u8> {
        let wrong: [&[u8]; 12] = [b"", b"yard", b"A B", b"A\0", b"\0A", b"A_B", b"@", b"[", b"/", b":", b"\xC1B", b"SEVENTEEN-LETTERS"];
        let ended: [&[u8]; 4] = [b"A'", b"'", b"A'B", b"FIFTEEN-LETTERS'"];
        match self.random.below(4) {
            0 => self.random.pick(&ended).to_vec(),
            1 => {
                let known = self.some_user().map_or(b"DOCK".to_vec(), |user| user.name.clone());
                [&known[..], &[*self.random.pick(&ENDS)]].concat()
            }
            _ => self.random.pick(&wrong).to_vec(),
        }
    }

    fn wrong_type(&mut self) -> Vec<u8> {
        let wrong: [&[u8]; 9] = [b"FIVES", b"a", b"A\0", b"\0", b"A,B", b"\x7F", b"A'", b"'", b"DAT'"];
        self.random.pick(&wrong).to_vec()
    }

    fn new_name(&mut self) -> Vec<u8> {
        match self.random.below(16) {
            0 => self.wrong_name(),
            1 => b"SIXTEEN-LETTERS-"[..self.random.between(14, 16) as usize].to_vec(),
            2 => vec![*self.random.pick(b"AZ09-")],
            _ => nth(self.random.below(400)),
        }
    }

    fn known_user_name(&mut self) -> Vec<u8> {
        if self.random.one_in(4) {
            return self.new_name();
        }
        self.some_user().map_or(b"NOBODY".to_vec(), |user| user.name.clone())
    }

    fn name_for_user(&mut self) -> Vec<u8> {
        if self.random.one_in(10) {
            return self.known_user_name();
        }
        self.new_name()
    }

    fn kind(&mut self) -> Vec<u8> {
        if self.random.one_in(24) {
            return self.wrong_type();
        }
        self.random.pick(&[b"" as &[u8], b"A", b"X", b"DATA", b"DA", b"T-1"]).to_vec()
    }

    fn find_file(&mut self) -> Call {
        let known = self.some_file().map(|file| (file.user as usize, file.name.clone(), file.kind.clone()));
        match (self.random.below(6), known) {
            (0, _) | (_, None) => Call::FindFile { user: self.user(), name: self.new_name(), kind: self.kind() },
            (1, Some((user, name, _))) => Call::FindFile { user, name, kind: self.kind() },
            (2, Some((_, name, kind))) => Call::FindFile { user: self.user(), name, kind },
            (_, Some((user, name, kind))) => Call::FindFile { user, name, kind },
        }
    }

    /// Address, read or write.
    fn at_position(&mut self, which: usize) -> Call {
        let (user, file) = self.user_and_file();
        let position = self.position(user, file);
        match which {
            3 => Call::Address { user, file, position },
            5 => Call::ReadPage { user, file, position },
            _ => {
                let length = if self.random.one_in(8) { *self.random.pick(&[0, 1, 1_023, 1_025, 2_048]) } else { PAGE };
                Call::WritePage { user, file, position, data: Data { first: self.random.word(), length } }
            }
        }
    }

    /// A page count near a bound that matters.
    fn count_near(&mut self, bound: u32) -> usize {
        let few = self.random.between(1, (bound / 2).clamp(1, MOST_PAGES)) as usize;
        let bound = bound as usize;
        match self.random.below(12) {
            0 if self.random.one_in(3) => {
                let one = TO_A_BIT_PAGE as usize;
                *self.random.pick(&[0, 0, one, one + 1, MOST_PAGES as usize])
            }
            0 => self.too_large(MOST_PAGES as usize + 1, few),
            1 | 2 => bound,
            3 => bound + 1,
            4 => bound.saturating_sub(1),
            _ => few,
        }
    }

    fn give(&mut self) -> Call {
        Call::Give { user: self.user(), count: self.count_near(self.scene.unreserved) }
    }

    fn take(&mut self) -> Call {
        let user = self.user();
        let left = self.scene.left(user).unwrap_or(1);
        Call::Take { user, count: self.count_near(left) }
    }

    /// The name and type of a file to be made, seldom of one that is there.
    fn name_for_file(&mut self, user: usize) -> (Vec<u8>, Vec<u8>) {
        let taken = self.scene.files.iter().find(|file| file.user as usize == user);
        match taken {
            Some(file) if self.random.one_in(10) => (file.name.clone(), file.kind.clone()),
            Some(file) if self.random.one_in(10) => (file.name.clone(), self.kind()),
            _ => (self.new_name(), self.kind()),
        }
    }

    fn create_indexed(&mut self) -> Call {
        let user = self.rich_user();
        let (name, kind) = self.name_for_file(user);
        Call::CreateIndexed { user, name, kind, created: self.random.next() as u32 }
    }

    fn create_contiguous(&mut self) -> Call {
        let user = self.rich_user();
        let (name, kind) = self.name_for_file(user);
        let longest = self.scene.longest_run(self.image);
        let left = self.scene.left(user).unwrap_or(1);
        let bound = if self.random.one_in(3) { left } else { longest };
        Call::CreateContiguous { user, name, kind, created: self.random.next() as u32, count: self.count_near(bound) }
    }

    /// Grow, shrink, delete or open; mostly a file is made first where there is none.
    fn on_file(&mut self, which: usize) -> Call {
        if self.scene.files.is_empty() && !self.random.one_in(3) {
            return self.create_indexed();
        }
        let (user, file) = self.user_and_file();
        match which {
            14 => Call::Grow { user, file },
            15 => Call::Shrink { user, file },
            16 => Call::DeleteFile { user, file },
            _ => Call::NoteOpen { user, file },
        }
    }
}
