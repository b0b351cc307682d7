//! For each edge of salvage a damaged volume, and the room of the list that is lent with it.

use super::*;
use crate::damage::Damage;
use crate::random::Random;
use crate::scene::{File, Scene, User};
use crate::stale::Stale;
use crate::words::*;

/// The room of a list, by the changes that it would have to hold.
#[derive(Clone, Copy, Debug, PartialEq)]
pub enum Room {
    None,
    OneTooFew,
    Enough,
    More,
}

/// What is aimed at: the damaged volume, the room, and how much of the image is lent.
pub struct Aimed {
    pub image: Vec<u16>,
    pub room: Room,
    pub lent: Option<usize>,
}

/// Aims at the edges on one sound volume.
pub struct Aims<'a> {
    pub random: &'a mut Random,
    pub sound: &'a [u16],
    pub scene: &'a Scene,
}

impl Aims<'_> {
    /// None where the volume has nothing of the kind.
    pub fn aimed(&mut self, edge: Edge) -> Option<Aimed> {
        let room = self.room(edge);
        let lent = (edge == Edge::Length).then(|| *self.random.pick(&[0, 1, 7 * PAGE, 8 * PAGE - 1, self.sound.len() - 1]));
        let image = match edge {
            Edge::Unsound(rule, above) => self.unsound(rule, above)?,
            Edge::UnsoundNoRoom => self.unsound(8, false)?,
            _ => {
                let mut stale = Stale::new(self.random, self.sound, self.scene);
                stale.aimed(edge)?;
                stale.image
            }
        };
        Some(Aimed { image, room, lent })
    }

    fn room(&mut self, edge: Edge) -> Room {
        match edge {
            Edge::Nothing(false) | Edge::OverdrawnShort | Edge::NoRoom | Edge::UnsoundNoRoom => Room::None,
            Edge::OneTooFew => Room::OneTooFew,
            Edge::Enough => Room::Enough,
            Edge::Nothing(true) | Edge::Spare => Room::More,
            Edge::Overdrawn { .. } | Edge::Unsound(..) | Edge::Length => *self.random.pick(&[Room::None, Room::Enough, Room::More]),
            _ => *self.random.pick(&[Room::Enough, Room::More]),
        }
    }

    /// Damage aimed at a rule, on bits and counts that are stale or not; a used count is above given, or none is.
    fn unsound(&mut self, rule: u32, above: bool) -> Option<Vec<u16>> {
        let words = Damage::new(self.random, self.sound, self.scene).aimed(rule)?;
        let mut stale = Stale::new(self.random, self.sound, self.scene);
        if above {
            stale.above_given()?;
        }
        if stale.random.one_in(2) {
            stale.bit_of(true);
            stale.count(UNRESERVED, Half::Low);
        }
        words.into_iter().for_each(|(at, word)| stale.image[at] = word);
        Some(stale.image)
    }
}

impl Stale<'_> {
    /// Damage of bits and counts for an edge.
    fn aimed(&mut self, edge: Edge) -> Option<()> {
        match edge {
            Edge::Nothing(_) => {}
            Edge::One | Edge::Set => self.bit_of(true)?,
            Edge::Cleared => self.bit_of(false)?,
            Edge::Halves(Count::Unreserved, half) => self.count(UNRESERVED, half),
            Edge::Halves(Count::Used, half) => self.some_used(half, |_| true)?,
            Edge::AboveGiven => self.above_given()?,
            Edge::WordOfP(rest) => self.word_of_p(rest)?,
            Edge::LastWord => self.last_word()?,
            Edge::Pages(pages) => (self.scene.pages == pages).then(|| self.by_chance())?,
            Edge::UserPage(_) | Edge::AllThree => self.beside_bits(edge)?,
            Edge::LaterUser => self.some_used(Half::Low, |user| user.index > 31)?,
            Edge::LaterFirst => self.later_first()?,
            Edge::SubindexedObjects => self.scene.subindexed.then(|| self.by_chance())?,
            Edge::Holding(shape) => self.holder_of(shape)?,
            Edge::Unused => self.unused().and(self.bit_of(true))?,
            Edge::NothingLeft => self.nothing_left()?,
            Edge::AllGiven => self.all_given()?,
            Edge::Overdrawn { user, sum } => self.overdrawn(user, sum)?,
            Edge::OverdrawnShort => self.bit_of(true).and(self.overdrawn(true, false))?,
            _ => self.bit_of(true).map(|()| self.by_chance())?,
        }
        Some(())
    }

    fn some_used(&mut self, half: Half, fits: impl Fn(&User) -> bool) -> Option<()> {
        let user = self.user(fits)?;
        self.used(user, half);
        Some(())
    }

    /// A used count above given, by one or by much.
    fn above_given(&mut self) -> Option<()> {
        let user = self.user(|_| true)?;
        let above = *self.random.pick(&[user.given + 1, user.given + 65_536, u32::MAX]);
        put_pair(&mut self.image, user.at + USED, above);
        Some(())
    }

    /// The bit of the last page, which lies in the word that holds P, beside such bits from P on.
    fn word_of_p(&mut self, rest: Rest) -> Option<()> {
        (!self.scene.pages.is_multiple_of(16)).then_some(())?;
        self.beyond(rest.beyond());
        self.flip(self.scene.pages - 1);
        Some(())
    }

    /// A bit of the last word, which ends before P, with bits in the word behind it.
    fn last_word(&mut self) -> Option<()> {
        self.scene.pages.is_multiple_of(16).then_some(())?;
        self.beyond(Beyond::Ones);
        let page = self.scene.pages - self.random.between(1, 16);
        self.flip(page);
        Some(())
    }

    /// A used count, a bit, and with all three unreserved.
    fn beside_bits(&mut self, edge: Edge) -> Option<()> {
        let bits = self.scene.bit_at(0);
        let half = self.some_half();
        self.some_used(half, |user| edge == Edge::AllThree || edge == Edge::UserPage(user.at < bits))?;
        if edge == Edge::AllThree {
            let half = self.some_half();
            self.count(UNRESERVED, half);
        }
        let page = self.some_page();
        self.flip(page);
        Some(())
    }

    /// Used counts of two users, of whom the later one's page is lower.
    fn later_first(&mut self) -> Option<()> {
        let users = &self.scene.users;
        let pairs = users.iter().enumerate().flat_map(|(n, one)| users[n..].iter().map(move |two| (one, two)));
        let pairs: Vec<(&User, &User)> = pairs.filter(|(one, two)| one.at > two.at).collect();
        (!pairs.is_empty()).then_some(())?;
        let (one, two) = *self.random.pick(&pairs);
        self.used(one, Half::Low);
        self.used(two, Half::Low);
        Some(())
    }

    /// The used count of a user who has such a file.
    fn holder_of(&mut self, shape: Shape) -> Option<()> {
        let fits = |file: &&File| match shape {
            Shape::Contiguous => file.is_contiguous(),
            Shape::Indexed => file.is_indexed(),
            Shape::Subindexed => file.is_subindexed(),
        };
        let owners: Vec<u32> = self.scene.files.iter().filter(fits).map(|file| file.user).collect();
        let half = self.some_half();
        self.some_used(half, |user| owners.contains(&user.index))
    }

    /// All that is unreserved is given to a user.
    fn nothing_left(&mut self) -> Option<()> {
        let user = self.user(|_| true)?;
        self.give(user, user.given + self.scene.unreserved);
        let half = self.some_half();
        self.count(UNRESERVED, half);
        Some(())
    }

    /// A user is given just what he holds.
    fn all_given(&mut self) -> Option<()> {
        let user = self.user(|user| user.used > 0)?;
        self.give(user, user.used);
        let half = self.some_half();
        self.used(user, half);
        Some(())
    }

    /// One user holds more than he is given, the sum is above what there is, or both.
    fn overdrawn(&mut self, by_user: bool, by_sum: bool) -> Option<()> {
        if !by_user {
            return self.overdrawn_by_sum();
        }
        self.overdrawn_by_user()?;
        if by_sum {
            let held = pair(&self.image, UNRESERVED);
            let other = self.user(|user| user.used == 0)?;
            self.give(other, other.given + held + self.scene.pages);
        }
        Some(())
    }
}
