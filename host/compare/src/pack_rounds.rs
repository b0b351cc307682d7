//! Rounds of larger packs (document 02, T-06): calls on fresh volumes with one bit page and with several. What must come out of a wrong bit
//! or a wrong pointer is known from where it was put. Each call on a large volume takes long, so there are few, and each has its aim.

use crate::both::{Answered, Both, Disagreement};
use crate::calls::{Answer, Call};
use crate::packs::{Seen, HIGH};
use crate::rounds::{Agreed, Round};
use crate::scene::Scene;
use crate::volumes::blank;
use crate::words::*;
use proved::{Change, Holder, Place};
use std::collections::BTreeSet;

/// The size of the pack that gets a contiguous file over all pages of a bit page.
const LONG_RUN: u32 = 37_035;

/// The kinds of holder that are told with rule 8 here.
const BIT_FILE: u32 = 2;
const FILE_DATA: u32 = 10;

/// Number 3 with a rule and its place.
fn unsound(rule: u32, page: u32, word: u32) -> Answer {
    Answer { number: 3, rule, place: Place { page, word }, ..Answer::default() }
}

/// A call must have answered so.
fn expect(both: &mut Both, given: Answer, wanted: Answer) -> Agreed {
    both.demand(given == wanted, &format!("{wanted} is the answer that there must be"), given)
}

impl Round<'_> {
    /// A call, and the edges of packs that it met.
    pub fn asked(&mut self, both: &mut Both, call: Call) -> Result<Answered, Box<Disagreement>> {
        let before = Scene::read(both.image());
        let answered = self.one(both, &before, None, call.clone())?;
        let seen = Seen { before: &before, call: &call, answered: &answered, image: both.image() };
        self.tally.packs.met(seen.edges());
        Ok(answered)
    }

    /// A call that must be done, with this value.
    fn done(&mut self, both: &mut Both, call: Call, value: u32) -> Agreed {
        let given = self.asked(both, call)?.call;
        expect(both, given, Answer { value, ..Answer::default() })
    }

    /// A call that must be refused with this number.
    fn refused(&mut self, both: &mut Both, call: Call, number: u32) -> Agreed {
        let given = self.asked(both, call)?.call;
        expect(both, given, Answer { number, ..Answer::default() })
    }

    /// A pack of so many pages: formats, wrong and stale bits; then a user, limits of his counts, and files over a border.
    pub fn packs(&mut self, pages: u32) -> Agreed {
        let mut both = Both::new(blank(&mut self.random, pages));
        self.formats(&mut both)?;
        self.bit_pages_held(&mut both)?;
        self.wrong_bits(&mut both)?;
        self.wrong_master(&mut both)?;
        self.counts_at_the_limit(&mut both)?;
        self.over_a_border(&mut both)
    }

    /// Past each end, at each end, by default and anywhere. For the rest of the round it is one of these; where there will be a long run,
    /// it is from page 1 on.
    fn formats(&mut self, both: &mut Both) -> Agreed {
        let pages = (both.image().len() / PAGE) as u32;
        let last = last_bit_start(pages);
        let format = |bit_page: Option<u32>| Call::Format { name: b"YARD".to_vec(), bit_page: bit_page.map(|page| page as usize) };
        let wrong = *self.random.pick(&[0, pages, 0_u32.wrapping_sub(bit_pages(pages)), u32::MAX]);
        for past in [last + 1, pages - 1, wrong] {
            if past == 0 || past > last {
                self.refused(both, format(Some(past)), 2)?;
            }
        }
        let any = self.random.between(1, last);
        let left = *self.random.pick(&[None, Some(1), Some(any)]);
        for start in [Some(last), None, left, Some(1)] {
            let answered = self.asked(both, format(start))?;
            expect(both, answered.call, Answer::default())?;
            expect(both, answered.check, Answer { value: 1 + bit_pages(pages), ..Answer::default() })?;
            let scene = Scene::read(both.image());
            let fresh = (scene.bit_page, scene.unreserved) == (start.unwrap_or(pages / 2), pages - 1 - bit_pages(pages));
            both.demand(fresh, "the volume is not a fresh one", answered.call)?;
        }
        match pages {
            LONG_RUN => Ok(()),
            _ => self.done(both, format(left), 0),
        }
    }

    /// Who holds the first two and the last bit page, and the pages before and behind them.
    fn bit_pages_held(&mut self, both: &mut Both) -> Agreed {
        let scene = Scene::read(both.image());
        let run = scene.bit_run();
        let last = bit_pages(scene.pages) - 1;
        for position in BTreeSet::from([0, last.min(1), last]) {
            let page = run.start + position;
            let given = self.asked(both, Call::WhoHolds { page: page as usize })?.call;
            let holder = Holder { kind: BIT_FILE, position, ..Holder::default() };
            expect(both, given, Answer { holder, ..Answer::default() })?;
        }
        let beside = [run.start - 1, run.end].into_iter().filter(|&page| page > 0 && page < scene.pages);
        for page in beside {
            self.done(both, Call::WhoHolds { page: page as usize }, 0)?;
        }
        self.refused(both, Call::WhoHolds { page: scene.pages as usize }, 2)
    }

    /// Wrong bits: of the last page, of the last bit page's own, of those at the first border, and of one in each bit page at once.
    fn wrong_bits(&mut self, both: &mut Both) -> Agreed {
        let scene = Scene::read(both.image());
        let (pages, run) = (scene.pages, scene.bit_run());
        let lowest: Vec<u32> = (0..bit_pages(pages)).map(|n| n * TO_A_BIT_PAGE).collect();
        let mut single = vec![pages - 1, run.end - 1];
        single.extend(lowest.iter().skip(1).flat_map(|&page| [page - 1, page]).take(2));
        for page in single {
            self.turned(both, &scene, &[page])?;
        }
        let some = |page: &u32| page + self.random.below(TO_A_BIT_PAGE).min(pages - 1 - page);
        let one_in_each: Vec<u32> = lowest.iter().map(some).collect();
        self.turned(both, &scene, &one_in_each)?;
        self.beyond(both, &scene)
    }

    /// The bits of some pages, each in a word of its own, turned over: rule 9 is told in the lowest one's word, and a salvage puts them
    /// right.
    fn turned(&mut self, both: &mut Both, scene: &Scene, pages: &[u32]) -> Agreed {
        let change = |&page: &u32| {
            let (at, bit) = (scene.bit_at(page), 1 << (page % 16));
            let new = u32::from(both.image()[at]);
            Change { page: (at / PAGE) as u32, word: (at % PAGE) as u32, old: new ^ bit, new }
        };
        let changes: Vec<Change> = pages.iter().map(change).collect();
        let words: Vec<(usize, u16)> = pages.iter().zip(&changes).map(|(&page, told)| (scene.bit_at(page), told.old as u16)).collect();
        both.put(&words);
        let first = scene.bit_run().start + pages[0] / TO_A_BIT_PAGE;
        let broken = unsound(9, first, pages[0] / 16 % PAGE as u32);
        let given = self.asked(both, Call::CreateUser { name: b"DOCK".to_vec() })?.call;
        expect(both, given, broken)?;
        if changes.len() > 1 {
            self.refused(both, Call::Salvage { room: changes.len() - 1 }, 14)?;
        }
        let answered = self.asked(both, Call::Salvage { room: changes.len() })?;
        expect(both, answered.call, Answer { value: changes.len() as u32, ..Answer::default() })?;
        both.demand(answered.list == changes, "the salvage does not tell the bits that were turned", answered.call)
    }

    /// Bits from P on in the last bit page: they are not read, nor changed by a salvage.
    fn beyond(&mut self, both: &mut Both, scene: &Scene) -> Agreed {
        let end = scene.bit_run().end as usize * PAGE;
        let last = scene.bit_at(scene.pages);
        if last < end {
            let from = both.image()[last] | u16::MAX << (scene.pages % 16);
            let word = self.random.word() | 1;
            both.put(&[(last, from), (end - 1, if last == end - 1 { from } else { word })]);
        }
        self.done(both, Call::Salvage { room: 0 }, 0)
    }

    /// A bit pointer from which the run ends past the volume, and unreserved as one bit page would leave it.
    fn wrong_master(&mut self, both: &mut Both) -> Agreed {
        let scene = Scene::read(both.image());
        let past = last_bit_start(scene.pages) + 1;
        let wrapping = 0_u32.wrapping_sub(bit_pages(scene.pages));
        let mut wrong = vec![(BIT_POINTER, past, 1), (BIT_POINTER, wrapping, 1)];
        if scene.unreserved != scene.pages - 2 {
            wrong.push((UNRESERVED, scene.pages - 2, 10));
        }
        for (at, value, rule) in wrong {
            let right = pair(both.image(), at);
            both.put_two(at, value);
            let given = self.asked(both, Call::WhoHolds { page: 0 })?.call;
            expect(both, given, unsound(rule, 0, at as u32))?;
            both.put_two(at, right);
        }
        Ok(())
    }

    /// A user, and his counts at the limit of all volumes and at that of this one.
    fn counts_at_the_limit(&mut self, both: &mut Both) -> Agreed {
        self.done(both, Call::CreateUser { name: b"DOCK".to_vec() }, 0)?;
        let rest = Scene::read(both.image()).unreserved as usize;
        let most = MOST_PAGES as usize;
        let contiguous = |count: usize| Call::CreateContiguous { user: 0, name: b"RUN".to_vec(), kind: Vec::new(), created: 0, count };
        for (count, number) in [(0, 2), (most + 1, 2), (most, 10), (rest + 1, 10)] {
            self.refused(both, Call::Give { user: 0, count }, number)?;
        }
        self.done(both, Call::Give { user: 0, count: rest - 1 }, 0)?;
        for (count, number) in [(0, 2), (most + 1, 2), (most, 9), (rest, 9)] {
            self.refused(both, Call::Take { user: 0, count }, number)?;
            self.refused(both, contiguous(count), number)?;
        }
        Ok(())
    }

    /// A contiguous file that reaches over the last border, or over all pages of a bit page; then a file that grows beside it, and is then
    /// damaged; then the first is deleted.
    fn over_a_border(&mut self, both: &mut Both) -> Agreed {
        let scene = Scene::read(both.image());
        let border = match scene.pages {
            LONG_RUN => TO_A_BIT_PAGE,
            MOST_PAGES => HIGH,
            pages => (pages - 1) / TO_A_BIT_PAGE * TO_A_BIT_PAGE,
        };
        let longest = scene.longest_run(both.image()).saturating_sub(1);
        let count = (scene.pages - border + 9).min(longest).min(scene.users[0].left() - 2) as usize;
        self.done(both, Call::CreateContiguous { user: 0, name: b"RUN".to_vec(), kind: Vec::new(), created: 7, count }, 0)?;
        self.done(both, Call::CreateIndexed { user: 0, name: b"READS".to_vec(), kind: b"DATA".to_vec(), created: 7 }, 1)?;
        self.asked(both, Call::Grow { user: 0, file: 1 })?;
        self.on_a_bit_page(both)?;
        self.done(both, Call::DeleteFile { user: 0, file: 0 }, 0)
    }

    /// The indexed file's data page is the last bit page: rule 8, until it is put right.
    fn on_a_bit_page(&mut self, both: &mut Both) -> Agreed {
        let scene = Scene::read(both.image());
        let Some(file) = scene.file(0, 1).filter(|file| file.is_indexed()) else { return Ok(()) };
        let (at, page) = (slot_at(file.page(), 0), scene.bit_run().end - 1);
        let right = pair(both.image(), at);
        both.put_two(at, page);
        let given = self.asked(both, Call::Check)?.call;
        let first = Holder { kind: BIT_FILE, position: bit_pages(scene.pages) - 1, ..Holder::default() };
        let second = Holder { kind: FILE_DATA, file: 1, ..Holder::default() };
        expect(both, given, Answer { first, second, ..unsound(8, page, 0) })?;
        both.put_two(at, right);
        Ok(())
    }
}
