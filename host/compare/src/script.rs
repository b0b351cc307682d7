//! Lists of calls for one run: what is asked, and how it is played by a run of either program and by single calls one after the other.

use crate::calls::{Answer, Call};
use crate::lent::Lent;
use crate::lists::{from_second, lent, to_second};
use crate::words::{MOST_PAGES, PAGE};
use proved::Change;

/// The parts that a step names by their places in what is lent.
#[derive(Clone, Copy, Debug, PartialEq, Eq, PartialOrd, Ord)]
pub enum Part {
    Name,
    Type,
    Data,
}

impl Part {
    pub const ALL: [Part; 3] = [Part::Name, Part::Type, Part::Data];

    pub fn name(self) -> &'static str {
        match self {
            Part::Name => "name",
            Part::Type => "type",
            Part::Data => "data",
        }
    }
}

/// One step of a script.
#[derive(Clone, Debug, PartialEq)]
pub enum Asked {
    /// Any call but a salvage.
    Call(Call),
    /// A salvage, with the list that is lent to the run.
    Salvage,
    /// The step of a call with another number, which is no call's.
    NoCall { number: u32, call: Call },
    /// A call with one part so placed that it ends so far behind the end of what is lent.
    Outside { part: Part, past: u32, call: Call },
}

#[derive(Clone, Debug, PartialEq)]
pub struct Script {
    /// How many replies there is room for.
    pub room: usize,
    /// How many changes there is room for.
    pub list: usize,
    pub asked: Vec<Asked>,
}

/// What a script left of its replies and its list: the number that came back, and all of both, what was not written too.
#[derive(Clone, Debug, PartialEq)]
pub struct Played {
    pub made: usize,
    pub replies: Vec<Answer>,
    pub list: Vec<Change>,
}

/// What a reply is before a run: no call answers so.
const UNTOUCHED: proved::Reply = proved::Reply {
    number: 0xAAAA_AAAA,
    rule: 0x5555_5555,
    value: 0x3333_3333,
    place: proved::Place { page: 0xAAAA_0000, word: 0x5555_0000 },
    first: UNTOUCHED_HOLDER,
    second: UNTOUCHED_HOLDER,
};
const UNTOUCHED_HOLDER: proved::Holder = proved::Holder { kind: 0xAAAA_0001, user: 0x5555_0001, file: 0x3333_0001, position: 0xCCCC_0001 };

impl Script {
    /// Calls with room for so many replies, and without a list.
    pub fn of(room: usize, calls: &[Call]) -> Script {
        Script { room, list: 0, asked: calls.iter().cloned().map(Asked::of).collect() }
    }

    /// By one run of the proved library.
    pub fn on_proved(&self, image: &mut [u16]) -> Played {
        let Lent { steps, text, data } = Lent::of(&self.asked);
        let (mut list, mut replies) = (lent(self.list), vec![UNTOUCHED; self.room]);
        let made = proved::run(image, &steps, &text, &data, &mut list, &mut replies);
        Played { made, replies: replies.into_iter().map(Answer::from).collect(), list }
    }

    /// By one run of the second program.
    pub fn on_second(&self, image: &mut [u16]) -> Played {
        let Lent { steps, text, data } = Lent::of(&self.asked);
        let steps: Vec<second::Step> = steps.into_iter().map(second_step).collect();
        let (mut list, mut replies) = (to_second(&lent(self.list)), vec![second_reply(UNTOUCHED); self.room]);
        let made = second::run(image, &steps, &text, &data, &mut list, &mut replies);
        Played { made, replies: replies.into_iter().map(Answer::from).collect(), list: from_second(&list) }
    }

    /// By single calls of the proved library, in order, up to the first refusal or the end of the room.
    pub fn singly(&self, image: &mut [u16]) -> Played {
        let mut played = Played { made: 0, replies: vec![UNTOUCHED.into(); self.room], list: lent(self.list) };
        for (asked, reply) in self.asked.iter().zip(&mut played.replies) {
            *reply = asked.singly(image, &mut played.list);
            played.made += 1;
            if reply.number != 0 {
                break;
            }
        }
        played
    }
}

impl Asked {
    /// The step of a call; a salvage's list is the run's.
    pub fn of(call: Call) -> Asked {
        match call {
            Call::Salvage { .. } => Asked::Salvage,
            call => Asked::Call(call),
        }
    }

    pub fn call(&self) -> &Call {
        match self {
            Asked::Call(call) | Asked::NoCall { call, .. } | Asked::Outside { call, .. } => call,
            Asked::Salvage => &Call::Salvage { room: 0 },
        }
    }

    /// Whether it is a call's step, as it stands.
    pub fn is_call(&self) -> bool {
        match self {
            Asked::Call(call) => is_step(call),
            Asked::Salvage => true,
            Asked::NoCall { .. } | Asked::Outside { .. } => false,
        }
    }

    /// The single call that the step stands for; a step that is none is a call with a wrong argument.
    fn singly(&self, image: &mut [u16], list: &mut [Change]) -> Answer {
        if self.is_call() {
            return told_by_a_step(self.call(), self.call().on_proved_with(image, list), image);
        }
        let pages = image.len() / PAGE;
        let is_right = image.len().is_multiple_of(PAGE) && (8..=MOST_PAGES as usize).contains(&pages);
        Answer { number: if is_right { 2 } else { 1 }, ..Answer::default() }
    }
}

/// A single call's answer as a step has it in its reply: the holder of a page as the first, and of a page that is read where its words begin;
/// where there is none, what the address call answers.
fn told_by_a_step(call: &Call, answer: Answer, image: &mut [u16]) -> Answer {
    match call {
        Call::WhoHolds { .. } if answer.number == 0 => Answer { first: answer.holder, ..Answer::default() },
        &Call::ReadPage { user, file, position } if answer.length == 0 => Call::Address { user, file, position }.on_proved(image),
        Call::ReadPage { .. } => Answer { value: answer.offset as u32, ..Answer::default() },
        _ => answer,
    }
}

/// Whether a run can make the call.
fn is_step(call: &Call) -> bool {
    second::CHECK_IS_A_STEP || *call != Call::Check
}

/// The parts that a call uses.
pub fn used(call: &Call) -> &'static [Part] {
    match call {
        Call::FindUser { .. } | Call::Format { .. } | Call::CreateUser { .. } => &[Part::Name],
        Call::FindFile { .. } | Call::CreateIndexed { .. } | Call::CreateContiguous { .. } => &[Part::Name, Part::Type],
        Call::WritePage { .. } => &[Part::Data],
        _ => &[],
    }
}

fn second_reply(reply: proved::Reply) -> second::Reply {
    let proved::Reply { number, rule, value, place: proved::Place { page, word }, first, second } = reply;
    let of = |holder: proved::Holder| {
        let proved::Holder { kind, user, file, position } = holder;
        second::Holder { kind, user, file, position }
    };
    second::Reply { number, rule, value, place: second::Place { page, word }, first: of(first), second: of(second) }
}

fn second_step(step: proved::Step) -> second::Step {
    let proved::Step { call, user, file, count, created, name_at, name_bytes, type_at, type_bytes, data_at } = step;
    second::Step { call, user, file, count, created, name_at, name_bytes, type_at, type_bytes, data_at }
}

#[cfg(test)]
mod tests {
    use super::*;

    fn find(name: &[u8]) -> Call {
        Call::FindUser { name: name.to_vec() }
    }

    /// A name is lent once, a type of no bytes lies at the text's end, and what is not used is filled.
    #[test]
    fn parts_lie_where_the_steps_say() {
        let file = Call::FindFile { user: 3, name: b"DOCK".to_vec(), kind: Vec::new() };
        let lent = Lent::of(&[Asked::Call(find(b"A")), Asked::Call(find(b"DOCK")), Asked::Call(file)]);
        assert_eq!(lent.text, b"ADOCK");
        let step = lent.steps[2];
        assert_eq!((step.name_at, step.name_bytes, step.type_at, step.type_bytes), (1, 4, 5, 0));
        assert_eq!((step.call, step.user, step.file, step.data_at), (4, 3, u32::MAX, u32::MAX));
    }

    /// A part outside ends so far behind the end; one that would begin past all numbers begins at the last.
    #[test]
    fn parts_outside_end_behind_the_end() {
        let outside = |past: u32| Asked::Outside { part: Part::Name, past, call: find(b"DOCK") };
        let lent = Lent::of(&[outside(1), outside(u32::MAX)]);
        assert_eq!(lent.steps.iter().map(|step| step.name_at).collect::<Vec<u32>>(), [1, u32::MAX]);
    }

    /// Single calls stop as a run does: after a refusal, or with the room.
    #[test]
    fn single_calls_stop_as_a_run_does() {
        let mut image = vec![0; 8 * PAGE];
        let format = Asked::Call(Call::Format { name: b"YARD".to_vec(), bit_page: None });
        let asked = vec![format.clone(), Asked::NoCall { number: 23, call: Call::Check }, format];
        let numbers = |room: usize, image: &mut [u16]| {
            let played = Script { room, list: 0, asked: asked.clone() }.singly(image);
            (played.made, played.replies.iter().map(|reply| reply.number).collect::<Vec<u32>>())
        };
        assert_eq!(numbers(1, &mut image), (1, vec![0]));
        assert_eq!(numbers(3, &mut image), (2, vec![0, 2, UNTOUCHED.number]));
        assert_eq!(numbers(3, &mut image[1..]), (1, vec![1, UNTOUCHED.number, UNTOUCHED.number]));
    }

    /// Single calls tell holders, parts and changes as the replies and the list of a run do.
    #[test]
    fn single_calls_tell_as_a_run_does() {
        let mut image = vec![0; 16 * PAGE];
        second::format(&mut image, b"YARD", None);
        image[8 * PAGE] |= 1 << 15;
        let holds = |page: usize| Asked::Call(Call::WhoHolds { page });
        let read = Asked::Call(Call::ReadPage { user: 0, file: 0, position: 0 });
        let played = Script { room: 4, list: 2, asked: vec![Asked::Salvage, holds(8), holds(15), read] }.singly(&mut image);
        let told = |answer: &Answer| (answer.number, answer.value, answer.first.kind, answer.holder.kind);
        assert_eq!(played.replies.iter().map(told).collect::<Vec<_>>(), [(0, 1, 0, 0), (0, 0, 2, 0), (0, 0, 0, 0), (4, 0, 0, 0)]);
        assert_eq!(played.list, [Change { page: 8, word: 0, old: 33_025, new: 257 }, lent(2)[1]]);
    }
}
