//! Salvage as a step of a run: it tells its changes in the list that is lent to
//! the run, which no other step touches. The image of `reads(16, 5, 1)` has bit
//! page 8, user page 2 and, free, page 7; word 0 of its bit page is 383, its used
//! count 2, its unreserved 5.

mod common;
use common::*;
use second::*;

const BITS: usize = 8 * 1024;
const USER: usize = 2 * 1024;
const GIVEN: usize = 14;
const USED: usize = 16;

const SALVAGE: Step = of(22, 0);
const CHECK: Step = of(2, 0);
const GROW: Step = of(13, 0);

/// A step of a call on user 0 and his file 0.
const fn of(call: u32, count: u32) -> Step {
    Step {
        call,
        user: 0,
        file: 0,
        count,
        created: 0,
        name_at: 0,
        name_bytes: 0,
        type_at: 0,
        type_bytes: 0,
        data_at: 0,
    }
}

/// The n-th record as it is lent: no salvage writes it, and no two are alike.
fn left(n: u32) -> Change {
    Change {
        page: 0xAAAA_0000 + n,
        word: 0x5555_5555,
        old: 0x3333_3333,
        new: 0xCCCC_0000 + n,
    }
}

fn change(page: u32, word: u32, old: u32, new: u32) -> Change {
    Change { page, word, old, new }
}

/// A list of so many records, the first of them written so.
fn list(room: u32, changes: &[Change]) -> Vec<Change> {
    let told = changes.iter().copied();
    told.chain((changes.len() as u32..room).map(left)).collect()
}

/// Runs the steps with a list of so much room: the replies made, and all records.
fn ran(image: &mut [u16], steps: &[Step], room: u32) -> (Vec<Reply>, Vec<Change>) {
    let (mut records, mut replies) = (list(room, &[]), vec![Reply::default(); steps.len()]);
    let made = run(image, steps, b"", &[], &mut records, &mut replies);
    replies.truncate(made);
    (replies, records)
}

/// The yard's volume with a bit lost, and a used count above given.
fn stale() -> Vec<u16> {
    let mut image = reads(16, 5, 1);
    image[BITS] = 351;
    image[USER + USED + 1] = 6;
    image
}

/// What is told of that volume.
const TOLD: [Change; 2] = [
    Change {
        page: 2,
        word: 17,
        old: 6,
        new: 2,
    },
    Change {
        page: 8,
        word: 0,
        old: 351,
        new: 383,
    },
];

/// With just enough room, and with more, the calls behind it find a sound image; the
/// records past the changes stay.
#[test]
fn a_salvage_first_and_then_calls() {
    for room in [2, 3, 9] {
        let mut image = stale();
        assert_eq!(ran(&mut image.clone(), &[GROW], room), (vec![unsound(4, 2, 16)], list(room, &[])));
        let steps = [SALVAGE, CHECK, GROW, of(5, 1), of(16, 1)];
        let replies = vec![done(2), done(8), done(7), done(7), done(7 * 1024)];
        assert_eq!(ran(&mut image, &steps, room), (replies, list(room, &TOLD)));
        assert!(image == reads(16, 5, 2));
    }
}

/// A list that is too short, by one or altogether: 14 ends the run.
#[test]
fn a_list_too_short_ends_the_run() {
    for room in [0, 1] {
        let mut image = stale();
        assert_eq!(ran(&mut image, &[SALVAGE, GROW], room), (vec![refused(14)], list(room, &[])));
        assert!(image == stale());
    }
}

/// In the middle of a run there is nothing to mend: the list stays, as it does with a
/// list of no room. A second salvage tells of nothing, and leaves what the first told.
#[test]
fn a_salvage_in_the_middle_tells_nothing() {
    for room in [0, 4] {
        let mut image = reads(16, 5, 1);
        let steps = [GROW, SALVAGE, GROW];
        assert_eq!(ran(&mut image, &steps, room), (vec![done(7), done(0), done(9)], list(room, &[])));
        assert!(image == reads(16, 5, 3));
    }
    let mut image = stale();
    let replies = vec![done(2), done(0), done(7), done(0)];
    assert_eq!(ran(&mut image, &[SALVAGE, SALVAGE, GROW, SALVAGE], 3), (replies, list(3, &TOLD)));
}

/// Every other step, done or refused, leaves the list.
#[test]
fn other_steps_leave_the_list() {
    for call in (0..=24).filter(|&call| call != 22) {
        let mut image = reads(16, 5, 1);
        let (replies, records) = ran(&mut image, &[of(call, 0)], 3);
        assert_eq!((replies.len(), records), (1, list(3, &[])), "call {call}");
    }
}

/// 13, also where the list is too short; 3 by one of its own rules alone; 1.
#[test]
fn refusals_end_the_run() {
    let mut image = stale();
    put_pair(&mut image, USER + GIVEN, 1);
    for room in [0, 2] {
        assert_eq!(ran(&mut image, &[SALVAGE, CHECK], room), (vec![refused(13)], list(room, &[])));
    }
    image[USER + 18] = 1;
    assert_eq!(ran(&mut image, &[SALVAGE, CHECK], 2), (vec![unsound(4, 2, 18)], list(2, &[])));
    assert_eq!(ran(&mut image[1..], &[SALVAGE, CHECK], 2), (vec![refused(1)], list(2, &[])));
    let mut image = stale();
    put_pair(&mut image, 6 * 1024, 6);
    let (index, data) = (holder(kind::FILE_INDEX, 0, 0, 0), holder(kind::FILE_DATA, 0, 0, 0));
    assert_eq!(ran(&mut image, &[SALVAGE], 2), (vec![shared(6, index, data)], list(2, &[])));
}

/// A salvage uses nothing of its step.
#[test]
fn nothing_of_the_step_is_used() {
    let mut image = reads(16, 5, 1);
    image[BITS] |= 1 << 15;
    let any = u32::MAX;
    let step = Step {
        user: any,
        file: any,
        count: any,
        created: any,
        name_at: any,
        name_bytes: any,
        type_at: any,
        type_bytes: any,
        data_at: any,
        ..SALVAGE
    };
    let told = [change(8, 0, 33_151, 383)];
    assert_eq!(ran(&mut image, &[step], 2), (vec![done(1)], list(2, &told)));
}
