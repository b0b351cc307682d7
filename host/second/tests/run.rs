//! Runs: the steps in order, up to the first refusal, as single calls would.

mod common;
use common::*;
use second::*;

const TEXT: &[u8] = b"YARDDOCKREADSDATA";

/// What no call answers: replies that are not written keep it.
const MARK: Reply = Reply {
    number: 77,
    rule: 78,
    value: 79,
    place: Place { page: 80, word: 81 },
    first: MARKED,
    second: MARKED,
};
const MARKED: Holder = Holder {
    kind: 82,
    user: 83,
    file: 84,
    position: 85,
};

/// A step with parts of `TEXT` for its name and type.
fn step(call: u32, name: (u32, u32), kind: (u32, u32)) -> Step {
    Step {
        call,
        name_at: name.0,
        name_bytes: name.1,
        type_at: kind.0,
        type_bytes: kind.1,
        ..Step::default()
    }
}

/// A step of one of the calls on a file or user, all of them 0.
fn plain(call: u32, count: u32) -> Step {
    Step {
        call,
        count,
        ..Step::default()
    }
}

/// The yard example up to the first page of READS.
fn yard() -> Vec<Step> {
    let reads = step(11, (8, 5), (13, 4));
    vec![
        step(19, (0, 4), (0, 0)),
        step(7, (4, 4), (0, 0)),
        plain(9, 100),
        Step { created: 7, ..reads },
        plain(13, 0),
        plain(17, 0),
        plain(5, 0),
    ]
}

/// A page of 1,024 words that count up.
fn page() -> Vec<u16> {
    (0..1024).collect()
}

/// Runs the steps with room for so many replies; those not made are marked.
fn ran(image: &mut [u16], steps: &[Step], room: usize) -> Vec<Reply> {
    let mut replies = vec![MARK; room];
    let made = run(image, steps, TEXT, &page(), &mut [], &mut replies);
    assert!(replies[made..].iter().all(|&reply| reply == MARK));
    replies.truncate(made);
    replies
}

#[test]
fn the_yard_by_one_run() {
    let mut image = vec![0; 154 * 1024];
    let expected = [0, 0, 0, 0, 5, 0, 5].map(done);
    assert_eq!(ran(&mut image, &yard(), 9), expected);
    let mut single = dock(154, 100);
    assert_eq!(create_indexed(&mut single, 0, b"READS", b"DATA", 7), done(0));
    assert_eq!(grow(&mut single, 0, 0), done(5));
    assert_eq!(write_page(&mut single, 0, 0, 0, &page()), done(0));
    assert!(image == single);
}

#[test]
fn a_run_ends_with_its_room() {
    let mut image = vec![0; 154 * 1024];
    assert_eq!(ran(&mut image, &yard(), 3), [0, 0, 0].map(done));
    assert!(image == dock(154, 100));
    assert_eq!(ran(&mut image, &yard(), 0), []);
    assert_eq!(ran(&mut image, &[], 5), []);
    assert!(image == dock(154, 100));
}

#[test]
fn a_run_ends_with_the_first_refusal() {
    let mut image = dock(154, 100);
    let steps = [plain(9, 10), plain(13, 0), plain(9, 10)];
    assert_eq!(ran(&mut image, &steps, 3), [done(0), refused(4)]);
    assert!(image == dock(154, 110));
}

#[test]
fn a_format_makes_an_unsound_image_sound_in_a_run() {
    let mut image = reads(16, 5, 1);
    put_pair(&mut image, 1022, 10_000);
    assert_eq!(ran(&mut image.clone(), &[plain(13, 0)], 2), [unsound(10, 0, 1022)]);
    let steps = [step(1, (0, 4), (0, 0)), step(7, (4, 4), (0, 0)), plain(9, 100)];
    let steps = steps.map(|step| Step {
        count: step.count.max(3),
        ..step
    });
    assert_eq!(ran(&mut image, &steps, 4), [done(0), done(0), refused(10)]);
    assert_eq!((pair(&image, 1020), check(&image)), (3, done(5)));
}

#[test]
fn what_is_no_step_is_a_wrong_argument() {
    let image = reads(16, 5, 1);
    let last = TEXT.len() as u32;
    let mut wrong: Vec<Step> = [0, 23, 24, u32::MAX].map(|call| plain(call, 0)).to_vec();
    if !CHECK_IS_A_STEP {
        wrong.push(plain(2, 0));
    }
    for outside in [(last - 3, 4), (last + 1, 0), (u32::MAX, 5), (4, u32::MAX)] {
        wrong.extend([3, 7, 19].map(|call| step(call, outside, (0, 0))));
        wrong.extend([4, 11, 12].map(|call| step(call, (0, 4), outside)));
    }
    for data_at in [1, u32::MAX] {
        wrong.push(Step { data_at, ..plain(17, 0) });
    }
    for step in wrong {
        let mut after = image.clone();
        assert_eq!(ran(&mut after, &[step], 2), [refused(2)], "{step:?}");
        assert_eq!(ran(&mut after[1..], &[step], 2), [refused(1)], "{step:?}");
        assert!(after == image);
    }
}

/// A part that ends where the text does, also one of no bytes, lies in it; and
/// a call does not look at parts that it does not use.
#[test]
fn parts_at_the_end_and_parts_not_used() {
    let mut image = reads(16, 5, 1);
    let last = TEXT.len() as u32;
    let found = [
        step(4, (8, 5), (13, 4)),
        step(3, (4, 4), (u32::MAX, 9)),
        step(11, (0, 4), (last, 0)),
    ];
    assert_eq!(ran(&mut image, &found, 3), [done(0), done(0), done(1)]);
}

/// Each page of the yard that is held, and two that are free: the
/// holder is told as the first, and nothing else is.
#[test]
fn who_holds_in_a_run() {
    let held = [
        (0, system(kind::MASTER, 0)),
        (1, system(kind::USER_INDEX, 0)),
        (2, system(kind::USER_PAGE, 0)),
        (3, system(kind::OBJECT_INDEX, 0)),
        (4, system(kind::OBJECT_PAGE, 0)),
        (5, holder(kind::FILE_DATA, 0, 0, 0)),
        (6, holder(kind::FILE_INDEX, 0, 0, 0)),
        (7, system(kind::FREE, 0)),
        (8, system(kind::BIT_FILE, 0)),
        (15, system(kind::FREE, 0)),
    ];
    let mut image = reads(16, 5, 1);
    let before = image.clone();
    let steps = held.map(|(page, _)| plain(6, page));
    let told = held.map(|(_, first)| Reply { first, ..done(0) });
    assert_eq!(ran(&mut image, &steps, 11), told);
    assert!(image == before);
}

/// The holder is the one of its moment: a page is free, taken, and free again.
#[test]
fn who_holds_between_changes() {
    let mut image = reads(16, 5, 1);
    let of = |first: Holder| Reply { first, ..done(0) };
    let steps = [plain(6, 7), plain(13, 0), plain(6, 7), plain(14, 0), plain(6, 7)];
    let second_page = of(holder(kind::FILE_DATA, 0, 0, 1));
    assert_eq!(ran(&mut image, &steps, 5), [done(0), done(7), second_page, done(0), done(0)]);
    let other = Step {
        user: u32::MAX,
        file: u32::MAX,
        name_at: u32::MAX,
        data_at: u32::MAX,
        ..plain(6, 6)
    };
    assert_eq!(ran(&mut image, &[other], 1), [of(holder(kind::FILE_INDEX, 0, 0, 0))]);
}

#[test]
fn who_holds_is_refused_in_a_run() {
    let mut image = reads(16, 5, 1);
    for page in [16, 17, 65_536, u32::MAX] {
        assert_eq!(ran(&mut image, &[plain(6, page), plain(13, 0)], 2), [refused(2)]);
    }
    assert_eq!(ran(&mut image[1..], &[plain(6, 0)], 1), [refused(1)]);
    put_pair(&mut image, 1022, 4);
    assert_eq!(ran(&mut image, &[plain(6, 5)], 2), [unsound(10, 0, 1022)]);
    put_pair(&mut image, 6 * 1024, 6);
    let twice = shared(6, holder(kind::FILE_INDEX, 0, 0, 0), holder(kind::FILE_DATA, 0, 0, 0));
    assert_eq!(ran(&mut image, &[plain(6, 6)], 2), [twice]);
}

/// Reading gives where the page's words begin, at the last position too; past it,
/// and where nobody and nothing is, it is refused as an address is.
#[test]
fn read_page_in_a_run() {
    let mut image = reads(16, 5, 2);
    let at = |user: u32, file: u32, count: u32| Step {
        user,
        file,
        ..plain(16, count)
    };
    assert_eq!(ran(&mut image, &[at(0, 0, 0), at(0, 0, 1)], 3), [done(5 * 1024), done(7 * 1024)]);
    for (step, number) in [
        (at(0, 0, 2), 4),
        (at(0, 0, u32::MAX), 4),
        (at(0, 1, 0), 4),
        (at(1, 0, 0), 4),
        (at(256, 0, 0), 2),
        (at(0, 256, 0), 2),
    ] {
        assert_eq!(
            ran(&mut image, &[at(0, 0, 1), step, at(0, 0, 0)], 3),
            [done(7 * 1024), refused(number)]
        );
    }
    assert_eq!(ran(&mut image[1..], &[at(0, 0, 0)], 1), [refused(1)]);
    image[8 * 1024] |= 1 << 9;
    assert_eq!(ran(&mut image, &[at(0, 0, 0)], 1), [unsound(9, 8, 0)]);
}

/// The last page of the largest volume: its words begin past what 16 bits hold, by
/// far, and the words there are those that a step wrote.
#[test]
fn read_page_at_the_end_of_the_largest() {
    let mut image = dock(140_733, 1);
    let run_file = Step {
        count: 1,
        ..step(12, (8, 5), (13, 4))
    };
    let steps = [run_file, plain(17, 0), plain(16, 0)];
    assert_eq!(ran(&mut image, &steps, 3), [done(0), done(0), done(140_732 * 1024)]);
    assert!(image[140_732 * 1024..] == page());
}
