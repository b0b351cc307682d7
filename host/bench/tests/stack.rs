//! What nord.h says of the stack: every list of calls takes less than 256 KiB, also where its first call is refused on an unsound image.

use bench::stack::{depth, one_step, STEPS};
use proved::{Change, PAGE};

/// Pages of two bit pages: from there on marks are as long as for the largest image.
const PAGES: usize = 16_385;

/// A volume with a file of two pages, and the same with its first page at both positions.
fn images() -> [Vec<u16>; 2] {
    let mut sound = vec![0; PAGES * PAGE];
    assert_eq!(proved::format(&mut sound, b"YARD", None).number, 0);
    assert_eq!(proved::create_user(&mut sound, b"DOCK").number, 0);
    assert_eq!(proved::give(&mut sound, 0, 100).number, 0);
    assert_eq!(proved::create_indexed(&mut sound, 0, b"READS", b"DATA", 0).number, 0);
    let first = proved::grow(&mut sound, 0, 0).value;
    let second = proved::grow(&mut sound, 0, 0).value;
    let mut twice = sound.clone();
    let blocks = twice.chunks_exact_mut(PAGE).skip(1);
    let block = blocks.into_iter().find(|block| block[..4] == [0, first as u16, 0, second as u16]);
    block.expect("the index block")[3] = first as u16;
    assert_eq!(proved::check(&twice).rule, 8);
    [sound, twice]
}

#[test]
fn every_list_of_calls_takes_less_than_256_kib() {
    let mut list = vec![Change::default(); proved::most_changes(PAGES)];
    for image in images() {
        for call in STEPS {
            let mut copy = image.clone();
            let used = depth(&mut || one_step(&mut copy, call, &mut list));
            assert!(used > 10_000 || matches!(call, 1 | 19), "call {call}: {used} bytes");
            assert!(used < 256 * 1024, "call {call}: {used} bytes");
        }
    }
}
