//! Volumes made by the proved library's own calls, for the tests to look at.
#![allow(dead_code)]

use proved::{Reply, PAGE};

/// A formatted volume of so many pages.
pub fn volume(name: &str, pages: usize) -> Vec<u16> {
    let mut image = vec![0; pages * PAGE];
    done(proved::format(&mut image, name.as_bytes(), None));
    image
}

/// The value of a call that has to be done.
pub fn done(reply: Reply) -> u32 {
    assert_eq!((reply.number, reply.rule), (0, 0));
    reply.value
}

/// A new user with so many pages given; his index.
pub fn user(image: &mut [u16], name: &str, given: usize) -> usize {
    let user = done(proved::create_user(image, name.as_bytes())) as usize;
    if given > 0 {
        done(proved::give(image, user, given));
    }
    user
}

/// A new file grown to so many pages; its index.
pub fn grown(image: &mut [u16], user: usize, name: &str, pages: usize) -> usize {
    let file = done(proved::create_indexed(image, user, name.as_bytes(), b"DATA", 1234)) as usize;
    for _ in 0..pages {
        done(proved::grow(image, user, file));
    }
    file
}

/// A new contiguous file; its index.
pub fn run(image: &mut [u16], user: usize, name: &str, pages: usize) -> usize {
    done(proved::create_contiguous(image, user, name.as_bytes(), b"", 5, pages)) as usize
}

/// Document 01's example: 16 pages, DOCK given 5, READS:DATA grown once.
pub fn yard16() -> Vec<u16> {
    let mut image = volume("YARD", 16);
    let dock = user(&mut image, "DOCK", 5);
    grown(&mut image, dock, "READS", 1);
    image
}

/// The yard's 154-page disk: document 01's steps, then three users more with files of every small shape, some grown by turns, some deleted.
pub fn yard154() -> Vec<u16> {
    let mut image = volume("YARD", 154);
    let dock = user(&mut image, "DOCK", 60);
    grown(&mut image, dock, "READS", 12);
    run(&mut image, dock, "LOG", 10);
    let flock = user(&mut image, "FLOCK", 30);
    let gate = user(&mut image, "GATE", 20);
    let weigh = user(&mut image, "WEIGH-BRIDGE", 12);
    let (loads, turns) = (grown(&mut image, flock, "LOADS", 3), grown(&mut image, gate, "TURNS", 2));
    for _ in 0..6 {
        done(proved::grow(&mut image, flock, loads));
        done(proved::grow(&mut image, gate, turns));
    }
    let old = grown(&mut image, dock, "OLD", 5);
    grown(&mut image, weigh, "SCALE", 4);
    grown(&mut image, weigh, "EMPTY", 0);
    done(proved::delete_file(&mut image, dock, old));
    run(&mut image, gate, "BADGES", 6);
    image
}

/// Seventy users, so that the object file is subindexed; files of the first, the last and one between.
pub fn many_users() -> Vec<u16> {
    let mut image = volume("UPLANDS", 300);
    for n in 0..70 {
        user(&mut image, &format!("U{n}"), if n % 23 == 0 { 20 } else { 0 });
    }
    for user in [0, 23, 69] {
        grown(&mut image, user, "A", 3);
        run(&mut image, user, "B", 4);
        grown(&mut image, user, "C", 0);
    }
    image
}

/// A file past 512 pages, so that it is subindexed.
pub fn big_file() -> Vec<u16> {
    let mut image = volume("BIG", 600);
    let dock = user(&mut image, "DOCK", 560);
    grown(&mut image, dock, "LONG", 520);
    run(&mut image, dock, "RUN", 7);
    image
}

/// A large pack, of more than one bit page: a long run behind the bit file, files of four users by turns, and gaps.
pub fn pack(pages: usize) -> Vec<u16> {
    let mut image = volume("PACK", pages);
    let users: Vec<usize> = ["DOCK", "FLOCK", "GATE", "WEIGH-BRIDGE"]
        .iter()
        .map(|name| user(&mut image, name, pages / 5))
        .collect();
    run(&mut image, users[0], "LAMBS", pages / 8);
    for (round, user) in users.iter().cycle().take(12).enumerate() {
        run(&mut image, *user, &format!("RUN{round}"), 100 + 37 * round);
        grown(&mut image, *user, &format!("TEXT{round}"), 5 * round);
    }
    let old = done(proved::find_file(&image, users[2], b"RUN6", b"")) as usize;
    done(proved::delete_file(&mut image, users[2], old));
    image
}

/// Thirty users with names of 16 letters on a volume with such a name, and some who hold nothing.
pub fn long_names() -> Vec<u16> {
    let mut image = volume("SIXTEEN-LETTERS1", 1000);
    for n in 10..40 {
        let user = user(&mut image, &format!("FORTRAN-GROUP-{n}"), 15 * (n % 4));
        if n % 4 > 0 {
            run(&mut image, user, "OWN", n / 4);
        }
    }
    image
}

/// The largest pack, nearly all of it one user's.
pub fn long_numbers() -> Vec<u16> {
    let mut image = volume("SIXTEEN-LETTERS2", 140_733);
    let user = user(&mut image, "FORTRAN-PROJECT1", 130_000);
    run(&mut image, user, "FIRST", 60_000);
    run(&mut image, user, "SECOND", 60_000);
    image
}

/// Numbers that look random, the same each time.
pub struct Dice(pub u64);

impl Dice {
    pub fn below(&mut self, end: u64) -> u64 {
        self.0 = self.0.wrapping_mul(6364136223846793005).wrapping_add(1442695040888963407);
        (self.0 >> 33) % end
    }
}

/// A full-size volume with twelve users: long runs, files grown by turns, a subindexed file and gaps where files were deleted.
pub fn full() -> Vec<u16> {
    const NAMES: [&str; 12] = [
        "SYSTEM",
        "DOCK",
        "FLOCK",
        "GATE",
        "WEIGH-BRIDGE",
        "LIBRARY",
        "PAYROLL",
        "SURVEY",
        "COBOL-TEAM",
        "FORTRAN-PROJECT1",
        "ARCHIVE",
        "GUEST",
    ];
    let mut image = volume("UPLANDS-MAIN-01", 16_384);
    let users: Vec<usize> = NAMES.iter().map(|name| user(&mut image, name, 1360)).collect();
    for round in 0..4 {
        for user in &users {
            run(&mut image, *user, &format!("RUN{round}"), 40 + (user * 37 + round * 91) % 160);
            if user % 3 == 0 {
                grown(&mut image, *user, &format!("TEXT{round}"), 20 + (user * 13 + round * 7) % 40);
            }
        }
    }
    grown(&mut image, 10, "TAPE-COPY", 700);
    let turns: Vec<usize> = users.iter().map(|user| grown(&mut image, *user, "LOG", 1)).collect();
    for turn in 0..360 {
        let user = users[turn * 7 % users.len()];
        done(proved::grow(&mut image, user, turns[user]));
    }
    for user in [1, 4, 6, 9] {
        let old = done(proved::find_file(&image, user, b"RUN1", b"")) as usize;
        done(proved::delete_file(&mut image, user, old));
    }
    image
}

/// A full-size volume with all 256 users, each with a run of his own.
pub fn crowd() -> Vec<u16> {
    let mut image = volume("CROWD", 16_384);
    for n in 0..256 {
        let user = user(&mut image, &format!("PERSON-{n}"), 56);
        run(&mut image, user, "OWN", 20 + (n * 7) % 36);
    }
    image
}
