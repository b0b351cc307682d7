//! The calls that look for free pages, timed on volumes that are nearly full.

use crate::answers;
use crate::contest::{changed, changing, figures, Figures};
use crate::nearly_full::{GROWING, MAKER, OWNER};
use crate::timing::{race, side, Effort, Spread};
use crate::volumes::{Volume, KIND};
use proved::Reply;
use std::cell::RefCell;
use std::fmt;
use std::hint::black_box;

/// The name of the file that is created.
const NEW_NAME: &[u8] = b"NEW";

#[derive(Clone, Copy, Debug, PartialEq, Eq)]
pub enum Taking {
    /// The owner's first file by one page.
    Grow,
    /// The maker's first file, contiguous, of so many pages.
    Create(usize),
}

pub const ALL: [Taking; 4] = [Taking::Grow, Taking::Create(1), Taking::Create(10), Taking::Create(1_000)];

impl fmt::Display for Taking {
    fn fmt(&self, f: &mut fmt::Formatter) -> fmt::Result {
        match self {
            Taking::Grow => write!(f, "grow"),
            Taking::Create(count) => write!(f, "create contiguous of {}", crate::report::grouped(*count as u64)),
        }
    }
}

impl Taking {
    fn by_proved(self, image: &mut [u16]) -> Reply {
        match self {
            Taking::Grow => proved::grow(image, OWNER as usize, GROWING as usize),
            Taking::Create(count) => proved::create_contiguous(image, MAKER as usize, NEW_NAME, KIND, 1, count),
        }
    }

    fn by_second(self, image: &mut [u16]) -> Reply {
        answers::reply(match self {
            Taking::Grow => second::grow(image, OWNER as usize, GROWING as usize),
            Taking::Create(count) => second::create_contiguous(image, MAKER as usize, NEW_NAME, KIND, 1, count),
        })
    }

    /// What both programs answer, and the words that both leave.
    pub fn agreed(self, image: &[u16]) -> (Reply, Vec<u16>) {
        let (mut first, mut other) = (image.to_vec(), image.to_vec());
        let answers = (self.by_proved(&mut first), self.by_second(&mut other));
        assert_eq!(answers.0, answers.1, "{self}: the answers differ");
        assert!(first == other, "{self}: the words differ");
        (answers.0, first)
    }
}

/// What a call took: its number, both programs' times, and the library's over the library's check.
pub struct Taken {
    pub number: u32,
    pub figures: Figures,
    pub over: Spread,
}

/// Times a call on a volume: both programs, and the library's check, in turns.
pub fn contest(volume: &Volume, call: Taking, effort: Effort) -> Taken {
    let (reply, after) = call.agreed(&volume.words);
    let kept = changed(&volume.words, &after);
    let image = RefCell::new(volume.words.clone());
    let first = changing(&image, &kept, |words| {
        black_box(call.by_proved(words));
    });
    let other = changing(&image, &kept, |words| {
        black_box(call.by_second(words));
    });
    let check = side(|| {
        black_box(proved::check(black_box(&image.borrow())));
    });
    let times = race(&mut [first, other, check], effort);
    assert!(image.into_inner() == volume.words, "{call}: the image is as it was");
    Taken {
        number: reply.number,
        figures: figures(&times),
        over: Spread::of_ratio(&times[0], &times[2]),
    }
}
