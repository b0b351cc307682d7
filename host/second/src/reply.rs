//! The numbers a call gives back.

/// A page, and a word 0..1,023 of it.
#[derive(Clone, Copy, Debug, Default, PartialEq, Eq)]
pub struct Place {
    pub page: u32,
    pub word: u32,
}

/// Who holds a page; all zero is a free one.
#[derive(Clone, Copy, Debug, Default, PartialEq, Eq)]
pub struct Holder {
    pub kind: u32,
    pub user: u32,
    pub file: u32,
    pub position: u32,
}

/// What a call answers: the number of document 01's table, with number 3 the
/// broken rule, the first place that breaks it and, where it is rule 8, the
/// first two holders of that page, and with number 0 the value. All else is
/// zero, save that a run tells the holder of a page as the first.
#[derive(Clone, Copy, Debug, Default, PartialEq, Eq)]
pub struct Reply {
    pub number: u32,
    pub rule: u32,
    pub value: u32,
    pub place: Place,
    pub first: Holder,
    pub second: Holder,
}

/// What who-holds answers: a reply, and with number 0 the holder.
#[derive(Clone, Copy, Debug, Default, PartialEq, Eq)]
pub struct HolderReply {
    pub reply: Reply,
    pub holder: Holder,
}

/// The kinds of holder, by number.
pub mod kind {
    pub const FREE: u32 = 0;
    pub const MASTER: u32 = 1;
    pub const BIT_FILE: u32 = 2;
    pub const USER_INDEX: u32 = 3;
    pub const USER_PAGE: u32 = 4;
    pub const OBJECT_SUBINDEX: u32 = 5;
    pub const OBJECT_INDEX: u32 = 6;
    pub const OBJECT_PAGE: u32 = 7;
    pub const FILE_SUBINDEX: u32 = 8;
    pub const FILE_INDEX: u32 = 9;
    pub const FILE_DATA: u32 = 10;
}

/// How an image is broken: the lowest broken rule, the first place that breaks
/// it, and with rule 8 the first two holders.
#[derive(Clone, Copy, Debug, PartialEq, Eq)]
pub(crate) struct Break {
    pub(crate) rule: u32,
    pub(crate) place: Place,
    pub(crate) holders: [Holder; 2],
}

/// Why a call is refused: its number in the table, and with 3 what is broken.
#[derive(Clone, Copy, Debug, PartialEq, Eq)]
pub(crate) struct Refusal {
    number: u32,
    broken: Option<Break>,
}

/// How a call ends inside the library, before it becomes numbers.
pub(crate) type Outcome = Result<u32, Refusal>;

impl Refusal {
    const fn of(number: u32) -> Refusal {
        Refusal { number, broken: None }
    }

    /// Number 3, with what is broken.
    pub(crate) const fn unsound(broken: Break) -> Refusal {
        Refusal {
            number: 3,
            broken: Some(broken),
        }
    }
}

pub(crate) const BAD_LENGTH: Refusal = Refusal::of(1);
pub(crate) const BAD_ARGUMENT: Refusal = Refusal::of(2);
pub(crate) const ABSENT: Refusal = Refusal::of(4);
pub(crate) const NAME_TAKEN: Refusal = Refusal::of(5);
pub(crate) const WRONG_KIND: Refusal = Refusal::of(6);
pub(crate) const HAS_FILE: Refusal = Refusal::of(7);
pub(crate) const ENTRIES_FULL: Refusal = Refusal::of(8);
pub(crate) const GIVEN_SHORT: Refusal = Refusal::of(9);
pub(crate) const UNRESERVED_SHORT: Refusal = Refusal::of(10);
pub(crate) const NO_RUN: Refusal = Refusal::of(11);
/// Document 02, T-04; it is judged right after 3.
pub(crate) const WRONG_FILL: Refusal = Refusal::of(12);
/// T-05; they are judged right after 3, in this order.
pub(crate) const OVERDRAWN: Refusal = Refusal::of(13);
pub(crate) const LIST_SHORT: Refusal = Refusal::of(14);

/// Goes on where the condition holds, refuses otherwise.
pub(crate) fn demand(condition: bool, refusal: Refusal) -> Result<(), Refusal> {
    if condition {
        Ok(())
    } else {
        Err(refusal)
    }
}

impl From<Refusal> for Reply {
    fn from(refusal: Refusal) -> Reply {
        let number = refusal.number;
        match refusal.broken {
            None => Reply {
                number,
                ..Reply::default()
            },
            Some(Break { rule, place, holders }) => Reply {
                number,
                rule,
                value: 0,
                place,
                first: holders[0],
                second: holders[1],
            },
        }
    }
}

impl From<Outcome> for Reply {
    fn from(outcome: Outcome) -> Reply {
        match outcome {
            Ok(value) => Reply { value, ..Reply::default() },
            Err(refusal) => refusal.into(),
        }
    }
}
