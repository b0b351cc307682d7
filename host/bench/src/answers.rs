//! The second program's answers in the library's types, so that they can be held to the library's in all of their numbers.

use proved::{Holder, Place, Reply};

fn place(of: second::Place) -> Place {
    Place {
        page: of.page,
        word: of.word,
    }
}

pub fn holder(of: second::Holder) -> Holder {
    Holder {
        kind: of.kind,
        user: of.user,
        file: of.file,
        position: of.position,
    }
}

pub fn reply(of: second::Reply) -> Reply {
    Reply {
        number: of.number,
        rule: of.rule,
        value: of.value,
        place: place(of.place),
        first: holder(of.first),
        second: holder(of.second),
    }
}

/// What both programs say of an image.
pub fn agreed(what: &str, words: &[u16]) -> Reply {
    let (first, other) = (proved::check(words), reply(second::check(words)));
    assert_eq!(first, other, "{what}: the check");
    first
}
