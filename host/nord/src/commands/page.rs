//! The words of a page, for the bench.

use super::ask;
use crate::answers::{done, Answer, Call, Refusal};
use crate::broken::Broken;
use crate::failure::Failure;
use crate::page::Page;
use crate::typed::Number;
use proved::Reply;

/// The library judges the length, the page's number and the image; an unsound one is shown all the same.
pub fn page(image: &[u16], page: &Number, word: Option<&Number>) -> Result<Answer, Failure> {
    let reply = ask::plain(proved::who_holds(image, page.value as usize));
    let subject = format!("page {page} of {}", image.len() / proved::PAGE);
    if reply.number != 3 {
        done(reply, Call::Page, subject)?;
    }
    if let Some(word) = word.filter(|word| word.value as usize >= proved::PAGE) {
        return Err(wrong_word(word).into());
    }
    let broken = (reply.number == 3).then(|| Broken::of(image, reply));
    let page = Page::of(image, page.value, broken);
    Ok(match word {
        None => Answer::of(page.text(), page.shown()),
        Some(word) => Answer::of(page.word_text(word.value), page.word_shown(word.value)),
    })
}

/// A page has no such word: an argument that is wrong, as a page's number can be.
fn wrong_word(word: &Number) -> Refusal {
    let reply = Reply {
        number: 2,
        ..Reply::default()
    };
    Refusal::of(reply, Call::Page, format!("word {word}"))
}
