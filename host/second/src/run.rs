//! A list of calls, made one after the other up to the first refusal.

use crate::find::try_address;
use crate::image::{page_count, page_start, PAGE_WORDS};
use crate::reply::{Outcome, Reply, BAD_ARGUMENT};
use crate::*;

/// A step: a call by its number, and its arguments. Name, type and page data
/// are parts of a text and of words that are lent with the steps; a call looks
/// only at what it uses.
#[derive(Clone, Copy, Debug, Default, PartialEq, Eq)]
pub struct Step {
    pub call: u32,
    pub user: u32,
    pub file: u32,
    /// A page count, a position, a page, or format's bit page.
    pub count: u32,
    pub created: u32,
    pub name_at: u32,
    pub name_bytes: u32,
    pub type_at: u32,
    pub type_bytes: u32,
    pub data_at: u32,
}

/// Whether a step may be a check, number 2 in document 01's list of the work.
pub const CHECK_IS_A_STEP: bool = true;

/// What is lent to a run beside its image: names and types are parts of the text,
/// pages to be written parts of the data, and a salvage tells its changes in the
/// list. No other step touches the list.
struct Lent<'a> {
    text: &'a [u8],
    data: &'a [u16],
    list: &'a mut [Change],
}

/// Makes the steps in order: a reply for each, as long as there is room for
/// one, up to the first refusal. Gives the number of replies.
pub fn run(image: &mut [u16], steps: &[Step], text: &[u8], data: &[u16], list: &mut [Change], replies: &mut [Reply]) -> usize {
    let mut lent = Lent { text, data, list };
    let mut made = 0;
    for (step, reply) in steps.iter().zip(replies) {
        *reply = step.make(image, &mut lent).unwrap_or_else(|| wrong(image).into());
        made += 1;
        if reply.number != 0 {
            break;
        }
    }
    made
}

/// A call with a wrong argument.
fn wrong(image: &[u16]) -> Outcome {
    page_count(image)?;
    Err(BAD_ARGUMENT)
}

/// The reply of a step that asks who holds a page: where it is done, the holder is
/// told as the first.
fn holder_told(answer: HolderReply) -> Reply {
    match answer.reply.number {
        0 => Reply {
            first: answer.holder,
            ..answer.reply
        },
        _ => answer.reply,
    }
}

/// Where the words of a file's page begin in the image.
fn page_offset(image: &[u16], user: usize, file: usize, position: usize) -> Outcome {
    let page = try_address(image, user, file, position)?;
    Ok(page_start(page) as u32)
}

/// So many of some things from a place on, if they are all there.
fn part<T>(of: &[T], at: u32, length: usize) -> Option<&[T]> {
    of.get(at as usize..)?.get(..length)
}

impl Step {
    /// The call of this step; none where its number is no call's, or where it
    /// uses a part that does not lie in what was lent. The numbers are the
    /// places in document 01's list of the work; 19 formats by default, 20 and
    /// 21 convert, 22 salvages.
    fn make(&self, image: &mut [u16], lent: &mut Lent) -> Option<Reply> {
        let [user, file, count] = [self.user, self.file, self.count].map(|number| number as usize);
        let name = || part(lent.text, self.name_at, self.name_bytes as usize);
        let kind = || part(lent.text, self.type_at, self.type_bytes as usize);
        Some(match self.call {
            1 => format(image, name()?, Some(count)),
            2 if CHECK_IS_A_STEP => check(image),
            3 => find_user(image, name()?),
            4 => find_file(image, user, name()?, kind()?),
            5 => address(image, user, file, count),
            6 => holder_told(who_holds(image, count)),
            7 => create_user(image, name()?),
            8 => delete_user(image, user),
            9 => give(image, user, count),
            10 => take(image, user, count),
            11 => create_indexed(image, user, name()?, kind()?, self.created),
            12 => create_contiguous(image, user, name()?, kind()?, self.created, count),
            13 => grow(image, user, file),
            14 => shrink(image, user, file),
            15 => delete_file(image, user, file),
            16 => page_offset(image, user, file, count).into(),
            17 => write_page(image, user, file, count, part(lent.data, self.data_at, PAGE_WORDS)?),
            18 => note_open(image, user, file),
            19 => format(image, name()?, None),
            20 => convert_to_apostrophe(image),
            21 => convert_to_zeros(image),
            22 => salvage(image, lent.list),
            _ => return None,
        })
    }
}
