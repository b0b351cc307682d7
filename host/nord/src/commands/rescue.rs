//! Files copied out of an image that may be unsound.

use crate::answers::{done, Answer, Call};
use crate::args::Ask;
use crate::copies::{self, Sort};
use crate::failure::Failure;
use crate::rescue::{choose, is_host_name, Report};
use crate::store;
use crate::unsound::{Broken, Judge};
use std::path::Path;

/// The image needs a right length and no more; it is only read, and no lock is taken.
pub fn rescue(image: &[u16], at: &Ask, folder: &Path) -> Result<Answer, Failure> {
    let reply = proved::check(image);
    if reply.number != 3 {
        done(reply, Call::Check, "")?;
    }
    let broken = (reply.number == 3).then(|| Broken::of(reply));
    let judge = Judge::of(image);
    let choice = choose(&judge, folder);
    let sort = Sort {
        nothing: "no file is copied out",
        is_name: is_host_name,
    };
    let copied = copies::copy_out(image, &choice.copies(), &sort)?;
    let report = Report::of(&judge, broken, &choice, copied, folder);
    Ok(Answer::of(report.text(store::shown(&at.image)), &report))
}
