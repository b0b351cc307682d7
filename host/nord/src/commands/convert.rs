//! Conversion of what stands behind short names and types.

use crate::answers::Call;
use crate::args::Ending;
use crate::convert::Changed;
use crate::plan::{self, Plan, Planned};
use proved::call;

/// The library's conversion. What it has changed is seen in the image after it.
pub fn plan(list: &mut Plan, to: Ending) -> Planned {
    let (number, call) = match to {
        Ending::Apostrophe => (call::CONVERT_TO_APOSTROPHE, Call::ToApostrophe),
        Ending::Zeros => (call::CONVERT_TO_ZEROS, Call::ToZeros),
    };
    list.call(call, "one of them has another fill", None, plan::step(number));
    list.seen = true;
    Ok(Some(Box::new(move |made| Changed::of(made.image).answer(to))))
}
