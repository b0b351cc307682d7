//! Files copied out of an image that may be unsound: every file whose own entry and pointers are right and whose pages nobody else holds. The
//! others are told with the place of their first fault. The image is only read.

mod chosen;
mod report;

pub use chosen::{choose, is_host_name, Choice};
pub use report::Report;
