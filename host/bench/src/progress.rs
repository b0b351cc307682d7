//! What is being done, on a terminal: one line of standard error that is written over.

use std::io::{stderr, IsTerminal, Write};

pub fn show(what: &str) {
    if stderr().is_terminal() {
        eprint!("\r\x1b[K{what}");
        let _ = stderr().flush();
    }
}

/// Takes the line away.
pub fn clear() {
    show("");
}
