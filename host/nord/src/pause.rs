//! For the tests that kill a run at a chosen moment, or change its image under its hands. A debug build stops at the stage that the environment
//! names in `NORD_PAUSE`: it says so on standard error and goes on after a line on standard input. A release build has no such thing.

pub fn at(stage: &str) {
    if cfg!(debug_assertions) && std::env::var_os("NORD_PAUSE").is_some_and(|wanted| wanted == stage) {
        eprintln!("paused at {stage}");
        let _ = std::io::stdin().read_line(&mut String::new());
    }
}
