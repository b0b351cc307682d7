//! The command `nord`: all of it is in the library beside.

fn main() -> std::process::ExitCode {
    nord::run()
}
