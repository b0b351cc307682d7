//! A bar for long work on standard error. Where that is no terminal, indicatif shows nothing.

use console::Term;
use indicatif::{HumanDuration, ProgressBar, ProgressState, ProgressStyle};
use std::fmt;
use std::time::Duration;

/// The bar of one piece of work; it goes away with the work.
pub struct Progress(ProgressBar);

impl Progress {
    /// What is done, and how many of which things there are to do: "growing", "pages", 800.
    pub fn start(what: &'static str, unit: &'static str, steps: u64) -> Progress {
        let line = move |state: &ProgressState, to: &mut dyn fmt::Write| {
            let now = Now {
                what,
                unit,
                at: state.pos(),
                of: state.len().unwrap_or_default(),
                left: state.eta(),
            };
            // The width is asked anew each time: the terminal's user may have changed it.
            let _ = to.write_str(&now.line(Term::stderr().size().1.into()));
        };
        let bar = ProgressBar::new(steps);
        if let Ok(style) = ProgressStyle::with_template("{line}") {
            bar.set_style(style.with_key("line", line));
        }
        Progress(bar)
    }

    pub fn step(&self) {
        self.advance(1);
    }

    pub fn advance(&self, steps: u64) {
        self.0.inc(steps);
    }
}

impl Drop for Progress {
    fn drop(&mut self) {
        self.0.finish_and_clear();
    }
}

/// How far the work is.
struct Now {
    what: &'static str,
    unit: &'static str,
    at: u64,
    of: u64,
    left: Duration,
}

/// The bar's own width, and below how many characters it tells nothing.
const BAR: usize = 40;
const LEAST_BAR: usize = 5;

impl Now {
    /// What fits in a line of the terminal: one that is wider wraps, and each drawing of it would leave a line behind.
    fn line(&self, width: usize) -> String {
        let Now { what, unit, at, of, .. } = self;
        let count = format!("{at}/{of} {unit}");
        let left = format!("{count}, {:#} left", HumanDuration(self.left));
        let barred = [&left, &count].into_iter().find_map(|after| {
            let place = width.saturating_sub(what.len() + after.len() + 2).min(BAR);
            (place >= LEAST_BAR).then(|| format!("{what} {} {after}", self.bar(place)))
        });
        let percent = format!("{}%", self.share(100));
        let plain = [format!("{what} {count}"), format!("{what} {percent}"), percent];
        let shown = barred.into_iter().chain(plain).find(|line| line.chars().count() <= width);
        shown.unwrap_or_default()
    }

    /// So many of all are what is done.
    fn share(&self, all: usize) -> usize {
        let done = self.at.min(self.of) as u128 * all as u128;
        done.checked_div(self.of.into()).map_or(all, |share| share as usize)
    }

    fn bar(&self, width: usize) -> String {
        let done = self.share(width);
        "█".repeat(done) + &"░".repeat(width - done)
    }
}

#[cfg(test)]
mod tests {
    use super::*;

    fn now(what: &'static str, unit: &'static str, at: u64, of: u64) -> Now {
        let left = Duration::from_secs(75);
        Now { what, unit, at, of, left }
    }

    #[test]
    fn a_line_has_what_fits() {
        let half = now("growing", "pages", 400, 800);
        let [full, rest] = ["█", "░"].map(|part| part.repeat(20));
        assert_eq!(half.line(200), format!("growing {full}{rest} 400/800 pages, 75s left"));
        assert_eq!(half.line(40), "growing ████░░░░ 400/800 pages, 75s left");
        assert_eq!(half.line(37), "growing ██░░░ 400/800 pages, 75s left");
        assert_eq!(half.line(36), "growing ███████░░░░░░░ 400/800 pages");
        assert_eq!(half.line(27), "growing ██░░░ 400/800 pages");
        assert_eq!(half.line(26), "growing 400/800 pages");
        assert_eq!(half.line(20), "growing 50%");
        assert_eq!([half.line(3), half.line(2)], ["50%", ""]);
    }

    #[test]
    fn no_line_is_wider_than_the_terminal() {
        let most = 288_221_184;
        for work in [
            now("growing", "pages", 0, 1),
            now("copying out", "bytes", most, most),
            now("a", "files", 0, 0),
        ] {
            for width in 0..=200 {
                let line = work.line(width);
                assert!(line.chars().count() <= width, "{width}: {line}");
                assert!(width < 20 || line.starts_with(work.what), "{width}: {line}");
            }
        }
    }

    #[test]
    fn nothing_to_do_is_all_done() {
        assert_eq!(now("reading", "files", 0, 0).line(12), "reading 100%");
        assert_eq!(now("reading", "files", u64::MAX, u64::MAX).share(40), 40);
    }
}
