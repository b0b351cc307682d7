//! A run: rounds by one seed until enough is done, what they met, and whether that was enough.

use crate::both::Disagreement;
use crate::cycle::{nth_of_cycle, rounds_of_a_cycle};
use crate::random::Random;
use crate::report;
use crate::rounds::Round;
use crate::tally::Tally;
use std::io::{IsTerminal, Write};
use std::panic::{catch_unwind, AssertUnwindSafe};
use std::path::PathBuf;
use std::time::{Duration, Instant};

/// How long a run goes on; one with a time, or with a number of damaged images on which all agreed, goes through a cycle at least.
pub enum Until {
    Cycles(u64),
    Rounds(u64),
    Time(Duration),
    Damaged(u64),
}

pub struct Plan {
    pub seed: u64,
    pub first: u64,
    pub until: Until,
}

/// Runs, tells, and answers whether all agreed and enough was met.
pub fn run(plan: &Plan) -> bool {
    println!("seed {}", plan.seed);
    let begun = Instant::now();
    let mut tally = Tally::default();
    let mut round = plan.first;
    while !is_over(plan, round - plan.first, begun, &tally) {
        progress(&format!("round {round}, {} calls compared", tally.compared()), begun);
        if !one_round(plan.seed, round, &mut tally) {
            return false;
        }
        round += 1;
    }
    clear_progress();
    println!("{}", tally.summary());
    let (calls, (runs, steps)) = (tally.compared(), tally.runs_and_steps());
    let (rounds, seconds) = (round - plan.first, begun.elapsed().as_secs_f64());
    println!("{calls} calls, and {steps} steps of {runs} runs, compared in {rounds} rounds and {seconds:.1} s, seed {}", plan.seed);
    println!("{} damaged images, on which all agreed", tally.damaged_images());
    enough(plan, &tally)
}

fn is_over(plan: &Plan, done: u64, begun: Instant, tally: &Tally) -> bool {
    match plan.until {
        Until::Cycles(cycles) => done >= cycles * rounds_of_a_cycle(),
        Until::Rounds(rounds) => done >= rounds,
        Until::Time(time) => done >= rounds_of_a_cycle() && begun.elapsed() >= time,
        Until::Damaged(images) => done >= rounds_of_a_cycle() && tally.damaged_images() >= images,
    }
}

/// One round; false, and told, where it did not end well.
fn one_round(seed: u64, round: u64, tally: &mut Tally) -> bool {
    let (kind, size) = nth_of_cycle(round % rounds_of_a_cycle());
    let random = Random::of_round(seed, round);
    let ended = catch_unwind(AssertUnwindSafe(|| Round { random, tally }.run(kind, size)));
    let again = format!("again with: compare --seed {seed} --first {round} --rounds 1");
    match ended {
        Ok(Ok(())) => true,
        Ok(Err(seen)) => {
            disagreed(seed, round, &seen);
            println!("{again}");
            false
        }
        Err(_) => {
            clear_progress();
            println!("seed {seed}, round {round}: a volume could not be made (see the message above)\n{again}");
            false
        }
    }
}

/// Tells a disagreement, and keeps it.
pub fn disagreed(seed: u64, round: u64, seen: &Disagreement) {
    clear_progress();
    println!("seed {seed}, round {round}\n{}", report::told(seen));
    let folder = PathBuf::from(format!("disagreement-{seed}-{round}"));
    match report::keep(seen, &folder) {
        Ok(()) => println!("kept for `compare --replay {}`", folder.display()),
        Err(error) => println!("it could not be kept in {}: {error}", folder.display()),
    }
}

/// A run of at least a cycle must have met everything often enough.
fn enough(plan: &Plan, tally: &Tally) -> bool {
    if matches!(plan.until, Until::Rounds(rounds) if rounds < rounds_of_a_cycle()) {
        println!("all agreed; a run of less than {} rounds has no minimums", rounds_of_a_cycle());
        return true;
    }
    let short = tally.too_little();
    short.iter().for_each(|line| println!("TOO LITTLE: {line}"));
    if short.is_empty() {
        println!("all agreed, and every minimum was met");
    }
    short.is_empty()
}

/// How far it is, on a terminal only.
pub fn progress(words: &str, begun: Instant) {
    if std::io::stderr().is_terminal() {
        eprint!("\r\x1b[K{words}, {:.0} s", begun.elapsed().as_secs_f64());
        let _ = std::io::stderr().flush();
    }
}

pub fn clear_progress() {
    if std::io::stderr().is_terminal() {
        eprint!("\r\x1b[K");
    }
}
