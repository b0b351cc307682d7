//! Many files made by one run, beside the same calls one by one, and beside the check.

use super::Run;
use crate::batch::Batch;
use crate::contest::{changed, changing};
use crate::progress;
use crate::report::{grouped, Table};
use crate::timing::{race, show, side, Spread};
use std::cell::RefCell;
use std::hint::black_box;
use std::time::Instant;

const NOTE: &str =
    "New files of one page, each with its own data: create indexed, grow and write for each. The same calls by one run and by single \
    calls of the library, which must give the same replies and words. The run and the check of the volume as it is before are timed in \
    turns, with the words put back outside the timed part; the single calls, all of them, are timed once. The limit is the time of three \
    checks and 10 microseconds for each call, round by round.";

/// What a run may take: so many checks, and so long for each call.
const CHECKS: f64 = 3.0;
const A_CALL: f64 = 10e-6;

/// All calls by single calls: the time, once; and the run has to have given the same.
fn single_calls(batch: &Batch, after: &[u16], replies: &[proved::Reply]) -> f64 {
    let mut words = batch.words.clone();
    let start = Instant::now();
    let single = batch.by_single_calls(&mut words);
    let seconds = start.elapsed().as_secs_f64();
    assert!(single == replies, "the replies of the run and of the single calls differ");
    assert!(words == after, "the words of the run and of the single calls differ");
    seconds
}

pub fn measure(run: &mut Run) {
    progress::show("runs: laying out the volume");
    let batch = Batch::new(run.plan.large);
    let mut after = batch.words.clone();
    let replies = batch.by_run(&mut after);
    assert!(replies.len() == batch.calls() && replies.iter().all(|reply| reply.number == 0));
    progress::show("runs: single calls");
    let single = single_calls(&batch, &after, &replies);
    progress::show("runs: one run");
    let kept = changed(&batch.words, &after);
    let image = RefCell::new(batch.words.clone());
    let by_run = changing(&image, &kept, |words| {
        black_box(batch.by_run(words));
    });
    let check = side(|| {
        black_box(proved::check(black_box(&image.borrow())));
    });
    let times = race(&mut [by_run, check], run.plan.effort);
    progress::clear();
    tell(run, &batch, &times, single);
}

/// The table, and the goal.
fn tell(run: &mut Run, batch: &Batch, times: &[Vec<f64>], single: f64) {
    let calls = batch.calls() as f64;
    let limits: Vec<f64> = times[1].iter().map(|check| CHECKS * check + A_CALL * calls).collect();
    let (by_run, check) = (Spread::of(&times[0]).median, Spread::of(&times[1]).median);
    let over = Spread::of_ratio(&times[0], &limits);
    let head = [
        "volume",
        "new files",
        "calls",
        "by one run",
        "a call",
        "check",
        "single calls",
        "a call",
        "single / run",
        "run / limit",
    ];
    let mut table = Table::new("Runs", NOTE, &head);
    table.row(vec![
        format!("{} pages, {} files", batch.words.len() / proved::PAGE, grouped(batch.old.into())),
        grouped(batch.new.into()),
        grouped(batch.calls() as u64),
        show(by_run),
        show(by_run / calls),
        show(check),
        show(single),
        show(single / calls),
        format!("{:.0}", single / by_run),
        over.to_string(),
    ]);
    run.report.add(table);
    let goal = "files by one run, time over three checks and 10 us a call";
    run.goals
        .at_most(goal, &format!("{} files", batch.new), over.median, 1.0, over.to_string());
}
