//! The seven calls on each volume, beside the second program's and beside the check alone.

use super::Run;
use crate::calls::{Call, CALLS};
use crate::contest::contest;
use crate::progress;
use crate::report::Table;
use crate::timing::{show, Spread};
use crate::volumes::Volume;

const NOTE: &str =
    "Times are medians. A ratio is taken in each round of one run, proved over second on the same image in memory; its median \
    is given with the 10th and 90th of a hundred. \"Over check\" is the library's call over the library's check, in the same rounds.";

/// What makes up a call that asks is the check, if the call takes at most this many times as long.
pub const DOMINATED: f64 = 1.1;

pub fn measure(run: &mut Run, volumes: &[Volume]) {
    let mut table = table("Calls");
    for volume in volumes {
        CALLS.iter().for_each(|&call| of_call(run, &mut table, volume, call));
    }
    progress::clear();
    run.report.add(table);
}

pub fn table(title: &'static str) -> Table {
    Table::new(
        title,
        NOTE,
        &["volume", "call", "proved", "second", "proved / second", "over check"],
    )
}

/// One call's row on a volume, and its goals.
pub fn of_call(run: &mut Run, table: &mut Table, volume: &Volume, call: Call) {
    progress::show(&format!("calls: {} on {}", call.name(), volume.name));
    let (figures, over) = contest(volume, call, run.plan.effort);
    let [proved, second] = [show(figures.proved), show(figures.second)];
    table.row(vec![
        volume.name.clone(),
        call.name().into(),
        proved,
        second,
        figures.ratio.to_string(),
        over.to_string(),
    ]);
    judge(run, volume, call, figures.ratio, over);
}

fn judge(run: &mut Run, volume: &Volume, call: Call, ratio: Spread, over: Spread) {
    let mut beside_second = |goal| run.goals.at_most(goal, &volume.name, ratio.median, 1.0, ratio.to_string());
    match call {
        Call::Check => beside_second("check, time over second program's"),
        Call::WhoHolds => beside_second("who holds, time over second program's"),
        Call::Address | Call::FindUser | Call::FindFile => {
            let told = format!("{over}, {}", call.name());
            run.goals.at_most(
                "address and find, time over check's, the most of the three",
                &volume.name,
                over.median,
                DOMINATED,
                told,
            );
        }
        _ => (),
    }
}
