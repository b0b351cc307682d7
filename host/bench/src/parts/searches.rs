//! The search for free pages on volumes that are nearly full: the calls that need it, and the searches by themselves.

use super::Run;
use crate::progress;
use crate::report::Table;
use crate::search::Search;
use crate::taking::{contest, ALL};
use crate::timing::{race, show, side, Effort, Spread};
use crate::volumes::Volume;
use std::hint::black_box;

const CALLS_NOTE: &str =
    "Calls that need free pages. A grow takes three (data page, index block, subindex block). A create takes two system \
    pages and looks for its run; the pages of both are zeroed. \"Number\" is what both programs answer: 0 done; 11 no run, known after the \
    whole search; 9 nothing left of what the user was given, which is all that a volume without a free page can answer, before any search. \
    \"Over check\" is the library's call over the library's check, in the same rounds.";

const SEARCHES_NOTE: &str = "The searches without the call and its check: the proved one by words, as the library has it (host/probe), \
    beside a plain one that tests bit after bit and beside the second program's, on the same image in the same rounds. All have to find \
    the same before they are timed. Where no page is free there is none after the first. \"/ check\" is the proved search over the \
    library's check of the volume, in the same rounds.";

/// The most that a search may be of the check, and on the full volume of a search bit after bit.
const OF_THE_CHECK: f64 = 0.05;
const OF_BIT_AFTER_BIT: f64 = 0.2;

/// The volume without a free page.
const FULL: &str = "none";

pub fn measure(run: &mut Run, volumes: &[Volume]) {
    calls(run, volumes);
    searches(run, volumes);
    progress::clear();
}

fn calls(run: &mut Run, volumes: &[Volume]) {
    let head = ["volume", "call", "number", "proved", "second", "proved / second", "over check"];
    let mut table = Table::new("Calls on nearly full volumes", CALLS_NOTE, &head);
    for volume in volumes {
        for call in ALL {
            progress::show(&format!("searches: {call} on {}", volume.name));
            let taken = contest(volume, call, run.plan.effort);
            table.row(vec![
                volume.name.clone(),
                call.to_string(),
                taken.number.to_string(),
                show(taken.figures.proved),
                show(taken.figures.second),
                taken.figures.ratio.to_string(),
                taken.over.to_string(),
            ]);
        }
    }
    run.report.add(table);
}

fn searches(run: &mut Run, volumes: &[Volume]) {
    let head = [
        "volume",
        "search",
        "found",
        "proved",
        "bit after bit",
        "second",
        "proved / bit after bit",
        "proved / second",
        "proved / check",
    ];
    let mut table = Table::new("Searches for free pages", SEARCHES_NOTE, &head);
    for volume in volumes {
        for search in Search::all(&volume.words) {
            progress::show(&format!("searches: {search} on {}", volume.name));
            let found = search.told(&volume.words);
            let searched = time(&volume.words, search, run.plan.effort);
            judge(run, &volume.name, search, &searched);
            table.row(vec![
                volume.name.clone(),
                search.to_string(),
                found,
                show(searched.proved),
                show(searched.plain),
                show(searched.second),
                searched.over_plain.to_string(),
                searched.over_second.to_string(),
                searched.over_check.to_string(),
            ]);
        }
    }
    run.report.add(table);
}

/// The times of a search, and the proved one's over the others'.
struct Searched {
    proved: f64,
    plain: f64,
    second: f64,
    over_plain: Spread,
    over_second: Spread,
    over_check: Spread,
}

/// Times a search in turns with the library's check.
fn time(image: &[u16], search: Search, effort: Effort) -> Searched {
    let mut sides = [
        side(|| {
            black_box(black_box(search).by_proved(black_box(image)));
        }),
        side(|| {
            black_box(black_box(search).by_plain(black_box(image)));
        }),
        side(|| {
            black_box(black_box(search).by_second(black_box(image)));
        }),
        side(|| {
            black_box(proved::check(black_box(image)));
        }),
    ];
    let times = race(&mut sides, effort);
    Searched {
        proved: Spread::of(&times[0]).median,
        plain: Spread::of(&times[1]).median,
        second: Spread::of(&times[2]).median,
        over_plain: Spread::of_ratio(&times[0], &times[1]),
        over_second: Spread::of_ratio(&times[0], &times[2]),
        over_check: Spread::of_ratio(&times[0], &times[3]),
    }
}

fn judge(run: &mut Run, volume: &str, search: Search, searched: &Searched) {
    let mut at_most = |goal, ratio: Spread, limit| {
        let told = format!("{ratio}, {search}");
        run.goals.at_most(goal, volume, ratio.median, limit, told);
    };
    at_most("search, time over the check's, the most of all", searched.over_check, OF_THE_CHECK);
    if volume == FULL {
        let goal = "search, time over bit after bit's, on the full volume, the most of all";
        at_most(goal, searched.over_plain, OF_BIT_AFTER_BIT);
    }
}
