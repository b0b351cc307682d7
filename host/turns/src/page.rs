//! The Markdown of the figures.

use crate::measure::Figures;
use bench::machine;
use bench::report::{grouped, Table};
use bench::timing::{show, Spread};

const NOTE: &str = "Both builds check one image in memory in turns, in one process, every second round the other way about. Times are the
processor's. The ratio is taken in each round; its median is given with the 10th and 90th of a hundred. Instructions are those of one
check, by callgrind; runs differ by a few. Both builds give the same answer on each volume. The volumes are those of docs/BENCHMARKS.md,
with zeros behind their names and types, which builds from before T-03 want.";

/// What of the machine is told.
const MACHINE: [&str; 5] = [
    "date",
    "machine",
    "load before the run (1, 5, 15 minutes)",
    "kit (proved library)",
    "valgrind",
];

/// The machine in a line, as it is before the run.
pub fn machine() -> String {
    let rows = machine::table().rows;
    let told = MACHINE.iter().filter_map(|what| rows.iter().find(|row| row[0] == *what));
    let told: Vec<String> = told.map(|row| format!("{} {}", row[0], row[1])).collect();
    told.join("; ")
}

fn ratio(spread: Spread) -> String {
    format!("{:.3} ({:.3} to {:.3})", spread.median, spread.low, spread.high)
}

pub fn markdown(machine: &str, all: &[Figures]) -> String {
    let head = [
        "volume",
        "pages held",
        "before",
        "after",
        "after / before",
        "rounds",
        "instructions before",
        "instructions after",
        "after / before",
    ];
    let mut table = Table::new("The check, before and after", NOTE, &head);
    for figures in all {
        let [old, new] = figures.instructions;
        table.row(vec![
            figures.volume.clone(),
            grouped(figures.held.into()),
            show(figures.seconds[0]),
            show(figures.seconds[1]),
            ratio(figures.ratio),
            figures.rounds.to_string(),
            grouped(old),
            grouped(new),
            format!("{:.4}", new as f64 / old as f64),
        ]);
    }
    let section = table.as_markdown().replacen('#', "", 1);
    format!("{section}\nMeasured: {machine}.\n")
}
