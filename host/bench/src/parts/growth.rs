//! The check's time as the volume grows, full and half full: it should follow the pages held.

use super::Run;
use crate::contest::check_contest;
use crate::goals::Line;
use crate::progress;
use crate::report::Table;
use crate::timing::show;
use crate::volumes::{few, full, Volume};

/// How far a point may be from the straight line, as a share of its height.
pub const NEAR: f64 = 0.1;

/// The volumes of one size: few large files, full and half full.
pub fn volumes(pages: u32) -> [Volume; 2] {
    let named = |name: &str, volume: Volume| Volume {
        name: format!("{name}-{pages}"),
        ..volume
    };
    [named("full", full(pages)), named("half", few(pages, pages / 2))]
}

pub fn measure(run: &mut Run) {
    let head = ["P", "pages held", "proved", "a held page", "second", "proved / second"];
    let mut table = Table::new("Growth of the check", "", &head);
    let mut points = Vec::new();
    for volume in run.plan.growth.iter().flat_map(|&pages| volumes(pages)) {
        progress::show(&format!("growth: {}", volume.name));
        let held = volume.held();
        let figures = check_contest(&volume.words, run.plan.effort);
        points.push((f64::from(held), figures.proved));
        let each = format!("{:.2} ns", figures.proved * 1e9 / f64::from(held));
        let (proved, second) = (show(figures.proved), show(figures.second));
        table.row(vec![
            volume.pages().to_string(),
            held.to_string(),
            proved,
            each,
            second,
            figures.ratio.to_string(),
        ]);
    }
    progress::clear();
    let line = Line::through(&points);
    table.note = format!(
        "Few large files, the volume full and half full. The nearest straight line over the held pages: {} and {:.2} ns for each page; no \
        point is farther from it than {:.1}% of its own height.",
        show(line.fixed.max(0.0)),
        line.slope * 1e9,
        line.farthest * 100.0
    );
    let told = format!("{:.3}", line.farthest);
    run.goals.at_most(
        "check linear in held pages: farthest from the line, as a share",
        "time",
        line.farthest,
        NEAR,
        told,
    );
    run.report.add(table);
}
