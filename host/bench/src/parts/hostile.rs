//! The check of hostile images.

use super::Run;
use crate::answers::agreed;
use crate::contest::{check_beside, check_over};
use crate::hostile::{all, Hostile};
use crate::progress;
use crate::report::{grouped, Table};
use crate::timing::{show, Effort, Spread};
use crate::volumes::{many, LARGE_VOLUME};

const NOTE: &str =
    "As many files as there are entries. Rules 1 to 7 hold and rule 8 is broken, or the image is sound. Both programs say so, and \
    which page is the lowest that is held twice and who its first two holders are, as the image was made. \"Over a sound check\" is the \
    library's check of the image over its check of the volume many, in the same rounds: a refusal, which tells all this, may take at \
    most ten times as long.";

/// How many times as long as the check of a sound volume a refusal may take.
pub const MOST: f64 = 10.0;

pub fn measure(run: &mut Run) {
    let head = [
        "image",
        "what it is",
        "files",
        "rule broken",
        "page",
        "proved",
        "a file",
        "second",
        "proved / second",
        "over a sound check",
    ];
    let mut table = Table::new("Hostile images: check", NOTE, &head);
    progress::show("hostile: laying out the images");
    let sound = many(run.plan.large);
    for image in all(LARGE_VOLUME, run.plan.hostile_users) {
        progress::show(&format!("hostile: {}", image.name));
        let (row, over) = row(&image, &sound.words, run.plan.effort);
        table.row(row);
        if image.twice.is_some() {
            judge(run, image.name, over);
        }
    }
    progress::clear();
    run.report.add(table);
}

/// A refusal, with its place and holders, takes at most so many times the check of a sound volume.
fn judge(run: &mut Run, on: &str, over: Spread) {
    let goal = "refusal of a hostile image, time over the full sound check";
    run.goals.at_most(goal, on, over.median, MOST, over.to_string());
}

const PACK_NOTE: &str = "The same images as large as a pack, and three whose files have blocks of their own, as many as there are entries. Rules 1 to 7 hold \
    and rule 8 is broken; both programs say which page is the lowest that is held twice and who its first two holders are, as the image was \
    made. The library's check of each in turns with its check of the pack full of small files.";

pub fn pack_table(title: &'static str) -> Table {
    let head = ["image", "what it is", "files", "page", "proved", "a file", "over a sound check"];
    Table::new(title, PACK_NOTE, &head)
}

/// One row of a pack's hostile images beside a sound pack, and its goal.
pub fn of_pack(run: &mut Run, table: &mut Table, image: &Hostile, on: &str, sound: &[u16]) {
    progress::show(&format!("hostile: {on}"));
    answered(image);
    let (proved, over) = check_over(&image.words, sound, run.plan.hostile_effort);
    table.row(vec![
        on.into(),
        image.about.clone(),
        grouped(u64::from(image.files)),
        image.twice.map_or_else(String::new, |twice| twice.page.to_string()),
        show(proved),
        show(proved / f64::from(image.files)),
        over.to_string(),
    ]);
    judge(run, on, over);
}

/// Both programs answer as the image was made to be answered.
fn answered(image: &Hostile) {
    let reply = agreed(image.name, &image.words);
    match image.twice {
        Some(twice) => assert_eq!(reply, twice.reply(), "{}: the page held twice and its holders", image.name),
        None => assert_eq!(reply.number, 0, "{}: the image is sound", image.name),
    }
}

fn row(image: &Hostile, sound: &[u16], effort: Effort) -> (Vec<String>, Spread) {
    answered(image);
    let (figures, over) = check_beside(&image.words, sound, effort);
    let (rule, page) = match image.twice {
        Some(twice) => ("8".into(), twice.page.to_string()),
        None => ("none".into(), String::new()),
    };
    let row = vec![
        image.name.into(),
        image.about.clone(),
        grouped(u64::from(image.files)),
        rule,
        page,
        show(figures.proved),
        show(figures.proved / f64::from(image.files)),
        show(figures.second),
        figures.ratio.to_string(),
        over.to_string(),
    ];
    (row, over)
}
