//! Many files in and out, beside mcopy.

use super::Run;
use crate::fat::{self, FILES, WAYS};
use crate::progress;
use crate::report::Table;
use crate::timing::show;
use std::io;

const NOTE: &str =
    "200 files of 1,000 to 64,000 bytes into an empty image of 32 MB and out of a full one: `nord import` and `nord export`, which wait until \
    all is on the disk, beside `mcopy -s` on a FAT image as large, followed by `sync`. Whole processes, in turns; before each run the image or the folder is \
    put back and all is written through, outside the timed part. An image has holes where it is zeros, as `nord format` and `mformat` make it; in the \
    second row it has none.";

pub fn measure(run: &mut Run) -> io::Result<()> {
    if !fat::is_there() {
        let why = "Left out: mcopy (Debian's package mtools) or the command nord is not there.";
        run.report.add(Table::new("Many files beside mcopy", why, &[]));
        return Ok(());
    }
    progress::show("files beside mcopy");
    let ways = fat::contest(&run.scratch, run.plan.files, run.plan.process_effort)?;
    let mut table = Table::new(
        "Many files beside mcopy",
        NOTE,
        &["way", "files", "nord", "mcopy and sync", "nord / mcopy"],
    );
    for (name, way) in WAYS.into_iter().zip(ways) {
        let ratio = way.ratio.to_string();
        table.row(vec![
            name.to_string(),
            FILES.to_string(),
            show(way.nord),
            show(way.mcopy),
            ratio.clone(),
        ]);
        run.goals
            .at_most("200 files, time over mcopy's and sync's", name, way.ratio.median, 3.0, ratio);
    }
    progress::clear();
    run.report.add(table);
    Ok(())
}
