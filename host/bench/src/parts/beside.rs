//! The check beside e2fsck.

use super::Run;
use crate::ext2::{contest, version, Beside};
use crate::progress;
use crate::report::Table;
use crate::timing::show;
use crate::volumes::Volume;
use std::io;

const NOTE: &str =
    "`e2fsck -fn` is a whole process on an ext2 image of 2,048-byte blocks (a page is 2,048 bytes, so both have the same data \
    blocks), with the same number of files and bytes. Beside it, in the same rounds: the check in memory; a process that reads the whole \
    image file, swaps its bytes to this machine's order and checks it; and a process that maps an image file in this machine's order and \
    checks it; and the command `nord check` on an image file, which reads what the check touches of it, and the whole by all cores after many \
    touches. All files are in the page cache.";

pub fn measure(run: &mut Run, volumes: &[Volume]) -> io::Result<()> {
    if version().is_none() {
        run.report.add(Table::new(
            "Check beside e2fsck",
            "Left out: e2fsck, mke2fs or debugfs is not there (Debian's package e2fsprogs).",
            &[],
        ));
        return Ok(());
    }
    let mut table = table("Check beside e2fsck");
    for volume in volumes {
        of_volume(run, &mut table, volume)?;
    }
    progress::clear();
    run.report.add(table);
    Ok(())
}

pub fn table(title: &'static str) -> Table {
    let head = [
        "volume",
        "ext2 image, as e2fsck counts it",
        "e2fsck",
        "check in memory",
        "/ e2fsck",
        "process that reads",
        "/ e2fsck",
        "process that maps",
        "/ e2fsck",
        "nord check",
        "/ e2fsck",
    ];
    Table::new(title, NOTE, &head)
}

/// One volume's row, and its goals.
pub fn of_volume(run: &mut Run, table: &mut Table, volume: &Volume) -> io::Result<()> {
    progress::show(&format!("e2fsck: {}", volume.name));
    let beside = contest(&run.scratch, volume, run.plan.process_effort)?;
    table.row(row(volume, &beside));
    let ratios = [
        ("in memory", beside.check_ratio),
        ("process that maps", beside.mapping_ratio),
        ("process that reads", beside.reading_ratio),
    ];
    for (how, ratio) in ratios {
        let on = format!("{}, {how}", volume.name);
        run.goals
            .at_most("check, time over e2fsck's", &on, ratio.median, 0.5, ratio.to_string());
    }
    if let Some((_, ratio)) = beside.nord {
        run.goals.at_most(
            "nord check as a process, time over e2fsck's",
            &volume.name,
            ratio.median,
            1.0,
            ratio.to_string(),
        );
    }
    Ok(())
}

fn row(volume: &Volume, beside: &Beside) -> Vec<String> {
    let absent = || ["not built".to_string(), String::new()];
    let nord = beside.nord.map_or_else(absent, |(time, ratio)| [show(time), ratio.to_string()]);
    let row = vec![
        volume.name.clone(),
        beside.content.clone(),
        show(beside.e2fsck),
        show(beside.check),
        beside.check_ratio.to_string(),
        show(beside.reading),
        beside.reading_ratio.to_string(),
        show(beside.mapping),
        beside.mapping_ratio.to_string(),
    ];
    [row, nord.to_vec()].concat()
}
