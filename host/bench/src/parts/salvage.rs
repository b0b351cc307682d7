//! Salvage beside the check, and beside e2fsck.

use super::Run;
use crate::contest::{changed, changing};
use crate::ext2::version;
use crate::ext2_stale;
use crate::progress;
use crate::report::{grouped, Table};
use crate::stale::{list, salvage, stale, Stale};
use crate::timing::{race, show, side, Effort, Spread, Times};
use crate::volumes::Volume;
use std::cell::RefCell;
use std::hint::black_box;
use std::io;

const NOTE: &str =
    "A salvage of the sound volume, which changes nothing, and of the same volume with two bits of every word of its bit file, every user's \
    used count and unreserved turned over, which has to give the sound one again. Both are timed in turns with the check of the sound \
    volume; the stale words are put back outside the timed part. The list lent is as long as any volume of this size needs.";

const BESIDE_NOTE: &str =
    "`e2fsck -fy` is a whole process on an ext2 image as in the table of the check, of whose block bitmap every eighth bit is cleared, and \
    whose count of free blocks is wrong; it is seen before that e2fsck corrects it (status 1) and finds nothing after that. Beside it, in the \
    same rounds, a process that maps the stale volume in this machine's order, salvages it in place and writes the changed pages through to \
    the disk, as e2fsck does with its blocks. Both files are written anew, and through, before each run, outside the timed part. They lie in \
    the run's folder, and again in memory (/dev/shm) if there is room, where neither waits for a disk.";

/// Times the salvage of a sound volume, of the stale one, and the check, in turns.
fn beside_check(volume: &Volume, stale: &Stale, effort: Effort) -> Vec<Times> {
    let (image, sound) = (RefCell::new(stale.words.clone()), RefCell::new(volume.words.clone()));
    let kept = changed(&stale.words, &volume.words);
    let lists = [RefCell::new(list(&volume.words)), RefCell::new(list(&volume.words))];
    let of_sound = changing(&sound, &[], |words| {
        black_box(salvage(words, &mut lists[0].borrow_mut()));
    });
    let of_stale = changing(&image, &kept, |words| {
        black_box(salvage(words, &mut lists[1].borrow_mut()));
    });
    let check = side(|| {
        black_box(proved::check(black_box(&volume.words)));
    });
    let times = race(&mut [of_sound, of_stale, check], effort);
    assert!(image.into_inner() == stale.words && sound.into_inner() == volume.words);
    times
}

pub fn measure(run: &mut Run, volumes: &[Volume]) -> io::Result<()> {
    let mut table = table("Salvage beside the check");
    volumes.iter().for_each(|volume| of_volume(run, &mut table, volume));
    run.report.add(table);
    beside_e2fsck(run, volumes)
}

pub fn table(title: &'static str) -> Table {
    let head = [
        "volume",
        "check",
        "salvage, sound",
        "/ check",
        "words changed",
        "salvage, stale",
        "/ check",
    ];
    Table::new(title, NOTE, &head)
}

/// One volume's row, and its goals.
pub fn of_volume(run: &mut Run, table: &mut Table, volume: &Volume) {
    progress::show(&format!("salvage: {}", volume.name));
    let stale = stale(volume);
    let times = beside_check(volume, &stale, run.plan.effort);
    let median = |n: usize| show(Spread::of(&times[n]).median);
    let ratio = |n: usize| Spread::of_ratio(&times[n], &times[2]);
    table.row(vec![
        volume.name.clone(),
        median(2),
        median(0),
        ratio(0).to_string(),
        grouped(stale.changed as u64),
        median(1),
        ratio(1).to_string(),
    ]);
    for (n, what) in [(0, "sound"), (1, "stale")] {
        let on = format!("{}, {what}", volume.name);
        run.goals
            .at_most("salvage, time over the check's", &on, ratio(n).median, 3.0, ratio(n).to_string());
    }
}

fn beside_e2fsck(run: &mut Run, volumes: &[Volume]) -> io::Result<()> {
    let title = "Salvage beside e2fsck";
    if version().is_none() {
        let why = "Left out: e2fsck, mke2fs or debugfs is not there (Debian's package e2fsprogs).";
        run.report.add(Table::new(title, why, &[]));
        return Ok(());
    }
    let mut table = Table::new(
        title,
        BESIDE_NOTE,
        &["volume", "files in", "e2fsck", "process that maps", "/ e2fsck"],
    );
    for volume in volumes {
        progress::show(&format!("salvage and e2fsck: {}", volume.name));
        for beside in ext2_stale::contest(&run.scratch, volume, run.plan.process_effort)? {
            let (on, ratio) = (format!("{}, {}", volume.name, beside.place), beside.ratio);
            let times = [show(beside.e2fsck), show(beside.salvage), ratio.to_string()];
            table.row([volume.name.clone(), beside.place.into()].into_iter().chain(times).collect());
            let goal = "salvage, process over e2fsck's that mends";
            run.goals.at_most(goal, &on, ratio.median, 0.5, ratio.to_string());
        }
    }
    progress::clear();
    run.report.add(table);
    Ok(())
}
