//! The packs, volumes of several bit pages: each is laid out, measured in every way and put away before the next, as they are large.

use super::{beside, calls, content, contents_table, hostile, memory, salvage, Run};
use crate::calls::Call;
use crate::ext2::version;
use crate::hostile::OF_A_PACK;
use crate::progress;
use crate::report::Table;
use crate::volumes::{many, Volume};
use std::io;

/// What is asked of a pack and timed: the check, a call that looks for free pages, and one that looks at every holder.
const CALLS: [Call; 3] = [Call::Check, Call::Grow, Call::WhoHolds];

/// The tables, which grow by a pack at a time.
struct Tables {
    contents: Table,
    calls: Table,
    beside: Table,
    salvage: Table,
    hostile: Table,
    memory: Table,
}

pub fn measure(run: &mut Run) -> io::Result<()> {
    let mut tables = Tables {
        contents: contents_table("The packs"),
        calls: calls::table("Calls on packs"),
        beside: beside::table("Check of packs beside e2fsck"),
        salvage: salvage::table("Salvage of packs beside the check"),
        hostile: hostile::pack_table("Hostile images as large as a pack: check"),
        memory: memory::table("Memory beyond a pack's image"),
    };
    if version().is_none() {
        tables.beside.note = "Left out: e2fsck, mke2fs or debugfs is not there (Debian's package e2fsprogs).".into();
    }
    for (name, make, pages) in run.plan.packs.clone() {
        progress::show(&format!("packs: laying out {name}"));
        let volume = Volume {
            name: name.into(),
            ..make(pages)
        };
        of_pack(run, &mut tables, &volume)?;
    }
    of_hostile(run, &mut tables)?;
    progress::clear();
    let Tables {
        contents,
        calls,
        beside,
        salvage,
        hostile,
        memory,
    } = tables;
    [contents, calls, beside, salvage, hostile, memory]
        .into_iter()
        .for_each(|table| run.report.add(table));
    Ok(())
}

/// All that is measured of one pack.
fn of_pack(run: &mut Run, tables: &mut Tables, volume: &Volume) -> io::Result<()> {
    tables.contents.row(content(volume));
    CALLS.iter().for_each(|&call| calls::of_call(run, &mut tables.calls, volume, call));
    if version().is_some() {
        beside::of_volume(run, &mut tables.beside, volume)?;
    }
    salvage::of_volume(run, &mut tables.salvage, volume);
    memory::of_volume(run, &mut tables.memory, volume)
}

/// The hostile images, each beside the pack of that size that is full of small files.
fn of_hostile(run: &mut Run, tables: &mut Tables) -> io::Result<()> {
    let (pages, users) = (run.plan.hostile_pack, run.plan.hostile_users);
    progress::show("hostile: laying out the pack");
    let sound = many(pages);
    for make in OF_A_PACK {
        progress::show("hostile: laying out the image");
        let image = make(pages, users);
        let on = format!("{}, {pages} pages", image.name);
        hostile::of_pack(run, &mut tables.hostile, &image, &on, &sound.words);
        memory::of_refusal(run, &mut tables.memory, &image, &on)?;
    }
    Ok(())
}
